//! Installs. C-15: "a filter goes in only if admitted, its sheet written by the same call. If not, the old
//! one keeps running." The order of the refusals stands in `refusals.rs`, installs in the lists of demand 3
//! in `demand3.rs`.

use uxn_filter_harness::admissions::pattern;
use uxn_filter_harness::calls::{
    refused, Machine, Owned, Reply, ADMITTED, ADMIT_LIMIT, BROKE, LOADED, PROGRAM_LIMIT,
    PROGRAM_START, RECORD, REFUSED, SHEET_RECORD,
};
use uxn_filter_harness::filters::{
    any, any_length, broken, climb, filter, forbidden_bytes, FAULTS, ROOM_FOR_A_FAULT,
};
use uxn_filter_harness::library;
use uxn_filter_harness::linked::PASSES;
use uxn_filter_harness::opcodes::{BRK, JMI, JMP, POP};
use uxn_filter_harness::pair::{say, Pair, Part, PARTS, RIGHT_LENGTHS};
use uxn_filter_harness::programs::{either, random_bytes};
use uxn_filter_harness::random::{seed, Random};
use uxn_filter_harness::watch::any_record;

const NOT_ADMITTED: u8 = 11;
/// A sheet for the longest filter.
const LONGEST_SHEET: usize = SHEET_RECORD * ADMIT_LIMIT;

/// A sheet of the right length that is not zero.
fn sheet_for(program: &[u8]) -> Vec<u8> {
    pattern(SHEET_RECORD * program.len(), 0)
}

/// An install that goes in; answers the sheet.
fn installed(pair: &mut Pair, program: &[u8]) -> Vec<u8> {
    let mut sheet = sheet_for(program);
    let reply = pair.install(program, &mut sheet);
    assert_eq!(reply.answer, LOADED, "{program:02x?}");
    sheet
}

/// What admit and load of the library do with the same program, sheet and machine, one after the other.
fn admitted_and_loaded(pair: &Pair, program: &[u8], sheet: &mut [u8]) -> (Reply, Owned) {
    let mut own = Owned::new();
    let lent = own.lend();
    let buffers = [lent.memory, lent.device_page, lent.working, lent.ret];
    for (part, buffer) in PARTS.into_iter().zip(buffers) {
        buffer.copy_from_slice(pair.bytes(part));
    }
    let reply = match library::admit(program, sheet) {
        ADMITTED => library::load(pair.machine, own.lend(), program),
        number => refused(pair.machine, number),
    };
    (reply, own)
}

/// From any machine: it and the sheet are left as by admit and load.
#[test]
fn an_install_is_an_admission_and_a_load() {
    let mut pair = Pair::new(seed());
    let mut random = Random::new(seed());
    let mut gone_in = 0;
    const TURNS: usize = 1_000;
    for turn in 0..TURNS {
        let length = any_length(&mut random, ADMIT_LIMIT + 1);
        let program = any(&mut random, turn, length);
        pair.make_dirty(&mut random);
        let mut sheet = sheet_for(&program);
        let mut expected = sheet.clone();
        let (due, own) = admitted_and_loaded(&pair, &program, &mut expected);
        let reply = pair.install(&program, &mut sheet);
        assert_eq!(reply, due);
        assert!(sheet == expected, "turn {turn}: another sheet");
        for (part, bytes) in
            PARTS
                .into_iter()
                .zip([own.memory, own.device_page, own.working, own.ret])
        {
            assert!(pair.bytes(part) == bytes, "turn {turn}: another {part:?}");
        }
        if reply.answer == LOADED {
            assert_eq!(reply.machine, Machine::at(PROGRAM_START, 0, 0));
            gone_in += 1;
        }
    }
    pair.say_total("installs, admit and load");
    assert!(
        gone_in > TURNS / 4 && TURNS - gone_in > TURNS / 4,
        "{gone_in} went in"
    );
}

/// Each kind of what is refused with a machine of right buffers, with a sheet and the number.
fn refused_programs(random: &mut Random, running: &[u8]) -> Vec<(Vec<u8>, usize, u8)> {
    let length = running.len();
    let mut offers = vec![(vec![], 0, 5), (vec![], SHEET_RECORD, 5)];
    for length in [ADMIT_LIMIT + 1, PROGRAM_LIMIT, PROGRAM_LIMIT + 1, 70_000] {
        offers.push((vec![BRK; length], LONGEST_SHEET, 9));
        offers.push((vec![POP; length], 0, 9));
    }
    let right = SHEET_RECORD * length;
    for sheet in [0, 1, right - 1, right + 1, right / 2, 2 * right] {
        offers.push((running.to_vec(), sheet, 10));
    }
    for byte in forbidden_bytes() {
        // With bytes for any of them on both stacks.
        let program = [&climb(6, 6)[..], &[byte, BRK]].concat();
        let sheet = SHEET_RECORD * program.len();
        offers.push((program, sheet, NOT_ADMITTED));
    }
    let fault = random.choose(&FAULTS);
    let program = broken(random, ROOM_FOR_A_FAULT, fault);
    offers.push((program, SHEET_RECORD * ROOM_FOR_A_FAULT, NOT_ADMITTED));
    // The filter that runs, with its first byte another one.
    let mut other = running.to_vec();
    other[0] = POP;
    offers.push((other, right, NOT_ADMITTED));
    offers
}

/// Two machines with the same filter and the same frames; one of them is offered something between any
/// two of them. They answer and stay alike.
#[test]
fn a_refused_install_leaves_the_filter_running() {
    let mut with = Pair::new(seed());
    let mut without = Pair::new(seed());
    let mut random = Random::new(seed());
    let mut installs = 0;
    let mut broke = 0;
    for _ in 0..20 {
        let length = any_length(&mut random, ADMIT_LIMIT).max(2);
        let running = filter(&mut random, length);
        installed(&mut with, &running);
        let sheet = installed(&mut without, &running);
        for (program, length, number) in refused_programs(&mut random, &running) {
            let record = any_record(&mut random);
            let budget = random.choose(&[0, 5, 100, 1_000]);
            let frame = with.frame(&record, budget);
            assert_eq!(frame, without.frame(&record, budget));
            let before = with.snapshot();
            // By turns the bytes of the running filter's sheet and others.
            let mut found = pattern(length, 0);
            if random.one_in(2) {
                found
                    .iter_mut()
                    .zip(&sheet)
                    .for_each(|(to, from)| *to = *from);
            }
            let mut lent = found.clone();
            let reply = with.install(&program, &mut lent);
            assert_eq!(reply, refused(frame.machine, number));
            with.assert_unchanged_since(&before);
            let left = match number {
                NOT_ADMITTED => vec![0; length],
                _ => found,
            };
            assert!(lent == left, "{number} leaves another sheet");
            installs += 1;
            broke += u64::from(frame.answer == BROKE);
        }
        assert!(with.snapshot() == without.snapshot(), "the machines differ");
    }
    with.say_total("installs, refused");
    say(&format!(
        "installs, refused: {installs} between frames, {broke} of which broke"
    ));
    assert!(broke > 100);
}

/// What the old filter had and left is gone: the new one answers as on a machine that had none.
#[test]
fn an_install_replaces_the_filter() {
    let mut pair = Pair::new(seed());
    let mut random = Random::new(seed());
    for _ in 0..40 {
        let length = any_length(&mut random, ADMIT_LIMIT);
        let old = filter(&mut random, length);
        let mut lent = installed(&mut pair, &old);
        for part in [Part::DevicePage, Part::Working, Part::Ret] {
            pair.fill_random(part, &mut random);
        }
        pair.frame(&any_record(&mut random), 1_000);
        // The sheet of the old filter is lent for the new one, which has its length.
        let new = filter(&mut random, length);
        assert_eq!(pair.install(&new, &mut lent).answer, LOADED);
        let mut fresh = Pair::new(seed());
        assert!(installed(&mut fresh, &new) == lent, "another sheet");
        assert!(pair.snapshot() == fresh.snapshot(), "something is left");
        for _ in 0..5 {
            let record = any_record(&mut random);
            assert_eq!(pair.frame(&record, 500), fresh.frame(&record, 500));
        }
        assert!(pair.snapshot() == fresh.snapshot(), "the machines differ");
    }
    pair.say_total("installs, one after the other");
}

/// A jump to the last byte, and what is not admitted between them; the last byte is looked at.
#[test]
fn the_longest_filter() {
    let mut pair = Pair::new(seed());
    let mut random = Random::new(seed());
    for length in [4, ADMIT_LIMIT - 1, ADMIT_LIMIT] {
        let mut program = vec![JMP; length];
        let [high, low] = u16::to_be_bytes(length as u16 - 4);
        program[..3].copy_from_slice(&[JMI, high, low]);
        program[length - 1] = BRK;
        pair.make_dirty(&mut random);
        let sheet = installed(&mut pair, &program);
        assert_eq!(sheet.len(), SHEET_RECORD * length);
        assert_eq!(
            sheet[sheet.len() - SHEET_RECORD..],
            [1, 0, 0, BRK, 1, 0, 0, 0]
        );
        let end = 0x0100 + length;
        assert_eq!(pair.bytes(Part::Memory)[0x0100..end], program);
        assert!(pair.bytes(Part::Memory)[end..]
            .iter()
            .all(|&byte| byte == 0));
        let reply = pair.frame(&[0; RECORD], 10);
        assert_eq!((reply.answer, reply.steps), (BROKE, 2));

        let before = pair.snapshot();
        program[length - 1] = JMP;
        let mut sheet = sheet_for(&program);
        assert_eq!(pair.install(&program, &mut sheet).number, NOT_ADMITTED);
        assert!(sheet.iter().all(|&byte| byte == 0));
        pair.assert_unchanged_since(&before);
    }
    // One byte more, or a sheet that fits the longest one alone.
    for (length, number) in [
        (ADMIT_LIMIT, 0),
        (ADMIT_LIMIT + 1, 9),
        (ADMIT_LIMIT - 1, 10),
    ] {
        let reply = pair.install(&vec![BRK; length], &mut [0; LONGEST_SHEET]);
        assert_eq!(reply.number, number, "{length} bytes");
    }
    pair.say_total("installs, the longest");
}

/// A sheet that says that the program is admitted, from an older revision or from elsewhere, is not read.
#[test]
fn the_sheet_that_is_lent_is_not_read() {
    let mut pair = Pair::new(seed());
    let passes = installed(&mut pair, &PASSES);
    let mut other = PASSES;
    other[4] = JMP;
    for found in [passes.clone(), vec![1; passes.len()], vec![0; passes.len()]] {
        let mut sheet = found.clone();
        assert_eq!(pair.install(&other, &mut sheet).number, NOT_ADMITTED);
        assert!(sheet.iter().all(|&byte| byte == 0));
        let mut sheet = found;
        assert_eq!(pair.install(&PASSES, &mut sheet).answer, LOADED);
        assert!(sheet == passes, "another sheet");
    }
}

/// A program of any kind and length.
fn any_program(random: &mut Random, turn: usize) -> Vec<u8> {
    let length = match random.below(16) {
        0 => 0,
        1 => random.choose(&[1, ADMIT_LIMIT, ADMIT_LIMIT + 1]),
        2 => random.choose(&[PROGRAM_LIMIT, PROGRAM_LIMIT + 1, 70_000]),
        _ => any_length(random, ADMIT_LIMIT + 1),
    };
    match length {
        0 => vec![],
        _ if length > ADMIT_LIMIT + 1 => random_bytes(random, length, true),
        _ if random.one_in(8) => either(random, turn, length, true),
        _ => any(random, turn, length),
    }
}

/// Random machines, of wrong lengths too, with installs of every kind one after the other, and frames.
#[test]
fn installs_of_every_kind() {
    let mut random = Random::new(seed());
    let mut loaded = 0;
    let mut numbers = [0; 12];
    let mut pair = Pair::new(seed());
    const TURNS: usize = 4_000;
    for turn in 0..TURNS {
        let program = any_program(&mut random, turn);
        let right = SHEET_RECORD * program.len();
        let sheet = match random.below(8) {
            0 => random.below(2 * right + 2),
            1 => random.choose(&[0, right / 2, right + 1, LONGEST_SHEET]),
            _ => right,
        };
        let mut lent = random_bytes(&mut random, sheet, true);
        let reply = if random.one_in(4) {
            let wrong = random.below(4);
            let lengths = std::array::from_fn(|place| {
                let right = RIGHT_LENGTHS[place];
                let lengths = [0, 1, right - 1, right + 1, right];
                match place {
                    _ if place == wrong => random.choose(&lengths[..4]),
                    _ if place > wrong => random.choose(&lengths),
                    _ => right,
                }
            });
            let mut other = Pair::with_lengths(seed(), lengths);
            other.make_dirty(&mut random);
            other.install(&program, &mut lent)
        } else {
            let reply = pair.install(&program, &mut lent);
            let budget = random.below(300) as u32;
            pair.frame(&any_record(&mut random), budget);
            reply
        };
        match reply.answer {
            LOADED => loaded += 1,
            REFUSED => numbers[usize::from(reply.number)] += 1,
            other => panic!("an install answers {other}"),
        }
    }
    pair.say_total("installs, every kind");
    say(&format!(
        "installs, every kind: {loaded} of {TURNS} went in, refused {numbers:?}"
    ));
    assert!(loaded > TURNS / 10);
    for number in [1, 2, 3, 4, 5, 9, 10, 11] {
        assert!(numbers[number] > TURNS / 50, "refused {numbers:?}");
    }
}
