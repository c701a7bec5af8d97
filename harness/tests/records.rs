//! Moves of files of frame records between the old form and the new one: files of every length, every
//! length byte, every byte past the data, all short lists of records of every kind with their last
//! bytes cut off, the refusals in their order, long files, and moves there and back. The library must
//! agree with the moves of `src/records.rs`, which are written from documents 01 and 02 alone, in the
//! reply and in every byte of the output and beside it. The same checks see moves that are wrong in one
//! thing.

use std::panic::{catch_unwind, AssertUnwindSafe};

use uxn_filter_harness::calls::{Written, OLD_RECORD, RECORD};
use uxn_filter_harness::library::{narrow_records, widen_records};
use uxn_filter_harness::moves::{refused, written, Moves, Way};
use uxn_filter_harness::pair::say;
use uxn_filter_harness::random::{seed, Random};
use uxn_filter_harness::records::{any_good, changed, due, new_kinds, old_kinds, record};

// The moves, and what is due

const WIDEN: Way = Way {
    name: "to the new form",
    call: widen_records,
    due: |file| due(file, 64, 128),
    size: OLD_RECORD,
    most: |length| 2 * length,
};
const NARROW: Way = Way {
    name: "to the old form",
    call: narrow_records,
    due: |file| due(file, 128, 64),
    size: RECORD,
    most: |length| length / 2,
};

fn moves() -> Moves {
    Moves::new(seed(), [WIDEN, NARROW])
}

/// What comes of these moves: 16 of those to the old form alone.
const NUMBERS: [usize; 5] = [0, 8, 13, 15, 16];

// The checks

fn worked(moves: [Way; 2]) {
    let [widen, narrow] = moves.map(|way| way.call);
    let start = [3, 5, 7, 8, 9];
    let old = [&start[..], &[0; 59], &[0; 64]].concat();
    let new = [&start[..], &[0; 59], &[0; 64], &[0; 128]].concat();
    let mut output = [7; 260];
    assert_eq!(widen(&old, &mut output), written(256));
    assert_eq!(output[..256], new);
    assert_eq!(output[256..], [7; 4]);
    let mut output = [7; 130];
    assert_eq!(narrow(&new, &mut output), written(128));
    assert_eq!(output[..128], old);
    assert_eq!(output[128..], [7; 2]);
    assert_eq!(widen(&[], &mut []), written(0));
    assert_eq!(narrow(&[], &mut []), written(0));

    let [mut too_long, mut longest, mut past, mut too_long_back] = [[0; 128]; 4];
    too_long[0] = 127;
    longest[0] = 126;
    past[2] = 1;
    too_long_back[0] = 63;
    let wrong: [(_, &[u8], u8); 15] = [
        (widen, &[0; 63], 15),
        (widen, &[255; 65], 15),
        (widen, &past[..64], 8),
        (widen, &too_long_back[..64], 8),
        (widen, &[&[0; 64], &past[..64]].concat(), 8),
        (widen, &[0; 64], 13),
        (narrow, &[0; 64], 15),
        (narrow, &[255; 129], 15),
        (narrow, &past, 8),
        (narrow, &too_long, 8),
        (narrow, &[too_long_back, past].concat(), 8),
        (narrow, &[longest, [0; 128], too_long].concat(), 8),
        (narrow, &longest, 16),
        (narrow, &[[0; 128], too_long_back].concat(), 16),
        (narrow, &[0; 128], 13),
    ];
    for (call, file, number) in wrong {
        let mut output = [7; 50];
        assert_eq!(call(file, &mut output), refused(number), "{file:02x?}");
        assert_eq!(output, [7; 50], "{file:02x?}");
    }
}

#[test]
fn worked_cases() {
    worked([WIDEN, NARROW]);
}

/// Every length up to some records; a file that is no whole records is that first.
fn files_of_every_length(moves: &mut Moves) {
    let mut random = Random::new(seed());
    let mut any = vec![0; 400];
    random.fill(&mut any);
    // As records of the new form these have bytes past their data, and the next ones are too long.
    let longest = record(OLD_RECORD, 9, &[0xff; 62]).repeat(7);
    let too_long = record(RECORD, 9, &[0xff; 63]).repeat(4);
    let with_data = record(RECORD, 9, &[1, 2, 3]).repeat(4);
    for length in 0..=400 {
        for file in [&vec![0; 400], &any, &longest, &too_long, &with_data] {
            moves.both(&file[..length]);
        }
    }
    // And all outputs for some files.
    for way in moves.ways {
        for count in 0..=2 {
            let file = record(way.size, 9, &[1, 2, 3]).repeat(count);
            for length in 0..=(way.most)(file.len()) + 130 {
                moves.compare(way, &file, length);
            }
        }
    }
}

#[test]
fn every_length_of_a_file() {
    let mut moves = moves();
    files_of_every_length(&mut moves);
    moves.say_total("lengths of files", &NUMBERS);
}

/// Each length byte before zeros, before as many data bytes as there are, and before bytes that are
/// not 0; in each of three records.
fn every_length_byte(moves: &mut Moves) {
    let mut random = Random::new(seed());
    for way in moves.ways {
        for length in 0..=255 {
            let room = usize::from(length).min(way.size - 2);
            for full in [
                record(way.size, 0, &[]),
                any_good(&mut random, way.size, room),
                record(way.size, 9, &vec![0xff; room]),
                vec![0xff; way.size],
            ] {
                let told = changed(full, 0, length);
                let good = record(way.size, 1, &[2]);
                for file in [
                    vec![&told],
                    vec![&told, &good, &good],
                    vec![&good, &told, &good],
                    vec![&good, &good, &told],
                ] {
                    let file: Vec<u8> = file.into_iter().flatten().copied().collect();
                    moves.around(way, &file);
                }
            }
        }
    }
}

#[test]
fn length_bytes() {
    let mut moves = moves();
    every_length_byte(&mut moves);
    moves.say_total("length bytes", &[0, 8, 13, 16]);
}

/// Good records of every length with each byte of them another one: of those past the data each is
/// judged, those that a move cuts off too, and of the others none but the length.
fn every_byte(moves: &mut Moves) {
    let mut random = Random::new(seed());
    for way in moves.ways {
        for length in 0..=way.size - 2 {
            let good = any_good(&mut random, way.size, length);
            moves.around(way, &good);
            for place in 1..way.size {
                let byte = random.choose(&[1, 2, 0x80, 0xff]);
                let file = changed(good.clone(), place, byte);
                let found = moves.moved(way, &file, RECORD);
                let due = match () {
                    () if place >= 2 + length => Some(8),
                    () if length > 62 => Some(16),
                    () => None,
                };
                assert_eq!(found.err(), due, "{} of {file:02x?}", way.name);
            }
        }
        // Every value, in the second of two records.
        let first = any_good(&mut random, way.size, 20);
        for place in 0..way.size {
            for byte in 0..=255 {
                let second = changed(record(way.size, 3, &[4; 30]), place, byte);
                moves.compare(way, &[&first[..], &second].concat(), 2 * RECORD);
            }
        }
    }
}

#[test]
fn bytes_of_a_record() {
    let mut moves = moves();
    every_byte(&mut moves);
    moves.say_total("bytes of a record", &[0, 8, 13, 16]);
}

// Lists of records

fn every_list(moves: &mut Moves) {
    let [widen, narrow] = moves.ways;
    let (old, new) = (old_kinds(), new_kinds());
    let old: Vec<&[u8]> = old.iter().map(Vec::as_slice).collect();
    let new: Vec<&[u8]> = new.iter().map(Vec::as_slice).collect();
    moves.each_list(widen, &old, 3);
    moves.each_list(narrow, &new, 3);
}

#[test]
fn lists_of_records_of_every_kind() {
    let mut moves = moves();
    every_list(&mut moves);
    moves.say_total("lists of records", &NUMBERS);
}

/// Every set of reasons to be refused, with a broken record and one that is too long at each two places
/// of four: the first of them in the order of document 02 is told, and nothing is written.
fn every_set_of_reasons(moves: &mut Moves) {
    const ORDER: [u8; 4] = [15, 8, 16, 13];
    for way in moves.ways {
        for reasons in 0..16 {
            let has = |number: u8| {
                let place = ORDER.iter().position(|&one| one == number);
                reasons >> place.unwrap() & 1 == 1
            };
            // In the old form no record is too long to go anywhere.
            if has(16) && way.size == OLD_RECORD {
                continue;
            }
            for places in 0..16 {
                let (broken, too_long) = (places / 4, places % 4);
                if broken == too_long {
                    continue;
                }
                let mut file = record(way.size, 1, &[2]).repeat(4);
                if has(8) {
                    file[way.size * (broken + 1) - 1] = 1;
                }
                if has(16) {
                    file[way.size * too_long] = 63;
                }
                let room = (way.most)(file.len()) - usize::from(has(13));
                if has(15) {
                    file.push(0);
                }
                let due = ORDER.into_iter().find(|&number| has(number));
                let found = moves.moved(way, &file, room);
                assert_eq!(found.err(), due, "{}, reasons {reasons}", way.name);
            }
        }
    }
}

#[test]
fn refusals_in_their_order() {
    let mut moves = moves();
    every_set_of_reasons(&mut moves);
    // 16 sets to the old form and 8 to the new one, at 12 pairs of places.
    assert_eq!(moves.seen.iter().sum::<u64>(), 12 * (16 + 8));
    moves.say_total("refusals in their order", &NUMBERS);
}

// Long files, there and back

fn there_and_back(moves: &mut Moves) {
    let seed = seed();
    let mut random = Random::new(seed);
    let [widen, narrow] = moves.ways;
    for round in 0..300 {
        // Few records, some hundreds, and once more than 65,536.
        let count = match round {
            0 => 70_000,
            1..=20 => 500 + random.below(600),
            _ => random.below(40),
        };
        let any = |random: &mut Random, size, most: usize| -> Vec<u8> {
            (0..count)
                .flat_map(|_| {
                    let any = random.below(most + 1);
                    let length = random.choose(&[0, any, any, any, most]);
                    any_good(random, size, length)
                })
                .collect()
        };
        let old = any(&mut random, OLD_RECORD, 62);
        let new = any(&mut random, RECORD, 126);
        let room = 2 * old.len() + random.below(300);
        let wide = moves
            .moved(widen, &old, room)
            .expect("good records are moved");
        let room = old.len() + random.below(300);
        let back = moves.moved(narrow, &wide, room).expect("and go back");
        assert!(back == old, "seed {seed}, round {round}: there and back");
        if count == 0 {
            continue;
        }
        moves.compare(widen, &old, wide.len() - 1);
        moves.compare(narrow, &wide, old.len() - 1);
        // Records of the new form: those that go back come again.
        let short = any(&mut random, RECORD, 62);
        for file in [&short, &new] {
            if let Ok(gone) = moves.moved(narrow, file, file.len()) {
                let again = moves.moved(widen, &gone, file.len());
                assert!(
                    again.as_ref() == Ok(file),
                    "seed {seed}, round {round}: back and there"
                );
            }
        }
        // A byte somewhere is another one, or the end is cut off.
        for _ in 0..4 {
            for (way, file) in [(widen, &old), (narrow, &wide), (narrow, &new)] {
                let place = random.below(file.len());
                let byte = random.choose(&[0, 1, 62, 63, 126, 127, 255]);
                let file = changed(file.clone(), place, byte);
                moves.compare(way, &file, 2 * file.len());
                moves.compare(way, &file[..place], 2 * file.len());
            }
        }
    }
}

#[test]
fn long_files_there_and_back() {
    let mut moves = moves();
    there_and_back(&mut moves);
    moves.say_total(&format!("long files, seed {}", seed()), &NUMBERS);
}

// Moves that are wrong in one thing

/// A move in place of the library's: with fault 0 it is right.
fn faulty<const BACK: bool, const FAULT: usize>(file: &[u8], output: &mut [u8]) -> Written {
    let (size, other) = match BACK {
        true => (RECORD, OLD_RECORD),
        false => (OLD_RECORD, RECORD),
    };
    let file = match FAULT {
        1 => &file[..file.len() % 65_536],
        _ => file,
    };
    let is_broken = |record: &[u8]| {
        let most = size - 2 + usize::from(FAULT == 2);
        let length = usize::from(record[0]);
        let past = 2 + length + usize::from(FAULT == 3);
        let end = match FAULT {
            4 if BACK => OLD_RECORD,
            4 | 5 => size - 1,
            _ => size,
        };
        let tail = record.get(past..end).unwrap_or(&[]);
        length > most || tail.iter().any(|&byte| byte != 0)
    };
    let is_too_long = |record: &[u8]| match FAULT {
        6 => record[0] >= 62,
        7 => record[0] > 63,
        8 => false,
        _ => record[0] > 62,
    };
    let records = || file.chunks_exact(size);
    let judged = match FAULT {
        9 => 1,
        10 => (file.len() / size).saturating_sub(1),
        _ => file.len() / size,
    };
    let needed = file.len() / size * other;
    let mut reasons = [
        (15, file.len() % size != 0 && FAULT != 11),
        (8, records().take(judged).any(is_broken)),
        (16, BACK && records().take(judged).any(is_too_long)),
        (
            13,
            output.len() < needed || FAULT == 12 && output.len() == needed,
        ),
    ];
    match FAULT {
        13 => reasons.swap(1, 2),
        14 => reasons.swap(0, 1),
        15 => reasons.rotate_right(1),
        16 => reasons.swap(2, 3),
        _ => {}
    }
    if FAULT == 17 && !output.is_empty() && !file.is_empty() {
        output[0] = file[0];
    }
    if let Some((number, _)) = reasons.into_iter().find(|(_, is)| *is) {
        return refused(number);
    }
    for (from, to) in records().zip(output.chunks_mut(other)) {
        let kept = match FAULT {
            18 => 2 + usize::from(from[0]),
            19 => OLD_RECORD - 1,
            _ => OLD_RECORD,
        };
        to[..kept].copy_from_slice(&from[..kept]);
        if !BACK && FAULT != 20 {
            to[OLD_RECORD..].fill(0);
        }
    }
    if FAULT == 21 {
        output[needed..].fill(0);
    }
    match FAULT {
        22 => written(output.len()),
        23 => Written {
            line: 1,
            ..written(needed)
        },
        24 if needed == 0 => refused(15),
        _ => written(needed),
    }
}

macro_rules! faulty_ways {
    ($($fault:literal)*) => {
        [$([
            Way { call: faulty::<false, $fault>, ..WIDEN },
            Way { call: faulty::<true, $fault>, ..NARROW },
        ]),*]
    };
}

/// Faults that a move to the new form can not have.
const OF_BACK: [usize; 5] = [6, 7, 8, 13, 16];

#[test]
fn moves_that_are_wrong_in_one_thing_are_seen() {
    let all = faulty_ways!(0 1 2 3 4 5 6 7 8 9 10 11 12 13 14 15 16 17 18 19 20 21 22 23 24);
    let checks = [
        files_of_every_length,
        every_set_of_reasons,
        every_length_byte,
        every_byte,
        every_list,
        there_and_back,
    ];
    let [right, wrong @ ..] = all;
    worked(right);
    for check in checks {
        check(&mut Moves::new(seed(), right));
    }
    let mut seen = 0;
    for (place, [to_new, to_old]) in wrong.into_iter().enumerate() {
        let fault = place + 1;
        for (is_back, ways) in [(false, [to_new, right[1]]), (true, [right[0], to_old])] {
            let can_be = match fault {
                20 => !is_back,
                _ => is_back || !OF_BACK.contains(&fault),
            };
            if !can_be {
                continue;
            }
            let sees = |check: fn(&mut Moves)| {
                let mut moves = Moves::new(seed(), ways);
                catch_unwind(AssertUnwindSafe(|| check(&mut moves))).is_err()
            };
            assert!(checks.into_iter().any(sees), "fault {fault} is not seen");
            seen += 1;
        }
    }
    say(&format!("wrong moves: {seen} are seen"));
}
