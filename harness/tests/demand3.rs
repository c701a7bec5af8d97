//! Demand 3 at run time: filters that the library installs, each with a list of frame calls whatever
//! their records and budgets, with bytes put into zero page, device page and stacks before each, and
//! with calls that are refused, installs among them. Every frame call is made as one and again step by
//! step. Most filters have subroutines: each of their returns has to land just after its call. No high
//! mark passes the greatest depth of its stack.

use uxn_filter_harness::assembler::assemble;
use uxn_filter_harness::calls::{
    Buffers, Reply, ADMIT_LIMIT, BROKE, LOADED, PROGRAM_LIMIT, PROGRAM_START, RECORD, REFUSED,
    SHEET_RECORD, SPENT,
};
use uxn_filter_harness::filters::{any_length, changed, filter};
use uxn_filter_harness::library;
use uxn_filter_harness::opcodes::{BRK, LIT, POP, RETURN, SHORT, STZ};
use uxn_filter_harness::pair::{say, RIGHT_LENGTHS};
use uxn_filter_harness::random::{seed, Random};
use uxn_filter_harness::watch::{any_record, Instead, Offer, Watch, Watched};

const FILTERS: usize = 1_500;
const CALLS: usize = 40;
const BUDGETS: [u32; 8] = [0, 1, 2, 7, 30, 100, 500, 2_000];

/// What the calls answered.
#[derive(Default)]
struct Answers {
    broke: u64,
    spent: u64,
    passed: u64,
    refused: [u64; 9],
    /// Frames that broke after the buffer of the filter's sheet had been zeroed.
    without_sheet: u64,
    /// Refused installs, by their number.
    installs: [u64; 12],
}

impl Answers {
    fn count_frame(&mut self, reply: Reply) {
        match reply.answer {
            BROKE => self.broke += 1,
            SPENT => self.spent += 1,
            REFUSED => self.refused[usize::from(reply.number)] += 1,
            other => panic!("a frame answers {other}"),
        }
        self.passed += u64::from(reply.verdict != 0);
    }
}

/// A list of frame calls and refused installs, from the install of the filter on.
fn calls(watch: &mut Watch, random: &mut Random, answers: &mut Answers) -> Watched<()> {
    for _ in 0..CALLS {
        watch.put_bytes(random);
        if random.one_in(10) {
            let reply = watch.refused_install(random)?;
            answers.installs[usize::from(reply.number)] += 1;
            continue;
        }
        let record = any_record(random);
        let budget = random.choose(&BUDGETS);
        let reply = if random.one_in(8) {
            watch.frame_in_wrong_buffers(random, &record, budget)?
        } else {
            watch.frame(&record, budget)?
        };
        answers.count_frame(reply);
        let zeroed = watch.sheet_lent.iter().all(|&byte| byte == 0);
        answers.without_sheet += u64::from(reply.answer == BROKE && zeroed);
    }
    Ok(())
}

/// A filter of the grammar, or by turns one that is still admitted after some changes.
fn next_filter(random: &mut Random, turn: usize) -> Watch {
    loop {
        let length = any_length(random, ADMIT_LIMIT);
        let mut program = filter(random, length);
        let changes = turn % 4;
        for _ in 0..changes {
            program = changed(random, &program);
        }
        match Watch::admitted(&program) {
            Ok(watch) => return watch,
            Err(what) => assert!(changes > 0, "a filter of the grammar: {what}"),
        }
    }
}

#[test]
fn admitted_filters_keep_to_their_sheets() {
    let mut random = Random::new(seed());
    let mut answers = Answers::default();
    let mut steps = 0;
    let mut returns = 0;
    let mut returning = 0;
    let mut deepest = 0;
    let mut at_greatest = [0; 2];
    let mut others_lent = 0;
    for turn in 0..FILTERS {
        let mut watch = next_filter(&mut random, turn);
        let watched = calls(&mut watch, &mut random, &mut answers);
        if let Err(what) = watched {
            let shown = watch.shown();
            panic!("seed {}, filter {turn}:\n  {shown}\n  {what}", seed());
        }
        steps += watch.steps;
        returns += watch.returns;
        returning += usize::from(watch.returns > 0);
        deepest = deepest.max(watch.deepest);
        for (total, more) in at_greatest.iter_mut().zip(watch.at_greatest) {
            *total += more;
        }
        others_lent += watch.others_lent;
    }
    let Answers {
        broke,
        spent,
        passed,
        refused,
        without_sheet,
        installs,
    } = answers;
    say(&format!(
        "demand 3: seed {}, {FILTERS} filters, {} calls, {steps} steps watched; {broke} broke ({passed} passed), \
         {spent} spent, refused {refused:?}",
        seed(),
        FILTERS * CALLS
    ));
    say(&format!(
        "demand 3: {returns} returns seen, in {returning} filters; at most {deepest} calls open; high marks at the \
         greatest depth after {at_greatest:?} calls"
    ));
    say(&format!(
        "demand 3: installs refused {installs:?}, {others_lent} of them with other buffers of the right length; \
         {without_sheet} frames broke when the buffer of their sheet was zeroed"
    ));
    // Every kind of call stands in the lists.
    assert!(broke > 1_000 && spent > 1_000 && passed > 100);
    let every = [1, 2, 3, 4, 7, 8]
        .iter()
        .all(|&number| refused[number] > 20);
    assert!(every, "refused {refused:?}");
    let every = [1, 2, 3, 4, 5, 9, 10, 11]
        .iter()
        .all(|&number| installs[number] > 100);
    assert!(every, "installs refused {installs:?}");
    assert!(others_lent > 100 && without_sheet > 300);
    assert!(returns > 10_000 && returning > FILTERS / 6 && deepest > 2);
    assert!(at_greatest.iter().all(|&calls| calls > 1_000));
}

/// A good record of each length goes to the same filter, with what it writes read back.
#[test]
fn records_of_every_length() {
    let mut random = Random::new(seed());
    let program = filter(&mut random, 300);
    let mut watch = Watch::admitted(&program).expect("a filter of the grammar");
    for length in 0..=RECORD - 2 {
        let mut record = vec![0; RECORD];
        random.fill(&mut record[..2 + length]);
        record[0] = length as u8;
        let reply = watch.frame(&record, 1_000);
        assert_ne!(reply.expect("a good record").answer, REFUSED);
    }
}

/// STZ in every mode, at every address: the second byte of a number at 00ff goes to 0000.
#[test]
fn stores_stay_in_the_zero_page() {
    for mode in (0..=0xe0).step_by(0x20) {
        for address in 0..=255 {
            let literal = LIT | mode & RETURN;
            let stores = [
                literal | SHORT,
                0x12,
                0x34,
                literal,
                address,
                STZ | mode,
                BRK,
            ];
            let mut watch = Watch::admitted(&stores).expect("a filter that stores");
            let reply = watch.frame(&[0; RECORD], 10).expect("a store");
            assert_eq!((reply.answer, reply.steps), (BROKE, 4));
            let mut page = [0; 256];
            let places = [address, address.wrapping_add(1)].map(usize::from);
            match mode & SHORT {
                0 => page[places[0]] = 0x34,
                _ => [page[places[0]], page[places[1]]] = [0x12, 0x34],
            }
            assert_eq!(watch.own.memory[..256], page, "{stores:02x?}");
        }
    }
}

const OWN: Instead = [None, None, None, None];

/// Buffers of the right lengths that are not the machine's own.
fn others() -> Instead {
    RIGHT_LENGTHS.map(|length| Some(vec![0xa5; length]))
}

/// To a machine with a filter of `running` bytes: installs that are refused, with the number that each
/// earns, into a sheet of their own and into the buffer of that filter's sheet. No buffer is empty.
fn refused_offers(running: usize) -> Vec<(u8, Offer)> {
    let mut offers = Vec::new();
    let mut offer = |number, program: Vec<u8>, instead: &Instead| {
        let right = SHEET_RECORD * program.len().max(1);
        let mut sheets = vec![Some(vec![0xa5; right + usize::from(number == 10)])];
        // For a program of another length that buffer earns 10.
        if number != 11 || program.len() == running {
            sheets.push(None);
        }
        for sheet in sheets {
            let offer = Offer {
                program: program.clone(),
                sheet,
                instead: instead.clone(),
            };
            offers.push((number, offer));
        }
    };
    for (place, right) in RIGHT_LENGTHS.into_iter().enumerate() {
        for wrong in [1, right - 1, right + 1] {
            let mut instead = OWN;
            instead[place] = Some(vec![0xa5; wrong]);
            offer(1 + place as u8, vec![BRK; running], &instead);
        }
    }
    for instead in [OWN, others()] {
        offer(5, vec![], &instead);
        for length in [ADMIT_LIMIT + 1, PROGRAM_LIMIT, PROGRAM_LIMIT + 1] {
            offer(9, vec![BRK; length], &instead);
        }
        offer(10, vec![BRK; running + 1], &instead);
        offer(11, vec![POP; running], &instead);
        offer(11, vec![POP; running + 1], &instead);
    }
    offers
}

/// The shortest of them.
fn empty_program() -> Offer {
    Offer {
        program: vec![],
        sheet: None,
        instead: OWN,
    }
}

/// Every refused install leaves the machine; 11 alone takes the sheet of the filter that runs, if it is
/// lent that buffer. Demand 3 goes on to hold of the sheet as the first install wrote it.
#[test]
fn refused_installs_between_frames() {
    let program = assemble(CALL);
    let mut seen = [0; 12];
    for (number, offer) in refused_offers(program.len()) {
        let mut watch = Watch::admitted(&program).expect("a call and its return");
        let written = watch.sheet_lent.clone();
        let mut random = Random::new(seed());
        let lends_it = offer.sheet.is_none();
        for turn in 0..4 {
            watch.put_bytes(&mut random);
            let frame = watch.frame(&[0; RECORD], turn).expect("a frame");
            assert_ne!(frame.answer, REFUSED);
            watch.put_bytes(&mut random);
            let reply = watch.install_by(library::install, offer.clone());
            let reply = reply.expect("a refusal").expect("a call that is made");
            assert_eq!((reply.number, reply.machine), (number, frame.machine));
            let left = match number {
                11 if lends_it => vec![0; written.len()],
                _ => written.clone(),
            };
            assert_eq!(watch.sheet_lent, left, "after {number}");
        }
        assert_eq!(watch.returns, 2);
        seen[usize::from(number)] += 1;
    }
    assert_eq!(seen, [0, 6, 6, 6, 6, 4, 0, 0, 0, 12, 4, 6]);
}

// The watch itself: what does not hold is seen.

/// Installs that are wrong in one thing, whatever they are refused for.
#[test]
fn the_watch_sees_a_wrong_install() {
    type Change = fn(&mut Reply, &mut Buffers, &mut [u8]);
    let changes: [(&str, Change); 14] = [
        ("number", |reply, _, _| reply.number += 1),
        ("answer", |reply, _, _| reply.answer = LOADED),
        ("steps", |reply, _, _| reply.steps = 1),
        ("counter", |reply, _, _| reply.machine.pc ^= 1),
        ("working pointer", |reply, _, _| reply.machine.wp ^= 1),
        ("return pointer", |reply, _, _| reply.machine.rp ^= 1),
        ("working mark", |reply, _, _| reply.machine.wp_high ^= 1),
        ("return mark", |reply, _, _| reply.machine.rp_high ^= 1),
        ("memory", |_, lent, _| lent.memory[0] ^= 1),
        ("device page", |_, lent, _| lent.device_page[0] ^= 1),
        ("working stack", |_, lent, _| lent.working[0] ^= 1),
        ("return stack", |_, lent, _| lent.ret[0] ^= 1),
        ("sheet", |_, _, sheet| sheet[0] ^= 1),
        ("sheet, last", |_, _, sheet| *sheet.last_mut().unwrap() ^= 1),
    ];
    let program = assemble(CALL);
    for (number, offer) in refused_offers(program.len()) {
        for (name, change) in changes {
            let mut watch = Watch::admitted(&program).expect("a call and its return");
            let wrong = |machine, mut lent: Buffers, program: &[u8], sheet: &mut [u8]| {
                let mut reply = library::install(machine, again(&mut lent), program, sheet);
                change(&mut reply, &mut lent, sheet);
                reply
            };
            let watched = watch.install_by(wrong, offer.clone());
            watched.expect_err(&format!("another {name} with {number}"));
        }
    }
    // What is not admitted goes in by the plain load.
    let mut watch = Watch::admitted(&program).expect("a call and its return");
    let offer = Offer {
        program: vec![POP; program.len()],
        sheet: None,
        instead: OWN,
    };
    let wrong = |machine, lent: Buffers, program: &[u8], sheet: &mut [u8]| {
        sheet.fill(0);
        library::load(machine, lent, program)
    };
    watch.install_by(wrong, offer).expect_err("a load");
}

/// The same buffers, lent for one more call.
fn again<'a>(lent: &'a mut Buffers) -> Buffers<'a> {
    Buffers {
        memory: lent.memory,
        device_page: lent.device_page,
        working: lent.working,
        ret: lent.ret,
    }
}

/// What is admitted, with buffers and a sheet of the right lengths, has no place in the list.
#[test]
fn the_watch_makes_no_install_that_would_go_in() {
    let program = assemble(CALL);
    for instead in [OWN, others()] {
        for sheet in [None, Some(vec![0xa5; SHEET_RECORD * program.len()])] {
            let mut watch = Watch::admitted(&program).expect("a call and its return");
            let offer = Offer {
                program: vec![BRK; program.len()],
                sheet,
                instead: instead.clone(),
            };
            let watched = watch.install_by(|_, _, _, _| panic!("an install is made"), offer);
            assert_eq!(watched, Ok(None));
            watch.frame(&[0; RECORD], 10).expect("the same filter");
            assert_eq!(watch.returns, 1);
        }
    }
}

/// The bytes of a sheet's record, as they are marked in a routine.
fn marked_in(routine: u16, working: u8, ret: u8, byte: u8) -> [u8; SHEET_RECORD] {
    let [high, low] = routine.to_be_bytes();
    [1, working, ret, byte, high, low, 0, 0]
}

/// A sheet that marks each address given with its depths, all of them in routine 0100.
fn sheet_of(program: &[u8], marked: &[(usize, u8, u8)]) -> Vec<u8> {
    let marked: Vec<_> = marked
        .iter()
        .map(|&(place, working, ret)| (place, working, ret, PROGRAM_START))
        .collect();
    sheet_with_routines(program, &marked)
}

/// A sheet that marks each address given with its depths and its routine.
fn sheet_with_routines(program: &[u8], marked: &[(usize, u8, u8, u16)]) -> Vec<u8> {
    let records = program.iter().map(|&byte| [0, 0, 0, byte, 0, 0, 0, 0]);
    let mut records: Vec<[u8; SHEET_RECORD]> = records.collect();
    for &(place, working, ret, routine) in marked {
        records[place] = marked_in(routine, working, ret, program[place]);
    }
    records.concat()
}

/// What the watch says of a frame of a program that is not admitted, or of a wrong sheet.
fn seen(program: &[u8], marked: &[(usize, u8, u8)]) -> String {
    seen_with(program, sheet_of(program, marked))
}

fn seen_with(program: &[u8], sheet: Vec<u8>) -> String {
    let mut watch = Watch::with_sheet(program, sheet).expect("a program that loads");
    let watched = watch.frame(&[0; RECORD], 1_000);
    watched.expect_err("something that does not hold")
}

#[test]
fn the_watch_sees_a_stack_wrapped() {
    // POP of the empty stack; POPk, whose pointer stays; INC, whose pointer comes back.
    for byte in [0x02, 0x82, 0x01] {
        let what = seen(&[byte, 0x00], &[(0, 0, 0), (1, 0, 0)]);
        assert!(what.contains("wraps a stack"), "{what}");
    }
    // The 256th literal, on either stack.
    for literal in [0x80, 0xc0] {
        let mut program = [literal, 0x01].repeat(256);
        program.push(0x00);
        let depths = |place: usize| match literal {
            0x80 => (2 * place, place as u8, 0),
            _ => (2 * place, 0, place as u8),
        };
        let marked: Vec<(usize, u8, u8)> = (0..=256).map(depths).collect();
        let what = seen(&program, &marked);
        assert!(what.contains("wraps a stack"), "{what}");
    }
}

#[test]
fn the_watch_sees_an_address_that_is_not_marked() {
    for (program, marked) in [
        // JMP past what is marked, off the end of the program, and below 0100.
        (
            &[0x80, 0x01, 0x0c, 0x00, 0x00][..],
            &[(0, 0, 0), (2, 1, 0)][..],
        ),
        (&[0x80, 0x01], &[(0, 0, 0)]),
        (&[0x40, 0xff, 0x00], &[(0, 0, 0)]),
    ] {
        let what = seen(program, marked);
        assert!(what.contains("not marked"), "{what}");
    }
}

#[test]
fn the_watch_sees_other_depths() {
    let program = [0x80, 0x01, 0x80, 0xf2, 0x17, 0x00];
    let right = [(0, 0, 0), (2, 1, 0), (4, 2, 0), (5, 0, 0)];
    for place in 0..right.len() {
        for (working, ret) in [(1, 0), (0, 1)] {
            let mut marked = right;
            marked[place].1 += working;
            marked[place].2 += ret;
            let what = seen(&program, &marked);
            assert!(what.contains("the depths"), "{what}");
        }
    }
}

/// Spent just after a push: the address that the counter is at is not marked, and no step is taken
/// there. The next calls, which are refused, leave the mark.
#[test]
fn the_watch_sees_a_high_mark_above_the_sheet() {
    for (literal, stack) in [(LIT, 0), (LIT | RETURN, 1)] {
        let program = [literal, 0x01, 0x00];
        let sheet = sheet_of(&program, &[(0, 0, 0)]);
        let mut watch = Watch::with_sheet(&program, sheet).expect("a program that loads");
        watch.frame(&[0; RECORD], 0).expect("no step");
        for record in [RECORD, RECORD - 1] {
            let what = watch.frame(&vec![0; record], 1);
            let what = what.expect_err("a mark above the sheet");
            assert!(what.contains("a high mark is 1"), "{what}");
        }
        let what = watch.install_by(library::install, empty_program());
        let what = what.expect_err("a mark above the sheet");
        assert!(what.contains("a high mark is 1"), "{what}");
        let mut watch = Watch::admitted(&program).expect("a filter");
        watch.frame(&[0; RECORD], 1).expect("the same, admitted");
        assert_eq!(watch.at_greatest[stack], 1);
    }
}

/// A call and its return, and the marks of both.
const CALL: &str = "JSI =sub BRK @sub JMP2r";
const IN_CALL: [(usize, u8, u8, u16); 3] =
    [(0, 0, 0, 0x0100), (3, 0, 0, 0x0100), (4, 0, 2, 0x0104)];

#[test]
fn the_watch_sees_another_routine() {
    let program = assemble(CALL);
    let right = sheet_with_routines(&program, &IN_CALL);
    let mut watch = Watch::admitted(&program).expect("a call and its return");
    let reply = watch.frame(&[0; RECORD], 10).expect("a frame");
    assert_eq!((reply.answer, reply.steps, watch.returns), (BROKE, 3, 1));
    for (place, routine) in [
        (0, 0x0104),
        (3, 0x0104),
        (4, 0x0100),
        (4, 0x0004),
        (4, 0x0401),
    ] {
        let mut sheet = right.clone();
        let at = SHEET_RECORD * place + 4;
        sheet[at..at + 2].copy_from_slice(&u16::to_be_bytes(routine));
        let what = seen_with(&program, sheet);
        assert!(what.contains("is marked"), "{what}");
    }
    // The last pair is not 0.
    for place in [0, 3, 4] {
        for more in [6, 7] {
            let mut sheet = right.clone();
            sheet[SHEET_RECORD * place + more] = 1;
            let what = seen_with(&program, sheet);
            assert!(what.contains("not marked"), "{what}");
        }
    }
}

/// Programs that are not admitted, with a sheet that has their depths.
#[test]
fn the_watch_sees_a_return_that_lands_elsewhere() {
    // The return address is taken, and another one is put there: that of the BRK at 0100 + 9.
    let other = assemble("JSI =sub BRK @sub POP2r LIT2r :end JMP2r @end BRK");
    let marked = [
        (0, 0, 0, 0x0100),
        (4, 0, 2, 0x0104),
        (5, 0, 0, 0x0104),
        (8, 0, 2, 0x0104),
        (9, 0, 0, 0x0100),
    ];
    let what = seen_with(&other, sheet_with_routines(&other, &marked));
    assert!(what.contains("lands at 0109"), "{what}");

    // The return address of the outer call on top: the inner 6C goes back two calls.
    let two = assemble("JSI =one BRK @one JSI =two BRK @two POP2r JMP2r");
    let marked = [
        (0, 0, 0, 0x0100),
        (3, 0, 0, 0x0100),
        (4, 0, 2, 0x0104),
        (8, 0, 4, 0x0108),
        (9, 0, 2, 0x0108),
    ];
    let what = seen_with(&two, sheet_with_routines(&two, &marked));
    assert!(what.contains("lands at 0103"), "{what}");

    // By the last step of a budget.
    let sheet = sheet_with_routines(&two, &marked);
    let mut watch = Watch::with_sheet(&two, sheet).expect("a program that loads");
    watch.frame(&[0; RECORD], 3).expect("no return yet");
    watch
        .frame(&[0; RECORD], 4)
        .expect_err("a return that lands elsewhere");
}

#[test]
fn the_watch_sees_a_return_without_a_call() {
    let program = assemble("LIT2r :end JMP2r @end BRK");
    let what = seen(&program, &[(0, 0, 0), (3, 0, 2), (4, 0, 0)]);
    assert!(what.contains("has no call"), "{what}");
    // A frame begins with no call open, also where the one before it ended in a routine.
    let program = assemble(CALL);
    let mut watch = Watch::admitted(&program).expect("a call and its return");
    for budget in [1, 3, 1, 2, 3] {
        watch.frame(&[0; RECORD], budget).expect("a frame");
    }
    assert_eq!(watch.returns, 3);
}

#[test]
fn the_watch_sees_a_filter_that_is_written_to() {
    // STA at 0106, STA2 at 00ff: a byte becomes another one.
    let sta = [0x80, 0x01, 0xa0, 0x01, 0x06, 0x15, 0x00];
    let what = seen(&sta, &[(0, 0, 0), (2, 1, 0), (5, 3, 0), (6, 0, 0)]);
    assert!(what.contains("before a step"), "{what}");
    let sta2 = [0xa0, 0x00, 0x01, 0xa0, 0x00, 0xff, 0x35, 0x00];
    let what = seen(&sta2, &[(0, 0, 0), (3, 2, 0), (6, 4, 0), (7, 0, 0)]);
    assert!(what.contains("before a step"), "{what}");
    // By the last step of a budget: it is seen after the call.
    let sheet = sheet_of(&sta, &[(0, 0, 0), (2, 1, 0), (5, 3, 0), (6, 0, 0)]);
    let mut watch = Watch::with_sheet(&sta, sheet).expect("a program that loads");
    let what = watch.frame(&[0; RECORD], 3).expect_err("a byte written");
    assert!(what.contains("after the call"), "{what}");
    // And after a refused install.
    let what = watch.install_by(library::install, empty_program());
    let what = what.expect_err("a byte written");
    assert!(what.contains("after a refused call"), "{what}");
}

#[test]
fn the_watch_wants_an_admitted_program() {
    assert!(Watch::admitted(&[0x02, 0x00]).is_err());
    assert!(Watch::admitted(&[]).is_err());
}
