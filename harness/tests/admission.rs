//! Admission: the worked cases of document 01, every instruction byte at the ends of the depths,
//! jumps, calls and returns, lengths and sheets, and programs of every kind. The library, the second
//! admission and the one in safe Rust must agree in the answer and in every byte of the sheet.

use std::collections::{BTreeMap, BTreeSet};

use uxn_filter_harness::admissions::Admissions;
use uxn_filter_harness::assembler::assemble;
use uxn_filter_harness::calls::{
    Machine, ADMITTED, ADMIT_LIMIT, PROGRAM_LIMIT, PROGRAM_START, SHEET_RECORD,
};
use uxn_filter_harness::filters::{
    any, any_length, broken, changed, climb, filter, forbidden_bytes, likely_bytes, FAULTS,
    ROOM_FOR_A_FAULT,
};
use uxn_filter_harness::pair::{say, Pair};
use uxn_filter_harness::programs::random_bytes;
use uxn_filter_harness::random::{seed, Random};
use uxn_filter_harness::second_admission::sizes;

const NOT_ADMITTED: u8 = 11;
/// One more than is admitted.
const LONGEST: usize = ADMIT_LIMIT + 1;
/// Depths at both ends; no instruction takes or pushes more than six bytes.
const DEPTHS: [u32; 14] = [0, 1, 2, 3, 4, 5, 6, 249, 250, 251, 252, 253, 254, 255];

fn literals(count: usize) -> Vec<u8> {
    let mut program = [0x80, 0x00].repeat(count);
    program.push(0x00);
    program
}

#[test]
fn worked_cases() {
    let cases: [(&[u8], u8); 12] = [
        (&[0x40, 0xff, 0xfd], ADMITTED),
        (&literals(255), ADMITTED),
        (&literals(256), NOT_ADMITTED),
        (&[0x02, 0x00], NOT_ADMITTED),
        (&[0x80, 0xfd, 0x0c], NOT_ADMITTED),
        // For the POP at 0105; with BRK in its place it is admitted.
        (&[0x80, 0x01, 0x20, 0x00, 0x01, 0x02, 0x00], NOT_ADMITTED),
        (&[0x80, 0x01, 0x20, 0x00, 0x01, 0x00, 0x00], ADMITTED),
        (&[0x80, 0x05, 0x80, 0x03, 0x18, 0x00], ADMITTED),
        (&[0xa0, 0x01, 0x05, 0x2e, 0x00, 0x00], NOT_ADMITTED),
        (&[0x80, 0xff, 0x30, 0x00], ADMITTED),
        // By C-12: a 16-bit STZ, and one without the address that it takes.
        (&[0xa0, 0x12, 0x34, 0x80, 0xff, 0x31, 0x00], ADMITTED),
        (&[0xa0, 0x12, 0x34, 0x31, 0x00], NOT_ADMITTED),
    ];
    let mut admissions = Admissions::new(0);
    for (program, answer) in cases {
        assert_eq!(admissions.admit(program), answer, "{program:02x?}");
    }
}

#[test]
fn the_sheet_of_a_short_filter() {
    let mut admissions = Admissions::new(0);
    let program = [0x80, 0x01, 0x80, 0xf2, 0x17, 0x00];
    assert_eq!(admissions.admit(&program), ADMITTED);
    let sheet = [
        [0x01, 0x00, 0x00, 0x80, 0x01, 0x00, 0x00, 0x00],
        [0x00, 0x00, 0x00, 0x01, 0x00, 0x00, 0x00, 0x00],
        [0x01, 0x01, 0x00, 0x80, 0x01, 0x00, 0x00, 0x00],
        [0x00, 0x00, 0x00, 0xf2, 0x00, 0x00, 0x00, 0x00],
        [0x01, 0x02, 0x00, 0x17, 0x01, 0x00, 0x00, 0x00],
        [0x01, 0x00, 0x00, 0x00, 0x01, 0x00, 0x00, 0x00],
    ];
    assert_eq!(admissions.sheet(), sheet.as_flattened());
}

/// The sizes that the second admission goes by are those that the second machine and the library
/// move their pointers by: with keep the bytes pushed, without it those less the bytes taken.
#[test]
fn sizes_are_those_of_the_machines() {
    let mut pair = Pair::new(0);
    for byte in 0..=255 {
        let from = Machine::at(0x0100, 100, 150);
        // A jump goes on to the next address: offset 0, operands 0.
        pair.load(&[byte, 0, 0, 0]);
        pair.machine = from;
        let after = pair.step().machine;
        let sizes = sizes(byte);
        let moved = |taken: u32, pushed: u32| match byte & 0x80 != 0 {
            true => pushed as i32,
            false => pushed as i32 - taken as i32,
        };
        let name = format!("byte {byte:02x}");
        let working = i32::from(after.wp) - i32::from(from.wp);
        assert_eq!(
            working,
            moved(sizes.taken.working, sizes.pushed.working),
            "{name}"
        );
        let ret = i32::from(after.rp) - i32::from(from.rp);
        assert_eq!(ret, moved(sizes.taken.ret, sizes.pushed.ret), "{name}");
        let absolute_jump = matches!(byte & 0x3f, 0x2c | 0x2e);
        if !absolute_jump {
            assert_eq!(u32::from(after.pc - from.pc), sizes.length, "{name}");
        }
    }
}

/// Every byte at every pair of depths near the ends: at the end of the program, before a BRK, cut in
/// its operand, and before bytes that are not zero.
#[test]
fn every_byte_at_the_ends_of_the_depths() {
    let mut admissions = Admissions::new(seed());
    for working in DEPTHS {
        for ret in DEPTHS {
            let below = climb(working, ret);
            for byte in 0..=255 {
                for rest in [
                    &[][..],
                    &[0x00],
                    &[0x00; 2],
                    &[0x00; 3],
                    &[0x01, 0xfd, 0x00],
                ] {
                    let mut program = below.clone();
                    program.push(byte);
                    program.extend(rest);
                    let answer = admissions.admit(&program);
                    let whole = sizes(byte).length as usize <= 1 + rest.len();
                    let on = byte == 0x00 || !rest.is_empty();
                    // 6C is in routine 0100 here.
                    let never = byte == 0x6c || forbidden_bytes().contains(&byte);
                    if !whole || !on || never {
                        assert_eq!(answer, NOT_ADMITTED, "{program:02x?}");
                    }
                }
            }
        }
    }
    admissions.say_total("admission, every byte");
}

/// With keep and without it a byte needs the same depth.
#[test]
fn keep_reads_need_their_bytes() {
    let mut admissions = Admissions::new(seed());
    for byte in (0x00..=0x7f).filter(|byte| byte & 0x1f != 0 && *byte != 0x6c) {
        if forbidden_bytes().contains(&byte) {
            continue;
        }
        for depth in 0..=7 {
            let answers = [byte, byte | 0x80].map(|byte| {
                let mut program = climb(depth, depth);
                program.extend([byte, 0x00]);
                admissions.admit(&program)
            });
            assert_eq!(answers[0], answers[1], "byte {byte:02x} at depth {depth}");
        }
    }
}

#[test]
fn forbidden_bytes_are_refused_where_they_are_reached() {
    let mut admissions = Admissions::new(seed());
    let forbidden = forbidden_bytes();
    assert_eq!(forbidden.len(), 39);
    for byte in 0..=255 {
        // 6C is in routine 0100 here.
        let answer = match byte == 0x6c || forbidden.contains(&byte) {
            true => NOT_ADMITTED,
            false => ADMITTED,
        };
        // With enough below and with room after it; a jump or a call with offset 0 goes on to the BRK.
        let mut program = climb(20, 20);
        program.extend([byte, 0x00, 0x00, 0x00]);
        assert_eq!(admissions.admit(&program), answer, "byte {byte:02x}");
        // Not reached: after BRK, after JMI, and as an operand.
        for program in [
            vec![0x00, byte],
            vec![0x40, 0x00, 0x01, byte, 0x00],
            vec![0x80, byte, 0x00],
        ] {
            assert_eq!(admissions.admit(&program), ADMITTED, "byte {byte:02x}");
        }
        // Reached by one way of a JCI only.
        let reached_by_jump = vec![0xa0, 0x00, 0x00, 0x20, 0x00, 0x01, 0x00, byte];
        let reached_without = vec![0xa0, 0x00, 0x00, 0x20, 0x00, 0x01, byte, 0x00];
        for program in [reached_by_jump, reached_without] {
            let answer_here = admissions.admit(&program);
            if answer == NOT_ADMITTED {
                assert_eq!(answer_here, NOT_ADMITTED, "byte {byte:02x}");
            }
        }
    }
    admissions.say_total("admission, forbidden bytes");
}

/// JMI, JCI and JSI at each place of a program, to everywhere near it and far from it.
#[test]
fn jumps_to_everywhere() {
    let mut admissions = Admissions::new(seed());
    for jump in [0x20, 0x40, 0x60] {
        for place in 0..12 {
            for length in place + 3..place + 9 {
                let mut program = vec![0x00; length];
                // Below the jump literals, one byte for JCI at the least.
                program[..place].fill(0x80);
                program[place] = jump;
                for offset in (0x0000..=0x0020).chain(0xffe0..=0xffff).chain([
                    0x7fff, 0x8000, 0x8001, 0xfeff, 0xff00, 0xff01, 0x0100, 0x0101, 0x1000,
                ]) {
                    program[place + 1..place + 3].copy_from_slice(&u16::to_be_bytes(offset));
                    admissions.admit(&program);
                }
            }
        }
    }
    admissions.say_total("admission, jumps");
}

#[test]
fn jumps_by_name() {
    let cases: [(&str, &[u8], u8); 20] = [
        ("JMI to itself", &[0x40, 0xff, 0xfd], ADMITTED),
        ("JMI to 00ff", &[0x40, 0xff, 0xfc], NOT_ADMITTED),
        ("JMI to 0100 + n", &[0x40, 0x00, 0x00], NOT_ADMITTED),
        ("JMI to 0100 + n - 1", &[0x40, 0x00, 0x00, 0x00], ADMITTED),
        ("JMI past the end", &[0x40, 0x00, 0x01, 0x00], NOT_ADMITTED),
        ("JMI by 8000", &[0x40, 0x80, 0x00, 0x00], NOT_ADMITTED),
        ("JMI by 7fff", &[0x40, 0x7f, 0xff, 0x00], NOT_ADMITTED),
        ("JMI into its offset", &[0x40, 0x00, 0xff], NOT_ADMITTED),
        (
            "JMI to its offset 00",
            &[0x40, 0xff, 0xff, 0x00],
            NOT_ADMITTED,
        ),
        ("JMI cut", &[0x40, 0x00], NOT_ADMITTED),
        ("JCI cut", &[0x80, 0x00, 0x20, 0x00], NOT_ADMITTED),
        (
            "JCI on the empty stack",
            &[0x20, 0x00, 0x00, 0x00],
            NOT_ADMITTED,
        ),
        ("JCI by 0", &[0x80, 0x00, 0x20, 0x00, 0x00, 0x00], ADMITTED),
        (
            "JCI by 0 at the end",
            &[0x80, 0x00, 0x20, 0x00, 0x00],
            NOT_ADMITTED,
        ),
        // Its own depth is one more than the one after it.
        (
            "JCI to itself",
            &[0x80, 0x00, 0x20, 0xff, 0xfd, 0x00],
            NOT_ADMITTED,
        ),
        (
            "JCI to 0100",
            &[0x80, 0x00, 0x20, 0xff, 0xfb, 0x00],
            ADMITTED,
        ),
        (
            "JCI to 00ff",
            &[0x80, 0x00, 0x20, 0xff, 0xfa, 0x00],
            NOT_ADMITTED,
        ),
        (
            "JCI to 0100 + n",
            &[0x80, 0x00, 0x20, 0x00, 0x01, 0x00],
            NOT_ADMITTED,
        ),
        (
            "JCI into the LIT",
            &[0x80, 0x00, 0x20, 0xff, 0xfc, 0x00],
            ADMITTED,
        ),
        (
            "JCI, two depths",
            &[0x80, 0x00, 0x20, 0x00, 0x02, 0x80, 0x00, 0x00],
            NOT_ADMITTED,
        ),
    ];
    let mut admissions = Admissions::new(0);
    for (name, program, answer) in cases {
        assert_eq!(admissions.admit(program), answer, "{name}");
    }
}

/// A cut JMI is refused, though the bytes after the program, or zeros there, would make a jump to a
/// marked address. (Any other cut instruction also goes on outside the program.)
#[test]
fn a_cut_jump_is_refused_whatever_stands_after_it() {
    let mut admissions = Admissions::new(0);
    for place in [0, 3, 30, 300] {
        // Jumps to the next address; 47 of the last program, in an offset, is a BRK.
        let mut program = [0x40, 0x00, 0x00].repeat(place / 3);
        let to_itself = [0x40, 0xff, 0xfd];
        program.extend(to_itself);
        assert_eq!(admissions.admit(&program), ADMITTED);
        for there in [1, 2] {
            let (cut, rest) = program.split_at(place + there);
            assert_eq!(admissions.admit_before(cut, rest), NOT_ADMITTED);
            assert_eq!(admissions.admit_before(cut, &[0x00; 4]), NOT_ADMITTED);
        }
    }
    // A cut JSI, of a routine that never returns: nothing after it has to be in the program.
    let program = assemble("JMI =call @sub BRK @call JSI =sub");
    assert_eq!(admissions.admit(&program), ADMITTED);
    for length in [5, 6] {
        let (cut, rest) = program.split_at(length);
        assert_eq!(admissions.admit_before(cut, rest), NOT_ADMITTED);
    }
}

// Calls and returns

/// A marked address: its place, depths and routine.
type Marked = (usize, u8, u8, u16);

/// The sheet that marks these.
fn sheet_with(program: &[u8], marked: &[Marked]) -> Vec<u8> {
    let records = program.iter().map(|&byte| [0, 0, 0, byte, 0, 0, 0, 0]);
    let mut records: Vec<[u8; SHEET_RECORD]> = records.collect();
    for &(place, working, ret, routine) in marked {
        let [high, low] = routine.to_be_bytes();
        records[place] = [1, working, ret, program[place], high, low, 0, 0];
    }
    records.concat()
}

/// Programs that are admitted, and all that is marked in them.
#[test]
fn calls_that_are_admitted() {
    let cases: [(&str, &str, &[Marked]); 23] = [
        (
            "a call and its return",
            "JSI =sub BRK @sub JMP2r",
            &[(0, 0, 0, 0x0100), (3, 0, 0, 0x0100), (4, 0, 2, 0x0104)],
        ),
        (
            "a routine that leaves a byte more",
            "JSI =sub POP BRK @sub LIT 07 JMP2r",
            &[
                (0, 0, 0, 0x0100),
                (3, 1, 0, 0x0100),
                (4, 0, 0, 0x0100),
                (5, 0, 2, 0x0105),
                (7, 1, 2, 0x0105),
            ],
        ),
        (
            "two calls of one routine",
            "LIT 01 JSI =sub JSI =sub BRK @sub INC JMP2r",
            &[
                (0, 0, 0, 0x0100),
                (2, 1, 0, 0x0100),
                (5, 1, 0, 0x0100),
                (8, 1, 0, 0x0100),
                (9, 1, 2, 0x0109),
                (10, 1, 2, 0x0109),
            ],
        ),
        (
            "two calls of a routine that leaves a byte more",
            "JSI =sub POP JSI =sub POP BRK @sub LIT 07 JMP2r",
            &[
                (0, 0, 0, 0x0100),
                (3, 1, 0, 0x0100),
                (4, 0, 0, 0x0100),
                (7, 1, 0, 0x0100),
                (8, 0, 0, 0x0100),
                (9, 0, 2, 0x0109),
                (11, 1, 2, 0x0109),
            ],
        ),
        (
            // Each is found without the others, and before the return in any order but the last first.
            "three calls that wait",
            "LIT 01 DUP JCI =two DUP JCI =three JSI =sub POP BRK \
             @two JSI =sub POP BRK @three JSI =sub POP BRK \
             @sub LIT 01 POP LIT 01 POP LIT 01 POP POP LIT 01 JMP2r",
            &[
                (0, 0, 0, 0x0100),
                (2, 1, 0, 0x0100),
                (3, 2, 0, 0x0100),
                (6, 1, 0, 0x0100),
                (7, 2, 0, 0x0100),
                (10, 1, 0, 0x0100),
                (13, 1, 0, 0x0100),
                (14, 0, 0, 0x0100),
                (15, 1, 0, 0x0100),
                (18, 1, 0, 0x0100),
                (19, 0, 0, 0x0100),
                (20, 1, 0, 0x0100),
                (23, 1, 0, 0x0100),
                (24, 0, 0, 0x0100),
                (25, 1, 2, 0x0119),
                (27, 2, 2, 0x0119),
                (28, 1, 2, 0x0119),
                (30, 2, 2, 0x0119),
                (31, 1, 2, 0x0119),
                (33, 2, 2, 0x0119),
                (34, 1, 2, 0x0119),
                (35, 0, 2, 0x0119),
                (37, 1, 2, 0x0119),
            ],
        ),
        (
            "nested calls",
            "JSI =one BRK @one JSI =two JMP2r @two JSI =three JMP2r @three JMP2r",
            &[
                (0, 0, 0, 0x0100),
                (3, 0, 0, 0x0100),
                (4, 0, 2, 0x0104),
                (7, 0, 2, 0x0104),
                (8, 0, 4, 0x0108),
                (11, 0, 4, 0x0108),
                (12, 0, 6, 0x010c),
            ],
        ),
        (
            "a routine called from 0100 and from a routine, both two below its floor",
            "LIT2r 0000 JSI =two POP2r JSI =one BRK @one JSI =two JMP2r @two JMP2r",
            &[
                (0, 0, 0, 0x0100),
                (3, 0, 2, 0x0100),
                (6, 0, 2, 0x0100),
                (7, 0, 0, 0x0100),
                (10, 0, 0, 0x0100),
                (11, 0, 2, 0x010b),
                (14, 0, 2, 0x010b),
                (15, 0, 4, 0x010f),
            ],
        ),
        (
            "two returns with one depth",
            "LIT 01 JSI =sub BRK @sub JCI =other JMP2r @other JMP2r",
            &[
                (0, 0, 0, 0x0100),
                (2, 1, 0, 0x0100),
                (5, 0, 0, 0x0100),
                (6, 1, 2, 0x0106),
                (9, 0, 2, 0x0106),
                (10, 0, 2, 0x0106),
            ],
        ),
        (
            // The call is visited before the return is found, whatever the order.
            "a return found late",
            "JSI =sub LIT 01 POP BRK @sub JMI =far @back JMP2r @far JMI =back",
            &[
                (0, 0, 0, 0x0100),
                (3, 0, 0, 0x0100),
                (5, 1, 0, 0x0100),
                (6, 0, 0, 0x0100),
                (7, 0, 2, 0x0107),
                (10, 0, 2, 0x0107),
                (11, 0, 2, 0x0107),
            ],
        ),
        (
            // The first call's return is found before the second call is.
            "a call found late",
            "JSI =sub JMI =far @back JSI =sub BRK @far JMI =back @sub JMP2r",
            &[
                (0, 0, 0, 0x0100),
                (3, 0, 0, 0x0100),
                (6, 0, 0, 0x0100),
                (9, 0, 0, 0x0100),
                (10, 0, 0, 0x0100),
                (13, 0, 2, 0x010d),
            ],
        ),
        (
            "a routine before the call",
            "JMI =main @sub JMP2r @main JSI =sub BRK",
            &[
                (0, 0, 0, 0x0100),
                (3, 0, 2, 0x0103),
                (4, 0, 0, 0x0100),
                (7, 0, 0, 0x0100),
            ],
        ),
        (
            "a loop in a routine, back to its own address",
            "LIT 00 JSI =sub BRK @sub INC DUP JCI =sub JMP2r",
            &[
                (0, 0, 0, 0x0100),
                (2, 1, 0, 0x0100),
                (5, 1, 0, 0x0100),
                (6, 1, 2, 0x0106),
                (7, 1, 2, 0x0106),
                (8, 2, 2, 0x0106),
                (11, 1, 2, 0x0106),
            ],
        ),
        (
            "a routine that never returns, with bytes after its call that no rule asks for",
            "JSI =sub JMP2 @sub BRK",
            &[(0, 0, 0, 0x0100), (4, 0, 2, 0x0104)],
        ),
        (
            "a routine that never returns, with nothing after its call",
            "JMI =call @sub BRK @call JSI =sub",
            &[(0, 0, 0, 0x0100), (3, 0, 2, 0x0103), (4, 0, 0, 0x0100)],
        ),
        (
            "a call in the last bytes, of a loop",
            "JMI =call @sub JMI =sub @call JSI =sub",
            &[(0, 0, 0, 0x0100), (3, 0, 2, 0x0103), (6, 0, 0, 0x0100)],
        ),
        (
            "a call of the address after it, which never returns",
            "JSI =sub @sub BRK",
            &[(0, 0, 0, 0x0100), (3, 0, 2, 0x0103)],
        ),
        (
            "a return after a call of a routine that never returns is not marked",
            "JSI =one @one JSI =two JMP2r @two BRK",
            &[(0, 0, 0, 0x0100), (3, 0, 2, 0x0103), (7, 0, 4, 0x0107)],
        ),
        (
            "a read at the floor",
            "JSI =sub BRK @sub LIT2r 0102 ADDkr POP2r POPr JMP2r",
            &[
                (0, 0, 0, 0x0100),
                (3, 0, 0, 0x0100),
                (4, 0, 2, 0x0104),
                (7, 0, 4, 0x0104),
                (8, 0, 5, 0x0104),
                (9, 0, 3, 0x0104),
                (10, 0, 2, 0x0104),
            ],
        ),
        (
            "a return in an operand",
            "JSI =sub BRK LIT @sub JMP2r",
            &[(0, 0, 0, 0x0100), (3, 0, 0, 0x0100), (5, 0, 2, 0x0105)],
        ),
        (
            "code that is reached by a jump belongs to the routine that jumps",
            "JSI =sub BRK @sub JMI =rest BRK @rest LIT 01 POP JMP2r",
            &[
                (0, 0, 0, 0x0100),
                (3, 0, 0, 0x0100),
                (4, 0, 2, 0x0104),
                (8, 0, 2, 0x0104),
                (10, 1, 2, 0x0104),
                (11, 0, 2, 0x0104),
            ],
        ),
        (
            "a routine in an operand",
            "LIT @sub 00 JSI =sub",
            &[(0, 0, 0, 0x0100), (1, 1, 2, 0x0101), (2, 1, 0, 0x0100)],
        ),
        (
            "the address after a call, which the routine alone reaches",
            "JSI =sub @end BRK @sub JMI =end",
            &[(0, 0, 0, 0x0100), (3, 0, 2, 0x0104), (4, 0, 2, 0x0104)],
        ),
        ("not reached", "BRK JMP2r JSI JSI JSI", &[(0, 0, 0, 0x0100)]),
    ];
    let mut admissions = Admissions::new(0);
    for (name, text, marked) in cases {
        let program = assemble(text);
        assert_eq!(admissions.admit(&program), ADMITTED, "{name}");
        assert_eq!(admissions.sheet(), sheet_with(&program, marked), "{name}");
    }
}

/// Programs that break one rule, and beside each one that keeps it and is admitted.
#[test]
fn calls_that_are_refused() {
    let cases = [
        (
            "6C in routine 0100",
            "JMP2r",
            "BRK",
        ),
        (
            "6C in routine 0100, with an address",
            "LIT2r 0100 JMP2r BRK",
            "LIT2r 0100 POP2r BRK",
        ),
        (
            "6C in routine 0100, after a call",
            "JSI =sub JMP2r @sub JMP2r",
            "JSI =sub BRK @sub JMP2r",
        ),
        (
            "a return one above the floor",
            "JSI =sub BRK @sub LITr 00 JMP2r",
            "JSI =sub BRK @sub LITr 00 POPr JMP2r",
        ),
        (
            "a return two above the floor",
            "JSI =sub BRK @sub LIT2r 0103 JMP2r",
            "JSI =sub BRK @sub LIT2r 0103 POP2r JMP2r",
        ),
        (
            "a return above the floor of an inner routine",
            "JSI =one BRK @one JSI =two JMP2r @two LIT2r 0000 JMP2r",
            "JSI =one BRK @one JSI =two JMP2r @two LIT2r 0000 POP2r JMP2r",
        ),
        (
            "two returns with two depths",
            "LIT 01 JSI =sub BRK @sub DUP JCI =other JMP2r @other POP JMP2r",
            "LIT 01 JSI =sub BRK @sub DUP JCI =other JMP2r @other JMP2r",
        ),
        (
            "two returns with two depths, the other one first",
            "LIT 01 JSI =sub BRK @sub DUP JCI =other POP JMP2r @other JMP2r",
            "LIT 01 JSI =sub BRK @sub DUP JCI =other POP JMP2r @other POP JMP2r",
        ),
        (
            "a keep read below the floor",
            "JSI =sub BRK @sub INCkr BRK",
            "JSI =sub BRK @sub LITr 00 INCkr BRK",
        ),
        (
            "a keep read of two bytes, one of them below the floor",
            "JSI =sub BRK @sub LITr 00 ADDkr BRK",
            "JSI =sub BRK @sub LIT2r 0000 ADDkr BRK",
        ),
        (
            "a copy of the return address",
            "JSI =sub BRK @sub STH2kr POP2 JMP2r",
            "JSI =sub BRK @sub LIT2r 0000 STH2kr POP2 POP2r JMP2r",
        ),
        (
            "a take of the return address",
            "JSI =sub BRK @sub STH2r POP2 BRK",
            "JSI =sub BRK @sub LIT2r 0000 STH2r POP2 BRK",
        ),
        (
            "a take of the caller's return bytes",
            "LIT2r 0000 JSI =sub POP2r BRK @sub POP2r JMP2r",
            "LIT2r 0000 JSI =sub POP2r BRK @sub JMP2r",
        ),
        (
            "bytes below the floor that come back",
            "JSI =sub BRK @sub SWPr JMP2r",
            "JSI =sub BRK @sub LIT2r 0000 SWPr POP2r JMP2r",
        ),
        (
            "recursion",
            "JSI =sub BRK @sub JSI =sub JMP2r",
            "JSI =sub BRK @sub JSI =other JMP2r @other JMP2r",
        ),
        (
            "recursion that never returns",
            "JSI =sub BRK @sub JSI =sub BRK",
            "JSI =sub BRK @sub JMI =sub BRK",
        ),
        (
            "recursion with the return first",
            "LIT 01 JSI =sub BRK @sub DUP JCI =again JMP2r @again JSI =sub JMP2r",
            "LIT 01 JSI =sub BRK @sub DUP JCI =again JMP2r @again JSI =other JMP2r @other JMP2r",
        ),
        (
            "recursion through another",
            "JSI =one BRK @one JSI =two JMP2r @two JSI =one JMP2r",
            "JSI =one BRK @one JSI =two JMP2r @two JSI =three JMP2r @three JMP2r",
        ),
        (
            "recursion through two others",
            "JSI =one BRK @one JSI =two JMP2r @two JSI =three JMP2r @three JSI =one JMP2r",
            "JSI =one BRK @one JSI =two JMP2r @two JSI =three JMP2r @three JSI =four JMP2r @four JMP2r",
        ),
        (
            "JSI to 0100",
            "@start JSI =start",
            "@start JMI =start",
        ),
        (
            "JSI to 0100 from a routine",
            "@start JSI =sub BRK @sub JSI =start JMP2r",
            "@start JSI =sub BRK @sub JSI =other JMP2r @other JMP2r",
        ),
        (
            "a JMI into another routine",
            "JSI =one JSI =two BRK @one JMP2r @two JMI =one",
            "JSI =one JSI =two BRK @one JMP2r @two JMI =own @own JMP2r",
        ),
        (
            "a JCI into another routine",
            "LIT 01 JSI =one JSI =two BRK @one JMP2r @two DUP JCI =one JMP2r",
            "LIT 01 JSI =one JSI =two BRK @one JMP2r @two DUP JCI =own @own JMP2r",
        ),
        (
            "a JMI into routine 0100, with the depths there",
            "LIT2r 0000 LIT 01 JCI =end POP2r JSI =sub @end BRK @sub JMI =end",
            "LIT2r 0000 LIT 01 JCI =end POP2r JSI =sub @end BRK @sub JMI =own @own BRK",
        ),
        (
            "a jump from routine 0100 to one that is called",
            "LIT2r 0000 LIT 01 JCI =sub POP2r JSI =sub BRK @sub BRK",
            "LIT2r 0000 LIT 01 JCI =other POP2r JSI =sub BRK @sub BRK @other BRK",
        ),
        (
            "a routine just after its call",
            "JSI =sub @sub JMP2r",
            "JSI =sub BRK @sub JMP2r",
        ),
        (
            "a routine that is run into with its depths",
            "JSI =sub LIT2r 0000 @sub JMP2r",
            "JSI =sub LIT2r 0000 BRK @sub JMP2r",
        ),
        (
            "two calls with two working depths",
            "JSI =sub LIT 00 JSI =sub BRK @sub JMP2r",
            "JSI =sub JSI =sub LIT 00 BRK @sub JMP2r",
        ),
        (
            "two calls with two return depths",
            "JSI =sub LITr 00 JSI =sub BRK @sub JMP2r",
            "JSI =sub JSI =sub LITr 00 BRK @sub JMP2r",
        ),
        (
            "calls from a routine and from its caller",
            "JSI =one JSI =two BRK @one JSI =two JMP2r @two JMP2r",
            "JSI =one JSI =two BRK @one JMP2r @two JMP2r",
        ),
        (
            "two working depths in a routine that never returns",
            "LIT 00 DUP JCI =other JSI =sub @other LIT 00 JSI =sub @sub BRK",
            "LIT 00 DUP JCI =other JSI =sub @other JSI =sub @sub BRK",
        ),
        (
            "nothing after a call whose routine returns",
            "JMI =call @sub JMP2r @call JSI =sub",
            "JMI =call @sub BRK @call JSI =sub",
        ),
        (
            "a call that is cut",
            "JSI 00",
            "JSI 0000 BRK",
        ),
        (
            "a call without its offset",
            "JSI",
            "JSI 0000 BRK",
        ),
        (
            "a call of 0100 + n",
            "JSI 0000",
            "JSI 0000 BRK",
        ),
        (
            "a call past the end",
            "JSI 0001 BRK",
            "JSI 0001 BRK BRK",
        ),
        (
            "a call of 00ff",
            "JSI fffc",
            "JSI 0000 BRK",
        ),
        (
            "a call by 8000",
            "JSI 8000 BRK",
            "JSI 0000 BRK",
        ),
        (
            "two depths after a call",
            "LIT 01 JCI =on LIT 00 JSI =sub @on BRK @sub JMP2r",
            "LIT 01 JCI =on LIT 00 JSI =sub @on BRK @sub POP JMP2r",
        ),
        (
            "more taken after a call than its routine leaves",
            "LIT 01 JSI =sub INC BRK @sub POP JMP2r",
            "LIT 01 JSI =sub INC BRK @sub JMP2r",
        ),
        (
            "JMP2kr for a return",
            "JSI =sub BRK @sub LIT2r 0103 JMP2kr BRK",
            "JSI =sub BRK @sub LIT2r 0103 POP2kr BRK",
        ),
        (
            "JMP2 for a return",
            "JSI =sub BRK @sub LIT2 0103 JMP2 BRK",
            "JSI =sub BRK @sub LIT2 0103 JMP2r BRK",
        ),
        (
            "JMPr for a return",
            "JSI =sub BRK @sub LITr 00 JMPr BRK",
            "JSI =sub BRK @sub LITr 00 POPr BRK",
        ),
        (
            "JCN2r for a return",
            "JSI =sub BRK @sub LITr 00 LIT2r 0103 JCN2r BRK",
            "JSI =sub BRK @sub LITr 00 LIT2r 0103 POP2r POPr JMP2r",
        ),
        (
            "JSR for a call",
            "LIT 01 JSR BRK @sub JMP2r",
            "LIT 01 JSI =sub BRK @sub JMP2r",
        ),
        (
            "JSR2 for a call",
            "LIT2 :sub JSR2 BRK @sub JMP2r",
            "LIT2 :sub JSI =sub BRK @sub JMP2r",
        ),
        (
            "STA in a routine",
            "JSI =sub BRK @sub LIT 00 LIT2 0000 STA JMP2r",
            "JSI =sub BRK @sub LIT 00 LIT2 0000 POP2 POP JMP2r",
        ),
    ];
    let mut admissions = Admissions::new(0);
    for (name, breaks, keeps) in cases {
        assert_eq!(admissions.admit(&assemble(breaks)), NOT_ADMITTED, "{name}");
        let beside = admissions.admit(&assemble(keeps));
        assert_eq!(beside, ADMITTED, "the one beside: {name}");
    }
}

/// Routines whose addresses differ in one byte only are two: a jump from one to the other is refused.
#[test]
fn routines_that_differ_in_one_byte() {
    let mut admissions = Admissions::new(0);
    for (one, two) in [
        (0x0110, 0x0111),
        (0x0110, 0x0210),
        (0x0120, 0x0f20),
        (0x01ff, 0x02ff),
    ] {
        let [one, two] = [one, two].map(|address| address - PROGRAM_START);
        // Two calls and an end; both routines have the depths 0 and 2.
        let mut program = [&jump(0x60, 0, one)[..], &jump(0x60, 3, two), &[0x00]].concat();
        program.resize(usize::from(two) + 3, 0x00);
        program[usize::from(one)] = 0x6c;
        program[usize::from(two)] = 0x6c;
        assert_eq!(admissions.admit(&program), ADMITTED, "{one:04x}, {two:04x}");
        program[usize::from(two)..].copy_from_slice(&jump(0x40, two, one));
        assert_eq!(
            admissions.admit(&program),
            NOT_ADMITTED,
            "{one:04x}, {two:04x}"
        );
    }
    // Routine 0200 jumps into routine 0100, to an address that has its depths.
    let mut program = assemble("LIT2r 0000 LIT 01 JCI =end POP2r JSI 00f4 @end BRK");
    program.resize(0x0103, 0x00);
    assert_eq!(admissions.admit(&program), ADMITTED);
    program[0x0100..].copy_from_slice(&jump(0x40, 0x0100, 0x000c));
    assert_eq!(admissions.admit(&program), NOT_ADMITTED);
}

/// JMI or JSI at a place, to another place.
fn jump(byte: u8, from: u16, to: u16) -> [u8; 3] {
    let [high, low] = to.wrapping_sub(from + 3).to_be_bytes();
    [byte, high, low]
}

/// In a routine and at its floor only 6C is a return: with keep, in the other form and in the other
/// mode it is refused.
#[test]
fn one_byte_returns() {
    let mut admissions = Admissions::new(0);
    for byte in 0..=255 {
        let program = [0x60, 0x00, 0x01, 0x00, byte];
        let admitted = admissions.admit(&program) == ADMITTED;
        assert_eq!(admitted, [0x00, 0x6c].contains(&byte), "byte {byte:02x}");
    }
}

/// A call needs two bytes of room on the return stack, whatever the working depth; one at 254 is
/// refused, and its target would have depth 0 if 256 were 0.
#[test]
fn calls_at_the_ends_of_the_return_depth() {
    let mut admissions = Admissions::new(0);
    for working in [0, 1, 254, 255] {
        for ret in 0..=255 {
            for routine in [&[0x00][..], &[0x6c], &[0x40, 0x00, 0x00, 0x6c]] {
                let mut program = climb(working, ret);
                program.extend([0x60, 0x00, 0x01, 0x00]);
                program.extend(routine);
                let answer = match ret <= 253 {
                    true => ADMITTED,
                    false => NOT_ADMITTED,
                };
                assert_eq!(admissions.admit(&program), answer, "return depth {ret}");
            }
        }
    }
    admissions.say_total("admission, calls at the ends of the depths");
}

/// Every byte in a routine, with so many bytes above its floor and so many below: only those above
/// count.
#[test]
fn every_byte_above_every_floor() {
    let mut admissions = Admissions::new(0);
    for below in [0, 1, 2, 5, 6, 100] {
        for above in 0..=7 {
            for byte in 0..=255 {
                let mut program = climb(20, below);
                program.extend([0x60, 0x00, 0x01, 0x00]);
                program.extend([0xc0, 0x00].repeat(above));
                program.extend([byte, 0x00, 0x00, 0x00]);
                let answer = admissions.admit(&program);
                let mut fits = !forbidden_bytes().contains(&byte);
                fits &= sizes(byte).taken.ret as usize <= above;
                fits = match byte {
                    0x6c => above == 0,
                    _ => fits,
                };
                assert_eq!(
                    answer == ADMITTED,
                    fits,
                    "{byte:02x}, {above} above {below}"
                );
            }
        }
    }
    admissions.say_total("admission, every byte above a floor");
}

/// The deepest nesting: 127 routines, each two return bytes deeper, and one more.
#[test]
fn the_deepest_nesting() {
    let mut admissions = Admissions::new(0);
    for depth in [1, 2, 126, 127, 128, 129] {
        for forward in [true, false] {
            // Each routine calls the next and returns; the last one only returns.
            let mut routines: Vec<Vec<u8>> = vec![vec![0x60, 0x00, 0x00, 0x6c]; depth - 1];
            routines.push(vec![0x6c]);
            let order: Vec<usize> = match forward {
                true => (0..depth).collect(),
                false => (0..depth).rev().collect(),
            };
            let mut places = vec![0; depth];
            let mut at = 4;
            for &number in &order {
                places[number] = at;
                at += routines[number].len();
            }
            let offset = |from: usize, to: usize| (to as u16).wrapping_sub(from as u16 + 3);
            for number in 0..depth - 1 {
                let offset = offset(places[number], places[number + 1]);
                routines[number][1..3].copy_from_slice(&offset.to_be_bytes());
            }
            let mut program = vec![0x60];
            program.extend(offset(0, places[0]).to_be_bytes());
            program.push(0x00);
            for &number in &order {
                program.extend(&routines[number]);
            }
            let answer = match depth <= 127 {
                true => ADMITTED,
                false => NOT_ADMITTED,
            };
            assert_eq!(admissions.admit(&program), answer, "{depth} deep");
        }
    }
}

/// 4,096 bytes of calls, of one routine and of a routine each, in every order of places.
#[test]
fn the_longest_programs_of_calls() {
    let mut admissions = Admissions::new(0);
    let calls = (ADMIT_LIMIT - 2) / 3;
    let mut one = Vec::new();
    for place in 0..calls {
        let offset = 3 * (calls - place - 1) as u16 + 1;
        one.push(0x60);
        one.extend(offset.to_be_bytes());
    }
    one.push(0x00);
    one.resize(ADMIT_LIMIT, 0x6c);
    assert_eq!(admissions.admit(&one), ADMITTED);
    let returns = (ADMIT_LIMIT - 1) / 4;
    for backward in [false, true] {
        let mut each = Vec::new();
        for place in 0..returns {
            let to = match backward {
                false => place,
                true => returns - 1 - place,
            };
            let offset = (3 * returns + 1 + to - (3 * place + 3)) as u16;
            each.push(0x60);
            each.extend(offset.to_be_bytes());
        }
        each.push(0x00);
        each.resize(ADMIT_LIMIT, 0x6c);
        assert_eq!(admissions.admit(&each), ADMITTED);
    }
    // Nothing is wrong but at the last of the addresses that are found.
    one[3 * calls] = 0x02;
    assert_eq!(admissions.admit(&one), NOT_ADMITTED);
}

/// Lengths and sheets: 5, 9 and 10 in their order, and the sheet as found.
#[test]
fn lengths_and_sheets() {
    let mut admissions = Admissions::new(seed());
    let mut random = Random::new(seed());
    let lengths = [
        0,
        1,
        2,
        3,
        64,
        ADMIT_LIMIT - 1,
        ADMIT_LIMIT,
        LONGEST,
        PROGRAM_LIMIT,
        PROGRAM_LIMIT + 1,
        65_536,
        70_000,
    ];
    for n in lengths {
        let right = 8 * n;
        let sheets = [
            right,
            0,
            1,
            right.saturating_sub(1),
            right + 1,
            right + 8,
            right.saturating_sub(8),
            4 * n,
            7 * n,
            9 * n,
            16 * n,
            8 * ADMIT_LIMIT,
            right + 65_536,
        ];
        // One that is admitted by its first byte, and one that is not.
        for first in [0x00, 0x02] {
            let mut program = random_bytes(&mut random, n, true);
            if let Some(byte) = program.first_mut() {
                *byte = first;
            }
            for sheet in sheets {
                let expected = match n {
                    0 => 5,
                    1..=ADMIT_LIMIT if sheet != right => 10,
                    1..=ADMIT_LIMIT if first == 0x00 => ADMITTED,
                    1..=ADMIT_LIMIT => NOT_ADMITTED,
                    _ => 9,
                };
                let answer = admissions.admit_into(&program, sheet);
                assert_eq!(answer, expected, "{n} bytes, sheet of {sheet}");
            }
        }
    }
    admissions.say_total("admission, lengths");
}

/// All programs of one and two bytes, and all of up to six bytes from a few that matter.
#[test]
fn every_short_program() {
    let mut admissions = Admissions::new(0);
    for first in 0..=255 {
        admissions.admit(&[first]);
        for second in 0..=255 {
            admissions.admit(&[first, second]);
        }
    }
    const BYTES: [u8; 9] = [0x00, 0x01, 0x02, 0x20, 0x40, 0x80, 0xc6, 0xfc, 0xff];
    for length in 3..=6 {
        for_each_program(&BYTES, length, |program| {
            admissions.admit(program);
        });
    }
    admissions.say_total("admission, short programs");
}

/// All programs of this length from these bytes.
fn for_each_program(bytes: &[u8], length: u32, mut with: impl FnMut(&[u8])) {
    for number in 0..bytes.len().pow(length) {
        let mut rest = number;
        let program: Vec<u8> = (0..length)
            .map(|_| {
                let byte = bytes[rest % bytes.len()];
                rest /= bytes.len();
                byte
            })
            .collect();
        with(&program);
    }
}

/// All programs of up to six bytes from a few with which calls and returns are made, and all of up to
/// eight that begin with a call.
#[test]
fn every_short_program_with_calls() {
    const BYTES: [u8; 8] = [0x00, 0x01, 0x02, 0x40, 0x4f, 0x60, 0x6c, 0x80];
    let mut admissions = Admissions::new(0);
    let mut met = Met::default();
    let mut judge = |program: &[u8]| {
        if admissions.admit(program) == ADMITTED {
            met.look_at(admissions.sheet());
        }
    };
    for length in 1..=6 {
        for_each_program(&BYTES, length, &mut judge);
    }
    for length in 1..=5 {
        // A call of each place in the rest, and of the one after it.
        for to in 0..=length as u8 {
            for_each_program(&BYTES, length, |rest| {
                judge(&[&[0x60, 0x00, to], rest].concat());
            });
        }
    }
    admissions.say_total("admission, short programs with calls");
    met.say("admission, short programs with calls");
    assert!(met.programs_with_returns > 2_000);
}

/// Parts of a program; those with a number go to the part of that number.
#[derive(Clone, Copy)]
enum Part {
    Bytes(&'static [u8]),
    Jump(usize),
    Branch(usize),
    Call(usize),
}

impl Part {
    /// Its bytes, with the offset of a jump still to be filled in.
    fn code(self) -> &'static [u8] {
        match self {
            Part::Bytes(bytes) => bytes,
            Part::Jump(_) => &[0x40, 0x00, 0x00],
            Part::Branch(_) => &[0x80, 0x00, 0x20, 0x00, 0x00],
            Part::Call(_) => &[0x60, 0x00, 0x00],
        }
    }
}

fn program_of(parts: &[Part]) -> Vec<u8> {
    let mut starts = Vec::new();
    let mut program = Vec::new();
    for part in parts {
        starts.push(program.len());
        program.extend(part.code());
    }
    for (part, start) in parts.iter().zip(&starts) {
        if let Part::Jump(to) | Part::Branch(to) | Part::Call(to) = *part {
            let after = start + part.code().len();
            let offset = (starts[to] as u16).wrapping_sub(after as u16);
            program[after - 2..after].copy_from_slice(&offset.to_be_bytes());
        }
    }
    program
}

/// All programs of a few parts: jumps, branches and calls from each part to each, returns, ends, and
/// parts that move the depths; with any beginning, and after a call of the third part and an end.
#[test]
fn every_short_tree_of_calls() {
    const END: Part = Part::Bytes(&[0x00]);
    const RETURN: Part = Part::Bytes(&[0x6c]);
    // POP, LIT, POPr, LITr, INCkr.
    const MOVES: [Part; 5] = [
        Part::Bytes(&[0x02]),
        Part::Bytes(&[0x80, 0x00]),
        Part::Bytes(&[0x42]),
        Part::Bytes(&[0xc0, 0x00]),
        Part::Bytes(&[0xc1]),
    ];
    type Turn = fn(usize) -> Part;
    const TURNS: [Turn; 3] = [Part::Call, Part::Branch, Part::Jump];
    let mut admissions = Admissions::new(0);
    let mut met = Met::default();
    for (first, count, moves, turns) in [
        (&[][..], 3, &MOVES[..], &TURNS[..]),
        (&[], 4, &MOVES, &TURNS),
        (&[Part::Call(2), END], 4, &MOVES, &TURNS),
        (&[], 6, &[], &TURNS[..1]),
    ] {
        let mut parts = [&[END, RETURN], moves].concat();
        for turn in turns {
            parts.extend((0..first.len() + count).map(turn));
        }
        let numbers: Vec<u8> = (0..parts.len() as u8).collect();
        for_each_program(&numbers, count as u32, |chosen| {
            let chosen = chosen.iter().map(|&number| parts[usize::from(number)]);
            let whole: Vec<Part> = first.iter().copied().chain(chosen).collect();
            if admissions.admit(&program_of(&whole)) == ADMITTED {
                met.look_at(admissions.sheet());
            }
        });
    }
    admissions.say_total("admission, short trees of calls");
    met.say("admission, short trees of calls");
    for (name, number) in met.numbers() {
        let never = ["overlaps", "returns in operands"].contains(&name);
        assert!(never || number > 50, "{number} {name}");
    }
}

/// What sheets show.
#[derive(Default)]
struct Met {
    programs: usize,
    /// Programs with a marked 6C.
    programs_with_returns: usize,
    deepest: [u8; 2],
    jumps_ahead: usize,
    jumps_back: usize,
    calls_ahead: usize,
    calls_back: usize,
    returns: usize,
    /// Routines by what they have: two calls or more, two returns or more, none, a call.
    called_again: usize,
    returned_again: usize,
    never_returned: usize,
    calling: usize,
    /// Marked addresses inside another marked instruction.
    overlaps: usize,
    /// Marked 6Cs inside another marked instruction.
    returns_in_operands: usize,
    /// Forbidden bytes that are not reached.
    unreached: usize,
}

impl Met {
    fn look_at(&mut self, sheet: &[u8]) {
        let (records, rest) = sheet.as_chunks::<SHEET_RECORD>();
        assert!(rest.is_empty());
        let forbidden = forbidden_bytes();
        let mut calls: BTreeMap<u16, usize> = BTreeMap::new();
        let mut returns: BTreeMap<u16, usize> = BTreeMap::new();
        let mut callers: BTreeSet<u16> = BTreeSet::new();
        for (place, &[mark, working, ret, byte, high, low, ..]) in records.iter().enumerate() {
            if mark == 0 {
                self.unreached += usize::from(forbidden.contains(&byte));
                continue;
            }
            let routine = u16::from_be_bytes([high, low]);
            self.deepest[0] = self.deepest[0].max(working);
            self.deepest[1] = self.deepest[1].max(ret);
            let length = sizes(byte).length as usize;
            let inside = &records[place + 1..place + length];
            let inside = inside.iter().filter(|record| record[0] == 1);
            self.overlaps += inside.clone().count();
            self.returns_in_operands += inside.filter(|record| record[3] == 0x6c).count();
            let back = length == 3 && records[place + 1][3] >= 0x80;
            match byte {
                0x20 | 0x40 if back => self.jumps_back += 1,
                0x20 | 0x40 => self.jumps_ahead += 1,
                0x60 => {
                    let offset = [1, 2].map(|more| records[place + more][3]);
                    let after = PROGRAM_START + place as u16 + 3;
                    let to = after.wrapping_add(u16::from_be_bytes(offset));
                    *calls.entry(to).or_default() += 1;
                    callers.insert(routine);
                    match back {
                        true => self.calls_back += 1,
                        false => self.calls_ahead += 1,
                    }
                }
                0x6c => *returns.entry(routine).or_default() += 1,
                _ => {}
            }
        }
        self.programs += 1;
        self.programs_with_returns += usize::from(!returns.is_empty());
        self.returns += returns.values().sum::<usize>();
        let many = |of: &BTreeMap<u16, usize>| of.values().filter(|count| **count > 1).count();
        self.called_again += many(&calls);
        self.returned_again += many(&returns);
        let routines = || calls.keys();
        let returned = |routine: &&u16| returns.contains_key(routine);
        self.never_returned += routines().filter(|routine| !returned(routine)).count();
        self.calling += routines()
            .filter(|routine| callers.contains(routine))
            .count();
    }

    fn numbers(&self) -> [(&str, usize); 13] {
        [
            ("programs", self.programs),
            ("programs with returns", self.programs_with_returns),
            ("jumps ahead", self.jumps_ahead),
            ("jumps back", self.jumps_back),
            ("calls ahead", self.calls_ahead),
            ("calls back", self.calls_back),
            ("returns", self.returns),
            ("routines with two calls", self.called_again),
            ("routines with two returns", self.returned_again),
            ("routines that never return", self.never_returned),
            ("routines that call", self.calling),
            ("overlaps", self.overlaps),
            ("returns in operands", self.returns_in_operands),
        ]
    }

    fn say(&self, test: &str) {
        let numbers = self.numbers();
        let numbers = numbers.map(|(name, number)| format!("{number} {name}"));
        say(&format!("{test}: {}", numbers.join(", ")));
    }
}

/// Every filter of the grammar is admitted; together they go to both ends of the depths, jump and call
/// ahead and back, return, overlap and hold bytes that are not reached. Most of them have returns.
#[test]
fn filters_of_the_grammar_are_admitted() {
    let mut admissions = Admissions::new(seed());
    let mut random = Random::new(seed());
    let mut met = Met::default();
    let mut long = Met::default();
    for turn in 0..1_200 {
        let length = match turn {
            0..200 => 1 + turn,
            _ => any_length(&mut random, ADMIT_LIMIT),
        };
        let program = filter(&mut random, length);
        assert_eq!(program.len(), length);
        assert_eq!(admissions.admit(&program), ADMITTED, "{program:02x?}");
        met.look_at(admissions.sheet());
        if length >= 100 {
            long.look_at(admissions.sheet());
        }
    }
    admissions.say_total("admission, filters");
    met.say("admission, filters");
    assert_eq!(met.deepest, [255, 255]);
    assert!(met.unreached > 1_000);
    for (name, number) in met.numbers() {
        let least = match name {
            "programs with returns" => met.programs / 2,
            "routines with two returns" | "routines that never return" => 200,
            "returns in operands" => 200,
            _ => 1_000,
        };
        assert!(number > least, "{number} {name}");
    }
    let [all, some] = [long.programs, long.programs_with_returns];
    assert!(
        10 * some > 9 * all,
        "{some} of {all} long ones have returns"
    );
}

/// A filter with one fault at a place that is reached is refused, whichever it is; one byte changed
/// more leaves most of them refused.
#[test]
fn filters_with_a_fault_are_refused() {
    let mut admissions = Admissions::new(seed());
    let mut random = Random::new(seed());
    for fault in FAULTS {
        for _ in 0..150 {
            let length = any_length(&mut random, ADMIT_LIMIT).max(ROOM_FOR_A_FAULT);
            let program = broken(&mut random, length, fault);
            assert_eq!(program.len(), length);
            let answer = admissions.admit(&program);
            assert_eq!(answer, NOT_ADMITTED, "{fault:?}: {program:02x?}");
            admissions.admit(&changed(&mut random, &program));
        }
    }
    admissions.say_total("admission, faults");
}

/// Programs of every kind, of random lengths; about half of them are admitted, and most of these have
/// a return that is reached.
#[test]
fn programs_of_every_kind() {
    let mut admissions = Admissions::new(seed());
    let mut random = Random::new(seed());
    let mut met = Met::default();
    for turn in 0..12_000 {
        let length = any_length(&mut random, LONGEST);
        let program = any(&mut random, turn, length);
        if admissions.admit(&program) == ADMITTED {
            met.look_at(admissions.sheet());
        }
    }
    let percent = admissions.percent_admitted();
    admissions.say_total("admission, every kind");
    met.say("admission, every kind");
    assert!((35.0..=65.0).contains(&percent), "{percent} % are admitted");
    let [all, some] = [met.programs, met.programs_with_returns];
    assert!(2 * some > all, "{some} of {all} have returns");
}

/// Filters with one byte changed again and again, as long as they are admitted.
#[test]
fn filters_changed_byte_by_byte() {
    let mut admissions = Admissions::new(seed());
    let mut random = Random::new(seed());
    for _ in 0..1_500 {
        let length = any_length(&mut random, LONGEST);
        let mut program = filter(&mut random, length);
        for _ in 0..8 {
            program = changed(&mut random, &program);
            if admissions.admit(&program) != ADMITTED {
                break;
            }
        }
    }
    admissions.say_total("admission, changed");
}

/// A filter cut at each place, and with each byte in turn another one.
#[test]
fn filters_cut_and_changed_at_every_place() {
    let mut admissions = Admissions::new(seed());
    let mut random = Random::new(seed());
    for length in [20, 40, 80, 160, 320] {
        for _ in 0..12 {
            let program = filter(&mut random, length);
            for place in 0..length {
                if place > 0 {
                    admissions.admit(&program[..place]);
                }
                let mut other = program.clone();
                other[place] = random.byte();
                admissions.admit(&other);
                other[place] = 0x00;
                admissions.admit(&other);
                other.remove(place);
                if !other.is_empty() {
                    admissions.admit(&other);
                }
                let mut longer = program.clone();
                longer.insert(
                    place,
                    random.choose(&[0x00, 0x01, 0x80, 0xa0, 0x02, 0x60, 0x6c]),
                );
                admissions.admit(&longer);
            }
        }
    }
    admissions.say_total("admission, every place");
}

#[test]
fn likely_programs() {
    let mut admissions = Admissions::new(seed());
    let mut random = Random::new(seed());
    for _ in 0..60_000 {
        let length = 1 + random.below(40);
        admissions.admit(&likely_bytes(&mut random, length));
    }
    admissions.say_total("admission, likely bytes");
}
