//! The worked cases of document 01, run on both machines after a load.

use uxn_filter_harness::calls::{BROKE, LOADED, RECORD, REFUSED, SPENT, WATCH_NONE};
use uxn_filter_harness::pair::{Pair, Part};

const ENOUGH: u32 = 10_000;

/// The bytes of a stack below its pointer.
fn stack(pair: &Pair, part: Part, pointer: u8) -> &[u8] {
    &pair.bytes(part)[..usize::from(pointer)]
}

fn loaded(program: &[u8]) -> Pair {
    let mut pair = Pair::new(0);
    assert_eq!(pair.load(program).answer, LOADED);
    pair
}

#[test]
fn programs_that_end_at_brk() {
    struct Case {
        program: &'static [u8],
        working: &'static [u8],
        ret: &'static [u8],
        steps: u32,
        counter: u16,
    }
    let cases = [
        Case {
            program: &[0x80, 0x05, 0x80, 0x03, 0x18, 0x00],
            working: &[0x08],
            ret: &[],
            steps: 4,
            counter: 0x0106,
        },
        Case {
            program: &[0x80, 0x05, 0x80, 0x03, 0x98, 0x00],
            working: &[0x05, 0x03, 0x08],
            ret: &[],
            steps: 4,
            counter: 0x0106,
        },
        Case {
            program: &[0xa0, 0xff, 0xff, 0x21, 0x00],
            working: &[0x00, 0x00],
            ret: &[],
            steps: 3,
            counter: 0x0105,
        },
        Case {
            program: &[0x80, 0x07, 0x80, 0x00, 0x1b, 0x00],
            working: &[0x00],
            ret: &[],
            steps: 4,
            counter: 0x0106,
        },
        Case {
            program: &[0x80, 0x34, 0x80, 0x33, 0x1f, 0x00],
            working: &[0x30],
            ret: &[],
            steps: 4,
            counter: 0x0106,
        },
        Case {
            program: &[0x80, 0x80, 0x80, 0x7f, 0x0a, 0x00],
            working: &[0x01],
            ret: &[],
            steps: 4,
            counter: 0x0106,
        },
        Case {
            program: &[0x80, 0x01, 0x20, 0x00, 0x01, 0x02, 0x00],
            working: &[],
            ret: &[],
            steps: 3,
            counter: 0x0107,
        },
        Case {
            program: &[0xa0, 0x01, 0x05, 0x2e, 0x00, 0x00],
            working: &[],
            ret: &[0x01, 0x04],
            steps: 3,
            counter: 0x0106,
        },
        Case {
            // By C-12: the second byte stands at 0000.
            program: &[0x80, 0xff, 0x30, 0x00],
            working: &[0x00, 0x00],
            ret: &[],
            steps: 3,
            counter: 0x0104,
        },
    ];
    for case in cases {
        let mut pair = loaded(case.program);
        let reply = pair.run(ENOUGH, WATCH_NONE);
        let program = case.program;
        assert_eq!(reply.answer, BROKE, "{program:02x?}");
        assert_eq!(reply.steps, case.steps, "{program:02x?}");
        assert_eq!(reply.machine.pc, case.counter, "{program:02x?}");
        let working = stack(&pair, Part::Working, reply.machine.wp);
        assert_eq!(working, case.working, "{program:02x?}");
        let ret = stack(&pair, Part::Ret, reply.machine.rp);
        assert_eq!(ret, case.ret, "{program:02x?}");
    }
}

#[test]
fn a_popped_byte_stays() {
    let mut pair = loaded(&[0x80, 0x05, 0x80, 0x03, 0x18, 0x00]);
    pair.run(ENOUGH, WATCH_NONE);
    assert_eq!(pair.bytes(Part::Working)[1], 0x03);
}

#[test]
fn a_pop_of_the_empty_stack_goes_round() {
    let mut pair = loaded(&[0x02, 0x00]);
    assert_eq!(pair.run(ENOUGH, WATCH_NONE).machine.wp, 255);
}

#[test]
fn programs_that_spend_their_budget() {
    let mut pair = loaded(&[0x80, 0xfd, 0x0c]);
    let reply = pair.run(5, WATCH_NONE);
    assert_eq!((reply.answer, reply.steps), (SPENT, 5));
    assert_eq!((reply.machine.pc, reply.machine.wp), (0x0102, 1));

    let mut pair = loaded(&[0x40, 0xff, 0xfd]);
    let reply = pair.run(7, WATCH_NONE);
    assert_eq!((reply.answer, reply.steps), (SPENT, 7));
    assert_eq!(reply.machine.pc, 0x0100);
}

#[test]
fn stacks_filled_to_255_and_256_bytes() {
    for (count, pointer) in [(255, 255), (256, 0)] {
        let mut program = [0x80, 0x00].repeat(count);
        program.push(0x00);
        let mut pair = loaded(&program);
        let reply = pair.run(ENOUGH, WATCH_NONE);
        assert_eq!((reply.answer, reply.machine.wp), (BROKE, pointer));
        assert_eq!(reply.steps, count as u32 + 1);
    }
}

#[test]
fn a_frame_that_passes() {
    let mut pair = loaded(&[0x80, 0x01, 0x80, 0xf2, 0x17, 0x00]);
    let reply = pair.frame(&[0; RECORD], ENOUGH);
    assert_eq!((reply.answer, reply.verdict, reply.steps), (BROKE, 1, 4));
}

#[test]
fn records_at_their_limits() {
    let mut pair = loaded(&[0x00]);
    let mut longest = [0xff; RECORD];
    longest[0] = 126;
    assert_eq!(pair.frame(&longest, ENOUGH).answer, BROKE);
    let mut too_long = [0; RECORD];
    too_long[0] = 127;
    let reply = pair.frame(&too_long, ENOUGH);
    assert_eq!((reply.answer, reply.number), (REFUSED, 8));
    let mut not_zero = [0; RECORD];
    not_zero[2] = 1;
    let reply = pair.frame(&not_zero, ENOUGH);
    assert_eq!((reply.answer, reply.number), (REFUSED, 8));
}
