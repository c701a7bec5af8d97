//! Load, event and frame calls that are not refused for a buffer; installs stand in `installs.rs`.

use uxn_filter_harness::assembler::assemble;
use uxn_filter_harness::calls::{
    Machine, Reply, BROKE, IGNORED, LOADED, MEMORY, NO_DEVICES, NO_PORTS, PAUSED, PROGRAM_LIMIT,
    PROGRAM_START, RECORD, REFUSED, SHEET_RECORD, SPENT, WATCH_NONE,
};
use uxn_filter_harness::opcodes::POP;
use uxn_filter_harness::pair::{any_watch, Pair, Part};
use uxn_filter_harness::programs::{either, grammar_made, random_bytes};
use uxn_filter_harness::random::{seed, Random};

const BUDGETS: [u32; 4] = [0, 1, 2, 3_000];
const MOST_DATA: usize = RECORD - 2;

#[test]
fn loads_over_dirty_buffers() {
    let mut pair = Pair::new(seed());
    let mut random = Random::new(seed());
    let lengths = [
        0,
        1,
        2,
        3,
        4_096,
        PROGRAM_LIMIT - 1,
        PROGRAM_LIMIT,
        PROGRAM_LIMIT + 1,
        MEMORY,
        MEMORY + 1,
        2 * MEMORY,
    ];
    for length in lengths {
        for _ in 0..8 {
            pair.make_dirty(&mut random);
            let before = pair.snapshot();
            let reply = pair.load(&random_bytes(&mut random, length, true));
            if (1..=PROGRAM_LIMIT).contains(&length) {
                assert_eq!(reply.answer, LOADED);
                assert_eq!(reply.machine.pc, PROGRAM_START);
            } else {
                assert_eq!((reply.answer, reply.number), (REFUSED, 5));
                pair.assert_unchanged_since(&before);
            }
        }
    }
    pair.say_total("loads");
}

#[test]
fn events_of_every_device() {
    let mut pair = Pair::new(seed());
    let mut random = Random::new(seed());
    for device in (0..=255).chain(NO_DEVICES) {
        for vector in [0x0000, 0x0001, 0x0100, 0xff00, 0xffff, random.short()] {
            for budget in BUDGETS {
                pair.make_dirty(&mut random);
                // Of a number that is no device, the vector that its low bits have.
                let port = 16 * (device as usize % 16);
                pair.put(Part::DevicePage, port, &u16::to_be_bytes(vector));
                let watch = any_watch(&mut random, &[]);
                let before = pair.snapshot();
                let reply = pair.event(device, budget, watch);
                if device > 15 {
                    assert_eq!((reply.answer, reply.number), (REFUSED, 6));
                    pair.assert_unchanged_since(&before);
                } else if vector == 0 {
                    assert_eq!(reply.answer, IGNORED);
                    pair.assert_unchanged_since(&before);
                } else if budget == 0 {
                    assert_eq!(reply.answer, SPENT);
                    assert_eq!(reply.machine.pc, vector);
                }
            }
        }
    }
    pair.say_total("events");
}

/// Events one after the other on a machine that goes on: stacks and pointers are retained.
#[test]
fn events_in_a_row() {
    let mut pair = Pair::new(seed());
    let mut random = Random::new(seed());
    for _ in 0..20 {
        pair.load(&grammar_made(&mut random, false));
        let writes = pair.writes(300);
        for _ in 0..50 {
            let device = random.below(17);
            if device < 16 && random.one_in(2) {
                let vector = PROGRAM_START + random.below(300) as u16;
                let port = 16 * device;
                pair.put(Part::DevicePage, port, &vector.to_be_bytes());
            }
            let budget = random.below(500) as u32;
            let watch = any_watch(&mut random, &writes);
            pair.event(device as u32, budget, watch);
        }
    }
    pair.say_total("events in a row");
}

/// A watched event pauses as a run does; `uxn_run` goes on from there, and ends as the event that is not
/// watched does.
#[test]
fn events_with_a_watch() {
    let mut pair = Pair::new(seed());
    // Port 42, then the vector of device 1: an event in place of the run would start elsewhere.
    let program = assemble("LIT 77 LIT 42 DEO LIT2 0103 LIT 10 DEO2 BRK");
    for (watch, steps) in [(0x42, 3), (0x10, 6), (0x11, 6)] {
        for budget in [steps, steps + 1, 7, 100] {
            pair.load(&program);
            pair.put(Part::DevicePage, 0x10, &[0x01, 0x00]);
            let before = pair.snapshot();
            let whole = pair.event(1, budget, WATCH_NONE);
            let end = pair.snapshot();
            assert_eq!(whole.steps, budget.min(7));
            for none in NO_PORTS.into_iter().chain([0x43, 0x09]) {
                pair.restore(&before);
                assert_eq!(pair.event(1, budget, none), whole);
            }
            pair.restore(&before);
            let paused = pair.event(1, budget, watch);
            assert_eq!((paused.answer, paused.steps), (PAUSED, steps));
            let rest = pair.run(budget - steps, WATCH_NONE);
            assert_eq!(
                (rest.answer, rest.steps + steps),
                (whole.answer, whole.steps)
            );
            assert!(pair.snapshot() == end, "the event ends in another state");
            // One unit less, and nothing is written yet.
            pair.restore(&before);
            assert_eq!(pair.event(1, steps - 1, watch).answer, SPENT);
        }
    }
    pair.say_total("events with a watch");
}

/// "A watch changes no ... Ignored": nothing is written by an event that is not made, nor by the host.
#[test]
fn ignored_events_with_a_watch() {
    let mut pair = Pair::new(seed());
    let mut random = Random::new(seed());
    for device in 0..16 {
        for watch in (0..256).chain(NO_PORTS) {
            if watch % 64 == 0 {
                pair.make_dirty(&mut random);
            }
            pair.put(Part::DevicePage, 16 * device, &[0, 0]);
            let before = pair.snapshot();
            let reply = pair.event(device as u32, 100, watch);
            assert_eq!((reply.answer, reply.steps), (IGNORED, 0));
            pair.assert_unchanged_since(&before);
        }
    }
    pair.say_total("ignored events with a watch");
}

fn marks(reply: Reply) -> (u8, u8) {
    (reply.machine.wp_high, reply.machine.rp_high)
}

/// "since the last load or frame start, 0 there; only steps raise it"
#[test]
fn high_marks_from_call_to_call() {
    let mut pair = Pair::new(seed());
    let record = [0; RECORD];
    // Three bytes on the working stack, two on the return stack, and fewer at the end; at 0109 one
    // more on the return stack.
    let program = assemble("LIT 01 LIT2 0203 STH2 BRK LITr 01 BRK");
    pair.load(&program);
    assert_eq!(marks(pair.run(10, WATCH_NONE)), (3, 2));
    // A load, an install and a frame begin anew, with no step too.
    assert_eq!(marks(pair.load(&program)), (0, 0));
    pair.run(10, WATCH_NONE);
    let mut sheet = vec![0; SHEET_RECORD * program.len()];
    assert_eq!(marks(pair.install(&program, &mut sheet)), (0, 0));
    pair.run(10, WATCH_NONE);
    assert_eq!(marks(pair.frame(&record, 0)), (0, 0));
    assert_eq!(marks(pair.frame(&record, 1)), (1, 0));
    assert_eq!(marks(pair.frame(&record, 2)), (3, 0));
    assert_eq!(marks(pair.frame(&record, 10)), (3, 2));
    // An event goes on: it keeps them and raises them; ignored it leaves them.
    pair.put(Part::DevicePage, 0x10, &[0x01, 0x07]);
    assert_eq!(marks(pair.event(1, 0, WATCH_NONE)), (3, 2));
    assert_eq!(marks(pair.event(1, 10, WATCH_NONE)), (3, 3));
    assert_eq!(pair.event(2, 10, WATCH_NONE).answer, IGNORED);
    assert_eq!(marks(pair.event(2, 10, WATCH_NONE)), (3, 3));
    // So does a step after it, and a refusal of any call leaves them.
    for refusal in [
        pair.load(&[]),
        pair.install(&[], &mut []),
        pair.install(&program, &mut []),
        pair.install(&[POP], &mut [0; SHEET_RECORD]),
        pair.event(16, 10, WATCH_NONE),
        pair.frame(&record[1..], 10),
        pair.frame(&[0xff; RECORD], 10),
    ] {
        assert_eq!((refusal.answer, marks(refusal)), (REFUSED, (3, 3)));
    }
    pair.say_total("high marks from call to call");
}

/// The pointer after a step counts, and not the one before it or inside it. A mark that is handed in
/// is not judged.
#[test]
fn high_marks_of_one_step() {
    let mut pair = Pair::new(seed());
    for (text, wp, rp, high, after) in [
        // POP at 0 leaves its pointer at 255, on either stack; INC comes back from there, POPk stays.
        ("POP", 0, 0, (0, 0), (255, 0)),
        ("POPr", 0, 0, (0, 0), (0, 255)),
        ("POP2", 1, 0, (0, 0), (255, 0)),
        ("INC", 0, 0, (0, 0), (0, 0)),
        ("POPk", 0, 0, (0, 0), (0, 0)),
        // A push at 255 comes out at 0: the pointer before it is lost, unless it was marked.
        ("LIT 01", 255, 0, (0, 0), (0, 0)),
        ("LIT 01", 255, 0, (255, 0), (255, 0)),
        ("LIT 01", 254, 0, (7, 0), (255, 0)),
        // Marks below and above the pointers; BRK is a step.
        ("BRK", 9, 200, (3, 250), (9, 250)),
        ("BRK", 200, 9, (250, 3), (250, 9)),
        ("JMI 0000", 9, 9, (9, 8), (9, 9)),
        // Return mode exchanges the stacks and not the marks.
        ("POPr", 20, 10, (15, 5), (20, 9)),
        ("STH", 20, 10, (15, 5), (19, 11)),
        ("STHr", 20, 10, (15, 5), (21, 9)),
        // A step that pauses a run raises them too.
        ("DEOk", 9, 200, (3, 100), (9, 200)),
        ("DEO2", 9, 8, (3, 2), (6, 8)),
        ("DEOkr", 9, 200, (3, 100), (9, 200)),
    ] {
        let from = Machine {
            wp_high: high.0,
            rp_high: high.1,
            ..Machine::at(PROGRAM_START, wp, rp)
        };
        pair.load(&assemble(text));
        pair.machine = from;
        assert_eq!(marks(pair.run(0, WATCH_NONE)), high, "{text}, no step");
        assert_eq!(marks(pair.step()), after, "{text}");
        // The stacks are zero, so that port 00 is the one that is written.
        for watch in [WATCH_NONE, 0x00] {
            pair.machine = from;
            let reply = pair.run(1, watch);
            assert_eq!(marks(reply), after, "{text}, a run of one step");
            let pauses = watch == 0x00 && text.starts_with("DEO");
            assert_eq!(reply.answer == PAUSED, pauses, "{text}, watch {watch}");
        }
    }
    pair.say_total("high marks of one step");
}

/// A record with random data of the length given, zeros after it.
fn record_of(random: &mut Random, length: usize) -> [u8; RECORD] {
    let mut record = [0; RECORD];
    random.fill(&mut record[..2 + length]);
    record[0] = length as u8;
    record
}

#[test]
fn frames_of_every_length_byte() {
    let mut pair = Pair::new(seed());
    let mut random = Random::new(seed());
    for length in 0..=255 {
        for budget in BUDGETS {
            let mut record = record_of(&mut random, usize::from(length).min(MOST_DATA));
            record[0] = length;
            pair.make_dirty(&mut random);
            let before = pair.snapshot();
            let reply = pair.frame(&record, budget);
            if usize::from(length) > MOST_DATA {
                assert_eq!((reply.answer, reply.number), (REFUSED, 8));
                pair.assert_unchanged_since(&before);
            } else {
                assert_ne!(reply.answer, REFUSED);
                assert!(reply.steps <= budget);
            }
        }
    }
    pair.say_total("frames, length bytes");
}

#[test]
fn frames_with_each_byte_past_the_data_not_zero() {
    let mut pair = Pair::new(seed());
    let mut random = Random::new(seed());
    pair.make_dirty(&mut random);
    let before = pair.snapshot();
    for length in 0..=MOST_DATA {
        for place in 2 + length..RECORD {
            let mut record = record_of(&mut random, length);
            record[place] = random.choose(&[1, 0x80, 0xff]);
            let reply = pair.frame(&record, 100);
            assert_eq!((reply.answer, reply.number), (REFUSED, 8));
            pair.assert_unchanged_since(&before);
        }
    }
    pair.say_total("frames, bytes past the data");
}

#[test]
fn frames_of_wrong_size() {
    let mut pair = Pair::new(seed());
    let mut random = Random::new(seed());
    pair.make_dirty(&mut random);
    let before = pair.snapshot();
    for size in [0, 1, 2, 63, 64, 65, 126, 127, 129, 130, 255, 256, MEMORY] {
        for first in [0, 62, 63, 126, 127, 255] {
            let mut record = vec![0; size];
            if let Some(length) = record.first_mut() {
                *length = first;
            }
            let reply = pair.frame(&record, 100);
            assert_eq!((reply.answer, reply.number), (REFUSED, 7));
            pair.assert_unchanged_since(&before);
        }
    }
    pair.say_total("frames, sizes");
}

/// The verdict is port F2 after Broke and 0 after Spent, though the port keeps what was written.
#[test]
fn verdicts() {
    let mut pair = Pair::new(seed());
    let record = [0; RECORD];
    for value in 0..=255u8 {
        let mut program = assemble("LIT 00 LIT f2 DEO BRK");
        program[1] = value;
        pair.load(&program);
        for (budget, answer, verdict) in [
            (4, BROKE, value),
            (3, SPENT, 0),
            (0, SPENT, 0),
            (u32::MAX, BROKE, value),
        ] {
            pair.put(Part::DevicePage, 0xf2, &[0x77]);
            let reply = pair.frame(&record, budget);
            assert_eq!((reply.answer, reply.verdict), (answer, verdict));
            let port = pair.bytes(Part::DevicePage)[0xf2];
            assert_eq!(port, if budget == 0 { 0 } else { value });
        }
        pair.put(Part::DevicePage, 0xf2, &[0x77]);
        assert_eq!(pair.frame(&[1; RECORD], 4).verdict, 0);
        assert_eq!(pair.bytes(Part::DevicePage)[0xf2], 0x77);
    }
    // A 16-bit write at F1 reaches F2; a filter that writes nothing drops the frame.
    pair.load(&assemble("LIT2 1234 LIT f1 DEO2 BRK"));
    assert_eq!(pair.frame(&record, 10).verdict, 0x34);
    pair.load(&assemble("BRK"));
    assert_eq!(pair.frame(&record, 10).verdict, 0);
    pair.say_total("frames, verdicts");
}

/// A program that writes every port, by DEO and by DEO2. A run of it pauses at each; a frame never does,
/// and its reply names no port. That the host writes port F2 is no step's write.
#[test]
fn frames_watch_nothing() {
    let mut pair = Pair::new(seed());
    let record = [0; RECORD];
    let program = assemble(
        "LIT 00 @again DUP LIT 77 OVR DEO LIT2 7879 ROT DEO2 INC DUP JCI =again LIT f2 DEO BRK",
    );
    pair.load(&program);
    let whole = pair.frame(&record, u32::MAX);
    assert_eq!((whole.answer, whole.verdict), (BROKE, 0));
    let end = pair.snapshot();
    for watch in 0..256 {
        pair.frame(&record, 0);
        assert_eq!(pair.run(u32::MAX, watch).answer, PAUSED);
    }
    for budget in 0..whole.steps {
        let reply = pair.frame(&record, budget);
        let answer = (reply.answer, reply.steps, reply.verdict);
        assert_eq!(answer, (SPENT, budget, 0));
        assert_eq!((reply.sent, reply.ports), (0, [0, 0]));
    }
    assert_eq!(pair.frame(&record, whole.steps), whole);
    assert!(pair.snapshot() == end, "the frame ends in another state");

    pair.load(&assemble("BRK"));
    pair.put(Part::DevicePage, 0xf2, &[0x77]);
    assert_eq!(pair.frame(&record, 0).answer, SPENT);
    assert_eq!(pair.run(1, 0xf2).answer, BROKE);
    pair.say_total("frames watch nothing");
}

/// Frames good and bad one after the other on a machine that goes on.
#[test]
fn frames_in_a_row() {
    let mut pair = Pair::new(seed());
    let mut random = Random::new(seed());
    for turn in 0..60 {
        pair.load(&either(&mut random, turn, 500, true));
        for _ in 0..40 {
            let length = random.below(MOST_DATA + 1);
            let mut record = record_of(&mut random, length);
            if random.one_in(8) {
                record[0] = random.byte();
            }
            let budget = random.choose(&[0, 1, 10, 1_000, 10_000]);
            pair.frame(&record, budget);
        }
    }
    pair.say_total("frames in a row");
}
