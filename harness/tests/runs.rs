//! Runs: budgets, BRK on the last unit, watched ports, random programs and programs of the grammar.

use uxn_filter_harness::assembler::assemble;
use uxn_filter_harness::calls::{
    Machine, Reply, BROKE, NO_PORTS, PAUSED, PROGRAM_START, SPENT, WATCH_NONE,
};
use uxn_filter_harness::opcodes::{DEO, KEEP, RETURN, SHORT};
use uxn_filter_harness::pair::{any_watch, Pair, Part, PortWrite};
use uxn_filter_harness::programs::{either, grammar_made, random_bytes};
use uxn_filter_harness::random::{seed, Random};

const BUDGETS: [u32; 6] = [0, 1, 2, 3, 100, 20_000];

/// From one state with one watch, each budget in turn; then, where the run ends at BRK or pauses, the
/// budgets around its end.
fn run_with_budgets(pair: &mut Pair, random: &mut Random) -> u32 {
    let before = pair.snapshot();
    let writes = pair.writes(200);
    let watch = any_watch(random, &writes);
    for budget in BUDGETS {
        pair.restore(&before);
        pair.run(budget, watch);
    }
    pair.restore(&before);
    let whole = pair.run(50_000, watch);
    if whole.answer != SPENT {
        for (budget, answer, steps) in [
            (whole.steps - 1, SPENT, whole.steps - 1),
            (whole.steps, whole.answer, whole.steps),
            (whole.steps + 1, whole.answer, whole.steps),
            (u32::MAX, whole.answer, whole.steps),
        ] {
            pair.restore(&before);
            let reply = pair.run(budget, watch);
            assert_eq!((reply.answer, reply.steps), (answer, steps));
        }
    }
    whole.steps
}

#[test]
fn random_memory() {
    let mut pair = Pair::new(seed());
    let mut random = Random::new(seed());
    for _ in 0..300 {
        pair.make_dirty(&mut random);
        run_with_budgets(&mut pair, &mut random);
    }
    pair.say_total("runs, random memory");
}

#[test]
fn random_programs() {
    let mut pair = Pair::new(seed());
    let mut random = Random::new(seed());
    for turn in 0..300 {
        let length = 1 + random.below(2_000);
        let program = random_bytes(&mut random, length, turn % 2 == 0);
        pair.load(&program);
        run_with_budgets(&mut pair, &mut random);
    }
    pair.say_total("runs, random programs");
}

#[test]
fn grammar_made_programs() {
    let mut pair = Pair::new(seed());
    let mut random = Random::new(seed());
    let mut longest = 0;
    for turn in 0..200 {
        let program = grammar_made(&mut random, turn % 2 == 0);
        pair.load(&program);
        longest = longest.max(run_with_budgets(&mut pair, &mut random));
    }
    assert_eq!(longest, 50_000, "programs of the grammar run for long");
    pair.say_total("runs, programs of the grammar");
}

/// Whether a step wrote the watched port.
fn wrote(reply: Reply, watch: u16) -> bool {
    let ports = &reply.ports[..usize::from(reply.sent)];
    ports.iter().any(|&port| u16::from(port) == watch)
}

/// Step by step, with everything compared after each, and beside it one run of as many steps.
#[test]
fn a_run_is_its_steps() {
    let mut pair = Pair::new(seed());
    let mut random = Random::new(seed());
    for turn in 0..60 {
        pair.load(&either(&mut random, turn, 1_000, false));
        let writes = pair.writes(1_000);
        let watch = any_watch(&mut random, &writes);
        let before = pair.snapshot();
        let mut steps = 0;
        let mut answer = SPENT;
        while steps < 5_000 && answer == SPENT {
            let reply = pair.step();
            steps += 1;
            if reply.answer == BROKE {
                answer = BROKE;
            } else if wrote(reply, watch) {
                answer = PAUSED;
            }
        }
        let after = pair.snapshot();
        pair.restore(&before);
        let reply = pair.run(steps, watch);
        assert_eq!((reply.answer, reply.steps), (answer, steps));
        assert!(
            pair.snapshot() == after,
            "a run of {steps} is not its steps"
        );
    }
    pair.say_total("runs, step by step");
}

// Watched ports

/// Ports of which every watch is tried; of the others those near them.
const PORTS: [u8; 6] = [0x00, 0x01, 0x7f, 0x80, 0xfe, 0xff];

/// DEO in its eight modes, with the ports that it writes at `port`, in order.
fn forms(port: u8) -> impl Iterator<Item = (u8, Vec<u8>)> {
    (0..8).map(move |modes| {
        let byte = DEO | modes << 5;
        let mut ports = vec![port];
        if byte & SHORT != 0 {
            ports.push(port.wrapping_add(1));
        }
        (byte, ports)
    })
}

/// JMI to the next byte, DEO in one of its forms, JMI to the next byte, BRK; on both stacks the same
/// number and port. The record is at the first JMI, or at the DEO.
fn put_write(pair: &mut Pair, form: u8, number: [u8; 2], port: u8) -> [Machine; 2] {
    let program = [0x40, 0, 0, form, 0x40, 0, 0, 0];
    pair.put(Part::Memory, usize::from(PROGRAM_START), &program);
    for part in [Part::Working, Part::Ret] {
        pair.put(part, 0, &[number[0], number[1], port]);
    }
    [0, 3].map(|place| Machine::at(PROGRAM_START + place, 3, 3))
}

/// Paused exactly if the watched port is written, as the first one or as the second; on the last unit
/// of the budget too, and the steps so far are counted.
#[test]
fn every_form_of_deo_with_every_watch() {
    let mut pair = Pair::new(seed());
    let mut random = Random::new(seed());
    for port in 0..=255u8 {
        let [next, after] = [1, 2].map(|more| port.wrapping_add(more));
        let near = [port.wrapping_sub(1), port, next, after, 0x00, 0xff].map(u16::from);
        let watches: Vec<u16> = match PORTS.contains(&port) {
            true => (0..256).chain(NO_PORTS).collect(),
            // Those that are the ports but for a higher bit among them.
            false => near
                .into_iter()
                .chain(near.map(|watch| watch + 256))
                .chain(NO_PORTS)
                .collect(),
        };
        for (form, ports) in forms(port) {
            for &watch in &watches {
                let pauses = ports.iter().any(|&port| u16::from(port) == watch);
                let [first, second] =
                    put_write(&mut pair, form, random.short().to_be_bytes(), port);
                for (from, budget, paused, runs_on) in [
                    (first, 1, (SPENT, 1), (SPENT, 1)),
                    (first, 2, (PAUSED, 2), (SPENT, 2)),
                    (first, 3, (PAUSED, 2), (SPENT, 3)),
                    (first, 4, (PAUSED, 2), (BROKE, 4)),
                    (second, 0, (SPENT, 0), (SPENT, 0)),
                    (second, 1, (PAUSED, 1), (SPENT, 1)),
                    (second, u32::MAX, (PAUSED, 1), (BROKE, 3)),
                ] {
                    pair.machine = from;
                    let reply = pair.run(budget, watch);
                    let expected = if pauses { paused } else { runs_on };
                    let what =
                        || format!("{form:02x} at port {port:02x}, watch {watch}, budget {budget}");
                    assert_eq!((reply.answer, reply.steps), expected, "{}", what());
                    assert!(
                        reply.answer != PAUSED || reply.machine.pc == PROGRAM_START + 4,
                        "{}",
                        what()
                    );
                }
            }
        }
    }
    pair.say_total("runs, forms of DEO");
}

/// "which ports it wrote", and not which of them changed.
#[test]
fn a_write_of_the_byte_that_stands_there_pauses() {
    let mut pair = Pair::new(seed());
    for port in [0x00, 0x42, 0xff] {
        for (form, ports) in forms(port) {
            for number in [[0; 2], [0x5a; 2]] {
                for &watched in &ports {
                    pair.put(Part::DevicePage, 0, &[number[0]; 256]);
                    let before = pair.bytes(Part::DevicePage).to_vec();
                    [_, pair.machine] = put_write(&mut pair, form, number, port);
                    let reply = pair.run(9, watched.into());
                    assert_eq!((reply.answer, reply.steps), (PAUSED, 1), "{form:02x}");
                    assert_eq!(pair.bytes(Part::DevicePage), before);
                }
            }
        }
    }
    pair.say_total("runs, the same byte written");
}

/// Every byte but DEO with the port's number wherever it may take an operand from: STZ, STA, LDZ and DEI
/// of that number among them, and BRK.
#[test]
fn what_is_no_deo_does_not_pause() {
    let mut pair = Pair::new(seed());
    for byte in (0..=255).filter(|byte| byte & !(SHORT | RETURN | KEEP) != DEO) {
        for port in PORTS {
            for part in [Part::Memory, Part::DevicePage, Part::Working, Part::Ret] {
                let bytes = vec![port; pair.bytes(part).len()];
                pair.put(part, 0, &bytes);
            }
            pair.put(Part::Memory, usize::from(PROGRAM_START), &[byte]);
            pair.machine = Machine::at(PROGRAM_START, 9, 9);
            let reply = pair.run(1, port.into());
            let answer = if byte == 0 { BROKE } else { SPENT };
            assert_eq!((reply.answer, reply.steps), (answer, 1), "{byte:02x}");
        }
    }
    pair.say_total("runs, no DEO");
}

/// One after the other, with the bytes that stand at ports 17, 18 and 19: the port is the first of two
/// that are written, the only one, and the second.
#[test]
fn pauses_in_a_row() {
    let mut pair = Pair::new(seed());
    pair.load(&assemble(
        "LIT2 6869 LIT 18 DEO2k POP NIP LIT 18 DEOk POP LIT 17 DEO2 BRK",
    ));
    for (steps, bytes) in [
        (3, [0x00, 0x68, 0x69]),
        (4, [0x00, 0x69, 0x69]),
        (3, [0x00, 0x69, 0x69]),
    ] {
        let reply = pair.run(100, 0x18);
        let there = &pair.bytes(Part::DevicePage)[0x17..0x1a];
        assert_eq!(
            (reply.answer, reply.steps, there),
            (PAUSED, steps, &bytes[..])
        );
    }
    pair.say_total("runs, pauses in a row");
}

/// The run's answer, its steps added to those before it.
fn ran_on(pair: &mut Pair, budget: u32, before: u32, watch: u16) -> (u8, u32) {
    let reply = pair.run(budget - before, watch);
    (reply.answer, before + reply.steps)
}

/// "Running on unwatched from there with what budget remains ends as an unwatched run from the start,
/// steps added": from every pause of a program. Watched again and again it ends so too, and it pauses
/// just after the steps that wrote the port.
#[test]
fn running_on_from_a_pause() {
    let mut pair = Pair::new(seed());
    let mut random = Random::new(seed());
    let mut at_the_end = 0;
    for turn in 0..1_000 {
        if turn % 4 == 3 {
            pair.make_dirty(&mut random);
        } else {
            pair.load(&either(&mut random, turn, 1_000, turn % 2 == 0));
        }
        let start = pair.snapshot();
        let most = 1 + random.below(600) as u32;
        let writes = pair.writes(most);
        let any_step = random.below(most as usize + 1) as u32;
        let watch = any_watch(&mut random, &writes);
        let of_watch = |write: &&PortWrite| u16::from(write.port) == watch;
        let pauses: Vec<u32> = writes
            .iter()
            .filter(of_watch)
            .map(|write| write.step)
            .collect();
        let last = match pauses.len() {
            0 => any_step,
            _ => random.choose(&pauses),
        };
        // So that the last unit of the budget is one that writes the port, or any other one.
        for budget in [last, any_step, most] {
            pair.restore(&start);
            let whole = ran_on(&mut pair, budget, 0, WATCH_NONE);
            let end = pair.snapshot();
            let mut expected = pauses.iter().filter(|&&step| step <= budget);

            pair.restore(&start);
            let mut so_far = ran_on(&mut pair, budget, 0, watch);
            while so_far.0 == PAUSED {
                assert_eq!(expected.next(), Some(&so_far.1), "a pause");
                at_the_end += u64::from(so_far.1 == budget);
                let paused = pair.snapshot();
                let unwatched = ran_on(&mut pair, budget, so_far.1, WATCH_NONE);
                assert_eq!(unwatched, whole, "running on, watch {watch}");
                assert!(pair.snapshot() == end, "running on leaves another end");
                pair.restore(&paused);
                so_far = ran_on(&mut pair, budget, so_far.1, watch);
            }
            assert_eq!(expected.next(), None, "no pause");
            assert_eq!(so_far, whole, "watched to the end");
            assert!(pair.snapshot() == end, "watched runs leave another end");
        }
    }
    assert!(
        pair.pauses > 1_000 && at_the_end > 50,
        "{} pauses, {at_the_end} at the end",
        pair.pauses
    );
    pair.say_total("runs, running on");
}
