//! Refusals: every call with the buffers wrong in every combination, alone and together with each
//! other wrong thing. The smallest number that applies is given and no lent byte changes, but that an
//! install refused with 11 zeroes the sheet; the guard bytes beside each buffer are compared with every
//! call.

use uxn_filter_harness::admissions::pattern;
use uxn_filter_harness::calls::{
    refused, Reply, ADMIT_LIMIT, MEMORY, NO_DEVICES, OLD_RECORD, PROGRAM_LIMIT, RECORD,
    SHEET_RECORD, WATCH_NONE,
};
use uxn_filter_harness::opcodes::{BRK, POP};
use uxn_filter_harness::pair::{Pair, Part, RIGHT_LENGTHS};
use uxn_filter_harness::random::{seed, Random};

/// The first port, the last one, and none.
const WATCHES: [u16; 3] = [0x00, 0xff, WATCH_NONE];

/// The right length, none, one less, one more.
fn lengths_of(right: usize) -> [usize; 4] {
    [right, 0, right - 1, right + 1]
}

/// Makes `call` with the buffers in all 256 combinations of lengths and random bytes in them.
/// `number` is the refusal that the call's other operands earn on right buffers, if any.
fn with_wrong_buffers(name: &str, number: Option<u8>, call: impl Fn(&mut Pair) -> Reply) {
    with_wrong_buffers_prepared(name, number, |_| {}, call);
}

/// The same after `prepare`.
fn with_wrong_buffers_prepared(
    name: &str,
    number: Option<u8>,
    prepare: impl Fn(&mut Pair),
    call: impl Fn(&mut Pair) -> Reply,
) {
    let mut random = Random::new(seed());
    for combination in 0..256 {
        let mut lengths = RIGHT_LENGTHS;
        for (place, length) in lengths.iter_mut().enumerate() {
            *length = lengths_of(*length)[combination >> (2 * place) & 3];
        }
        let wrong = (0..4).find(|&place| lengths[place] != RIGHT_LENGTHS[place]);
        let Some(expected) = wrong.map(|place| place as u8 + 1).or(number) else {
            continue;
        };
        let mut pair = Pair::with_lengths(seed(), lengths);
        pair.make_dirty(&mut random);
        prepare(&mut pair);
        let before = pair.snapshot();
        let machine = pair.machine;
        let reply = call(&mut pair);
        let expected = refused(machine, expected);
        assert_eq!(reply, expected, "{name}, buffers of {lengths:?} bytes");
        pair.assert_unchanged_since(&before);
    }
}

#[test]
fn steps() {
    with_wrong_buffers("step", None, |pair| pair.step());
}

#[test]
fn runs() {
    for budget in [0, 1, 1_000] {
        for watch in WATCHES {
            with_wrong_buffers("run", None, |pair| pair.run(budget, watch));
        }
    }
}

#[test]
fn loads() {
    for (length, number) in [
        (0, Some(5)),
        (1, None),
        (PROGRAM_LIMIT, None),
        (PROGRAM_LIMIT + 1, Some(5)),
        (MEMORY, Some(5)),
    ] {
        let program = vec![0x80; length];
        with_wrong_buffers("load", number, |pair| pair.load(&program));
    }
}

/// C-15: "Refusals: 1 to 4, 5 (empty only), 9, 10, 11; the four machine buffers stay; 11 zeroes the sheet
/// lent." Programs of every length, each as one that its first byte ends and as one that is not admitted,
/// with sheets right and wrong.
#[test]
fn installs() {
    for length in [0, 1, ADMIT_LIMIT, ADMIT_LIMIT + 1, PROGRAM_LIMIT + 1] {
        let right = SHEET_RECORD * length;
        let shorter = right.saturating_sub(1);
        for first in [BRK, POP] {
            let mut program = vec![BRK; length];
            if let Some(byte) = program.first_mut() {
                *byte = first;
            }
            for sheet in [right, 0, shorter, right + 1] {
                let number = match length {
                    0 => Some(5),
                    1..=ADMIT_LIMIT if sheet != right => Some(10),
                    1..=ADMIT_LIMIT if first == POP => Some(11),
                    1..=ADMIT_LIMIT => None,
                    _ => Some(9),
                };
                let found = pattern(sheet, 0);
                with_wrong_buffers("install", number, |pair| {
                    let mut lent = found.clone();
                    let reply = pair.install(&program, &mut lent);
                    let as_due = match reply.number {
                        11 => lent.iter().all(|&byte| byte == 0),
                        _ => lent == found,
                    };
                    assert!(as_due, "{} leaves another sheet", reply.number);
                    reply
                });
            }
        }
    }
}

/// Devices right and wrong, vectors not zero and zero; a watch changes no refusal.
#[test]
fn events() {
    let refused = NO_DEVICES.map(|device| (device, Some(6)));
    for (device, number) in [(0, None), (15, None)].into_iter().chain(refused) {
        for (budget, watch) in [0, 1_000].into_iter().zip(WATCHES) {
            let call = |pair: &mut Pair| pair.event(device, budget, watch);
            with_wrong_buffers("event", number, call);
            let clear = |pair: &mut Pair| {
                let zeros = vec![0; pair.bytes(Part::DevicePage).len()];
                pair.put(Part::DevicePage, 0, &zeros);
            };
            with_wrong_buffers_prepared("event", number, clear, call);
        }
    }
}

#[test]
fn frames() {
    let good = vec![0; RECORD];
    let mut too_long = good.clone();
    too_long[0] = 127;
    let mut not_zero = good.clone();
    not_zero[2] = 1;
    let mut both = vec![0xff; RECORD];
    both[1] = 0;
    let records = [
        (good, None),
        (vec![], Some(7)),
        (vec![0; OLD_RECORD], Some(7)),
        (vec![0; RECORD - 1], Some(7)),
        (vec![0; RECORD + 1], Some(7)),
        (vec![0xff; RECORD + 1], Some(7)),
        (too_long, Some(8)),
        (not_zero, Some(8)),
        (both, Some(8)),
    ];
    for (record, number) in records {
        for budget in [0, 1_000] {
            with_wrong_buffers("frame", number, |pair| pair.frame(&record, budget));
        }
    }
}
