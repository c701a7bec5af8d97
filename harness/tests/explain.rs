//! Why a program is refused: programs with their reasons by name, the numbers of the refusals, which
//! reasons are told for which faults, and reasons that are not true, which the check must see. The
//! tests of admission hold the reason of every program that is refused there as well.

use std::collections::BTreeMap;

use uxn_filter_harness::admissions::Admissions;
use uxn_filter_harness::assembler::assemble;
use uxn_filter_harness::calls::{Place, Why, ADMITTED, ADMIT_LIMIT};
use uxn_filter_harness::filters::{
    any, any_length, broken, climb, likely_bytes, Fault, FAULTS, ROOM_FOR_A_FAULT,
};
use uxn_filter_harness::library::explain;
use uxn_filter_harness::pair::say;
use uxn_filter_harness::random::{seed, Random};
use uxn_filter_harness::reasons::{Search, RULES};
use uxn_filter_harness::second_admission::sizes;

const NOT_ADMITTED: u8 = 11;
const NOWHERE: Place = place(0, 0, 0, 0);

const fn place(at: u16, work: u8, ret: u8, routine: u16) -> Place {
    Place {
        at,
        work,
        ret,
        routine,
    }
}

const fn why(rule: u8, count: u16, here: Place, next: Place, other: Place) -> Why {
    Why {
        number: NOT_ADMITTED,
        rule,
        count,
        here,
        next,
        other,
    }
}

/// A reason that has one place alone.
const fn alone(rule: u8, count: u16, here: Place) -> Why {
    why(rule, count, here, NOWHERE, NOWHERE)
}

/// Programs with all reasons that are true of them.
fn worked() -> Vec<(&'static str, Vec<u8>, Vec<Why>)> {
    let cases = [
        (
            "LIT 01 LIT2 00",
            vec![alone(1, 3, place(0x0102, 1, 0, 0x0100))],
        ),
        (
            "JMI =call @sub BRK @call JSI 00",
            vec![alone(1, 3, place(0x0104, 0, 0, 0x0100))],
        ),
        (
            "LIT2 0000 JMP2 BRK",
            vec![alone(2, 0, place(0x0103, 2, 0, 0x0100))],
        ),
        (
            "LIT 01 ADD BRK",
            vec![alone(3, 2, place(0x0102, 1, 0, 0x0100))],
        ),
        (
            "JCI 0000 BRK",
            vec![alone(3, 1, place(0x0100, 0, 0, 0x0100))],
        ),
        (
            "LITr 01 ADDkr BRK",
            vec![alone(4, 2, place(0x0102, 0, 1, 0x0100))],
        ),
        (
            "LITr 00 JSI =sub BRK @sub LITr 00 POP2kr BRK",
            vec![why(
                5,
                2,
                place(0x0108, 0, 4, 0x0106),
                NOWHERE,
                place(0x0106, 0, 3, 0x0106),
            )],
        ),
        (
            "JMI 0000",
            vec![why(
                8,
                0,
                place(0x0100, 0, 0, 0x0100),
                place(0x0103, 0, 0, 0x0100),
                NOWHERE,
            )],
        ),
        (
            "LIT 07 JMI fefe",
            vec![why(
                8,
                0,
                place(0x0102, 1, 0, 0x0100),
                place(0x0003, 1, 0, 0x0100),
                NOWHERE,
            )],
        ),
        (
            "LIT 07",
            vec![why(
                8,
                0,
                place(0x0100, 0, 0, 0x0100),
                place(0x0102, 1, 0, 0x0100),
                NOWHERE,
            )],
        ),
        (
            // The address after the call, with the working depth of the return.
            "JMI =call @sub LIT 01 JMP2r @call JSI =sub",
            vec![why(
                8,
                0,
                place(0x0106, 0, 0, 0x0100),
                place(0x0109, 1, 0, 0x0100),
                NOWHERE,
            )],
        ),
        (
            // A routine outside the program, whose address is its routine.
            "JSI 8000 BRK",
            vec![why(
                8,
                0,
                place(0x0100, 0, 0, 0x0100),
                place(0x8103, 0, 2, 0x8103),
                NOWHERE,
            )],
        ),
        (
            // The way that is no jump has another depth, and ends there.
            "LIT 01 JCI =end LIT 01 @end BRK",
            vec![
                why(
                    9,
                    0,
                    place(0x0102, 1, 0, 0x0100),
                    place(0x0107, 0, 0, 0x0100),
                    place(0x0107, 1, 0, 0x0100),
                ),
                why(
                    9,
                    0,
                    place(0x0105, 0, 0, 0x0100),
                    place(0x0107, 1, 0, 0x0100),
                    place(0x0107, 0, 0, 0x0100),
                ),
            ],
        ),
        (
            // The same depths, and two routines.
            "LIT2r 0000 JMI =on @sub JMI =end @on LIT 00 JCI =end POP2r JSI =sub @end BRK",
            vec![
                why(
                    9,
                    0,
                    place(0x010b, 1, 2, 0x0100),
                    place(0x0112, 0, 2, 0x0100),
                    place(0x0112, 0, 2, 0x0106),
                ),
                why(
                    9,
                    0,
                    place(0x0106, 0, 2, 0x0106),
                    place(0x0112, 0, 2, 0x0106),
                    place(0x0112, 0, 2, 0x0100),
                ),
            ],
        ),
        (
            "LIT2r 0000 JMP2r",
            vec![alone(10, 0, place(0x0103, 0, 2, 0x0100))],
        ),
        (
            "JSI =sub BRK @sub LITr 00 JMP2r",
            vec![why(
                11,
                0,
                place(0x0106, 0, 3, 0x0104),
                NOWHERE,
                place(0x0104, 0, 2, 0x0104),
            )],
        ),
        (
            // The address after the call has two depths too.
            "LIT2 0000 JSI =sub BRK @sub JCI =less JMP2r @less POP JMP2r",
            vec![
                why(
                    12,
                    0,
                    place(0x010c, 0, 2, 0x0107),
                    NOWHERE,
                    place(0x010a, 1, 2, 0x0107),
                ),
                why(
                    12,
                    0,
                    place(0x010a, 1, 2, 0x0107),
                    NOWHERE,
                    place(0x010c, 0, 2, 0x0107),
                ),
                why(
                    9,
                    0,
                    place(0x0103, 2, 0, 0x0100),
                    place(0x0106, 1, 0, 0x0100),
                    place(0x0106, 0, 0, 0x0100),
                ),
                why(
                    9,
                    0,
                    place(0x0103, 2, 0, 0x0100),
                    place(0x0106, 0, 0, 0x0100),
                    place(0x0106, 1, 0, 0x0100),
                ),
            ],
        ),
    ];
    let mut all: Vec<_> = cases
        .into_iter()
        .map(|(text, reasons)| (text, assemble(text), reasons))
        .collect();
    for (name, working, ret, text, rule) in [
        ("DUP at 255", 255, 0, "DUP BRK", 6),
        ("JSI at 254", 0, 254, "JSI 0000 BRK", 7),
    ] {
        let mut program = climb(working, ret);
        let here = place(
            0x0100 + program.len() as u16,
            working as u8,
            ret as u8,
            0x0100,
        );
        program.extend(assemble(text));
        all.push((name, program, vec![alone(rule, 256, here)]));
    }
    all
}

#[test]
fn reasons_by_name() {
    let mut admissions = Admissions::new(0);
    for (name, program, reasons) in worked() {
        assert_eq!(admissions.admit(&program), NOT_ADMITTED, "{name}");
        let told = admissions.why();
        assert!(reasons.contains(&told), "{name}: {told:04x?}");
    }
    for (name, told) in admissions.told() {
        assert!(told > 0, "{name} is never told");
    }
}

/// 0, 5, 9 and 11 as admission has them; all else is 0, but with 11.
#[test]
fn numbers() {
    let numbered = |number| Why {
        number,
        ..Why::default()
    };
    assert_eq!(explain(&[]), numbered(5));
    for length in [1, 2, ADMIT_LIMIT - 1, ADMIT_LIMIT] {
        let mut program = vec![0x00; length];
        assert_eq!(explain(&program), numbered(ADMITTED), "{length} bytes");
        program[0] = 0x02;
        let few = alone(3, 1, place(0x0100, 0, 0, 0x0100));
        assert_eq!(explain(&program), few, "{length} bytes");
    }
    for length in [ADMIT_LIMIT + 1, ADMIT_LIMIT + 2, 65_536, 70_000] {
        for first in [0x00, 0x02] {
            let mut program = vec![0x00; length];
            program[0] = first;
            assert_eq!(explain(&program), numbered(9), "{length} bytes");
        }
    }
    // The last address that there is, and the one after it.
    let mut program = [0x01; ADMIT_LIMIT];
    program[0] = 0x80;
    let last = place(0x10ff, 1, 0, 0x0100);
    let outside = why(8, 0, last, Place { at: 0x1100, ..last }, NOWHERE);
    assert_eq!(explain(&program), outside);
    program[ADMIT_LIMIT - 1] = 0x00;
    assert_eq!(explain(&program), numbered(ADMITTED));
}

/// The rule that a fault of the grammar breaks, and whether another one may be told: where the way with
/// the fault comes first, what is right on the other way looks wrong; and a return from 0100 may find
/// the return stack empty.
fn rule_of(fault: Fault) -> (u8, bool) {
    match fault {
        Fault::Recursion | Fault::LongRecursion | Fault::OtherEntry => (9, true),
        Fault::OtherRoutine | Fault::OtherDepths => (9, true),
        Fault::CallOf0100 => (9, false),
        Fault::TooDeepACall => (7, false),
        Fault::ReturnFrom0100 => (10, true),
        Fault::ReturnAboveTheFloor => (11, false),
        Fault::OtherExit => (12, true),
        Fault::BelowTheFloor | Fault::KeptBelowTheFloor => (5, false),
    }
}

#[test]
fn faults_have_their_reasons() {
    let mut admissions = Admissions::new(seed());
    let mut random = Random::new(seed());
    for fault in FAULTS {
        let (rule, others) = rule_of(fault);
        let mut told = 0;
        for _ in 0..100 {
            let length = any_length(&mut random, ADMIT_LIMIT).max(ROOM_FOR_A_FAULT);
            let program = broken(&mut random, length, fault);
            assert_eq!(admissions.admit(&program), NOT_ADMITTED, "{fault:?}");
            told += u32::from(admissions.why().rule == rule);
        }
        let least = if others { 20 } else { 100 };
        assert!(told >= least, "{fault:?}: {told} of 100 have their rule");
    }
    admissions.say_total("reasons, faults");
}

/// Programs of every kind, of which some come to both ends of the depths and some have one fault: all
/// rules are told.
#[test]
fn every_rule_is_told() {
    let mut admissions = Admissions::new(seed());
    let mut random = Random::new(seed());
    for turn in 0..20_000 {
        let length = any_length(&mut random, 1_000);
        admissions.admit(&any(&mut random, turn, length));
        let [working, ret] = [(); 2].map(|()| random.choose(&[0, 1, 5, 250, 254, 255]));
        let mut program = climb(working, ret);
        let length = 1 + random.below(40);
        program.extend(likely_bytes(&mut random, length));
        admissions.admit(&program);
        if turn % 10 == 0 {
            let fault = random.choose(&FAULTS);
            admissions.admit(&broken(&mut random, ROOM_FOR_A_FAULT, fault));
        }
    }
    admissions.say_total("reasons, every kind");
    for (name, told) in admissions.told() {
        assert!(told > 50, "{told} {name}");
    }
}

// Reasons that are not true

/// The place with the depths after its instruction.
fn after(program: &[u8], place: Place) -> Place {
    let Some(&byte) = usize::from(place.at)
        .checked_sub(0x0100)
        .and_then(|at| program.get(at))
    else {
        return place;
    };
    let sizes = sizes(byte);
    let moved = |depth: u8, taken: u32, pushed: u32| {
        let gone = if byte & 0x80 != 0 { 0 } else { taken };
        (u32::from(depth) + pushed).wrapping_sub(gone) as u8
    };
    Place {
        work: moved(place.work, sizes.taken.working, sizes.pushed.working),
        ret: moved(place.ret, sizes.taken.ret, sizes.pushed.ret),
        ..place
    }
}

type Part = fn(&mut Why) -> &mut Place;
const PARTS: [Part; 3] = [
    |why| &mut why.here,
    |why| &mut why.next,
    |why| &mut why.other,
];

/// The reason with one thing changed in each way that there is, or nearly so.
fn changes(program: &[u8], why: &Why) -> Vec<(&'static str, Why)> {
    let mut all: Vec<(&'static str, Why)> = Vec::new();
    let mut with = |name, change: &dyn Fn(&mut Why)| {
        let mut other = *why;
        change(&mut other);
        if other != *why {
            all.push((name, other));
        }
    };
    for byte in 0..=255 {
        with("number", &|why| why.number = byte);
        with("rule", &|why| why.rule = byte);
        for count in 0..=8 {
            with("rule and count", &|why| {
                (why.rule, why.count) = (byte % 16, count)
            });
        }
        for part in PARTS {
            with("working depth", &|why| part(why).work = byte);
            with("return depth", &|why| part(why).ret = byte);
        }
    }
    for number in (0..0x0400).chain(0xff00..=0xffff) {
        with("count", &|why| why.count = number);
        for part in PARTS {
            with("address", &|why| part(why).at = number);
            with("routine", &|why| part(why).routine = number);
            with("address and routine", &|why| {
                (part(why).at, part(why).routine) = (number, number)
            });
        }
    }
    for (one, part) in PARTS.into_iter().enumerate() {
        with("depths after", &|why| {
            let place = part(why);
            *place = after(program, *place);
        });
        with("no place", &|why| *part(why) = NOWHERE);
        for other in PARTS.into_iter().skip(one + 1) {
            with("places exchanged", &|why| {
                let (first, second) = (*part(why), *other(why));
                (*part(why), *other(why)) = (second, first);
            });
            with("a place told twice", &|why| *other(why) = *part(why));
            with("a place told twice", &|why| *part(why) = *other(why));
        }
    }
    all
}

/// A few of them: another rule, a neighbouring address, and those that change whole places.
fn few_changes(program: &[u8], why: &Why) -> Vec<(&'static str, Why)> {
    let addresses = |why: &Why| PARTS.map(|part| part(&mut why.clone()).at);
    let mut all = changes(program, why);
    all.retain(|(name, changed)| match *name {
        "rule" => usize::from(changed.rule) <= RULES.len(),
        "address" => {
            let pairs = addresses(why).into_iter().zip(addresses(changed));
            pairs.map(|(one, other)| one.abs_diff(other)).sum::<u16>() == 1
        }
        "depths after" | "no place" | "places exchanged" | "a place told twice" => true,
        _ => false,
    });
    all
}

/// Of the programs by name, every reason is true, and no changed one that is not among them.
#[test]
fn changed_reasons_are_seen() {
    let mut refused = 0;
    for (name, program, reasons) in worked() {
        let mut search = Search::new(&program);
        for reason in &reasons {
            assert_eq!(search.wrong(reason), None, "{name}: {reason:04x?}");
            for (change, changed) in changes(&program, reason) {
                let seen = search.wrong(&changed).is_some();
                assert!(
                    seen || reasons.contains(&changed),
                    "{name}: {change}: {changed:04x?} is not seen"
                );
                refused += u64::from(seen);
            }
        }
    }
    say(&format!("reasons, changed: {refused} are seen"));
}

/// Of programs of every kind nearly every changed reason is seen; another one may be true as well.
#[test]
fn changed_reasons_of_any_program_are_seen() {
    let mut random = Random::new(seed());
    let mut seen: BTreeMap<&str, [u64; 2]> = BTreeMap::new();
    for turn in 0..4_000 {
        let length = any_length(&mut random, 200);
        let program = any(&mut random, turn, length);
        let reason = explain(&program);
        if reason.number != NOT_ADMITTED {
            continue;
        }
        let mut search = Search::new(&program);
        for (change, changed) in few_changes(&program, &reason) {
            let [tried, seen] = seen.entry(change).or_default();
            *tried += 1;
            *seen += u64::from(search.wrong(&changed).is_some());
        }
    }
    for (change, [tried, seen]) in seen {
        say(&format!("reasons, {change}: {seen} of {tried} are seen"));
        assert!(tried > 500 && 100 * seen > 99 * tried, "{change}");
    }
}
