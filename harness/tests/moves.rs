//! Moves of sheets between the old form and the new one: short sheets of few different bytes, every
//! value of every byte, every routine, all short lists of records of every kind with their last bytes
//! cut off, long sheets, and moves there and back. The library must agree with the moves below, which
//! are written from the request alone, in the reply and in every byte of the output and beside it.

use uxn_filter_harness::calls::{OLD_SHEET_RECORD, SHEET_RECORD};
use uxn_filter_harness::library::{narrow_sheet, widen_sheet};
use uxn_filter_harness::moves::{each_of, refused, written, Due, Moves, Way};
use uxn_filter_harness::random::{seed, Random};

const FIRST_ROUTINE: u16 = 0x0100;

// The moves, a second time

#[derive(Clone, Copy)]
enum Record {
    Unmarked {
        byte: u8,
    },
    Marked {
        depths: [u8; 2],
        byte: u8,
        routine: u16,
    },
}

impl Record {
    fn from_old(bytes: &[u8]) -> Option<Record> {
        match *bytes {
            [0, 0, 0, byte] => Some(Record::Unmarked { byte }),
            [1, work, ret, byte] => Some(Record::Marked {
                depths: [work, ret],
                byte,
                routine: FIRST_ROUTINE,
            }),
            _ => None,
        }
    }

    fn from_new(bytes: &[u8]) -> Option<Record> {
        match *bytes {
            [0, 0, 0, byte, 0, 0, 0, 0] => Some(Record::Unmarked { byte }),
            [1, _, _, _, 0, 0, _, _] => None,
            [1, work, ret, byte, high, low, 0, 0] => Some(Record::Marked {
                depths: [work, ret],
                byte,
                routine: u16::from_be_bytes([high, low]),
            }),
            _ => None,
        }
    }

    fn in_old(self) -> Option<[u8; OLD_SHEET_RECORD]> {
        match self {
            Record::Unmarked { byte } => Some([0, 0, 0, byte]),
            Record::Marked {
                depths: [work, ret],
                byte,
                routine: FIRST_ROUTINE,
            } => Some([1, work, ret, byte]),
            Record::Marked { .. } => None,
        }
    }

    fn in_new(self) -> [u8; SHEET_RECORD] {
        match self {
            Record::Unmarked { byte } => [0, 0, 0, byte, 0, 0, 0, 0],
            Record::Marked {
                depths: [work, ret],
                byte,
                routine,
            } => {
                let [high, low] = routine.to_be_bytes();
                [1, work, ret, byte, high, low, 0, 0]
            }
        }
    }
}

fn due_new(sheet: &[u8]) -> Due {
    let records: Option<Vec<Record>> = sheet
        .chunks(OLD_SHEET_RECORD)
        .map(Record::from_old)
        .collect();
    Ok(records
        .ok_or(18)?
        .into_iter()
        .flat_map(Record::in_new)
        .collect())
}

fn due_old(sheet: &[u8]) -> Due {
    let records: Option<Vec<Record>> = sheet.chunks(SHEET_RECORD).map(Record::from_new).collect();
    let moved: Option<Vec<_>> = records.ok_or(18)?.into_iter().map(Record::in_old).collect();
    Ok(moved.ok_or(19)?.concat())
}

// Both side by side

const WIDEN: Way = Way {
    name: "to the new form",
    call: widen_sheet,
    due: due_new,
    size: OLD_SHEET_RECORD,
    most: |length| 2 * length,
};
const NARROW: Way = Way {
    name: "to the old form",
    call: narrow_sheet,
    due: due_old,
    size: SHEET_RECORD,
    most: |length| length / 2,
};

fn moves() -> Moves {
    Moves::new(seed(), [WIDEN, NARROW])
}

fn say_total(moves: &Moves, test: &str) {
    moves.say_total(test, &[0, 13, 18, 19]);
}

// Short sheets

#[test]
fn worked_cases() {
    let old = [1, 2, 3, 0xa0, 0, 0, 0, 0xf2];
    let new = [1, 2, 3, 0xa0, 1, 0, 0, 0, 0, 0, 0, 0xf2, 0, 0, 0, 0];
    let mut output = [7; 18];
    assert_eq!(widen_sheet(&old, &mut output), written(16));
    assert_eq!(output[..16], new);
    assert_eq!(output[16..], [7, 7]);
    let mut output = [7; 9];
    assert_eq!(narrow_sheet(&new, &mut output), written(8));
    assert_eq!(output, [1, 2, 3, 0xa0, 0, 0, 0, 0xf2, 7]);
    assert_eq!(widen_sheet(&[], &mut []), written(0));
    assert_eq!(narrow_sheet(&[], &mut []), written(0));
    let wrong: [(Way, &[u8], u8); 12] = [
        (WIDEN, &[0, 0, 0], 18),
        (WIDEN, &[2, 0, 0, 0], 18),
        (WIDEN, &[0, 1, 0, 0], 18),
        (WIDEN, &[0, 0, 1, 0], 18),
        (WIDEN, &[1, 0, 0, 0], 13),
        (NARROW, &[0, 0, 0, 0], 18),
        (NARROW, &[1, 0, 0, 0, 0, 0, 0, 0], 18),
        (NARROW, &[1, 0, 0, 0, 1, 0, 1, 0], 18),
        (NARROW, &[0, 0, 0, 0, 1, 0, 0, 0], 18),
        (
            NARROW,
            &[1, 0, 0, 0, 2, 0, 0, 0, 2, 0, 0, 0, 1, 0, 0, 0],
            18,
        ),
        (NARROW, &[1, 0, 0, 0, 2, 0, 0, 0], 19),
        (NARROW, &[1, 0, 0, 0, 1, 0, 0, 0], 13),
    ];
    for (way, sheet, number) in wrong {
        let mut output = [7; 3];
        assert_eq!(
            (way.call)(sheet, &mut output),
            refused(number),
            "{sheet:02x?}"
        );
        assert_eq!(output, [7; 3], "{sheet:02x?}");
    }
}

#[test]
fn short_sheets_of_few_different_bytes() {
    let mut moves = moves();
    for length in 0..=8 {
        each_of(&[0, 1, 2], length, |sheet| moves.both(sheet));
    }
    for length in 9..=16 {
        each_of(&[0, 1], length, |sheet| moves.both(sheet));
    }
    // All lengths: one byte at a time is another one.
    for length in 0..=40 {
        for fill in [0, 1] {
            let mut sheet = vec![fill; length];
            moves.both(&sheet);
            for place in 0..length {
                for byte in [0, 1, 2, 255] {
                    sheet[place] = byte;
                    moves.both(&sheet);
                }
                sheet[place] = fill;
            }
        }
    }
    say_total(&moves, "short sheets");
}

#[test]
fn every_value_of_every_byte() {
    let mut moves = moves();
    let sheets: [&[u8]; 6] = [
        &[0, 0, 0, 9],
        &[1, 200, 255, 9],
        &[1, 2, 3, 4, 0, 0, 0, 9],
        &[0, 0, 0, 9, 0, 0, 0, 0],
        &[1, 200, 255, 9, 1, 0, 0, 0],
        &[0, 0, 0, 9, 0, 0, 0, 0, 1, 200, 255, 9, 1, 0, 0, 0],
    ];
    for sheet in sheets {
        let mut changed = sheet.to_vec();
        for place in 0..sheet.len() {
            for byte in 0..=255 {
                changed[place] = byte;
                moves.both(&changed);
            }
            changed[place] = sheet[place];
        }
    }
    say_total(&moves, "every byte");
}

#[test]
fn every_routine() {
    let mut moves = moves();
    for routine in 0..=u16::MAX {
        let [high, low] = routine.to_be_bytes();
        for mark in [0, 1] {
            moves.compare(NARROW, &[mark, 0, 0, 5, high, low, 0, 0], OLD_SHEET_RECORD);
        }
    }
    assert_eq!(moves.seen[0], 2, "unmarked with 0, marked with 0100");
    assert_eq!(
        moves.seen[19], 65_534,
        "marked with another than 0 and 0100"
    );
}

// Lists of records

/// Records of the old form, the first three good.
const OLD: [[u8; OLD_SHEET_RECORD]; 7] = [
    [0, 0, 0, 0x80],
    [1, 0, 0, 0x80],
    [1, 255, 254, 0],
    [2, 0, 0, 0],
    [255, 1, 1, 1],
    [0, 1, 0, 0],
    [0, 0, 1, 0],
];

/// Records of the new form, the first three good; the next three can not go back.
const NEW: [[u8; SHEET_RECORD]; 13] = [
    [0, 0, 0, 0x80, 0, 0, 0, 0],
    [1, 0, 0, 0x80, 1, 0, 0, 0],
    [1, 255, 254, 0, 1, 0, 0, 0],
    [1, 0, 0, 0x80, 2, 0, 0, 0],
    [1, 0, 0, 0x80, 1, 1, 0, 0],
    [1, 0, 0, 0x80, 0, 1, 0, 0],
    [1, 0, 0, 0x80, 0, 0, 0, 0],
    [1, 0, 0, 0x80, 1, 0, 1, 0],
    [1, 0, 0, 0x80, 1, 0, 0, 1],
    [2, 0, 0, 0x80, 1, 0, 0, 0],
    [0, 0, 2, 0x80, 0, 0, 0, 0],
    [0, 0, 0, 0x80, 1, 0, 0, 0],
    [0, 0, 0, 0x80, 0, 0, 0, 1],
];

#[test]
fn lists_of_records_of_every_kind() {
    let mut moves = moves();
    let old: Vec<&[u8]> = OLD.iter().map(|record| &record[..]).collect();
    let new: Vec<&[u8]> = NEW.iter().map(|record| &record[..]).collect();
    moves.each_list(WIDEN, &old, 3);
    moves.each_list(NARROW, &new, 3);
    say_total(&moves, "lists of records");
}

// Long sheets, there and back

/// A good record of the old form.
fn good(random: &mut Random) -> [u8; OLD_SHEET_RECORD] {
    let [work, ret, byte] = [random.byte(), random.byte(), random.byte()];
    if random.one_in(2) {
        [1, work, ret, byte]
    } else {
        [0, 0, 0, byte]
    }
}

#[test]
fn long_sheets_there_and_back() {
    let seed = seed();
    let mut moves = moves();
    let mut random = Random::new(seed);
    for round in 0..600 {
        // Few records, some thousands, and once more than 65,536.
        let count = match round {
            0 => 70_000,
            1..=20 => 4_000 + random.below(200),
            _ => random.below(40),
        };
        let old: Vec<u8> = (0..count).flat_map(|_| good(&mut random)).collect();
        let room = 2 * old.len() + random.below(20);
        let new = moves
            .moved(WIDEN, &old, room)
            .expect("a good sheet is moved");
        let room = old.len() + random.below(20);
        let back = moves.moved(NARROW, &new, room).expect("and goes back");
        assert!(back == old, "seed {seed}, round {round}: there and back");
        if count == 0 {
            continue;
        }
        moves.compare(WIDEN, &old, 2 * old.len() - 1);
        moves.compare(NARROW, &new, old.len() - 1);
        // A byte somewhere is another one.
        for _ in 0..4 {
            let mut changed = old.clone();
            let place = random.below(changed.len());
            changed[place] = random.byte();
            moves.compare(WIDEN, &changed, 2 * changed.len());
            let mut changed = new.clone();
            let place = random.below(changed.len());
            changed[place] = random.choose(&[0, 1, 2, 3, 255]);
            if let Ok(narrow) = moves.moved(NARROW, &changed, changed.len()) {
                let again = moves.moved(WIDEN, &narrow, changed.len());
                assert!(
                    again == Ok(changed),
                    "seed {seed}, round {round}: back and there"
                );
            }
        }
    }
    say_total(&moves, &format!("long sheets, seed {seed}"));
}
