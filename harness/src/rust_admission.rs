//! An admission in safe Rust for the speed comparison: it follows the program as far as it is not
//! marked, with the marks in the sheet and a list of the places still to be followed: targets of
//! branches, and addresses after calls. A call whose routine has no return yet waits for one. An address
//! is looked at once, when it is marked, and a call waits at most once.

use std::mem;
use std::num::NonZero;

use crate::calls::{ADMIT_LIMIT, PROGRAM_START, SHEET_RECORD};

#[derive(Clone, Copy, PartialEq, Eq)]
enum Way {
    Forbidden,
    Nowhere,
    On,
    Target,
    Both,
    Call,
    Return,
}

/// What an instruction does to both depths: bytes that it takes, which must be there, and bytes by
/// which it leaves more than is then left; with keep these are its operands too.
#[derive(Clone, Copy)]
struct Row {
    taken: [u8; 2],
    given: [u8; 2],
    length: u8,
    way: Way,
}

/// Bytes that a call pushes.
const RETURN_ADDRESS: u8 = 2;

static ROWS: [Row; 256] = rows();

const fn rows() -> [Row; 256] {
    let mut rows = [row(0); 256];
    let mut byte = 1;
    while byte < 256 {
        rows[byte] = row(byte as u8);
        byte += 1;
    }
    rows
}

/// That of a return takes nothing: it stands at the floor of its routine, and ends there.
const fn row(byte: u8) -> Row {
    let n = 1 + (byte >> 5 & 1);
    let main = (byte >> 6 & 1) as usize;
    let mut row = Row {
        taken: [0; 2],
        given: [0; 2],
        length: 1,
        way: Way::On,
    };
    if byte & 0x1f == 0 {
        match byte {
            0x00 => row.way = Way::Nowhere,
            0x20 => {
                row.taken[0] = 1;
                row.length = 3;
                row.way = Way::Both;
            }
            0x40 => {
                row.length = 3;
                row.way = Way::Target;
            }
            0x60 => {
                row.given[1] = RETURN_ADDRESS;
                row.length = 3;
                row.way = Way::Call;
            }
            _ => {
                row.given[main] = n;
                row.length = 1 + n;
            }
        }
        return row;
    }
    if byte == 0x6c {
        row.way = Way::Return;
        return row;
    }
    let (taken, pushed) = match byte & 0x1f {
        0x01 => (n, n),
        0x02 | 0x0f => (n, 0),
        0x03 | 0x18..=0x1e => (2 * n, n),
        0x04 => (2 * n, 2 * n),
        0x05 => (3 * n, 3 * n),
        0x06 => (n, 2 * n),
        0x07 => (2 * n, 3 * n),
        0x08..=0x0b => (2 * n, 1),
        0x10 | 0x12 | 0x16 => (1, n),
        0x11 | 0x17 => (n + 1, 0),
        0x14 => (2, n),
        0x1f => (n + 1, n),
        _ => (0, 0),
    };
    row.taken[main] = taken;
    row.given[main] = pushed;
    if byte & 0x80 != 0 {
        row.given[main] += taken;
    }
    match byte & 0x1f {
        0x0f => row.given[1 - main] = n,
        0x0c | 0x0d | 0x0e | 0x13 | 0x15 => row.way = Way::Forbidden,
        _ => {}
    }
    row
}

/// Answers 0 if the program is admitted, else the number.
pub fn admit(program: &[u8], sheet: &mut [u8]) -> u8 {
    if program.is_empty() {
        return 5;
    }
    if program.len() > ADMIT_LIMIT {
        return 9;
    }
    if sheet.len() != SHEET_RECORD * program.len() {
        return 10;
    }
    let (records, _) = sheet.as_chunks_mut::<SHEET_RECORD>();
    for (record, &byte) in records.iter_mut().zip(program) {
        *record = unmarked(byte);
    }
    match mark_reached(program, records) {
        Some(()) => 0,
        None => {
            sheet.fill(0);
            11
        }
    }
}

type Record = [u8; SHEET_RECORD];

/// The place of the byte in a record that is taken as one number.
const BYTE: u32 = 24;

/// As one number, which is stored at once.
fn unmarked(byte: u8) -> Record {
    (u64::from(byte) << BYTE).to_le_bytes()
}

/// A marked record without its byte, as one number: compared and stored at once.
fn marked(working: u8, ret: u8, routine: usize) -> u64 {
    let [high, low] = PROGRAM_START.wrapping_add(routine as u16).to_be_bytes();
    u64::from_le_bytes([1, working, ret, 0, high, low, 0, 0])
}

/// The place of the routine in a marked record.
fn routine_of(record: Record) -> usize {
    let [.., high, low, _, _] = record;
    usize::from(u16::from_be_bytes([high, low]) - PROGRAM_START)
}

/// Nothing if a rule fails.
fn mark_reached(program: &[u8], records: &mut [Record]) -> Option<()> {
    let mut search = Search {
        program,
        records,
        calls: Calls::default(),
        list: Vec::new(),
    };
    search.reach(0, 0, 0, 0)?;
    while let Some(place) = search.list.pop() {
        search.follow(place)?;
    }
    Some(())
}

/// Calls and returns, by place. There is none as long as no call waits.
#[derive(Default)]
struct Calls {
    /// The working depth of a routine's returns, once one has been found.
    exits: Vec<Option<u8>>,
    /// Until then: the place after the last call of the routine, which waits.
    waiting: Vec<Option<NonZero<u16>>>,
    /// For each call that waits: the place after the one that has waited before it.
    before: Vec<Option<NonZero<u16>>>,
}

impl Calls {
    fn new(places: usize) -> Calls {
        Calls {
            exits: vec![None; places],
            waiting: vec![None; places],
            before: vec![None; places],
        }
    }
}

struct Search<'a> {
    program: &'a [u8],
    records: &'a mut [Record],
    calls: Calls,
    /// Places that are marked and still to be followed.
    list: Vec<usize>,
}

impl Search<'_> {
    /// Goes on from a marked place as far as nothing is marked.
    fn follow(&mut self, mut place: usize) -> Option<()> {
        let [_, mut working, mut ret, ..] = self.records[place];
        let mut routine = routine_of(self.records[place]);
        let mut floor = self.records[routine][2];
        loop {
            let row = &ROWS[usize::from(self.program[place])];
            let after = place + usize::from(row.length);
            if after > self.program.len() || ret - floor < row.taken[1] {
                return None;
            }
            working = working
                .checked_sub(row.taken[0])?
                .checked_add(row.given[0])?;
            ret = (ret - row.taken[1]).checked_add(row.given[1])?;
            let next = match row.way {
                Way::Forbidden => return None,
                Way::Nowhere => return Some(()),
                Way::On => after,
                Way::Target => self.target(after),
                Way::Both => {
                    self.reach(self.target(after), working, ret, routine)?;
                    after
                }
                Way::Call => {
                    let called = self.target(after);
                    if self.mark(called, working, ret, called)? {
                        self.wait(called, after);
                        (place, routine, floor) = (called, called, ret);
                        continue;
                    }
                    let Some(exit) = self.calls.exits[called] else {
                        self.wait(called, after);
                        return Some(());
                    };
                    working = exit;
                    ret -= RETURN_ADDRESS;
                    after
                }
                Way::Return if routine == 0 || ret != floor => return None,
                Way::Return => return self.leave(routine, working),
            };
            if !self.mark(next, working, ret, routine)? {
                return Some(());
            }
            place = next;
        }
    }

    /// The target of a jump, by the offset before `after`. One below 0100 becomes a place far past the
    /// program.
    fn target(&self, after: usize) -> usize {
        let offset = u16::from_be_bytes([self.program[after - 2], self.program[after - 1]]);
        usize::from((after as u16).wrapping_add(offset))
    }

    /// Whether the place is marked only now; nothing if it is outside, or has other depths or another
    /// routine.
    fn mark(&mut self, place: usize, working: u8, ret: u8, routine: usize) -> Option<bool> {
        let record = self.records.get_mut(place)?;
        let marked = marked(working, ret, routine);
        let found = u64::from_le_bytes(*record);
        if record[0] == 0 {
            *record = (found | marked).to_le_bytes();
            return Some(true);
        }
        (found & !(0xff << BYTE) == marked).then_some(false)
    }

    /// Marks the place; it is followed later.
    fn reach(&mut self, place: usize, working: u8, ret: u8, routine: usize) -> Option<()> {
        if self.mark(place, working, ret, routine)? {
            self.list.push(place);
        }
        Some(())
    }

    /// The call before `after` waits for a return of its routine.
    fn wait(&mut self, routine: usize, after: usize) {
        if self.calls.exits.is_empty() {
            self.calls = Calls::new(self.program.len());
        }
        let last = &mut self.calls.waiting[routine];
        self.calls.before[after - 3] = mem::replace(last, NonZero::new(after as u16));
    }

    /// A return from the routine, with this working depth: the calls that wait go on.
    fn leave(&mut self, routine: usize, working: u8) -> Option<()> {
        if let Some(exit) = self.calls.exits[routine] {
            return (exit == working).then_some(());
        }
        self.calls.exits[routine] = Some(working);
        let mut waiting = self.calls.waiting[routine];
        while let Some(after) = waiting {
            let after = usize::from(after.get());
            let call = self.records[after - 3];
            self.reach(after, working, call[2], routine_of(call))?;
            waiting = self.calls.before[after - 3];
        }
        Some(())
    }
}
