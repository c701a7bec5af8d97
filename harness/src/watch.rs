//! Demand 3, watched: a filter that the library has installed gets a list of frame calls, and installs
//! that are refused among them. Each frame call is made once as a whole and once step by step from the
//! same state; before each step counter, pointers, stacks and the filter's bytes are held against the
//! sheet as the first install wrote it. The subroutine calls that are open are kept: they say in which
//! routine the counter is, and where each 6C has to land. After each call the high marks are held against
//! the greatest depths of the sheet. No port is watched here: frame calls watch nothing.

use crate::admissions::shown;
use crate::calls::{
    refused, Buffers, Machine, Owned, Reply, ADMITTED, ADMIT_LIMIT, BROKE, LOADED, MEMORY, PAGE,
    PROGRAM_LIMIT, PROGRAM_START, RECORD, SHEET_RECORD, SPENT,
};
use crate::filters::{any, any_length};
use crate::library;
use crate::opcodes::{JMP2R, JSI};
use crate::pair::RIGHT_LENGTHS;
use crate::programs::random_bytes;
use crate::random::Random;
use crate::second_admission::{admit, sizes, Sizes};

/// The frame record's place in memory, and the verdict's port.
const RECORD_AT: usize = 0x80;
const VERDICT: usize = 0xf2;
const START: usize = PROGRAM_START as usize;
/// What stands in machine and sheet before the first install.
const FOUND: u8 = 0xa5;

/// What does not hold, in words.
pub type Watched<T> = Result<T, String>;

pub struct Watch {
    program: Vec<u8>,
    /// As the install wrote it: a value that no later call reaches.
    sheet: Vec<u8>,
    /// The buffer that the install was lent for it; a later one may be lent it again.
    pub sheet_lent: Vec<u8>,
    pub machine: Machine,
    pub own: Owned,
    /// The copy that is stepped.
    stepped: Owned,
    /// Steps before each of which everything was looked at.
    pub steps: u64,
    /// Steps among them with a 6C that landed just after its call.
    pub returns: u64,
    /// The most calls that were open at a step.
    pub deepest: usize,
    /// Calls after which the mark of a stack was its greatest depth, and that was not 0.
    pub at_greatest: [u64; 2],
    /// Refused installs that were lent another buffer of the right length in place of the machine's.
    pub others_lent: u64,
}

/// What is lent in place of each of the machine's own buffers, if anything is.
pub type Instead = [Option<Vec<u8>>; 4];

/// An install that is offered to a machine with a filter.
#[derive(Clone)]
pub struct Offer {
    pub program: Vec<u8>,
    /// None: the buffer that holds the sheet of that filter.
    pub sheet: Option<Vec<u8>>,
    pub instead: Instead,
}

/// A subroutine call that is open.
#[derive(Clone, Copy)]
struct OpenCall {
    routine: u16,
    /// The address just after the JSI.
    back: u16,
}

/// Number 7 or 8, if the record earns it on right buffers.
fn record_refusal(record: &[u8]) -> Option<u8> {
    if record.len() != RECORD {
        return Some(7);
    }
    let past_the_data = usize::from(record[0]) + 2;
    let good = past_the_data <= RECORD && record[past_the_data..].iter().all(|&byte| byte == 0);
    (!good).then_some(8)
}

fn hold(held: bool, what: impl FnOnce() -> String) -> Watched<()> {
    if held {
        Ok(())
    } else {
        Err(what())
    }
}

/// A stack goes round where more is taken than is there, keep reads too, or where pushes pass 255.
fn wraps(pointer: u8, taken: u32, keep: bool, pushed: u32) -> bool {
    let pointer = u32::from(pointer);
    taken > pointer || pointer - if keep { 0 } else { taken } + pushed > 255
}

impl Watch {
    /// The program installed by the library, with the sheet that the install wrote.
    pub fn admitted(program: &[u8]) -> Watched<Watch> {
        let mut sheet = vec![FOUND; SHEET_RECORD * program.len()];
        Watch::started(program, |machine, lent| {
            let reply = library::install(machine, lent, program, &mut sheet);
            (reply, sheet)
        })
    }

    /// The program loaded by the library, admitted or not, with any sheet: to see what the watch sees.
    pub fn with_sheet(program: &[u8], sheet: Vec<u8>) -> Watched<Watch> {
        Watch::started(program, |machine, lent| {
            (library::load(machine, lent, program), sheet)
        })
    }

    /// The machine after `call`, which answers with the sheet.
    fn started(
        program: &[u8],
        call: impl FnOnce(Machine, Buffers) -> (Reply, Vec<u8>),
    ) -> Watched<Watch> {
        let mut own = Owned::new();
        let Buffers {
            memory,
            device_page,
            working,
            ret,
        } = own.lend();
        for buffer in [memory, device_page, working, ret] {
            buffer.fill(FOUND);
        }
        let machine = Machine {
            wp_high: FOUND,
            rp_high: FOUND,
            ..Machine::at(FOUND.into(), FOUND, FOUND)
        };
        let (reply, sheet) = call(machine, own.lend());
        hold(reply.answer == LOADED, || {
            format!("refused with {}", reply.number)
        })?;
        Ok(Watch {
            program: program.to_vec(),
            sheet_lent: sheet.clone(),
            sheet,
            machine: reply.machine,
            stepped: own.clone(),
            own,
            steps: 0,
            returns: 0,
            deepest: 0,
            at_greatest: [0; 2],
            others_lent: 0,
        })
    }

    /// The program, to be shown where something does not hold.
    pub fn shown(&self) -> String {
        shown(&self.program)
    }

    /// Random bytes into zero page, device page and stacks: all of one of them, or a few.
    pub fn put_bytes(&mut self, random: &mut Random) {
        let zero_page = &mut self.own.memory[..START];
        let parts = [
            zero_page,
            &mut self.own.device_page,
            &mut self.own.working,
            &mut self.own.ret,
        ];
        for part in parts {
            match random.below(4) {
                0 => random.fill(part),
                1 => part[random.below(PAGE)] = random.byte(),
                2 => part.fill(random.choose(&[0x00, 0xff])),
                _ => {}
            }
        }
    }

    /// One frame call in the machine's own buffers.
    pub fn frame(&mut self, record: &[u8], budget: u32) -> Watched<Reply> {
        self.stepped.copy_from(&self.own);
        let before = self.machine;
        let reply = library::frame(before, self.own.lend(), record, budget);
        let expected = match record_refusal(record) {
            Some(number) => refused(before, number),
            None => self.frame_by_steps(record, budget)?,
        };
        hold(reply == expected, || {
            format!("one call answers {reply:x?}\n  its steps {expected:x?}")
        })?;
        hold(self.own == self.stepped, || {
            "one call leaves other bytes than its steps".to_owned()
        })?;
        self.machine = reply.machine;
        self.filter_stands(&self.own.memory, "after the call")?;
        self.marks_in_sheet()?;
        Ok(reply)
    }

    /// "each is at most the greatest depth in its sheet column", which byte 1 of a record is for the
    /// working stack, and byte 2 for the return stack.
    fn marks_in_sheet(&mut self) -> Watched<()> {
        let marks = [self.machine.wp_high, self.machine.rp_high];
        for (stack, mark) in marks.into_iter().enumerate() {
            let records = self.sheet.chunks_exact(SHEET_RECORD);
            let greatest = records.map(|record| record[1 + stack]).max().unwrap_or(0);
            hold(mark <= greatest, || {
                format!("after the call a high mark is {mark}, and its greatest depth {greatest}")
            })?;
            self.at_greatest[stack] += u64::from(mark == greatest && mark > 0);
        }
        Ok(())
    }

    /// The frame's steps on the copy, set up as document 01 says.
    fn frame_by_steps(&mut self, record: &[u8], budget: u32) -> Watched<Reply> {
        self.stepped.device_page[VERDICT] = 0;
        self.stepped.memory[RECORD_AT..RECORD_AT + RECORD].copy_from_slice(record);
        let mut machine = Machine::at(PROGRAM_START, 0, 0);
        let mut open = Vec::new();
        let mut steps = 0;
        let mut answer = SPENT;
        while steps < budget && answer == SPENT {
            let byte = self.before_step(machine, &open)?;
            let reply = library::step(machine, self.stepped.lend());
            self.after_step(machine.pc, byte, reply.machine.pc, &mut open)?;
            // The marks as the pointers say, whatever the step replied.
            machine = Machine {
                wp_high: machine.wp_high.max(reply.machine.wp),
                rp_high: machine.rp_high.max(reply.machine.rp),
                ..reply.machine
            };
            steps += 1;
            self.steps += 1;
            if reply.answer == BROKE {
                answer = BROKE;
            }
        }
        let verdict = match answer {
            BROKE => self.stepped.device_page[VERDICT],
            _ => 0,
        };
        Ok(Reply {
            steps,
            answer,
            verdict,
            ..refused(machine, 0)
        })
    }

    /// What demand 3 says before every step; its instruction byte.
    fn before_step(&self, machine: Machine, open: &[OpenCall]) -> Watched<u8> {
        self.filter_stands(&self.stepped.memory, "before a step")?;
        let Machine { pc, wp, rp, .. } = machine;
        let place = usize::from(pc).checked_sub(START);
        let record = place.and_then(|place| self.sheet.chunks_exact(SHEET_RECORD).nth(place));
        let Some(&[1, working, ret, _, high, low, 0, 0]) = record else {
            return Err(format!("the counter is at {pc:04x}, which is not marked"));
        };
        hold((wp, rp) == (working, ret), || {
            format!("at {pc:04x} the pointers are {wp}, {rp} and the depths {working}, {ret}")
        })?;
        let marked = u16::from_be_bytes([high, low]);
        let routine = open.last().map_or(PROGRAM_START, |call| call.routine);
        hold(routine == marked, || {
            format!(
                "at {pc:04x} the calls lead to routine {routine:04x}, and {marked:04x} is marked"
            )
        })?;
        let byte = self.stepped.memory[usize::from(pc)];
        let keep = byte & 0x80 != 0;
        let Sizes { taken, pushed, .. } = sizes(byte);
        let goes_round = wraps(wp, taken.working, keep, pushed.working)
            || wraps(rp, taken.ret, keep, pushed.ret);
        hold(!goes_round, || {
            format!("at {pc:04x} byte {byte:02x} wraps a stack, pointers {wp}, {rp}")
        })?;
        Ok(byte)
    }

    /// "each 6C lands just after its call": the last one that is open.
    fn after_step(
        &mut self,
        from: u16,
        byte: u8,
        to: u16,
        open: &mut Vec<OpenCall>,
    ) -> Watched<()> {
        match byte {
            JSI => {
                let back = from.wrapping_add(3);
                open.push(OpenCall { routine: to, back });
                self.deepest = self.deepest.max(open.len());
            }
            JMP2R => {
                let Some(OpenCall { back, .. }) = open.pop() else {
                    return Err(format!("the 6c at {from:04x} has no call"));
                };
                hold(to == back, || {
                    format!("the 6c at {from:04x} lands at {to:04x}, and not at {back:04x} after its call")
                })?;
                self.returns += 1;
            }
            _ => {}
        }
        Ok(())
    }

    fn filter_stands(&self, memory: &[u8], when: &str) -> Watched<()> {
        let there = &memory[START..START + self.program.len()];
        hold(there == self.program, || {
            format!("{when} a byte of the filter is not the one loaded")
        })
    }

    /// One frame call that is lent buffers of wrong length in place of one or more of the four.
    pub fn frame_in_wrong_buffers(
        &mut self,
        random: &mut Random,
        record: &[u8],
        budget: u32,
    ) -> Watched<Reply> {
        let chosen = 1 + random.below(15);
        let mut instead = std::array::from_fn(|place| {
            (chosen >> place & 1 == 1).then(|| of_wrong_length(random, RIGHT_LENGTHS[place]))
        });
        let number = 1 + chosen.trailing_zeros() as u8;
        self.refused_call(number, &mut instead, |machine, lent| {
            library::frame(machine, lent, record, budget)
        })
    }

    /// C-15: "allows refused calls of this kind among the frame calls": one install that is refused.
    pub fn refused_install(&mut self, random: &mut Random) -> Watched<Reply> {
        loop {
            let offer = any_offer(random, self.program.len());
            if let Some(reply) = self.install_by(library::install, offer)? {
                return Ok(reply);
            }
        }
    }

    /// One install by `call`, which has to refuse it. An offer that is not to be refused has no place in
    /// the list: it is not made, and there is no reply.
    pub fn install_by(
        &mut self,
        call: impl Fn(Machine, Buffers, &[u8], &mut [u8]) -> Reply,
        offer: Offer,
    ) -> Watched<Option<Reply>> {
        let Offer {
            program,
            sheet: other,
            mut instead,
        } = offer;
        let mut sheet = other.clone().unwrap_or_else(|| self.sheet_lent.clone());
        let mut expected = sheet.clone();
        let number = match wrong_buffer(&instead) {
            Some(number) => number,
            None => admit(&program, &mut expected),
        };
        if number == ADMITTED {
            return Ok(None);
        }
        let reply = self.refused_call(number, &mut instead, |machine, lent| {
            call(machine, lent, &program, &mut sheet)
        })?;
        hold(sheet == expected, || {
            format!("an install refused with {number} leaves another sheet")
        })?;
        if other.is_none() {
            self.sheet_lent = sheet;
        }
        let lent = instead.iter().flatten();
        self.others_lent += u64::from(wrong_buffer(&instead).is_none() && lent.count() > 0);
        Ok(Some(reply))
    }

    /// A call that is refused with this number changes no byte that it is lent, nor the machine's own.
    fn refused_call(
        &mut self,
        number: u8,
        instead: &mut Instead,
        call: impl FnOnce(Machine, Buffers) -> Reply,
    ) -> Watched<Reply> {
        let found = instead.clone();
        self.stepped.copy_from(&self.own);
        let before = self.machine;

        let [memory, device_page, working, ret] = &mut *instead;
        let own = self.own.lend();
        let lent = Buffers {
            memory: memory.as_deref_mut().unwrap_or(own.memory),
            device_page: device_page.as_deref_mut().unwrap_or(own.device_page),
            working: working.as_deref_mut().unwrap_or(own.working),
            ret: ret.as_deref_mut().unwrap_or(own.ret),
        };
        let reply = call(before, lent);

        let expected = refused(before, number);
        hold(reply == expected, || {
            format!("a call to be refused answers {reply:x?}\n  in place of {expected:x?}")
        })?;
        hold(self.own == self.stepped && *instead == found, || {
            "a refused call changed a byte".to_owned()
        })?;
        self.filter_stands(&self.own.memory, "after a refused call")?;
        self.marks_in_sheet()?;
        Ok(reply)
    }
}

/// Numbers 1 to 4: the first buffer of wrong length.
fn wrong_buffer(instead: &Instead) -> Option<u8> {
    let mut numbered = (1..).zip(instead.iter().zip(RIGHT_LENGTHS));
    let wrong = numbered.find(|(_, (lent, right))| {
        let length = lent.as_ref().map(Vec::len);
        length.is_some_and(|length| length != *right)
    });
    wrong.map(|(number, _)| number)
}

fn of_wrong_length(random: &mut Random, right: usize) -> Vec<u8> {
    let length = random.choose(&[0, 1, right - 1, right + 1, PAGE + MEMORY - right]);
    random_bytes(random, length, true)
}

/// Any install: programs of every kind and length, sheets of right and wrong length and that of the
/// filter that runs, which has `running` bytes; own buffers, others, and others of wrong length.
fn any_offer(random: &mut Random, running: usize) -> Offer {
    let length = match random.below(8) {
        0 => 0,
        1 => random.choose(&[ADMIT_LIMIT + 1, PROGRAM_LIMIT, PROGRAM_LIMIT + 1, 70_000]),
        2..=4 => running,
        _ => any_length(random, ADMIT_LIMIT),
    };
    let turn = random.below(8);
    let program = match length {
        1..=ADMIT_LIMIT => any(random, turn, length),
        _ => random_bytes(random, length, true),
    };
    let right = SHEET_RECORD * program.len();
    let sheet = match random.below(6) {
        0 | 1 => None,
        2 => {
            let lengths = [
                0,
                1,
                right.saturating_sub(1),
                right + 1,
                right / 2,
                2 * right,
            ];
            Some(random.choose(&lengths))
        }
        _ => Some(right),
    };
    let sheet = sheet.map(|length| random_bytes(random, length, true));
    // In half of them all four are the machine's own.
    let all_own = random.one_in(2);
    let instead = RIGHT_LENGTHS.map(|right| match random.below(4) {
        _ if all_own => None,
        0 => Some(of_wrong_length(random, right)),
        1 | 2 => Some(random_bytes(random, right, true)),
        _ => None,
    });
    Offer {
        program,
        sheet,
        instead,
    }
}

/// A record: good ones of every length, and others of wrong length or form.
pub fn any_record(random: &mut Random) -> Vec<u8> {
    let length = random.below(RECORD - 1);
    let mut record = vec![0; RECORD];
    random.fill(&mut record[..2 + length]);
    record[0] = length as u8;
    match random.below(20) {
        0 => record.truncate(random.below(RECORD)),
        1 => record.resize(RECORD + 1 + random.below(RECORD), 0),
        2 => record[0] = random.byte(),
        3 => record[RECORD - 1] = random.byte(),
        _ => {}
    }
    record
}
