//! Whether a reason is true of a program: the place that it names is reached from 0100 with those
//! depths and in that routine, and the rule fails there. A search of its own goes over all ways from
//! 0100, an address with several depths or routines too; of each instruction it asks only the rules
//! that speak of it alone. It goes by the sizes of the second admission, and shares nothing else with
//! it or with the library.

use std::collections::BTreeMap;

use crate::calls::{Place, Why};
use crate::second_admission::{forbidden, sizes};

const FIRST: u16 = 0x0100;
const DEEPEST: u32 = 255;

const BRK: u8 = 0x00;
const JCI: u8 = 0x20;
const JMI: u8 = 0x40;
const JSI: u8 = 0x60;
const RETURN: u8 = 0x6c;

/// Places that a search visits, at most; an address may have millions of them. A way that goes by few
/// addresses twice is found long before.
const MOST: usize = 20_000;

/// The rules, in the order of their numbers, from 1.
pub const RULES: [&str; 12] = [
    "cut",
    "forbidden",
    "few working",
    "few return",
    "below floor",
    "many working",
    "many return",
    "outside",
    "ways differ",
    "return in 0100",
    "return off floor",
    "returns differ",
];

const NOWHERE: Place = Place {
    at: 0,
    work: 0,
    ret: 0,
    routine: 0,
};

/// The depth of a stack after an instruction that takes and pushes so many bytes.
fn after(before: u8, taken: u32, keep: bool, pushed: u32) -> u32 {
    let gone = if keep { 0 } else { taken };
    u32::from(before).saturating_sub(gone) + pushed
}

/// The instruction at a place, and what its sizes make of the depths.
struct Instruction {
    byte: u8,
    length: u32,
    /// Bytes that it takes of the working stack and of the return stack.
    takes: [u32; 2],
    /// The depths after it.
    leaves: [u32; 2],
    /// The address after it.
    next: u16,
    /// Where JCI, JMI and JSI go.
    target: u16,
}

pub struct Search<'a> {
    program: &'a [u8],
    /// The places that a way leads to, in the order in which they are found.
    found: Vec<Place>,
    /// The same, for each address of the program.
    at: Vec<Vec<Place>>,
    /// So many of them are visited.
    visited: usize,
    /// The calls that were visited, for each routine.
    calls: BTreeMap<u16, Vec<Place>>,
    /// The working depths of the returns that were visited, for each routine.
    returns: BTreeMap<u16, Vec<u8>>,
}

impl Search<'_> {
    pub fn new(program: &[u8]) -> Search<'_> {
        let mut search = Search {
            program,
            found: Vec::new(),
            at: vec![Vec::new(); program.len()],
            visited: 0,
            calls: BTreeMap::new(),
            returns: BTreeMap::new(),
        };
        search.find(Place {
            at: FIRST,
            work: 0,
            ret: 0,
            routine: FIRST,
        });
        search
    }

    fn within(&self, address: u16) -> bool {
        FIRST <= address && usize::from(address - FIRST) < self.program.len()
    }

    /// The byte there; 0 past the end, for the offset of a cut jump, which is never gone.
    fn byte(&self, address: u16) -> u8 {
        let place = usize::from(address - FIRST);
        self.program.get(place).copied().unwrap_or(0)
    }

    fn instruction(&self, place: Place) -> Instruction {
        let byte = self.byte(place.at);
        let sizes = sizes(byte);
        let keep = byte & 0x80 != 0;
        let next = place.at + sizes.length as u16;
        let [high, low] = [1, 2].map(|more| u16::from(self.byte(place.at + more)));
        Instruction {
            byte,
            length: sizes.length,
            takes: [sizes.taken.working, sizes.taken.ret],
            leaves: [
                after(place.work, sizes.taken.working, keep, sizes.pushed.working),
                after(place.ret, sizes.taken.ret, keep, sizes.pushed.ret),
            ],
            next,
            target: next.wrapping_add(256 * high + low),
        }
    }

    /// The program ends before the last byte of the instruction.
    fn is_cut(&self, place: Place, instruction: &Instruction) -> bool {
        let first = usize::from(place.at - FIRST);
        first + instruction.length as usize > self.program.len()
    }

    /// The rules that speak of one instruction alone hold there.
    fn passes(&self, place: Place, instruction: &Instruction) -> bool {
        let [working, ret] = instruction.takes;
        !self.is_cut(place, instruction)
            && !forbidden(instruction.byte)
            && working <= u32::from(place.work)
            && ret <= u32::from(place.ret)
            && instruction.leaves.iter().all(|depth| *depth <= DEEPEST)
    }

    /// Where an instruction that passes goes on, but for what a call and its returns lead to.
    fn steps(&self, place: Place, instruction: &Instruction) -> Vec<Place> {
        let [work, ret] = instruction.leaves.map(|depth| depth as u8);
        let to = |at, routine| Place {
            at,
            work,
            ret,
            routine,
        };
        let Instruction { next, target, .. } = *instruction;
        let routine = place.routine;
        match instruction.byte {
            BRK | RETURN => vec![],
            JCI => vec![to(next, routine), to(target, routine)],
            JMI => vec![to(target, routine)],
            JSI => vec![to(target, target)],
            _ => vec![to(next, routine)],
        }
    }

    /// The address after a call whose routine returns with this working depth.
    fn after_call(&self, call: Place, work: u8) -> Place {
        let at = call.at + 3;
        Place { at, work, ..call }
    }

    fn find(&mut self, place: Place) {
        if self.within(place.at) {
            let there = &mut self.at[usize::from(place.at - FIRST)];
            if !there.contains(&place) {
                there.push(place);
                self.found.push(place);
            }
        }
    }

    /// Visits the next place; answers whether there was one.
    fn visit(&mut self) -> bool {
        if self.visited == self.found.len() || self.visited == MOST {
            return false;
        }
        let place = self.found[self.visited];
        self.visited += 1;
        let instruction = self.instruction(place);
        if !self.passes(place, &instruction) {
            return true;
        }
        let mut next = self.steps(place, &instruction);
        if instruction.byte == JSI {
            let calls = self.calls.entry(instruction.target).or_default();
            calls.push(place);
            let returns = self.returns.get(&instruction.target);
            let depths = returns.into_iter().flatten();
            next.extend(depths.map(|&work| self.after_call(place, work)));
        }
        if instruction.byte == RETURN {
            let returns = self.returns.entry(place.routine).or_default();
            if !returns.contains(&place.work) {
                returns.push(place.work);
                let calls = self.calls.get(&place.routine);
                let calls = calls.into_iter().flatten();
                next.extend(calls.map(|&call| self.after_call(call, place.work)));
            }
        }
        for place in next {
            self.find(place);
        }
        true
    }

    /// A way leads there. The search goes on as far as it has to.
    fn reaches(&mut self, place: Place) -> bool {
        if !self.within(place.at) {
            return false;
        }
        let there = usize::from(place.at - FIRST);
        while !self.at[there].contains(&place) {
            if !self.visit() {
                return false;
            }
        }
        true
    }

    /// The routine is left with this working depth.
    fn returns_with(&mut self, routine: u16, work: u8) -> bool {
        loop {
            let returns = self.returns.get(&routine);
            if returns.is_some_and(|depths| depths.contains(&work)) {
                return true;
            }
            if !self.visit() {
                return false;
            }
        }
    }

    /// The instruction at a place that is reached goes on to the other one.
    fn goes(&mut self, here: Place, next: Place) -> bool {
        let instruction = self.instruction(here);
        if !self.passes(here, &instruction) {
            return false;
        }
        self.steps(here, &instruction).contains(&next)
            || instruction.byte == JSI
                && next == self.after_call(here, next.work)
                && self.returns_with(instruction.target, next.work)
    }

    /// The routine's own address, in it.
    fn is_entry(&mut self, routine: u16, place: Place) -> bool {
        (place.at, place.routine) == (routine, routine) && self.reaches(place)
    }

    /// Says what is not true of the reason, if anything is not.
    pub fn wrong(&mut self, why: &Why) -> Option<String> {
        let Why {
            number,
            rule,
            count,
            here,
            next,
            other,
        } = *why;
        if number != 11 {
            let plain = Why {
                number,
                ..Why::default()
            };
            return (*why != plain).then(|| "a reason without 11".to_owned());
        }
        let Some(&name) = RULES.get(usize::from(rule).wrapping_sub(1)) else {
            return Some(format!("no rule {rule}"));
        };
        let counted = matches!(rule, 1 | 3..=7);
        let goes_on = matches!(rule, 8 | 9);
        let has_other = matches!(rule, 5 | 9 | 11 | 12);
        let unused = (counted || count == 0)
            && (goes_on || next == NOWHERE)
            && (has_other || other == NOWHERE);
        if !unused {
            return Some(format!("{name}: a field that the rule does not have"));
        }
        if !self.reaches(here) {
            return Some(format!("{name}: no way leads to the instruction"));
        }
        if goes_on && !self.goes(here, next) {
            return Some(format!("{name}: it does not go on there"));
        }
        (!self.fails(why)).then(|| format!("{name}: the rule does not fail"))
    }

    /// The rule fails at the instruction, which is reached and goes on as the reason says.
    fn fails(&mut self, why: &Why) -> bool {
        let Why {
            here, next, other, ..
        } = *why;
        let count = u32::from(why.count);
        let instruction = self.instruction(here);
        let returns = instruction.byte == RETURN;
        let [takes_working, takes_return] = instruction.takes;
        let [working, ret] = instruction.leaves;
        match why.rule {
            1 => count == instruction.length && self.is_cut(here, &instruction),
            2 => forbidden(instruction.byte),
            3 => count == takes_working && u32::from(here.work) < count,
            4 => count == takes_return && u32::from(here.ret) < count,
            5 => {
                !returns
                    && count == takes_return
                    && u32::from(here.ret) < u32::from(other.ret) + count
                    && self.is_entry(here.routine, other)
            }
            6 => count == working && DEEPEST < count,
            7 => count == ret && DEEPEST < count,
            8 => !self.within(next.at),
            9 => next.at == other.at && next != other && self.reaches(other),
            10 => returns && here.routine == FIRST,
            11 => returns && here.ret != other.ret && self.is_entry(here.routine, other),
            12 => {
                returns
                    && here.routine == other.routine
                    && here.work != other.work
                    && self.reaches(other)
                    && self.byte(other.at) == RETURN
            }
            _ => unreachable!("the rules are 1 to 12"),
        }
    }
}
