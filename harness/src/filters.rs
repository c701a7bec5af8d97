//! Programs for admission. A grammar makes filters that are admitted: it knows the depths and the
//! routine at each place, a jump goes only where they agree, and a call where its routine is entered.
//! Beside them stand filters of the grammar that break one rule at one place, programs that are near
//! filters, and random bytes.

use crate::opcodes::{
    BRK, DEO, DEO2, DUP, INC, JCI, JMI, JMP2R, JSI, KEEP, LIT, LIT2, LITR, POP, POP2, POPR, RETURN,
    ROT2K,
};
use crate::random::Random;
use crate::second_admission::{sizes, Depths, Sizes};

const EMPTY: Depths = Depths { working: 0, ret: 0 };
const DEEPEST: u32 = 255;
/// Bytes that a call pushes on the return stack.
const RETURN_ADDRESS: u32 = 2;
/// The routine of 0100, in the order in which they are first called.
const FIRST: usize = 0;
/// Ways ahead that wait for a place, at most.
const OPEN: usize = 10;
/// A jump or a call goes only to a place whose depths are so near.
const NEAR: u32 = 6;
/// What breaks a rule may come from further away.
const FAR: u32 = 20;
/// Instructions straight from any depths to any others, at most.
const LONGEST_WAY: u32 = 300;
/// So near the end an item that does not fit is taken back.
const LONGEST_ITEM: usize = 64;
/// Bytes of which short programs often go somewhere.
const LIKELY: [u8; 20] = [
    BRK, JCI, JMI, JSI, JSI, JMP2R, JMP2R, LIT, LIT2, LITR, POP, POP2, POPR, INC, DUP, DEO, 0x0f,
    0x86, 0xff, 0xfd,
];

/// Bytes that admission refuses wherever they are reached: JMP, JCN, JSR, STR, STA in any mode, but
/// for the return.
pub fn forbidden_bytes() -> Vec<u8> {
    let mut bytes = Vec::new();
    for mode in (0..=0xe0).step_by(0x20) {
        bytes.extend([0x0c, 0x0d, 0x0e, 0x13, 0x15].map(|operation| operation | mode));
    }
    bytes.retain(|&byte| byte != JMP2R);
    bytes
}

/// What a broken filter does at one place that is reached.
#[derive(Clone, Copy, PartialEq, Eq, Debug)]
pub enum Fault {
    /// A call of the routine in which it stands.
    Recursion,
    /// A call of a routine from which, by other calls, this one is reached.
    LongRecursion,
    CallOf0100,
    /// A call with another depth than its routine is entered with.
    OtherEntry,
    /// A call at return depth 254 or 255.
    TooDeepACall,
    /// A jump into another routine, to a place with the same depths.
    OtherRoutine,
    ReturnFrom0100,
    ReturnAboveTheFloor,
    /// A return with another working depth than the others of its routine.
    OtherExit,
    /// Return bytes below the floor are taken, and go.
    BelowTheFloor,
    /// Return bytes below the floor are read.
    KeptBelowTheFloor,
    /// A jump to a place of the same routine that has another depth.
    OtherDepths,
}

pub const FAULTS: [Fault; 12] = [
    Fault::Recursion,
    Fault::LongRecursion,
    Fault::CallOf0100,
    Fault::OtherEntry,
    Fault::TooDeepACall,
    Fault::OtherRoutine,
    Fault::ReturnFrom0100,
    Fault::ReturnAboveTheFloor,
    Fault::OtherExit,
    Fault::BelowTheFloor,
    Fault::KeptBelowTheFloor,
    Fault::OtherDepths,
];

/// The least length of a broken filter: there is room for a call of a call, and for 255 return bytes.
pub const ROOM_FOR_A_FAULT: usize = 700;

/// A part of a program that takes both depths from 0 to those given, in few bytes.
pub fn climb(working: u32, ret: u32) -> Vec<u8> {
    let mut code = Vec::new();
    for (depth, mode) in [(working, 0), (ret, RETURN)] {
        let mut at = 0;
        while at < depth {
            match depth - at {
                6.. if at >= 6 => {
                    code.push(ROT2K | mode);
                    at += 6;
                }
                2.. => {
                    code.extend([LIT2 | mode, 0, 0]);
                    at += 2;
                }
                _ => {
                    code.extend([LIT | mode, 0]);
                    at += 1;
                }
            }
        }
    }
    code
}

/// A length from 1 to `most`, short ones more often.
pub fn any_length(random: &mut Random, most: usize) -> usize {
    let end = random.choose(&[16, 64, 512, most]);
    1 + random.below(end.min(most))
}

/// Programs of every kind by turns; about half of them are admitted.
pub fn any(random: &mut Random, turn: usize, length: usize) -> Vec<u8> {
    match turn % 8 {
        0 => {
            let mut code = vec![0; length];
            random.fill(&mut code);
            code
        }
        1 => likely_bytes(random, length),
        2..=4 => filter(random, length),
        5 if length >= ROOM_FOR_A_FAULT => {
            let fault = random.choose(&FAULTS);
            broken(random, length, fault)
        }
        _ => {
            let program = filter(random, length);
            changed(random, &program)
        }
    }
}

/// Bytes of which many are literals, ends and short jumps.
pub fn likely_bytes(random: &mut Random, length: usize) -> Vec<u8> {
    let bytes = (0..length).map(|_| match random.below(8) {
        0 => random.byte(),
        1 => random.below(12) as u8,
        _ => random.choose(&LIKELY),
    });
    bytes.collect()
}

/// The program with one byte changed, inserted or removed, or cut; never empty.
pub fn changed(random: &mut Random, program: &[u8]) -> Vec<u8> {
    let mut code = program.to_vec();
    let at = random.below(code.len());
    match random.below(6) {
        0 => code[at] = random.byte(),
        1 => code[at] ^= 1 << random.below(8),
        2 => code[at] = random.choose(&forbidden_bytes()),
        3 => code.insert(at, random.byte()),
        4 if code.len() > 1 => {
            code.remove(at);
        }
        _ => code.truncate(1 + at),
    }
    code
}

/// A filter of just `length` bytes that is admitted.
pub fn filter(random: &mut Random, length: usize) -> Vec<u8> {
    written(random, length, None).expect("a filter that breaks no rule")
}

/// A filter of just `length` bytes, `ROOM_FOR_A_FAULT` or more, that is refused for one fault alone.
pub fn broken(random: &mut Random, length: usize, fault: Fault) -> Vec<u8> {
    loop {
        if let Some(code) = written(random, length, Some(fault)) {
            return code;
        }
    }
}

/// None where there was no place for the fault.
fn written(random: &mut Random, length: usize, fault: Option<Fault>) -> Option<Vec<u8>> {
    let mut writer = Writer {
        random,
        state: State::new(fault),
    };
    loop {
        let near_the_end = writer.state.length_when_ended() + LONGEST_ITEM > length;
        let before = near_the_end.then(|| writer.state.clone());
        writer.item();
        if writer.state.length_when_ended() > length {
            if let Some(before) = before {
                writer.state = before;
            }
            break;
        }
    }
    writer.end(length);
    let State { code, fault, .. } = writer.state;
    fault.is_none().then_some(code)
}

/// A routine, as its calls see it.
#[derive(Clone)]
struct Routine {
    /// The depths at its first instruction; the return depth is its floor.
    entry: Depths,
    /// The working depth that it returns with; none if it never returns.
    exit: Option<u32>,
    /// Where it begins, once that is written.
    place: Option<usize>,
    /// Whether a return of it is written.
    returned: bool,
    /// The routines that call it.
    callers: Vec<usize>,
}

impl Routine {
    /// The depths at a return, if there is to be one.
    fn at_return(&self) -> Option<Depths> {
        let ret = self.entry.ret;
        self.exit.map(|working| Depths { working, ret })
    }

    /// A return of it has still to be written.
    fn owes_a_return(&self) -> bool {
        self.exit.is_some() && !self.returned
    }
}

/// Where code stands that is reached.
#[derive(Clone, Copy)]
struct Place {
    at: usize,
    depths: Depths,
    routine: usize,
}

/// A way ahead that waits for its place.
#[derive(Clone)]
struct Way {
    /// The places after the offsets of its jumps or calls.
    from: Vec<usize>,
    depths: Depths,
    routine: usize,
}

#[derive(Clone)]
struct State {
    code: Vec<u8>,
    /// The depths at the end of the code.
    here: Depths,
    /// The routine at the end of the code.
    routine: usize,
    routines: Vec<Routine>,
    /// Depths that the instructions tend to.
    wish: Depths,
    /// So many items may go straight towards it.
    hurry: u32,
    /// Places that a jump can go back to.
    places: Vec<Place>,
    /// Operands 00 that nothing has jumped to: a BRK for any depths.
    zeros: Vec<usize>,
    /// That of a routine which is not begun is a way of its own.
    open: Vec<Way>,
    /// What is still to be done wrong.
    fault: Option<Fault>,
}

impl State {
    fn new(fault: Option<Fault>) -> State {
        let (wish, hurry) = match fault {
            Some(Fault::TooDeepACall) => {
                let ret = DEEPEST;
                (Depths { working: 0, ret }, LONGEST_WAY)
            }
            _ => (EMPTY, 0),
        };
        State {
            code: Vec::new(),
            here: EMPTY,
            routine: FIRST,
            routines: vec![Routine {
                entry: EMPTY,
                exit: None,
                place: Some(0),
                returned: false,
                callers: Vec::new(),
            }],
            wish,
            hurry,
            places: Vec::new(),
            zeros: Vec::new(),
            open: Vec::new(),
            fault,
        }
    }

    fn own(&self) -> &Routine {
        &self.routines[self.routine]
    }

    /// The floor of the routine here.
    fn floor(&self) -> u32 {
        self.own().entry.ret
    }

    /// Whether a way of the routine may end without a return.
    fn may_end(&self, routine: usize) -> bool {
        !self.routines[routine].owes_a_return()
    }

    /// The bytes of a return from these depths.
    fn length_of_return(&self, depths: Depths, routine: usize) -> usize {
        let at_return = self.routines[routine].at_return();
        at_return.map_or(0, |to| length_between(depths, to) + 1)
    }

    /// Of the ways of a routine that are open, the one that has least to go to a return.
    fn shortest_return(&self, routine: usize) -> Option<usize> {
        let ways = self.open.iter().filter(|way| way.routine == routine);
        ways.map(|way| self.length_of_return(way.depths, routine))
            .min()
    }

    /// A BRK here, and one for each way ahead; in place of one of them a return from each routine that
    /// owes it.
    fn length_when_ended(&self) -> usize {
        let mut length = self.code.len() + 1 + self.open.len();
        let mut met = vec![self.routine];
        met.extend(self.open.iter().map(|way| way.routine));
        met.sort_unstable();
        met.dedup();
        for routine in met {
            if self.may_end(routine) {
                continue;
            }
            let here = (routine == self.routine).then(|| self.length_of_return(self.here, routine));
            let ways = here.into_iter().chain(self.shortest_return(routine));
            length += ways.min().unwrap_or(1) - 1;
        }
        length
    }
}

struct Writer<'a> {
    random: &'a mut Random,
    state: State,
}

fn is_exception(byte: u8) -> bool {
    byte & 0x1f == 0
}

/// The depths after an instruction, of a call at its target, where the rules let it stand.
pub fn after(byte: u8, before: Depths) -> Option<Depths> {
    let Sizes { taken, pushed, .. } = sizes(byte);
    let keep = byte & 0x80 != 0;
    let one = |before: u32, taken: u32, pushed: u32| {
        let left = before.checked_sub(taken)?;
        let after = if keep { before } else { left } + pushed;
        (after <= DEEPEST).then_some(after)
    };
    Some(Depths {
        working: one(before.working, taken.working, pushed.working)?,
        ret: one(before.ret, taken.ret, pushed.ret)?,
    })
}

fn distance(one: Depths, other: Depths) -> u32 {
    one.working.abs_diff(other.working) + one.ret.abs_diff(other.ret)
}

/// A literal or a POP that takes the depths nearer to others.
fn towards(here: Depths, to: Depths) -> u8 {
    if here.working < to.working {
        LIT
    } else if here.working > to.working + 1 {
        POP2
    } else if here.working > to.working {
        POP
    } else if here.ret < to.ret {
        LITR
    } else {
        POPR
    }
}

/// The bytes of such literals and POPs from some depths to others.
fn length_between(here: Depths, to: Depths) -> usize {
    let up = |from: u32, to: u32| 2 * to.saturating_sub(from);
    let working =
        up(here.working, to.working) + here.working.saturating_sub(to.working).div_ceil(2);
    let ret = up(here.ret, to.ret) + here.ret.saturating_sub(to.ret);
    (working + ret) as usize
}

/// What is wrong, at depths that are gone to first.
enum Wrong {
    Code(Vec<u8>),
    Jump(usize),
    Call(usize),
}

impl Writer<'_> {
    /// Begins and ends at a place that is reached.
    fn item(&mut self) {
        if let Some(fault) = self.state.fault {
            if self.random.one_in(4) && self.do_wrong(fault) {
                self.state.fault = None;
                return;
            }
        }
        if self.state.hurry > 0 && self.state.here != self.wish() {
            self.state.hurry -= 1;
            return self.instruction();
        }
        self.state.hurry = 0;
        if self.random.one_in(30) {
            self.state.wish = self.any_depths();
            self.state.hurry = self.random.choose(&[0, LONGEST_WAY]);
        }
        match self.random.below(28) {
            0..=2 => self.branch_ahead(),
            3 => self.branch_back(),
            4 => self.jump_ahead(),
            5 => self.jump_back(),
            6..=7 => self.land_near(),
            8 => self.land_in_operand(),
            9 => self.write_verdict(),
            10..=11 => self.end_of_a_way(),
            12..=14 => self.call(),
            _ => self.instruction(),
        }
    }

    fn any_depths(&mut self) -> Depths {
        let mut one = || match self.random.below(4) {
            0 => DEEPEST - self.random.below(4) as u32,
            1 => self.random.below(256) as u32,
            _ => self.random.below(8) as u32,
        };
        Depths {
            working: one(),
            ret: one(),
        }
    }

    /// The wish, as far as the routine's floor lets it.
    fn wish(&self) -> Depths {
        let Depths { working, ret } = self.state.wish;
        let ret = ret.max(self.state.floor());
        Depths { working, ret }
    }

    /// An instruction that fits here, rather towards the wish than away from it.
    fn instruction(&mut self) {
        let forbidden = forbidden_bytes();
        for _ in 0..12 {
            let byte = self.random.byte();
            if matches!(byte, BRK | JCI | JMI | JSI | JMP2R) || forbidden.contains(&byte) {
                continue;
            }
            let here = self.state.here;
            let Some(then) = after(byte, here) else {
                continue;
            };
            if here.ret < self.state.floor() + sizes(byte).taken.ret {
                continue;
            }
            let wish = self.wish();
            let strays = self.state.hurry == 0 && self.random.one_in(3);
            if distance(then, wish) <= distance(here, wish) || strays {
                return self.put(byte);
            }
        }
        if self.state.here == self.wish() {
            self.state.wish = self.any_depths();
        }
        if self.state.here != self.wish() {
            self.put(towards(self.state.here, self.wish()));
        }
    }

    /// The end of the code is a place that is reached.
    fn note_place(&mut self) {
        let State { here, routine, .. } = self.state;
        self.state.places.push(Place {
            at: self.state.code.len(),
            depths: here,
            routine,
        });
    }

    /// An instruction other than a jump, with random operands after a literal.
    fn put(&mut self, byte: u8) {
        self.note_place();
        self.state.code.push(byte);
        self.state.here = after(byte, self.state.here).expect("an instruction that fits");
        if is_exception(byte) {
            for _ in 1..sizes(byte).length {
                let operand = match self.random.below(3) {
                    0 => 0,
                    _ => self.random.byte(),
                };
                if operand == BRK {
                    self.state.zeros.push(self.state.code.len());
                }
                self.state.code.push(operand);
            }
        }
    }

    fn put_literal(&mut self, value: u8) {
        self.put(LIT);
        let last = self.state.code.len() - 1;
        self.state.zeros.retain(|&zero| zero != last);
        self.state.code[last] = value;
    }

    /// Literals and POPs until the depths are those given.
    fn adjust(&mut self, to: Depths) {
        while self.state.here != to {
            self.put(towards(self.state.here, to));
        }
    }

    /// JMI, JCI or JSI; the offset is filled in by `aim`.
    fn put_jump(&mut self, jump: u8) -> usize {
        self.note_place();
        self.state.code.extend([jump, 0, 0]);
        self.state.here = after(jump, self.state.here).expect("a jump that fits");
        self.state.code.len()
    }

    /// A return, at the depths of one.
    fn put_return(&mut self) {
        self.note_place();
        self.state.code.push(JMP2R);
        let own = self.state.routine;
        self.state.routines[own].returned = true;
    }

    fn aim(&mut self, after_offset: usize, to: usize) {
        let offset = (to as u16).wrapping_sub(after_offset as u16);
        self.state.code[after_offset - 2..after_offset].copy_from_slice(&offset.to_be_bytes());
    }

    /// The jump before the end of the code goes on somewhere ahead.
    fn leave_open(&mut self, depths: Depths, routine: usize) {
        self.state.open.push(Way {
            from: vec![self.state.code.len()],
            depths,
            routine,
        });
    }

    fn branch_ahead(&mut self) {
        if self.state.open.len() == OPEN {
            return self.land_near();
        }
        if self.state.here.working == 0 {
            self.put(LIT);
        }
        self.put_jump(JCI);
        self.leave_open(self.state.here, self.state.routine);
    }

    fn jump_ahead(&mut self) {
        if self.state.open.len() == OPEN {
            return self.land_near();
        }
        self.put_jump(JMI);
        self.leave_open(self.state.here, self.state.routine);
        self.go_on_elsewhere();
    }

    /// Any of the earlier places that fit.
    fn place_where(&mut self, fits: impl Fn(&Place) -> bool) -> Option<Place> {
        let places = self.state.places.iter().copied();
        let found: Vec<Place> = places.filter(fits).collect();
        (!found.is_empty()).then(|| self.random.choose(&found))
    }

    /// An earlier place of the routine with depths near these.
    fn place_near(&mut self) -> Option<Place> {
        let State { here, routine, .. } = self.state;
        self.place_where(|place| place.routine == routine && distance(place.depths, here) <= NEAR)
    }

    fn branch_back(&mut self) {
        if self.random.one_in(3) && self.state.here.working > 0 && !self.state.zeros.is_empty() {
            // Into an operand: a BRK with the depths that are found here.
            let chosen = self.random.below(self.state.zeros.len());
            let zero = self.state.zeros.swap_remove(chosen);
            let after_offset = self.put_jump(JCI);
            self.aim(after_offset, zero);
            let State { here, routine, .. } = self.state;
            self.state.places.push(Place {
                at: zero,
                depths: here,
                routine,
            });
            return;
        }
        let Some(Place { at, depths, .. }) = self.place_near() else {
            return self.instruction();
        };
        if depths.working == DEEPEST {
            return self.instruction();
        }
        // One byte more for JCI to take.
        self.adjust(Depths {
            working: depths.working + 1,
            ..depths
        });
        let after_offset = self.put_jump(JCI);
        self.aim(after_offset, at);
    }

    fn jump_back(&mut self) {
        if self.state.open.is_empty() || !self.state.may_end(self.state.routine) {
            return self.instruction();
        }
        let Some(Place { at, depths, .. }) = self.place_near() else {
            return self.instruction();
        };
        self.adjust(depths);
        let after_offset = self.put_jump(JMI);
        self.aim(after_offset, at);
        self.go_on_elsewhere();
    }

    /// BRK or a return.
    fn end_of_a_way(&mut self) {
        if self.state.open.is_empty() {
            return self.instruction();
        }
        let here = self.state.here;
        let at_return = self.state.own().at_return();
        let near = at_return.filter(|&to| distance(here, to) <= NEAR);
        let may_end = self.state.may_end(self.state.routine);
        match near {
            Some(to) if !may_end || !self.random.one_in(4) => {
                self.adjust(to);
                self.put_return();
            }
            _ if may_end => self.put(BRK),
            _ => return self.instruction(),
        }
        self.go_on_elsewhere();
    }

    /// Bytes that are not reached, then the place of a way ahead.
    fn go_on_elsewhere(&mut self) {
        for _ in 0..self.random.below(5) {
            let byte = self.unreached();
            self.state.code.push(byte);
        }
        let chosen = self.random.below(self.state.open.len());
        self.land(chosen);
    }

    fn unreached(&mut self) -> u8 {
        match self.random.below(4) {
            0 => self.random.choose(&[JSI, JMP2R]),
            1 => self.random.choose(&forbidden_bytes()),
            _ => self.random.byte(),
        }
    }

    /// Here, with its depths and in its routine, goes on a way ahead.
    fn land(&mut self, chosen: usize) {
        self.land_at(chosen, self.state.code.len());
    }

    fn land_at(&mut self, chosen: usize, place: usize) {
        let way = self.state.open.swap_remove(chosen);
        for after_offset in way.from {
            self.aim(after_offset, place);
        }
        self.state.here = way.depths;
        self.state.routine = way.routine;
        let own = &mut self.state.routines[way.routine];
        if own.place.is_none() {
            own.place = Some(place);
            self.state.wish = own.at_return().unwrap_or(own.entry);
        }
    }

    fn land_near(&mut self) {
        let State { here, routine, .. } = self.state;
        let near = |way: &Way| way.routine == routine && distance(way.depths, here) <= NEAR;
        let Some(chosen) = self.state.open.iter().position(near) else {
            return self.instruction();
        };
        self.adjust(self.state.open[chosen].depths);
        self.land(chosen);
    }

    /// A literal whose operand is an instruction too, for a way ahead: one that ends it, or one after
    /// which both have the same depths and the same routine.
    fn land_in_operand(&mut self) {
        let literal = self.random.choose(&[LIT, LITR]);
        let Some(then) = after(literal, self.state.here) else {
            return self.instruction();
        };
        if self.state.open.is_empty() {
            return self.instruction();
        }
        let chosen = self.random.below(self.state.open.len());
        let Way {
            depths, routine, ..
        } = self.state.open[chosen];
        let operands = self.operands_for(depths, routine, then);
        if operands.is_empty() {
            return self.instruction();
        }
        let operand = self.random.choose(&operands);
        self.put(literal);
        let place = self.state.code.len() - 1;
        self.state.zeros.retain(|&zero| zero != place);
        self.state.code[place] = operand;

        let State { here, routine, .. } = self.state;
        self.land_at(chosen, place);
        self.state.places.push(Place {
            at: place,
            depths: self.state.here,
            routine: self.state.routine,
        });
        let own = self.state.routine;
        self.state.routines[own].returned |= operand == JMP2R;
        self.state.here = here;
        self.state.routine = routine;
    }

    /// Bytes that a way can end at, or after which it has the depths `then` in the routine here.
    fn operands_for(&mut self, depths: Depths, routine: usize, then: Depths) -> Vec<u8> {
        let mut operands = Vec::new();
        let floor = self.state.floor();
        if routine == self.state.routine {
            let forbidden = forbidden_bytes();
            operands.extend((0..=255).filter(|&byte| {
                !is_exception(byte)
                    && byte != JMP2R
                    && !forbidden.contains(&byte)
                    && depths.ret >= floor + sizes(byte).taken.ret
                    && after(byte, depths) == Some(then)
            }));
        }
        let ends = operands.is_empty() || self.random.one_in(4);
        let returns = self.state.routines[routine].at_return() == Some(depths);
        if ends && returns {
            return vec![JMP2R];
        }
        if ends && self.state.may_end(routine) {
            return vec![BRK];
        }
        operands
    }

    /// Port F2 is written, in 16-bit form as the second of two ports.
    fn write_verdict(&mut self) {
        if self.state.here.working > DEEPEST - 3 {
            return self.instruction();
        }
        if self.random.one_in(2) {
            self.put(LIT);
            self.put_literal(0xf2);
            self.put(DEO);
        } else {
            self.put(LIT2);
            self.put_literal(0xf1);
            self.put(DEO2);
        }
    }

    /// A call of a routine that is entered with depths near these, or of a new one. Its floor is above
    /// that of the caller, so that none is reached from itself.
    fn call(&mut self) {
        let State { here, .. } = self.state;
        let least = self.state.floor() + RETURN_ADDRESS;
        let lost = self.state.open.is_empty() || !self.state.may_end(self.state.routine);
        let routines = self.state.routines.iter().enumerate();
        let callable = routines.filter(|(_, routine)| {
            routine.entry.ret >= least
                && distance(before_call(routine.entry), here) <= NEAR
                && (routine.exit.is_some() || !lost)
        });
        let callable: Vec<usize> = callable.map(|(number, _)| number).collect();
        let has_room = self.state.open.len() < OPEN && here.ret + RETURN_ADDRESS <= DEEPEST;
        if has_room && (callable.is_empty() || self.random.one_in(4)) {
            let new = self.state.routines.len();
            let entry = Depths {
                working: here.working,
                ret: here.ret + RETURN_ADDRESS,
            };
            let exit = self.any_exit(here.working);
            self.state.routines.push(Routine {
                entry,
                exit,
                place: None,
                returned: false,
                callers: Vec::new(),
            });
            return self.call_of(new);
        }
        if callable.is_empty() {
            return self.instruction();
        }
        let known = self.random.choose(&callable);
        self.call_of(known);
    }

    /// Whether a routine returns, and its working depth then.
    fn any_exit(&mut self, working: u32) -> Option<u32> {
        if self.state.may_end(self.state.routine) && self.random.one_in(6) {
            return None;
        }
        let exit = working + self.random.choose(&[0, 1, 2, 3, 4, 6]);
        Some(exit.saturating_sub(2).min(DEEPEST))
    }

    fn call_of(&mut self, called: usize) {
        let Routine {
            entry, exit, place, ..
        } = self.state.routines[called];
        let before = before_call(entry);
        self.adjust(before);
        let after_offset = self.put_jump(JSI);
        let begins = |way: &&mut Way| way.routine == called;
        match (place, self.state.open.iter_mut().find(begins)) {
            (Some(place), _) => self.aim(after_offset, place),
            (None, Some(way)) => way.from.push(after_offset),
            (None, None) => self.leave_open(entry, called),
        }
        let caller = self.state.routine;
        self.state.routines[called].callers.push(caller);
        match exit {
            Some(working) => self.state.here = Depths { working, ..before },
            None => self.go_on_elsewhere(),
        }
    }

    /// Each way ends at a BRK or a return; the rest of the length is not reached.
    fn end(&mut self, length: usize) {
        self.end_here();
        while !self.state.open.is_empty() {
            let chosen = self.random.below(self.state.open.len());
            self.land(chosen);
            let State { here, routine, .. } = self.state;
            let same = |way: &Way| way.depths == here && way.routine == routine;
            while let Some(same) = self.state.open.iter().position(same) {
                self.land(same);
            }
            self.end_here();
        }
        while self.state.code.len() < length {
            let byte = self.unreached();
            self.state.code.push(byte);
        }
    }

    /// A return where it is owed and no other way of the routine has less to go to one.
    fn end_here(&mut self) {
        let State { here, routine, .. } = self.state;
        let at_return = self.state.own().at_return();
        let mine = self.state.length_of_return(here, routine);
        let shorter = self.state.shortest_return(routine);
        let is_due = self.state.own().owes_a_return() && shorter.is_none_or(|other| mine <= other);
        match at_return {
            Some(to) if is_due || to == here => {
                self.adjust(to);
                self.put_return();
            }
            _ => self.put(BRK),
        }
    }

    // Faults

    /// Does what is wrong, if it can be done here, on a way of its own that is branched around.
    fn do_wrong(&mut self, fault: Fault) -> bool {
        let Some((depths, wrong)) = self.wrong(fault) else {
            return false;
        };
        if self.state.here.working == DEEPEST || distance(self.state.here, depths) > FAR {
            return false;
        }
        self.put(LIT);
        let around = self.put_jump(JCI);
        let here = self.state.here;
        let places = self.state.places.len();
        self.adjust(depths);
        match wrong {
            Wrong::Code(bytes) => self.state.code.extend(bytes),
            Wrong::Jump(to) => {
                let after_offset = self.put_jump(JMI);
                self.aim(after_offset, to);
            }
            Wrong::Call(to) => {
                self.state.code.extend([JSI, 0, 0]);
                self.aim(self.state.code.len(), to);
            }
        }
        self.state.code.push(BRK);
        self.state.places.truncate(places);
        self.aim(around, self.state.code.len());
        self.state.here = here;
        true
    }

    /// What breaks the rule in the routine here, if anything does.
    fn wrong(&mut self, fault: Fault) -> Option<(Depths, Wrong)> {
        let State { here, routine, .. } = self.state;
        let floor = self.state.floor();
        let Routine { exit, entry, .. } = *self.state.own();
        let in_called = routine != FIRST;
        match fault {
            Fault::Recursion if in_called => self.wrong_call_of(routine),
            Fault::LongRecursion => {
                let others = self.outer_routines();
                let outer = (!others.is_empty()).then(|| self.random.choose(&others));
                self.wrong_call_of(outer?)
            }
            Fault::CallOf0100 => self.wrong_call_of(FIRST),
            Fault::OtherEntry => self.other_entry(),
            Fault::TooDeepACall => {
                let ret = DEEPEST - self.random.below(2) as u32;
                // To the BRK after it.
                Some((Depths { ret, ..here }, Wrong::Code(vec![JSI, 0, 0])))
            }
            Fault::OtherRoutine => {
                let place = self.place_where(|place| {
                    place.routine != routine
                        && place.depths.ret >= floor
                        && distance(place.depths, here) <= FAR
                })?;
                Some((place.depths, Wrong::Jump(place.at)))
            }
            Fault::ReturnFrom0100 if !in_called => {
                let ret = self.random.choose(&[0, RETURN_ADDRESS, here.ret]);
                Some((Depths { ret, ..here }, Wrong::Code(vec![JMP2R])))
            }
            Fault::ReturnAboveTheFloor if in_called => {
                let ret = floor + 1 + self.random.below(3) as u32;
                let working = exit.unwrap_or(entry.working);
                let depths = Depths { working, ret };
                (ret <= DEEPEST).then_some((depths, Wrong::Code(vec![JMP2R])))
            }
            Fault::OtherExit => {
                let working = (exit? + self.random.choose(&[0, 2])).checked_sub(1)?;
                let depths = Depths {
                    working,
                    ret: floor,
                };
                (working <= DEEPEST).then_some((depths, Wrong::Code(vec![JMP2R])))
            }
            Fault::BelowTheFloor if in_called => self.below_the_floor(0),
            Fault::KeptBelowTheFloor if in_called => self.below_the_floor(KEEP),
            Fault::OtherDepths => {
                let Place { at, depths, .. } = self.place_near()?;
                let working = (depths.working + self.random.choose(&[0, 2])).checked_sub(1)?;
                let other = Depths { working, ..depths };
                (working <= DEEPEST).then_some((other, Wrong::Jump(at)))
            }
            _ => None,
        }
    }

    /// A call of a routine that is never entered from here, with its working depth if that is near.
    fn wrong_call_of(&mut self, called: usize) -> Option<(Depths, Wrong)> {
        let Routine { entry, place, .. } = self.state.routines[called];
        let here = self.state.here;
        let same = Depths {
            working: entry.working,
            ..here
        };
        let depths = match distance(same, here) <= FAR {
            true => same,
            false => here,
        };
        Some((depths, Wrong::Call(place?)))
    }

    /// Routines from which this one is reached by two calls or more; not that of 0100.
    fn outer_routines(&self) -> Vec<usize> {
        let mut found = Vec::new();
        let mut next = self.state.own().callers.clone();
        while let Some(routine) = next.pop() {
            if routine != FIRST && !found.contains(&routine) {
                found.push(routine);
                next.extend(&self.state.routines[routine].callers);
            }
        }
        found
    }

    /// A call with one depth that is other than those which the routine is entered with.
    fn other_entry(&mut self) -> Option<(Depths, Wrong)> {
        let State { here, .. } = self.state;
        let floor = self.state.floor();
        let routines = self.state.routines.iter().skip(1);
        let near = routines.filter_map(|routine| {
            let before = before_call(routine.entry);
            let is_near = before.ret > floor && distance(before, here) < FAR;
            routine
                .place
                .filter(|_| is_near)
                .map(|place| (before, place))
        });
        let near: Vec<(Depths, usize)> = near.collect();
        if near.is_empty() {
            return None;
        }
        let (Depths { working, ret }, place) = self.random.choose(&near);
        let one_off = |depth: u32, more: u32| (depth + more).checked_sub(1);
        let more = self.random.choose(&[0, 2]);
        let depths = match self.random.below(2) {
            0 => Depths {
                working: one_off(working, more)?,
                ret,
            },
            _ => Depths {
                working,
                ret: one_off(ret, more)?,
            },
        };
        let fits = depths.working <= DEEPEST && depths.ret + RETURN_ADDRESS <= DEEPEST;
        fits.then_some((depths, Wrong::Call(place)))
    }

    /// An instruction in return mode for which there are bytes enough, but not above the floor.
    fn below_the_floor(&mut self, keep: u8) -> Option<(Depths, Wrong)> {
        let floor = self.state.floor();
        let ret = floor + self.random.below(2) as u32;
        let depths = Depths {
            ret,
            ..self.state.here
        };
        let forbidden = forbidden_bytes();
        let takes_more = |&byte: &u8| {
            !is_exception(byte)
                && byte != JMP2R
                && byte & KEEP == keep
                && !forbidden.contains(&byte)
                && ret < floor + sizes(byte).taken.ret
                && after(byte, depths).is_some()
        };
        let bytes: Vec<u8> = (0..=255).filter(takes_more).collect();
        let found = !bytes.is_empty() && ret <= DEEPEST;
        found.then(|| (depths, Wrong::Code(vec![self.random.choose(&bytes)])))
    }
}

/// The caller's depths at a call of a routine that is entered with these.
fn before_call(entry: Depths) -> Depths {
    let ret = entry.ret - RETURN_ADDRESS;
    Depths { ret, ..entry }
}
