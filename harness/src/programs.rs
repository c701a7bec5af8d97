//! Programs for the tests: random bytes, and programs made by a small grammar of literals,
//! operations, stores, loops, jumps and calls, which run for long.

use crate::calls::PROGRAM_START;
use crate::opcodes::{
    DEO, DUP, JCI, JCN, JMI, JMP, JMP2, JMP2R, JSI, JSR2, KEEP, LDR, LDZ, LIT, LIT2, RETURN, SFT,
    SHORT, STA, STH, STR, STZ, SUB,
};
use crate::random::Random;

/// Operations that neither jump nor store.
const HARMLESS: [u8; 23] = [
    0x01, 0x02, 0x03, 0x04, 0x05, 0x06, 0x07, 0x08, 0x09, 0x0a, 0x0b, STH, LDZ, LDR, 0x14, 0x16,
    0x18, SUB, 0x1a, 0x1b, 0x1c, 0x1d, 0x1e,
];
/// Zero page cells of the loop counters, one for each depth of nesting.
const COUNTERS: u8 = 0x40;

/// Random bytes; BRK is as frequent as any other, or left out.
pub fn random_bytes(random: &mut Random, length: usize, with_brk: bool) -> Vec<u8> {
    let mut code = vec![0; length];
    random.fill(&mut code);
    if !with_brk {
        for byte in code.iter_mut().filter(|byte| **byte == 0) {
            *byte = 1 + random.below(255) as u8;
        }
    }
    code
}

/// By turns random bytes, a program of the grammar that runs for ever, and one that ends.
pub fn either(random: &mut Random, turn: usize, length: usize, with_brk: bool) -> Vec<u8> {
    match turn % 3 {
        0 => random_bytes(random, length, with_brk),
        rest => grammar_made(random, rest == 1),
    }
}

/// A program of the grammar; it ends at BRK or begins again for ever.
pub fn grammar_made(random: &mut Random, for_ever: bool) -> Vec<u8> {
    let mut writer = Writer {
        random,
        code: Vec::new(),
        routines: Vec::new(),
    };
    let over = writer.jump_ahead(JMI);
    for _ in 0..3 {
        let start = writer.here();
        writer.block(5, 1, true);
        writer.code.push(JMP2R);
        writer.routines.push(start);
    }
    writer.land(over);
    writer.block(25, 3, false);
    if for_ever {
        writer.code.push(JMI);
        let back = PROGRAM_START.wrapping_sub(writer.here() + 2);
        writer.code.extend(back.to_be_bytes());
    } else {
        writer.code.push(0);
    }
    writer.code
}

struct Writer<'a> {
    random: &'a mut Random,
    code: Vec<u8>,
    /// Where the routines written so far begin.
    routines: Vec<u16>,
}

impl Writer<'_> {
    fn here(&self) -> u16 {
        PROGRAM_START + self.code.len() as u16
    }

    fn literal(&mut self, value: u8) {
        self.code.extend([LIT, value]);
    }

    fn literal2(&mut self, value: u16) {
        self.code.push(LIT2);
        self.code.extend(value.to_be_bytes());
    }

    /// JMI or JCI with an offset that `land` fills in.
    fn jump_ahead(&mut self, jump: u8) -> usize {
        self.code.extend([jump, 0, 0]);
        self.code.len()
    }

    fn land(&mut self, after_offset: usize) {
        let offset = (self.code.len() - after_offset) as u16;
        self.code[after_offset - 2..after_offset].copy_from_slice(&offset.to_be_bytes());
    }

    fn block(&mut self, items: usize, depth: u8, in_routine: bool) {
        for _ in 0..items {
            self.item(depth, in_routine);
        }
    }

    fn item(&mut self, depth: u8, in_routine: bool) {
        match self.random.below(20) {
            0..=2 => self.number(in_routine),
            3..=9 => self.operation(in_routine),
            10..=13 => self.store(),
            14 if depth > 0 => self.counted_loop(depth - 1, in_routine),
            15 if depth > 0 => self.condition(depth - 1, in_routine),
            16 => self.jump_over_bytes(),
            17..=18 if !in_routine => self.call(),
            _ => self.operation(in_routine),
        }
    }

    /// A routine keeps off the return stack, where its return address is.
    fn number(&mut self, in_routine: bool) {
        let mut byte = self.random.choose(&[LIT, LIT2]);
        if !in_routine && self.random.one_in(2) {
            byte |= RETURN;
        }
        self.code.push(byte);
        for _ in 0..1 + u8::from(byte & SHORT != 0) {
            let value = self.random.byte();
            self.code.push(value);
        }
    }

    fn operation(&mut self, in_routine: bool) {
        let mut byte = self.random.choose(&HARMLESS);
        if self.random.one_in(12) {
            byte = SFT;
        }
        byte |= self.random.choose(&[0, SHORT]) | self.random.choose(&[0, KEEP]);
        if in_routine && byte & 0x1f == STH {
            byte = DUP;
        }
        if !in_routine {
            byte |= self.random.choose(&[0, 0, RETURN]);
        }
        self.code.push(byte);
    }

    /// A store that leaves the program as it is.
    fn store(&mut self) {
        let mode = self.random.choose(&[0, SHORT]) | self.random.choose(&[0, 0, KEEP]);
        let value = self.random.short();
        self.literal2(value);
        match self.random.below(4) {
            0 => {
                let address = self.random.below(0xff) as u8;
                self.literal(address);
                self.code.push(STZ | mode);
            }
            1 => {
                let address = 0x9000 + self.random.below(0x6000) as u16;
                self.literal2(address);
                self.code.push(STA | mode);
            }
            2 => {
                let port = self.random.byte();
                self.literal(port);
                self.code.push(DEO | mode);
            }
            _ => {
                // Two bytes of room behind a jump, three bytes ahead.
                let operation = self.random.choose(&[STR, STR, LDR]);
                self.literal(3);
                self.code.push(operation | mode);
                let over = self.jump_ahead(JMI);
                self.code.extend(value.to_le_bytes());
                self.land(over);
            }
        }
    }

    fn counted_loop(&mut self, depth: u8, in_routine: bool) {
        // A routine's loops have cells of their own.
        let cell = COUNTERS + depth + if in_routine { 8 } else { 0 };
        let turns = 1 + self.random.below(12) as u8;
        self.literal(turns);
        self.literal(cell);
        self.code.push(STZ);
        let start = self.here();
        self.block(4, depth, in_routine);
        self.literal(cell);
        self.code.push(LDZ);
        self.literal(1);
        self.code.extend([SUB, DUP]);
        self.literal(cell);
        self.code.extend([STZ, JCI]);
        let back = start.wrapping_sub(self.here() + 2);
        self.code.extend(back.to_be_bytes());
    }

    fn condition(&mut self, depth: u8, in_routine: bool) {
        let over = self.jump_ahead(JCI);
        self.block(3, depth, in_routine);
        self.land(over);
    }

    fn jump_over_bytes(&mut self) {
        let skipped = 1 + self.random.below(6) as u8;
        match self.random.below(4) {
            0 => {
                self.code.push(JMI);
                self.code.extend(u16::from(skipped).to_be_bytes());
            }
            1 => {
                self.literal(skipped);
                self.code.push(JMP);
            }
            2 => {
                let condition = 1 + self.random.below(255) as u8;
                self.literal(condition);
                self.literal(skipped);
                self.code.push(JCN);
            }
            _ => {
                let target = self.here() + 4 + u16::from(skipped);
                self.literal2(target);
                self.code.push(JMP2);
            }
        }
        for _ in 0..skipped {
            let byte = self.random.byte();
            self.code.push(byte);
        }
    }

    fn call(&mut self) {
        let target = self.random.choose(&self.routines);
        if self.random.one_in(2) {
            self.code.push(JSI);
            let offset = target.wrapping_sub(self.here() + 2);
            self.code.extend(offset.to_be_bytes());
        } else {
            self.literal2(target);
            self.code.push(JSR2);
        }
    }
}
