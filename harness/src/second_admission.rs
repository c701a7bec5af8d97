//! The second admission: the rules of document 01, with the requests of document 02, written again in
//! their order and words, and a search that sweeps over the program until nothing changes. It shares
//! no code and no table with any other admission; it is plain rather than fast.

use std::collections::BTreeMap;

const FIRST: u32 = 0x0100;

const BRK: u8 = 0x00;
const JCI: u8 = 0x20;
const JMI: u8 = 0x40;
const JSI: u8 = 0x60;
/// JMP in 16-bit return form without keep: the return from a routine.
const RETURN: u8 = 0x6c;

/// A number for each stack: its depth, or bytes taken or pushed. Wider than a byte, so that 256 is
/// not 0.
#[derive(Clone, Copy, PartialEq, Eq, Debug)]
pub struct Depths {
    pub working: u32,
    pub ret: u32,
}

const NONE: Depths = Depths { working: 0, ret: 0 };

/// The bytes that an instruction takes from each stack (read, under keep too) and pushes on each,
/// and its length.
pub struct Sizes {
    pub taken: Depths,
    pub pushed: Depths,
    pub length: u32,
}

/// What an address is marked with. Its routine is "0100, or the JSI target that led there".
#[derive(Clone, Copy, PartialEq, Eq, Debug)]
struct Mark {
    depths: Depths,
    routine: u32,
}

/// The mark of each address, from 0100 on; none where it is not marked.
type Marks = Vec<Option<Mark>>;

/// The working depth with which a routine is left, for each that has a marked return.
type Exits = BTreeMap<u32, u32>;

// Instruction bytes

pub fn sizes(byte: u8) -> Sizes {
    let n = if byte & 0x20 != 0 { 2 } else { 1 };
    let return_mode = byte & 0x40 != 0;
    let on_main = |bytes| match return_mode {
        false => Depths {
            working: bytes,
            ret: 0,
        },
        true => Depths {
            working: 0,
            ret: bytes,
        },
    };
    match byte {
        BRK => Sizes {
            taken: NONE,
            pushed: NONE,
            length: 1,
        },
        JCI => Sizes {
            taken: Depths { working: 1, ret: 0 },
            pushed: NONE,
            length: 3,
        },
        JMI => Sizes {
            taken: NONE,
            pushed: NONE,
            length: 3,
        },
        JSI => Sizes {
            taken: NONE,
            pushed: Depths { working: 0, ret: 2 },
            length: 3,
        },
        // LIT, LIT2, LITr, LIT2r
        0x80 | 0xa0 | 0xc0 | 0xe0 => Sizes {
            taken: NONE,
            pushed: on_main(n),
            length: 1 + n,
        },
        _ => {
            let (taken, pushed, pushed_on_other) = by_operation(byte & 0x1f, n);
            let (main, other) = (pushed, pushed_on_other);
            Sizes {
                taken: on_main(taken),
                pushed: match return_mode {
                    false => Depths {
                        working: main,
                        ret: other,
                    },
                    true => Depths {
                        working: other,
                        ret: main,
                    },
                },
                length: 1,
            }
        }
    }
}

/// Bytes taken from the main stack, pushed on it, and pushed on the other one.
fn by_operation(operation: u8, n: u32) -> (u32, u32, u32) {
    match operation {
        // Stack: INC a: a. POP a. NIP a b: b. SWP a b: b a. ROT a b c: b c a. DUP a: a a.
        // OVR a b: a b a
        0x01 => (n, n, 0),
        0x02 => (n, 0, 0),
        0x03 => (n + n, n, 0),
        0x04 => (n + n, n + n, 0),
        0x05 => (n + n + n, n + n + n, 0),
        0x06 => (n, n + n, 0),
        0x07 => (n + n, n + n + n, 0),
        // Compare, one byte: EQU, NEQ, GTH, LTH
        0x08..=0x0b => (n + n, 1, 0),
        // Jump: JMP addr. JCN cond8 addr. JSR addr, a 16-bit address on the other stack
        0x0c => (n, 0, 0),
        0x0d => (1 + n, 0, 0),
        0x0e => (n, 0, 2),
        // Move: STH a
        0x0f => (n, 0, n),
        // Memory: LDZ addr8, STZ value addr8, LDR rel8, STR value rel8, LDA addr16, STA value addr16
        0x10 => (1, n, 0),
        0x11 => (n + 1, 0, 0),
        0x12 => (1, n, 0),
        0x13 => (n + 1, 0, 0),
        0x14 => (2, n, 0),
        0x15 => (n + 2, 0, 0),
        // Device: DEI port8, DEO value port8
        0x16 => (1, n, 0),
        0x17 => (n + 1, 0, 0),
        // Arithmetic: ADD, SUB, MUL, DIV, AND, ORA, EOR
        0x18..=0x1e => (n + n, n, 0),
        // Shift: SFT a shift8
        0x1f => (n + 1, n, 0),
        _ => unreachable!("operation 0 is one of the exceptions"),
    }
}

/// JMP, JCN, JSR, STR, STA in any mode, but for the return.
pub fn forbidden(byte: u8) -> bool {
    byte != RETURN && matches!(byte & 0x1f, 0x0c | 0x0d | 0x0e | 0x13 | 0x15)
}

// Admission rules

fn in_program(program: &[u8], address: u32) -> bool {
    FIRST <= address && address < FIRST + program.len() as u32
}

fn byte_at(program: &[u8], address: u32) -> u8 {
    program[(address - FIRST) as usize]
}

/// The depth of a stack after an instruction, if it holds the bytes that are taken and the depth
/// after is not above 255.
fn depth_after(before: u32, taken: u32, keep: bool, pushed: u32) -> Option<u32> {
    if taken > before {
        return None;
    }
    let left = if keep { before } else { before - taken };
    let after = left + pushed;
    if after > 255 {
        return None;
    }
    Some(after)
}

/// The return depth at a routine's own address. An address in the routine is marked after that one.
fn floor(marks: &Marks, routine: u32) -> u32 {
    let entry = marks[(routine - FIRST) as usize];
    entry.expect("the mark of a routine").depths.ret
}

/// The marked returns, by the rule that each "stands only at the floor, never in routine 0100, and
/// leaves with one working depth for the whole routine"; nothing if it fails.
fn exits(program: &[u8], marks: &Marks) -> Option<Exits> {
    let mut exits = Exits::new();
    for (mark, &byte) in marks.iter().zip(program) {
        let &Some(Mark { depths, routine }) = mark else {
            continue;
        };
        if byte != RETURN {
            continue;
        }
        if routine == FIRST || depths.ret != floor(marks, routine) {
            return None;
        }
        if *exits.entry(routine).or_insert(depths.working) != depths.working {
            return None;
        }
    }
    Some(exits)
}

/// The rules at an address that is marked with `mark`: the addresses where the instruction may go
/// on, and what they are to be marked with; nothing if a rule fails.
fn goes_on(
    program: &[u8],
    marks: &Marks,
    exits: &Exits,
    address: u32,
    mark: Mark,
) -> Option<Vec<(u32, Mark)>> {
    let byte = byte_at(program, address);
    let Sizes {
        taken,
        pushed,
        length,
    } = sizes(byte);
    let last = address + length - 1;
    if !in_program(program, last) || forbidden(byte) {
        return None;
    }
    let Mark { depths, routine } = mark;
    // "In it only 6C takes return bytes below the floor"; with keep they are taken too.
    if byte != RETURN && depths.ret < floor(marks, routine) + taken.ret {
        return None;
    }
    // LIT has bit 7 too, but takes nothing.
    let keep = byte & 0x80 != 0;
    let after = Depths {
        working: depth_after(depths.working, taken.working, keep, pushed.working)?,
        ret: depth_after(depths.ret, taken.ret, keep, pushed.ret)?,
    };
    let next = address + length;
    let target = || {
        let high = u32::from(byte_at(program, address + 1));
        let low = u32::from(byte_at(program, address + 2));
        (next + 256 * high + low) % 65_536
    };
    let on = |to, depths, routine| (to, Mark { depths, routine });
    Some(match byte {
        BRK | RETURN => vec![],
        JCI => vec![on(next, after, routine), on(target(), after, routine)],
        JMI => vec![on(target(), after, routine)],
        JSI => {
            let called = target();
            let mut marked = vec![on(called, after, called)];
            // "The address after the call is marked with that depth and the caller's return depth
            // and routine, if the routine has a marked return; else the call doesn't mark it."
            if let Some(&working) = exits.get(&called) {
                let ret = depths.ret;
                marked.push(on(next, Depths { working, ret }, routine));
            }
            marked
        }
        _ => vec![on(next, after, routine)],
    })
}

/// Just the addresses reached from 0100, if they can be marked by the rules: 0100 is marked, and
/// the addresses where marked ones go on, until there are no more.
fn smallest_assignment(program: &[u8]) -> Option<Marks> {
    let mut marks = vec![None; program.len()];
    marks[0] = Some(Mark {
        depths: NONE,
        routine: FIRST,
    });
    loop {
        let before = marks.clone();
        let exits = exits(program, &marks)?;
        for place in 0..program.len() {
            let Some(mark) = marks[place] else {
                continue;
            };
            for (to, marked) in goes_on(program, &marks, &exits, FIRST + place as u32, mark)? {
                if !in_program(program, to) {
                    return None;
                }
                // "No address has two routines", and none has two depths of a stack.
                if *marks[(to - FIRST) as usize].get_or_insert(marked) != marked {
                    return None;
                }
            }
        }
        if marks == before {
            return Some(marks);
        }
    }
}

// The call

/// Answers 0 if the program is admitted, else the number.
pub fn admit(program: &[u8], sheet: &mut [u8]) -> u8 {
    if program.is_empty() {
        return 5;
    }
    if program.len() > 4_096 {
        return 9;
    }
    if sheet.len() != 8 * program.len() {
        return 10;
    }
    let Some(marks) = smallest_assignment(program) else {
        sheet.fill(0);
        return 11;
    };
    for (place, mark) in marks.into_iter().enumerate() {
        let byte = program[place];
        let record = match mark {
            None => [0, 0, 0, byte, 0, 0, 0, 0],
            Some(Mark { depths, routine }) => {
                let Depths { working, ret } = depths;
                let (high, low) = (routine / 256, routine % 256);
                [
                    1,
                    working as u8,
                    ret as u8,
                    byte,
                    high as u8,
                    low as u8,
                    0,
                    0,
                ]
            }
        };
        sheet[8 * place..8 * place + 8].copy_from_slice(&record);
    }
    0
}
