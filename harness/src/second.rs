//! The second machine: step, run, load, install, event and frame written again from source document
//! 000, document 01 and the requests of document 02 alone, in their order and words. It shares no code
//! and no table with any other core; it is plain rather than fast. It admits by the second admission.

use crate::second_admission::admit;

// Machine parts

/// Program counter and the two stack pointers; for each stack the greatest pointer value after any
/// step since the last load or frame start (request C-20).
#[derive(Clone, Copy, PartialEq, Eq, Debug)]
pub struct Record {
    pub counter: u16,
    pub working_pointer: u8,
    pub return_pointer: u8,
    pub working_high: u8,
    pub return_high: u8,
}

/// After a load, and at a frame's start.
pub const START: Record = Record {
    counter: 0x0100,
    working_pointer: 0,
    return_pointer: 0,
    working_high: 0,
    return_high: 0,
};

/// The four lent buffers, of whatever lengths the caller has.
pub struct Parts {
    pub memory: Vec<u8>,
    pub device_page: Vec<u8>,
    pub working: Vec<u8>,
    pub ret: Vec<u8>,
}

#[derive(Clone, Copy, PartialEq, Eq, Debug)]
pub enum Answer {
    Refused(u8),
    Loaded,
    WentOn,
    Broke,
    Spent,
    Ignored,
    Paused,
}

#[derive(Clone, PartialEq, Eq, Debug)]
pub struct Reply {
    pub record: Record,
    pub answer: Answer,
    pub steps: u32,
    pub verdict: u8,
    /// The ports that a step wrote, in order (request C-18); of the other calls none.
    pub sent: Vec<u8>,
}

#[derive(Clone, Copy)]
enum Size {
    Eight,
    Sixteen,
}

/// A stack in use: its 256 bytes and its pointer, which goes round.
struct Stack<'a> {
    bytes: &'a mut [u8],
    pointer: u8,
}

impl Stack<'_> {
    /// A push writes at the pointer, then adds one.
    fn push_byte(&mut self, byte: u8) {
        self.bytes[self.pointer as usize] = byte;
        self.pointer = self.pointer.wrapping_add(1);
    }

    /// A pop subtracts one, then reads.
    fn pop_byte(&mut self) -> u8 {
        self.pointer = self.pointer.wrapping_sub(1);
        self.bytes[self.pointer as usize]
    }

    /// A 16-bit push puts the high byte first; of an 8-bit push the low 8 bits are kept.
    fn push(&mut self, size: Size, value: u16) {
        let [high, low] = value.to_be_bytes();
        if let Size::Sixteen = size {
            self.push_byte(high);
        }
        self.push_byte(low);
    }

    fn pop(&mut self, size: Size) -> u16 {
        let low = self.pop_byte();
        let high = match size {
            Size::Sixteen => self.pop_byte(),
            Size::Eight => 0,
        };
        u16::from_be_bytes([high, low])
    }

    /// The operands, listed with the top last. Under keep the pointer is not lowered.
    fn operands<const COUNT: usize>(&mut self, keep: bool, sizes: [Size; COUNT]) -> [u16; COUNT] {
        let before = self.pointer;
        let mut values = [0; COUNT];
        for place in (0..COUNT).rev() {
            values[place] = self.pop(sizes[place]);
        }
        if keep {
            self.pointer = before;
        }
        values
    }
}

// Memory and device page

/// The number at `first`, with its low byte at `second` in 16-bit form.
fn read(bytes: &[u8], size: Size, first: usize, second: usize) -> u16 {
    match size {
        Size::Eight => u16::from(bytes[first]),
        Size::Sixteen => u16::from_be_bytes([bytes[first], bytes[second]]),
    }
}

fn write(bytes: &mut [u8], size: Size, first: usize, second: usize, value: u16) {
    let [high, low] = value.to_be_bytes();
    match size {
        Size::Eight => bytes[first] = low,
        Size::Sixteen => {
            bytes[first] = high;
            bytes[second] = low;
        }
    }
}

/// A memory access uses its address and the next one modulo 65,536.
fn load_memory(memory: &[u8], size: Size, address: u16) -> u16 {
    read(memory, size, address.into(), address.wrapping_add(1).into())
}

fn store_memory(memory: &mut [u8], size: Size, address: u16, value: u16) {
    write(
        memory,
        size,
        address.into(),
        address.wrapping_add(1).into(),
        value,
    );
}

/// A device access uses its port and the next one modulo 256, and so do LDZ and STZ their address
/// in memory (request C-12).
fn read_page(page: &[u8], size: Size, place: u8) -> u16 {
    read(page, size, place.into(), place.wrapping_add(1).into())
}

fn write_page(page: &mut [u8], size: Size, place: u8, value: u16) {
    write(
        page,
        size,
        place.into(),
        place.wrapping_add(1).into(),
        value,
    );
}

/// The place `offset`, -128 to 127, from `base`.
fn relative(base: u16, offset: u16) -> u16 {
    let distance = if offset < 128 {
        i32::from(offset)
    } else {
        i32::from(offset) - 256
    };
    (i32::from(base) + distance).rem_euclid(65_536) as u16
}

/// Where a jump goes: 16 bits are absolute, 8 bits count from just after the instruction byte.
fn jump_target(size: Size, after: u16, address: u16) -> u16 {
    match size {
        Size::Sixteen => address,
        Size::Eight => relative(after, address),
    }
}

// Instruction bytes

#[derive(PartialEq, Eq)]
enum Ended {
    WentOn,
    Broke,
}

/// One instruction, on buffers of the right lengths, and the ports that it wrote, in order.
fn execute(record: Record, parts: &mut Parts) -> (Record, Ended, Vec<u8>) {
    let memory = &mut parts.memory;
    let device_page = &mut parts.device_page;
    let mut working = Stack {
        bytes: &mut parts.working,
        pointer: record.working_pointer,
    };
    let mut ret = Stack {
        bytes: &mut parts.ret,
        pointer: record.return_pointer,
    };

    let byte = memory[record.counter as usize];
    // The address just after the instruction byte, and the one after a 16-bit offset there.
    let after = record.counter.wrapping_add(1);
    let after_offset = after.wrapping_add(2);
    let mut counter = after;
    let mut ended = Ended::WentOn;
    let mut sent = Vec::new();

    let size = if byte & 0x20 != 0 {
        Size::Sixteen
    } else {
        Size::Eight
    };

    match byte {
        // BRK
        0x00 => ended = Ended::Broke,
        // JCI
        0x20 => {
            let offset = load_memory(memory, Size::Sixteen, after);
            let condition = working.pop_byte();
            counter = if condition != 0 {
                after_offset.wrapping_add(offset)
            } else {
                after_offset
            };
        }
        // JMI
        0x40 => {
            let offset = load_memory(memory, Size::Sixteen, after);
            counter = after_offset.wrapping_add(offset);
        }
        // JSI
        0x60 => {
            let offset = load_memory(memory, Size::Sixteen, after);
            ret.push(Size::Sixteen, after_offset);
            counter = after_offset.wrapping_add(offset);
        }
        // LIT, LIT2, LITr, LIT2r
        0x80 | 0xa0 | 0xc0 | 0xe0 => {
            let main = if byte & 0x40 != 0 {
                &mut ret
            } else {
                &mut working
            };
            main.push(size, load_memory(memory, size, after));
            counter = match size {
                Size::Eight => after.wrapping_add(1),
                Size::Sixteen => after.wrapping_add(2),
            };
        }
        _ => {
            let (main, other) = if byte & 0x40 != 0 {
                (&mut ret, &mut working)
            } else {
                (&mut working, &mut ret)
            };
            let keep = byte & 0x80 != 0;
            let n = size;
            let eight = Size::Eight;
            let sixteen = Size::Sixteen;

            match byte & 0x1f {
                // Stack: INC, POP, NIP, SWP, ROT, DUP, OVR
                0x01 => {
                    let [a] = main.operands(keep, [n]);
                    main.push(n, a.wrapping_add(1));
                }
                0x02 => {
                    let [_] = main.operands(keep, [n]);
                }
                0x03 => {
                    let [_, b] = main.operands(keep, [n, n]);
                    main.push(n, b);
                }
                0x04 => {
                    let [a, b] = main.operands(keep, [n, n]);
                    main.push(n, b);
                    main.push(n, a);
                }
                0x05 => {
                    let [a, b, c] = main.operands(keep, [n, n, n]);
                    main.push(n, b);
                    main.push(n, c);
                    main.push(n, a);
                }
                0x06 => {
                    let [a] = main.operands(keep, [n]);
                    main.push(n, a);
                    main.push(n, a);
                }
                0x07 => {
                    let [a, b] = main.operands(keep, [n, n]);
                    main.push(n, a);
                    main.push(n, b);
                    main.push(n, a);
                }
                // Compare, unsigned: EQU, NEQ, GTH, LTH
                0x08 => {
                    let [a, b] = main.operands(keep, [n, n]);
                    main.push(eight, u16::from(a == b));
                }
                0x09 => {
                    let [a, b] = main.operands(keep, [n, n]);
                    main.push(eight, u16::from(a != b));
                }
                0x0a => {
                    let [a, b] = main.operands(keep, [n, n]);
                    main.push(eight, u16::from(a > b));
                }
                0x0b => {
                    let [a, b] = main.operands(keep, [n, n]);
                    main.push(eight, u16::from(a < b));
                }
                // Jump: JMP, JCN, JSR
                0x0c => {
                    let [address] = main.operands(keep, [n]);
                    counter = jump_target(n, after, address);
                }
                0x0d => {
                    let [condition, address] = main.operands(keep, [eight, n]);
                    if condition != 0 {
                        counter = jump_target(n, after, address);
                    }
                }
                0x0e => {
                    let [address] = main.operands(keep, [n]);
                    other.push(sixteen, after);
                    counter = jump_target(n, after, address);
                }
                // Move: STH
                0x0f => {
                    let [a] = main.operands(keep, [n]);
                    other.push(n, a);
                }
                // Memory: LDZ, STZ, LDR, STR, LDA, STA
                0x10 => {
                    let [address] = main.operands(keep, [eight]);
                    main.push(n, read_page(memory, n, address as u8));
                }
                0x11 => {
                    let [value, address] = main.operands(keep, [n, eight]);
                    write_page(memory, n, address as u8, value);
                }
                0x12 => {
                    let [offset] = main.operands(keep, [eight]);
                    main.push(n, load_memory(memory, n, relative(after, offset)));
                }
                0x13 => {
                    let [value, offset] = main.operands(keep, [n, eight]);
                    store_memory(memory, n, relative(after, offset), value);
                }
                0x14 => {
                    let [address] = main.operands(keep, [sixteen]);
                    main.push(n, load_memory(memory, n, address));
                }
                0x15 => {
                    let [value, address] = main.operands(keep, [n, sixteen]);
                    store_memory(memory, n, address, value);
                }
                // Device: DEI, DEO
                0x16 => {
                    let [port] = main.operands(keep, [eight]);
                    main.push(n, read_page(device_page, n, port as u8));
                }
                0x17 => {
                    let [value, port] = main.operands(keep, [n, eight]);
                    let [high, low] = value.to_be_bytes();
                    let port = port as u8;
                    let mut send = |port: u8, byte: u8| {
                        device_page[usize::from(port)] = byte;
                        sent.push(port);
                    };
                    match n {
                        Size::Eight => send(port, low),
                        Size::Sixteen => {
                            send(port, high);
                            send(port.wrapping_add(1), low);
                        }
                    }
                }
                // Arithmetic, low 8 or 16 bits kept: ADD, SUB, MUL, DIV, AND, ORA, EOR
                0x18 => {
                    let [a, b] = main.operands(keep, [n, n]);
                    main.push(n, a.wrapping_add(b));
                }
                0x19 => {
                    let [a, b] = main.operands(keep, [n, n]);
                    main.push(n, a.wrapping_sub(b));
                }
                0x1a => {
                    let [a, b] = main.operands(keep, [n, n]);
                    main.push(n, a.wrapping_mul(b));
                }
                0x1b => {
                    let [a, b] = main.operands(keep, [n, n]);
                    let quotient = match b {
                        0 => 0,
                        _ => a / b,
                    };
                    main.push(n, quotient);
                }
                0x1c => {
                    let [a, b] = main.operands(keep, [n, n]);
                    main.push(n, a & b);
                }
                0x1d => {
                    let [a, b] = main.operands(keep, [n, n]);
                    main.push(n, a | b);
                }
                0x1e => {
                    let [a, b] = main.operands(keep, [n, n]);
                    main.push(n, a ^ b);
                }
                // Shift: SFT, right by the low nibble, then left by the high nibble
                0x1f => {
                    let [a, shift] = main.operands(keep, [n, eight]);
                    let right = shift % 16;
                    let left = shift / 16;
                    main.push(n, (a >> right) << left);
                }
                _ => unreachable!("operation 0 is one of the exceptions above"),
            }
        }
    }

    let next = Record {
        counter,
        working_pointer: working.pointer,
        return_pointer: ret.pointer,
        working_high: record.working_high.max(working.pointer),
        return_high: record.return_high.max(ret.pointer),
    };
    (next, ended, sent)
}

// Numbered replies

/// Numbers 1 to 4: the first buffer of wrong length.
fn wrong_buffer(parts: &Parts) -> Option<u8> {
    if parts.memory.len() != 65_536 {
        Some(1)
    } else if parts.device_page.len() != 256 {
        Some(2)
    } else if parts.working.len() != 256 {
        Some(3)
    } else if parts.ret.len() != 256 {
        Some(4)
    } else {
        None
    }
}

/// Number 8: the length byte is above 126, or a byte past the data is not 0.
fn wrong_record(frame: &[u8]) -> bool {
    let length = usize::from(frame[0]);
    length > 126 || frame[2 + length..].iter().any(|&byte| byte != 0)
}

fn refused(record: Record, number: u8) -> Reply {
    Reply {
        record,
        answer: Answer::Refused(number),
        steps: 0,
        verdict: 0,
        sent: Vec::new(),
    }
}

// Calls

pub fn load(record: Record, parts: &mut Parts, program: &[u8]) -> Reply {
    if let Some(number) = wrong_buffer(parts) {
        return refused(record, number);
    }
    if program.is_empty() || program.len() > 65_280 {
        return refused(record, 5);
    }
    parts.memory.fill(0);
    parts.memory[0x0100..0x0100 + program.len()].copy_from_slice(program);
    parts.device_page.fill(0);
    parts.working.fill(0);
    parts.ret.fill(0);
    Reply {
        record: START,
        answer: Answer::Loaded,
        steps: 0,
        verdict: 0,
        sent: Vec::new(),
    }
}

/// Request C-15: "a filter goes in only if admitted, its sheet written by the same call". "Refusals: 1 to
/// 4, 5 (empty only), 9, 10, 11; the four machine buffers stay; 11 zeroes the sheet lent."
pub fn install(record: Record, parts: &mut Parts, program: &[u8], sheet: &mut [u8]) -> Reply {
    if let Some(number) = wrong_buffer(parts) {
        return refused(record, number);
    }
    match admit(program, sheet) {
        0 => load(record, parts, program),
        number => refused(record, number),
    }
}

pub fn step(record: Record, parts: &mut Parts) -> Reply {
    if let Some(number) = wrong_buffer(parts) {
        return refused(record, number);
    }
    let (next, ended, sent) = execute(record, parts);
    Reply {
        record: next,
        answer: match ended {
            Ended::WentOn => Answer::WentOn,
            Ended::Broke => Answer::Broke,
        },
        steps: 1,
        verdict: 0,
        sent,
    }
}

/// Steps until BRK, until one has written the watched port, or until the budget is used up. "Paused goes
/// before Spent on the last unit."
fn run_parts(from: Record, parts: &mut Parts, budget: u32, watch: Option<u8>) -> Reply {
    let mut record = from;
    let mut steps = 0;
    let mut answer = Answer::Spent;
    while steps < budget {
        let (next, ended, sent) = execute(record, parts);
        record = next;
        steps += 1;
        if ended == Ended::Broke {
            answer = Answer::Broke;
            break;
        }
        if watch.is_some_and(|port| sent.contains(&port)) {
            answer = Answer::Paused;
            break;
        }
    }
    Reply {
        record,
        answer,
        steps,
        verdict: 0,
        sent: Vec::new(),
    }
}

pub fn run(record: Record, parts: &mut Parts, budget: u32, watch: Option<u8>) -> Reply {
    if let Some(number) = wrong_buffer(parts) {
        return refused(record, number);
    }
    run_parts(record, parts, budget, watch)
}

pub fn event(
    record: Record,
    parts: &mut Parts,
    device: u32,
    budget: u32,
    watch: Option<u8>,
) -> Reply {
    if let Some(number) = wrong_buffer(parts) {
        return refused(record, number);
    }
    if device > 15 {
        return refused(record, 6);
    }
    let port = 16 * device as u8;
    let vector = read_page(&parts.device_page, Size::Sixteen, port);
    if vector == 0 {
        return Reply {
            record,
            answer: Answer::Ignored,
            steps: 0,
            verdict: 0,
            sent: Vec::new(),
        };
    }
    let from = Record {
        counter: vector,
        ..record
    };
    run_parts(from, parts, budget, watch)
}

/// It watches nothing.
pub fn frame(record: Record, parts: &mut Parts, frame: &[u8], budget: u32) -> Reply {
    if let Some(number) = wrong_buffer(parts) {
        return refused(record, number);
    }
    if frame.len() != 128 {
        return refused(record, 7);
    }
    if wrong_record(frame) {
        return refused(record, 8);
    }
    parts.device_page[0xf2] = 0;
    parts.memory[0x0080..=0x00ff].copy_from_slice(frame);
    let ran = run_parts(START, parts, budget, None);
    let verdict = match ran.answer {
        Answer::Broke => parts.device_page[0xf2],
        _ => 0,
    };
    Reply { verdict, ..ran }
}
