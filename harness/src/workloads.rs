//! The programs of the speed comparison. Each of the workloads goes on for ever; the budget ends it.
//! Beside them are workloads of a single operation. The shapes are for admission, and have any length.

use crate::assembler::assemble;
use crate::calls::{Machine, Owned, PROGRAM_START, RECORD};

pub struct Workload {
    pub name: &'static str,
    pub program: Vec<u8>,
}

const SOURCES: [(&str, &str); 6] = [
    ("checksum", CHECKSUM),
    ("arithmetic", ARITHMETIC),
    ("shuffle", SHUFFLE),
    ("ports", PORTS),
    ("decisions", DECISIONS),
    ("straight", STRAIGHT),
];

/// A byte loop over the frame record, 0080 to 00ff, that sums it.
const CHECKSUM: &str = "
    @again LIT 00 LIT 80
    @next DUP LDZ ROT ADD SWP INC DUP LIT 00 NEQ JCI =next
    POP LIT 10 STZ
    JMI =again";

/// 16-bit products and quotients: a number that changes at each turn, scaled and reduced.
const ARITHMETIC: &str = "
    @again
    LIT 00 LDZ2 LIT2 6255 MUL2 LIT2 3619 ADD2 DUP2 LIT 00 STZ2
    DUP2 LIT2 000a DIV2k MUL2 SUB2 LIT 02 STZ2
    LIT2 0007 DIV2 LIT2 0003 MUL2 LIT 82 LDZ2 SUB2 INC2 LIT 04 STZ2
    JMI =again";

/// Stack shuffling on both stacks, with keep and return modes and moves between the stacks.
const SHUFFLE: &str = "
    LIT 01 LIT 02 LIT 03
    @again
    ROT SWP OVR STH DUP NIP ADDk NIP STHkr ADD INCr STHr SUB
    STH2 DUPr ADDr SWPr OVRr POPr STH2r
    SWP2k POP2 POP2 DUPk ROT POP POP
    JMI =again";

/// Ports read and written, with shifts and masks.
const PORTS: &str = "
    LIT 00
    @again
    INC DUP LIT 10 DEO
    LIT 10 DEI LIT 34 SFT LIT 7f AND LIT 01 ORA LIT 11 DEO
    LIT 10 DEI2 LIT 13 SFT2 LIT2 0ff0 AND2 LIT 12 DEO2
    LIT 12 DEI LIT 13 DEI EOR LIT f2 DEO
    JMI =again";

/// A decision tree over a node number that changes at each turn.
const DECISIONS: &str = "
    LIT 00
    @again
    LIT 35 ADD
    DUP LIT 80 LTH JCI =low
    DUP LIT c0 LTH JCI =middle
    DUP LIT e0 LTH JCI =high
    DUP LIT 01 AND JCI =drop
    LIT 01 JMI =judge
    @high DUP LIT 02 AND JCI =drop
    LIT 02 JMI =judge
    @middle DUP LIT a0 LTH JCI =drop
    DUP LIT b0 GTH JCI =drop
    LIT 03 JMI =judge
    @low DUP LIT 40 LTH JCI =lowest
    DUP LIT 60 LTH JCI =drop
    DUP LIT 04 AND JCI =drop
    LIT 04 JMI =judge
    @lowest DUP LIT 10 EQU JCI =drop
    DUP LIT 20 LTH JCI =drop
    LIT 05 JMI =judge
    @drop LIT 00
    @judge LIT f2 DEO
    JMI =again";

/// One pass through most operations in most modes; a number at 00ff, which goes on at 0000.
const STRAIGHT: &str = "
    @again
    LIT 01 LIT 02 LIT 03 ROT SWP OVR NIP DUP POP POP POP POP
    LIT2 0102 LIT2 0304 LIT2 0506 ROT2 SWP2 OVR2 NIP2 DUP2 POP2 POP2 POP2 POP2
    LITr 01 LITr 02 LITr 03 ROTr SWPr OVRr NIPr DUPr POPr POPr POPr POPr
    LIT2r 0102 LIT2r 0304 LIT2r 0506 ROT2r SWP2r OVR2r NIP2r DUP2r POP2r POP2r POP2r POP2r
    LIT 07 LIT 03 ADDk POP SUBk POP MULk POP DIVk POP ANDk POP ORAk POP EORk POP SFTk POP
    EQUk POP NEQk POP GTHk POP LTHk POP SWPk POP2 OVRk POP2 POP DUPk POP2 INCk POP NIPk POP POP2
    LIT2 1234 LIT2 0056 ADD2k POP2 SUB2k POP2 MUL2k POP2 DIV2k POP2 AND2k POP2 ORA2k POP2 EOR2k POP2
    SFT2k POP2 EQU2k POP NEQ2k POP GTH2k POP LTH2k POP SWP2k POP2 POP2 INC2k POP2 POP2 POP2
    LIT 05 INC LIT 03 ADD LIT 02 MUL LIT 03 DIV LIT 0f AND LIT 30 ORA LIT 55 EOR LIT 21 SFT LIT 01 SUB
    LIT 10 EQU LIT 01 NEQ LIT 00 GTH LIT 02 LTH POP
    LIT2 0500 INC2 LIT2 0311 ADD2 LIT2 0007 MUL2 LIT2 0003 DIV2 LIT2 0fff AND2 LIT2 3000 ORA2
    LIT2 5555 EOR2 LIT 21 SFT2 LIT2 0001 SUB2 LIT2 4000 GTH2 POP
    LITr 05 LITr 03 ADDr LITr 02 MULr LITr 11 EORr INCr LITr 40 LTHr POPr
    LIT2r 0500 LIT2r 0003 DIV2r LIT2r 00ff AND2r LIT2r 0010 EQU2r POPr
    LIT 12 LIT 20 STZ LIT 20 LDZ POP LIT2 1234 LIT ff STZ2 LIT ff LDZ2 POP2
    LIT 55 LIT2 8000 STA LIT2 8000 LDA POP LIT2 aabb LIT2 8002 STA2 LIT2 8002 LDA2k POP2 POP2
    LIT 77 LIT 07 STR LIT 04 LDR POP JMI =past 00 00 @past
    LIT2 7788 LIT 07 STR2 LIT 04 LDR2 POP2 JMI =past2 00 00 @past2
    LIT 12 LIT 30 DEO LIT 30 DEI POP LIT2 1234 LIT 32 DEO2 LIT 32 DEI2 POP2
    LIT 12 STH STHr POP LIT2 1234 STH2 STH2r POP2 LIT 12 STHk STHr POP2
    LIT 00 JMP LIT 01 LIT 00 JCN LIT 00 LIT 00 JCN
    LIT2 :a JMP2 @a LIT 01 LIT2 :b JCN2 @b LIT 00 JSR POP2r LIT2 :c JSR2 @c POP2r
    LIT 01 JCI =d @d LIT 00 JCI =e @e
    JSI =routine JMI =around @routine LIT 01 POP JMP2r @around
    JMI =again";

/// Single operations, for the cost of MUL by shifts and adds, which hangs on the bits of the smaller
/// operand: a name, the operands, and an operation that leaves them, with a POP of its result.
const OPERATIONS: [(&str, &str, &str); 7] = [
    ("ADD", "LIT ff LIT b5", "ADDk POP "),
    ("MUL, 1 bit", "LIT ff LIT 01", "MULk POP "),
    ("MUL, 4 bits", "LIT ff LIT 0b", "MULk POP "),
    ("MUL, 8 bits", "LIT ff LIT b5", "MULk POP "),
    ("ADD2", "LIT2 ffff LIT2 b5a7", "ADD2k POP2 "),
    ("MUL2, 8 bits", "LIT2 ffff LIT2 00b5", "MUL2k POP2 "),
    ("MUL2, 16 bits", "LIT2 ffff LIT2 b5a7", "MUL2k POP2 "),
];
/// Operations in one turn of such a program.
const OPERATIONS_IN_A_TURN: usize = 16;
/// Steps for each of them: itself, a POP, and its part of the jump back.
pub const STEPS_AN_OPERATION: f64 = 2.0 + 1.0 / OPERATIONS_IN_A_TURN as f64;

/// For the cost of a whole frame call: tests on node number and length, then a few data bytes.
const FILTER: &str = "
    LIT 81 LDZ LIT 10 LTH JCI =drop
    LIT 80 LDZ LIT 04 LTH JCI =drop
    LIT 82 LDZ LIT 83 LDZ ADD LIT 84 LDZ EOR LIT 01 ORA LIT f2 DEO
    @drop BRK";

/// A program for admission in any length.
pub struct Shape {
    pub name: &'static str,
    pub program: fn(usize) -> Vec<u8>,
}

pub const SHAPES: [Shape; 6] = [
    Shape {
        name: "straight",
        program: straight_code,
    },
    Shape {
        name: "backward",
        program: backward_jumps,
    },
    Shape {
        name: "branches",
        program: branches,
    },
    Shape {
        name: "one routine",
        program: one_routine,
    },
    Shape {
        name: "nested",
        program: nested_routines,
    },
    Shape {
        name: "late",
        program: late_returns,
    },
];

const BRK: u8 = 0x00;
const JCI: u8 = 0x20;
const JMI: u8 = 0x40;
const JSI: u8 = 0x60;
const INC: u8 = 0x01;
const DUP: u8 = 0x06;
const JMP2R: u8 = 0x6c;

/// Routines that can be open at once: each call takes two of 255 return bytes.
const DEEPEST_CALLS: usize = 127;
/// Routines with a return that is found late.
const LATE_ROUTINES: usize = 8;

/// Literals and operations one after the other, no jumps.
fn straight_code(length: usize) -> Vec<u8> {
    let part = assemble("LIT 10 LDZ LIT2 1234 DUP2 ADD2 LIT 04 SFT2 NIP EORk STH POPr ORA INC POP");
    let mut code = assemble("LIT 00");
    while code.len() + part.len() < length {
        code.extend(&part);
    }
    code.resize(length - 1, INC);
    code.push(BRK);
    code
}

/// The first jump goes to the last one, and each of the others to the one before it, so that each is
/// found late by a search that goes through the addresses in order. The second place is a BRK.
fn backward_jumps(length: usize) -> Vec<u8> {
    let jumps = length / 3;
    let mut code = Vec::with_capacity(length);
    for place in 0..jumps {
        let target = match place {
            0 => jumps - 1,
            _ => place - 1,
        };
        code.extend(jump(JMI, 3 * place, 3 * target));
    }
    code[3] = BRK;
    code.resize(length, BRK);
    code
}

/// A branch in every four bytes, half the program ahead or back. Regular, so that the processor
/// foresees the ways of a long program as well as those of a short one.
fn branches(length: usize) -> Vec<u8> {
    let mut code = assemble("LIT 00");
    let start = code.len();
    let count = (length - start - 1) / 4;
    for place in 0..count {
        let target = start + 4 * ((place + count / 2) % count);
        code.push(DUP);
        code.extend(jump(JCI, code.len(), target));
    }
    code.resize(length - 1, INC);
    code.push(BRK);
    code
}

/// Calls of one short routine, one after the other.
fn one_routine(length: usize) -> Vec<u8> {
    let routine = assemble("INC JMP2r");
    let place = length - routine.len();
    let mut code = assemble("LIT 00");
    while code.len() + 3 < place {
        code.extend(jump(JSI, code.len(), place));
    }
    code.resize(place - 1, INC);
    code.push(BRK);
    code.extend(routine);
    code
}

/// Chains of routines, as deep as they can be: each one calls the next and returns.
fn nested_routines(length: usize) -> Vec<u8> {
    let links = [JSI, 0, 1, JMP2R].repeat(DEEPEST_CALLS - 1);
    let chain = [&links[..], &[JMP2R]].concat();
    let mut code = assemble("LIT 00");
    let chains = (length - code.len() - 1) / (chain.len() + 3);
    let first = length - chains * chain.len();
    for number in 0..chains {
        code.extend(jump(JSI, code.len(), first + number * chain.len()));
    }
    code.resize(first - 1, INC);
    code.push(BRK);
    code.extend(chain.repeat(chains));
    code
}

/// Branches, each around a call of one of a few routines. These call a long routine, and so none of
/// them returns before a search in the order of the steps has met all calls: all of them wait.
fn late_returns(length: usize) -> Vec<u8> {
    let mut code = assemble("LIT 00");
    let routine = 4;
    // Two instructions of the long routine for the two steps from one branch to the next.
    let branches = (length - code.len() - LATE_ROUTINES * routine - 2) / (7 + 2);
    let routines = code.len() + 7 * branches + 1;
    let long = routines + LATE_ROUTINES * routine;
    for number in 0..branches {
        let called = routines + number % LATE_ROUTINES * routine;
        code.push(DUP);
        code.extend(jump(JCI, code.len(), code.len() + 6));
        code.extend(jump(JSI, code.len(), called));
    }
    code.push(BRK);
    for _ in 0..LATE_ROUTINES {
        code.extend(jump(JSI, code.len(), long));
        code.push(JMP2R);
    }
    code.resize(length - 1, INC);
    code.push(JMP2R);
    code
}

/// JMI, JCI or JSI at a place, to another place.
fn jump(byte: u8, from: usize, to: usize) -> [u8; 3] {
    let [high, low] = (to as u16).wrapping_sub(from as u16 + 3).to_be_bytes();
    [byte, high, low]
}

pub fn workloads() -> Vec<Workload> {
    SOURCES
        .iter()
        .map(|&(name, text)| Workload {
            name,
            program: assemble(text),
        })
        .collect()
}

/// One operation again and again.
pub fn operations() -> Vec<Workload> {
    OPERATIONS
        .iter()
        .map(|&(name, operands, operation)| {
            let turn = operation.repeat(OPERATIONS_IN_A_TURN);
            Workload {
                name,
                program: assemble(&format!("{operands} @again {turn} JMI =again")),
            }
        })
        .collect()
}

pub fn filter() -> Vec<u8> {
    assemble(FILTER)
}

/// A record with 40 data bytes from node 17.
pub fn record() -> [u8; RECORD] {
    let mut record = [0; RECORD];
    record[0] = 40;
    record[1] = 17;
    for (place, byte) in record[2..42].iter_mut().enumerate() {
        *byte = (7 * place + 3) as u8;
    }
    record
}

/// The machine after a load of the program, with the record in memory.
pub fn prepared(program: &[u8]) -> (Machine, Owned) {
    let mut owned = Owned::new();
    let start = usize::from(PROGRAM_START);
    owned.memory[start..start + program.len()].copy_from_slice(program);
    owned.memory[0x80..0x100].copy_from_slice(&record());
    (Machine::at(PROGRAM_START, 0, 0), owned)
}
