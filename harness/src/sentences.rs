//! The line that the program `explain` should write: from what `uxn_explain` says of a program, and
//! from the program's bytes.

use crate::assembler::name;
use crate::calls::{Place, Why, ADMITTED, PROGRAM_START};

/// A number of bytes.
fn bytes(count: u16) -> String {
    match count {
        1 => "1 byte".to_owned(),
        _ => format!("{count} bytes"),
    }
}

pub fn line(program: &[u8], why: &Why) -> String {
    match why.number {
        ADMITTED => "admitted\n".to_owned(),
        11 => {
            let at = why.here.at;
            let byte = program[usize::from(at - PROGRAM_START)];
            let sentence = sentence(program, why);
            format!("refused 11 at {at:04X}: {} {sentence}\n", name(byte))
        }
        number => format!("refused {number}\n"),
    }
}

/// What is said of the instruction.
fn sentence(program: &[u8], why: &Why) -> String {
    let Why {
        here, next, other, ..
    } = *why;
    let count = bytes(why.count);
    let end = PROGRAM_START + program.len() as u16;
    let takes = |stack, holds| format!("takes {count} of the {stack} stack, which holds {holds}");
    let leaves = |stack| format!("leaves {count} on the {stack} stack, which has room for 255");
    let returns = |stack, depth| {
        let routine = here.routine;
        format!("returns from routine {routine:04X} with {stack} depth {depth}")
    };
    // Routines are named where they differ.
    let routine = |place: Place| match next.routine == other.routine {
        true => String::new(),
        false => format!(" in routine {:04X}", place.routine),
    };
    match why.rule {
        1 => format!(
            "is {count} long, and the program ends after {} of them",
            end - here.at
        ),
        2 => "is not allowed in a filter".to_owned(),
        3 => takes("working", here.work),
        4 => takes("return", here.ret),
        5 => format!(
            "{}, and {} of them belong to the callers of routine {:04X}",
            takes("return", here.ret),
            other.ret,
            here.routine
        ),
        6 => leaves("working"),
        7 => leaves("return"),
        8 => format!(
            "goes on to {:04X}, outside the program, which is 0100 to {:04X}",
            next.at,
            end - 1
        ),
        9 => format!(
            "goes on to {:04X} with working depth {} and return depth {}{}, \
             and another way there has {} and {}{}",
            next.at,
            next.work,
            next.ret,
            routine(next),
            other.work,
            other.ret,
            routine(other)
        ),
        10 => "returns in routine 0100, which was not called".to_owned(),
        11 => format!(
            "{}, and it was entered with {}",
            returns("return", here.ret),
            other.ret
        ),
        12 => format!(
            "{}, and the JMP2r at {:04X} with {}",
            returns("working", here.work),
            other.at,
            other.work
        ),
        rule => panic!("no rule {rule}"),
    }
}
