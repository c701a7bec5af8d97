//! Listings: programs written out to be read, an instruction on each line.
//!
//! ```text
//! 0104  06        DUP       a comment  [at length | sum*]
//! 0105  20 00 08  JCI 0110
//! ```
//!
//! - its address, and its bytes; `06 x9` is the byte 06 nine times, each an instruction;
//! - its name in the assembler's words, and its operand: of LIT the number, of JCI, JMI and JSI the
//!   address to which it jumps. `data` stands for bytes that are no instruction;
//! - a comment;
//! - in brackets the working stack before it, the top last, and after `|` the return stack. A word is
//!   a byte, and two bytes with `*` after it. A line without brackets is not reached.

use crate::assembler::assemble;
use crate::calls::{PROGRAM_START, SHEET_RECORD};
use crate::filters::after;
use crate::second_admission::{sizes, Depths};

pub struct Listed {
    pub address: u16,
    pub bytes: Vec<u8>,
    /// Its name, or `data`.
    pub instruction: String,
    pub operand: Option<u16>,
    pub comment: String,
    /// The depths before it, where it is reached.
    pub depths: Option<Depths>,
}

/// Words; `xN` after a word stands for N of it in all.
fn spelled(text: &str) -> Vec<&str> {
    let mut words = Vec::new();
    for word in text.split_whitespace() {
        match word.strip_prefix('x').map(str::parse::<usize>) {
            Some(Ok(count)) => {
                let last = *words.last().expect("a word before it");
                words.resize(words.len() - 1 + count, last);
            }
            _ => words.push(word),
        }
    }
    words
}

/// Bytes of two digits each.
pub fn hexadecimal(text: &str) -> Vec<u8> {
    spelled(text)
        .into_iter()
        .map(|word| u8::from_str_radix(word, 16).expect("two digits"))
        .collect()
}

fn has_digits(word: &str, count: usize) -> bool {
    word.len() == count
        && word
            .bytes()
            .all(|digit| b"0123456789ABCDEF".contains(&digit))
}

/// The first word, and the rest of the line.
fn first_word(line: &str) -> (&str, &str) {
    let line = line.trim_start();
    line.split_at(line.find(' ').unwrap_or(line.len()))
}

fn depths(stacks: &str) -> Depths {
    let (working, ret) = stacks.split_once('|').unwrap_or((stacks, ""));
    let depth = |stack| {
        let words = spelled(stack).into_iter();
        words.map(|word| 1 + u32::from(word.ends_with('*'))).sum()
    };
    Depths {
        working: depth(working),
        ret: depth(ret),
    }
}

/// A line, and again for each time that its instruction stands there.
fn listed(line: &str) -> Vec<Listed> {
    let (line, mut depths) = match line.trim_end().strip_suffix(']') {
        Some(line) => {
            let (line, stacks) = line.rsplit_once('[').expect("a bracket that opens");
            (line, Some(depths(stacks)))
        }
        None => (line, None),
    };
    let (address, mut rest) = first_word(line);
    let mut address = u16::from_str_radix(address, 16).expect("an address");
    let mut bytes = String::new();
    let mut instruction = "";
    while instruction.is_empty() {
        let (word, left) = first_word(rest);
        assert!(!word.is_empty(), "no instruction: {line}");
        if has_digits(word, 2) || word.starts_with('x') {
            bytes = bytes + word + " ";
        } else {
            instruction = word;
        }
        rest = left;
    }
    let one_by_one = bytes.contains('x') && instruction != "data";
    let bytes = hexadecimal(&bytes);
    let (word, left) = first_word(rest);
    let takes_one = instruction.starts_with("LIT") || ["JCI", "JMI", "JSI"].contains(&instruction);
    let operand = (takes_one && (has_digits(word, 2) || has_digits(word, 4)))
        .then(|| u16::from_str_radix(word, 16).unwrap());
    let comment = if operand.is_some() { left } else { rest };
    let mut lines = Vec::new();
    for part in bytes.chunks(if one_by_one { 1 } else { bytes.len() }) {
        lines.push(Listed {
            address,
            bytes: part.to_vec(),
            instruction: instruction.to_owned(),
            operand,
            comment: comment.trim().to_owned(),
            depths,
        });
        address += part.len() as u16;
        depths = depths.and_then(|before| after(part[0], before));
    }
    lines
}

pub fn listing(text: &str) -> Vec<Listed> {
    text.lines().flat_map(listed).collect()
}

/// The program's bytes. Panics where a line's address, bytes, name and operand do not agree.
pub fn code(listing: &[Listed]) -> Vec<u8> {
    let mut code: Vec<u8> = Vec::new();
    for listed in listing {
        let Listed {
            address,
            bytes,
            instruction,
            operand,
            ..
        } = listed;
        let place = usize::from(address - PROGRAM_START);
        assert_eq!(place, code.len(), "the address of {address:04X}");
        code.extend(bytes);
        if instruction == "data" {
            continue;
        }
        assert_eq!(
            assemble(instruction),
            bytes[..1],
            "{address:04X} {instruction}"
        );
        let next = address + bytes.len() as u16;
        let length = sizes(bytes[0]).length as usize;
        let said = match bytes[1..] {
            [byte] if length == 2 => Some(byte.into()),
            [high, low] if length == 3 => {
                let number = u16::from_be_bytes([high, low]);
                match instruction.starts_with("LIT") {
                    true => Some(number),
                    false => Some(next.wrapping_add(number)),
                }
            }
            // Cut short: its operand is not whole.
            _ => None,
        };
        assert_eq!(*operand, said, "the operand of {address:04X} {instruction}");
        let last = listing.last().is_some_and(|last| last.address == *address);
        assert!(
            bytes.len() == length || bytes.len() < length && last,
            "the length of {address:04X} {instruction}"
        );
    }
    code
}

/// The addresses that are called by lines which are reached.
fn routines(listing: &[Listed]) -> Vec<u16> {
    let reached = listing.iter().filter(|line| line.depths.is_some());
    let calls = reached.filter(|line| line.instruction == "JSI");
    calls.filter_map(|call| call.operand).collect()
}

/// The sheet that marks the lines with brackets, each with its depths. A line that is called begins a
/// routine, which goes on to the next such line; those before the first are in routine 0100.
pub fn sheet(listing: &[Listed]) -> Vec<u8> {
    let records = code(listing).into_iter();
    let mut records: Vec<[u8; SHEET_RECORD]> =
        records.map(|byte| [0, 0, 0, byte, 0, 0, 0, 0]).collect();
    let routines = routines(listing);
    let mut routine = PROGRAM_START;
    for listed in listing {
        if routines.contains(&listed.address) {
            routine = listed.address;
        }
        if let Some(Depths { working, ret }) = listed.depths {
            let [high, low] = routine.to_be_bytes();
            let record = &mut records[usize::from(listed.address - PROGRAM_START)];
            *record = [1, working as u8, ret as u8, record[3], high, low, 0, 0];
        }
    }
    records.concat()
}

#[cfg(test)]
mod tests {
    use super::{code, hexadecimal, listing, sheet};

    #[test]
    fn lines_are_read() {
        let listing = listing(
            "0100     C0 01     LITr 01    a comment: 02   []\n\
             0102  A0 01 05  LIT2 0105      [| a]\n\
             0105  26 x2  DUP2 [a* | b]\n\
             0107  40 00 01  JMI 010B   back   [a x6 | b]\n\
             010A  FF  data  not reached\n\
             010B  00 BRK   [ a* b* c d | e ]\n",
        );
        let bytes = hexadecimal("C0 01 A0 01 05 26 x2 40 00 01 FF 00");
        assert_eq!(code(&listing), bytes);
        let comments: Vec<&str> = listing.iter().map(|line| &*line.comment).collect();
        let said = ["a comment: 02", "", "", "", "back", "not reached", ""];
        assert_eq!(comments, said);
        let marked = |place, working, ret| [1, working, ret, bytes[place], 1, 0, 0, 0];
        let unmarked = |place| [0, 0, 0, bytes[place], 0, 0, 0, 0];
        let records = [
            marked(0, 0, 0),
            unmarked(1),
            marked(2, 0, 1),
            unmarked(3),
            unmarked(4),
            marked(5, 2, 1),
            marked(6, 4, 1),
            marked(7, 6, 1),
            unmarked(8),
            unmarked(9),
            unmarked(10),
            marked(11, 6, 1),
        ];
        assert_eq!(sheet(&listing), records.as_flattened());
    }

    #[test]
    fn lines_that_are_called_begin_a_routine() {
        let listing = listing(
            "0100  60 00 04  JSI 0107       []\n\
             0103  60 00 03  JSI 0109       [a]\n\
             0106  00  BRK\n\
             0107  01  INC                  [a | back*]\n\
             0108  6C  JMP2r                [a | back*]\n\
             0109  00  BRK                  [a | back*]\n",
        );
        let marked = |at: usize| {
            let record = &sheet(&listing)[8 * at..8 * at + 8];
            (record[0], u16::from_be_bytes([record[4], record[5]]))
        };
        let found = [0, 1, 3, 6, 7, 8, 9].map(marked);
        let routines = [0x0100, 0, 0x0100, 0, 0x0107, 0x0107, 0x0109];
        assert_eq!(
            found,
            routines.map(|routine| (u8::from(routine > 0), routine))
        );
    }

    fn wrong(text: &str) {
        let checked = std::panic::catch_unwind(|| code(&listing(text)));
        assert!(checked.is_err(), "{text:?} is taken");
    }

    #[test]
    fn lines_that_do_not_agree_are_seen() {
        code(&listing("0100  00  BRK"));
        code(&listing("0100  A0 01  LIT2"));
        for text in [
            "0101  00  BRK",
            "0100  00  POP",
            "0100  00",
            "0100  00 00  BRK DUP",
            "0100  80 01  LIT 02",
            "0100  80 01  LIT",
            "0100  80  LIT\n0101  00  BRK",
            "0100  40 00 00  JMI 0000",
            "0100  A0 01  LIT2 01",
            "0100  02 03  POP",
        ] {
            wrong(text);
        }
    }
}
