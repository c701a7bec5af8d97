//! A small assembler, so that programs can be read. Words are separated by white space:
//!
//! - `LIT2`, `ADD2kr`: an instruction, with its modes in the order 2, k, r;
//! - `1f`, `0100`: one or two bytes in lower-case hexadecimal;
//! - `@name`: a label; `=name`: the 16-bit offset to it, as JCI, JMI and JSI count it; `:name`: its
//!   16-bit address;
//! - `( words )`: a comment.

use std::collections::HashMap;

use crate::calls::PROGRAM_START;

/// Operations 01 to 1F.
const OPERATIONS: [&str; 31] = [
    "INC", "POP", "NIP", "SWP", "ROT", "DUP", "OVR", "EQU", "NEQ", "GTH", "LTH", "JMP", "JCN",
    "JSR", "STH", "LDZ", "STZ", "LDR", "STR", "LDA", "STA", "DEI", "DEO", "ADD", "SUB", "MUL",
    "DIV", "AND", "ORA", "EOR", "SFT",
];

const EXCEPTIONS: [(&str, u8); 8] = [
    ("BRK", 0x00),
    ("JCI", 0x20),
    ("JMI", 0x40),
    ("JSI", 0x60),
    ("LIT", 0x80),
    ("LIT2", 0xa0),
    ("LITr", 0xc0),
    ("LIT2r", 0xe0),
];

/// In the order in which a name has them.
const MODES: [(char, u8); 3] = [('2', 0x20), ('k', 0x80), ('r', 0x40)];

/// The program's bytes, from address 0100. Panics on a word that it does not know.
pub fn assemble(text: &str) -> Vec<u8> {
    let mut code = Vec::new();
    let mut labels = HashMap::new();
    let mut uses = Vec::new();
    let mut in_comment = false;
    for word in text.split_whitespace() {
        if in_comment || word == "(" {
            in_comment = word != ")";
        } else if let Some(name) = word.strip_prefix('@') {
            labels.insert(name, address_of(code.len()));
        } else if word.starts_with(['=', ':']) {
            uses.push((code.len(), word));
            code.extend([0, 0]);
        } else if let Some(byte) = instruction(word) {
            code.push(byte);
        } else {
            code.extend(hexadecimal(word));
        }
    }
    for (at, word) in uses {
        let (kind, name) = word.split_at(1);
        let Some(&target) = labels.get(name) else {
            panic!("no label {name}");
        };
        let value: u16 = match kind {
            "=" => target.wrapping_sub(address_of(at + 2)),
            _ => target,
        };
        code[at..at + 2].copy_from_slice(&value.to_be_bytes());
    }
    code
}

/// The name of an instruction byte, with its modes.
pub fn name(byte: u8) -> String {
    if let Some((name, _)) = EXCEPTIONS.iter().find(|(_, known)| *known == byte) {
        return (*name).to_owned();
    }
    let mut name = OPERATIONS[usize::from(byte & 0x1f) - 1].to_owned();
    for (mode, bit) in MODES {
        if byte & bit != 0 {
            name.push(mode);
        }
    }
    name
}

fn address_of(place: usize) -> u16 {
    PROGRAM_START + place as u16
}

fn instruction(word: &str) -> Option<u8> {
    if let Some(&(_, byte)) = EXCEPTIONS.iter().find(|(name, _)| *name == word) {
        return Some(byte);
    }
    let (name, mut modes) = word.split_at_checked(3)?;
    let mut byte = 1 + OPERATIONS.iter().position(|known| *known == name)? as u8;
    for (mode, bit) in MODES {
        if let Some(rest) = modes.strip_prefix(mode) {
            byte |= bit;
            modes = rest;
        }
    }
    modes.is_empty().then_some(byte)
}

fn hexadecimal(word: &str) -> Vec<u8> {
    let digits = word
        .bytes()
        .all(|digit| b"0123456789abcdef".contains(&digit));
    match (digits, word.len()) {
        (true, 2) => vec![u8::from_str_radix(word, 16).unwrap()],
        (true, 4) => u16::from_str_radix(word, 16)
            .unwrap()
            .to_be_bytes()
            .to_vec(),
        _ => panic!("no such word: {word}"),
    }
}

#[cfg(test)]
mod tests {
    use super::{assemble, name};

    #[test]
    fn every_byte_has_a_name() {
        for byte in 0..=255 {
            assert_eq!(assemble(&name(byte)), [byte]);
        }
        let named = [0x00, 0x02, 0x6c, 0x98, 0xe0, 0xef].map(name);
        assert_eq!(named, ["BRK", "POP", "JMP2r", "ADDk", "LIT2r", "STH2kr"]);
    }

    #[test]
    fn words_are_assembled() {
        assert_eq!(
            assemble("LIT 05 LIT 03 ADDk BRK"),
            [0x80, 5, 0x80, 3, 0x98, 0]
        );
        assert_eq!(
            assemble("LIT2r 1234 SFT2kr INCr"),
            [0xe0, 0x12, 0x34, 0xff, 0x41]
        );
        assert_eq!(assemble("@start JMI =start"), [0x40, 0xff, 0xfd]);
        assert_eq!(
            assemble("LIT2 :end JSR2 ( call ) BRK @end BRK"),
            [0xa0, 1, 5, 0x2e, 0, 0]
        );
    }
}
