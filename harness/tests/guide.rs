//! The page `docs/FILTERS.md`, run: its listings, bytes, records, lines, steps, sheets, tables and
//! commands are read from the page, so that it says what the product does. The blocks:
//!
//! - `filter NAME`, `bytes NAME`, `records NAME`: an example's listing, its bytes, and its records,
//!   each with the line that `frames` writes and the steps. In a listing the lines of a routine stand
//!   together, the one that is called first;
//! - `verdicts`: short programs, each with its line for a frame of zeros, and its instructions;
//! - `sheet`: a sheet, a record on each line;
//! - `refused NAME`: listings under the line that `explain` writes, and one under `admitted`;
//! - `console`: commands after `$`, and what they write and say.

use std::collections::BTreeSet;
use std::path::PathBuf;
use std::process::Command;

use uxn_filter_harness::admissions::Admissions;
use uxn_filter_harness::assembler::assemble;
use uxn_filter_harness::calls::{
    ADMITTED, ADMIT_LIMIT, BROKE, LOADED, OLD_RECORD, PROGRAM_LIMIT, PROGRAM_START, RECORD,
    REFUSED, SHEET_RECORD,
};
use uxn_filter_harness::filters::{after, forbidden_bytes};
use uxn_filter_harness::library;
use uxn_filter_harness::linked::{
    self, assert_writes, expected_lines, explain, file, lines_of, program, sheet, sheet_of,
    Written, BUDGET, NARROW, WIDEN,
};
use uxn_filter_harness::listing::{self, hexadecimal, listing, Listed};
use uxn_filter_harness::opcodes::{BRK, JMP2R, POP};
use uxn_filter_harness::page::{self, cells, Block};
use uxn_filter_harness::pair::{say, Pair, Part};
use uxn_filter_harness::reasons::RULES;
use uxn_filter_harness::second_admission::{sizes, Depths, Sizes};
use uxn_filter_harness::watch::Watch;

const KINDS: [&str; 7] = [
    "filter", "bytes", "records", "verdicts", "sheet", "refused", "console",
];
/// Examples and refused programs that the page has to have.
const EXAMPLES: [&str; 10] = [
    "all", "node", "value", "table", "check", "pairs", "third", "peak", "range", "digits",
];
const REFUSALS: [&str; 31] = [
    "empty",
    "long",
    "few",
    "other",
    "keep",
    "deep",
    "ways",
    "loop",
    "both",
    "end",
    "cut",
    "out",
    "far",
    "jmp",
    "jcn",
    "jsr",
    "modes",
    "store",
    "store2",
    "recursion",
    "calls",
    "level",
    "start",
    "shared",
    "fall",
    "back",
    "below",
    "first",
    "floor",
    "returns",
    "levels",
];
const NOT_ADMITTED: u8 = 11;
/// As many data bytes as a record can have.
const MOST: usize = RECORD - 2;
/// Stands at the instruction that the line of a refused program names.
const FAULT: &str = "<-";
/// Where the line tells of another way, this comes after it.
const OTHER_WAY: &str = "the other way ";

fn page() -> String {
    page::read("FILTERS.md")
}

/// A folder of its own for a test.
fn folder(test: &str) -> PathBuf {
    linked::folder(env!("CARGO_TARGET_TMPDIR"), test)
}

// Blocks and tables

fn all_blocks() -> Vec<Block> {
    let blocks = page::blocks(&page());
    for block in &blocks {
        assert!(
            KINDS.contains(&&*block.kind),
            "a block of kind {:?}",
            block.kind
        );
    }
    blocks
}

fn blocks(kind: &str) -> Vec<Block> {
    let mut blocks = all_blocks();
    blocks.retain(|block| block.kind == kind);
    assert!(!blocks.is_empty(), "no block of kind {kind}");
    blocks
}

/// The text of a block, if there is one.
fn block(kind: &str, name: &str) -> Option<String> {
    let mut named = blocks(kind);
    named.retain(|block| block.name == name);
    assert!(named.len() <= 1, "{kind} {name} stands twice");
    named.pop().map(|block| block.text)
}

fn table(head: &str) -> Vec<Vec<String>> {
    page::table(&page(), head)
}

// Programs

/// Where the byte of an address stands in the program.
fn place(address: u16) -> usize {
    usize::from(address - PROGRAM_START)
}

/// A listing's program, and the sheet of its brackets; if `over` is given, with BRK over the
/// instruction there. Each line has the routine at whose address it stands, or that begins before it:
/// 0100, or where a call that is reached goes.
fn program_and_sheet(lines: &[Listed], over: Option<u16>) -> (Vec<u8>, Vec<u8>) {
    let mut code = listing::code(lines);
    if let Some(address) = over {
        code[place(address)] = BRK;
    }
    let mut routines = BTreeSet::from([PROGRAM_START]);
    for line in lines {
        if line.instruction == "JSI" && line.depths.is_some() && over != Some(line.address) {
            routines.extend(line.operand);
        }
    }
    let unmarked = |&byte: &u8| [0, 0, 0, byte, 0, 0, 0, 0];
    let mut sheet: Vec<[u8; SHEET_RECORD]> = code.iter().map(unmarked).collect();
    for line in lines {
        if let Some(Depths { working, ret }) = line.depths {
            let routine = routines.range(..=line.address).last().unwrap();
            let [high, low] = routine.to_be_bytes();
            let record = &mut sheet[place(line.address)];
            *record = [1, working as u8, ret as u8, record[3], high, low, 0, 0];
        }
    }
    (code, sheet.into_flattened())
}

/// The program of a listing, which is admitted: the library, the second admission and the one in safe
/// Rust agree in that, and the sheet is the one of the listing's brackets. `sheet` writes it.
fn assert_admitted(name: &str, lines: &[Listed]) -> Vec<u8> {
    let (code, sheet) = program_and_sheet(lines, None);
    assert_admitted_with(name, &code, &sheet);
    code
}

fn assert_admitted_with(name: &str, code: &[u8], sheet: &[u8]) {
    let mut admissions = Admissions::new(0);
    assert_eq!(admissions.admit(code), ADMITTED, "{name}");
    assert_eq!(admissions.sheet(), sheet, "the sheet of {name}");
    assert_eq!(sheet_of(code), sheet, "{name}: what `sheet` writes");
}

/// The head of a refused program is the line of `explain`; `sheet` and `frames` have its number alone.
fn assert_refused(name: &str, code: &[u8], head: &str, number: u8) {
    assert_eq!(Admissions::new(0).admit(code), number, "{name}");
    let line = Written::only_out(format!("{head}\n"));
    assert_writes(&mut explain(), code, &line);
    let refused = format!("refused {number}\n");
    assert_writes(&mut sheet(), code, &Written::only_said(&*refused));
    assert_eq!(line_for_zeros(name, code), refused);
}

/// What `frames` writes for one frame of zeros.
fn line_for_zeros(name: &str, code: &[u8]) -> String {
    let folder = folder(&format!("zeros_{name}"));
    let rom = file(&folder, "filter.rom", code);
    lines_of(&rom, &file(&folder, "records.bin", &[0; RECORD]))
}

/// A filter, installed.
fn installed(code: &[u8]) -> Pair {
    let mut pair = Pair::new(0);
    install(&mut pair, code);
    pair
}

fn install(pair: &mut Pair, code: &[u8]) {
    let mut sheet = vec![0; SHEET_RECORD * code.len()];
    assert_eq!(pair.install(code, &mut sheet).answer, LOADED);
}

/// The line that `frames` writes for each record, and the second machine; demand 3 is watched.
/// Answers the steps of each.
fn assert_lines(name: &str, code: &[u8], records: &[[u8; RECORD]], lines: &str) -> Vec<u32> {
    let folder = folder(&format!("lines_of_{name}"));
    let rom = file(&folder, "filter.rom", code);
    let bytes = records.as_flattened();
    let written = lines_of(&rom, &file(&folder, "records.bin", bytes));
    assert_eq!(written, lines, "{name}: what `frames` writes");
    assert_eq!(
        expected_lines(code, bytes),
        lines,
        "{name}: the second machine"
    );

    let mut pair = installed(code);
    let mut watch = Watch::admitted(code).unwrap_or_else(|what| panic!("{name}: {what}"));
    let steps = records.iter().map(|record| {
        if let Err(what) = watch.frame(record, BUDGET) {
            panic!("{name}: {what}");
        }
        pair.frame(record, BUDGET).steps
    });
    steps.collect()
}

/// A record that is given up to its last byte that is not 0.
fn record(text: &str) -> [u8; RECORD] {
    let mut bytes = hexadecimal(text);
    assert!(bytes.len() <= RECORD, "a record of {} bytes", bytes.len());
    bytes.resize(RECORD, 0);
    bytes.try_into().unwrap()
}

/// A record of node 05 with so many bytes of data: all the same, but for the last.
fn data(length: usize, byte: u8, last: u8) -> [u8; RECORD] {
    let mut record = [0; RECORD];
    record[..2].copy_from_slice(&[length as u8, 5]);
    let data = &mut record[2..2 + length];
    data.fill(byte);
    if let Some(end) = data.last_mut() {
        *end = last;
    }
    record
}

// The examples

#[test]
fn the_examples_are_there() {
    for name in EXAMPLES {
        for kind in ["filter", "bytes", "records"] {
            assert!(block(kind, name).is_some(), "no block: {kind} {name}");
        }
        let records = block("records", name).unwrap();
        assert!(records.lines().count() >= 2, "records of {name}");
    }
    for kind in ["bytes", "records"] {
        for Block { name, .. } in blocks(kind) {
            assert!(block("filter", &name).is_some(), "no block: filter {name}");
        }
    }
}

#[test]
fn the_examples_are_admitted() {
    for Block { name, text, .. } in blocks("filter") {
        println!("filter {name}");
        let code = assert_admitted(&name, &listing(&text));
        if let Some(bytes) = block("bytes", &name) {
            assert_eq!(hexadecimal(&bytes), code, "the bytes of {name}");
        }
    }
}

#[test]
fn the_examples_give_their_lines() {
    let mut seen = BTreeSet::new();
    for Block { name, text, .. } in blocks("filter") {
        let code = listing::code(&listing(&text));
        let rows = block("records", &name).unwrap_or_else(|| panic!("no records of {name}"));
        let rows: Vec<Vec<String>> = rows.lines().map(cells).collect();
        let records: Vec<[u8; RECORD]> = rows.iter().map(|row| record(&row[0])).collect();
        let lines: String = rows.iter().map(|row| row[1].clone() + "\n").collect();
        let said = rows.iter().map(|row| row[2].replace(',', ""));
        let said: Vec<u32> = said.map(|steps| steps.parse().unwrap()).collect();
        let steps = assert_lines(&name, &code, &records, &lines);
        assert_eq!(steps, said, "the steps of {name}");
        seen.extend(rows.into_iter().map(|mut row| row.swap_remove(1)));
    }
    let every = ["drop", "pass", "refused 8", "spent"].map(str::to_owned);
    assert_eq!(seen, BTreeSet::from(every));
}

/// The frame's bytes stand where the table says.
#[test]
fn the_frame_in_memory() {
    let rows = table("| address | what stands there |");
    let number = |word: Option<&str>| {
        let word = word.expect("an address");
        usize::from_str_radix(word, 16).expect("an address")
    };
    let at: Vec<usize> = rows[..3]
        .iter()
        .map(|row| number(row[0].split_whitespace().next()))
        .collect();
    let last = number(rows[3][0].split_whitespace().last());
    let mut pair = installed(&[BRK]);
    for record in [record("02 05 12 34"), data(MOST, 0x12, 0x34)] {
        pair.frame(&record, BUDGET);
        let memory = pair.bytes(Part::Memory);
        let found: Vec<u8> = at.iter().map(|&at| memory[at]).collect();
        assert_eq!(found, record[..3], "length, node number, data");
        assert_eq!(memory[at[0]..=last], record);
    }
}

/// What the table says of the zero page: its first row stays from frame to frame, its second is the
/// record, and there is no more. An install that is refused changes nothing.
#[test]
fn the_zero_page_from_frame_to_frame() {
    let rows = table("| what the filter finds | after an install | when a frame comes |");
    let ends = rows[..2].iter().flat_map(|row| {
        let (first, last) = row[0].split_once(" .. ").expect("from .. to");
        [first, last].map(|end| usize::from_str_radix(end, 16).expect("an address"))
    });
    let [first, kept, frame, last] = ends.collect::<Vec<_>>()[..] else {
        panic!("two rows");
    };
    assert_eq!((first, kept + 1, last), (0, frame, 0xff));
    let bytes = format!(
        "remember {} bytes in the zero page, {}.",
        kept + 1,
        rows[0][0]
    );
    assert!(page().contains(&bytes), "{bytes:?}");

    let mut pair = installed(&[BRK]);
    pair.put(Part::Memory, first, &[0xff; 256]);
    install(&mut pair, &[BRK]);
    assert_eq!(pair.bytes(Part::Memory)[..=last], [0; 256]);
    let before: Vec<u8> = (1..=kept as u8 + 1).collect();
    pair.put(Part::Memory, first, &before);
    for record in [
        data(MOST, 0x12, 0x34),
        record("00 05"),
        data(MOST, 0xff, 0xff),
    ] {
        pair.frame(&record, BUDGET);
        let refused = pair.install(&[POP], &mut [0; SHEET_RECORD]);
        assert_eq!(refused.number, NOT_ADMITTED);
        let memory = pair.bytes(Part::Memory);
        assert_eq!(memory[..=kept], before);
        assert_eq!(memory[frame..=last], record);
    }
}

// The end of the data

/// The page's test for an address is right for every L and every address of the zero page.
#[test]
fn whether_a_data_byte_stands_there() {
    let test = "DUP LIT 82 SUB LIT 80 LDZ LTH";
    assert!(page().contains(test), "{test:?}");
    for at in 0..=0xff {
        let words = format!("LIT {at:02x} {test} LIT F2 DEO BRK");
        let mut pair = installed(&assembled(&words));
        for length in 0..=MOST {
            let reply = pair.frame(&data(length, 0, 0), BUDGET);
            let there = (0x82..0x82 + length).contains(&at);
            assert_eq!(reply.verdict, u8::from(there), "{at:02X}, L = {length}");
        }
    }
}

/// The loops look at all the data, whatever L is, and at nothing else: what the filter keeps does not
/// count.
#[test]
fn the_loops_end_where_the_data_ends() {
    let cases = [
        ("check", 0x00, 0x01, 0x00),
        ("peak", 0x64, 0x65, 0x64),
        ("pairs", 0x01, 0x07, 0x01),
    ];
    for (name, byte, sought, other) in cases {
        let mut pair = installed(&hexadecimal(&block("bytes", name).unwrap()));
        pair.put(Part::Memory, 0, &[sought; 0x80]);
        for length in 0..=MOST {
            let there = pair.frame(&data(length, byte, sought), BUDGET);
            let not = pair.frame(&data(length, byte, other), BUDGET);
            // One passes, and the other one does not. Of pairs the last byte may be a value.
            let differ = length > 0 && (name != "pairs" || length % 2 == 1);
            assert_eq!(there.verdict != not.verdict, differ, "{name}, L = {length}");
            assert_eq!(
                [there.answer, not.answer],
                [BROKE; 2],
                "{name}, L = {length}"
            );
        }
    }
}

/// The example `pairs` with the comparison that the page calls wrong: what becomes of its records.
#[test]
fn the_end_of_the_data_by_order() {
    let [right, wrong] = ["LIT 82 SUB LIT 80 LDZ LTH", "LIT 80 LDZ LIT 82 ADD LTH"];
    assert!(page().contains(&format!("{wrong} at 0103 .. 0109")));
    let [right, wrong] = [right, wrong].map(assembled);
    let mut code = hexadecimal(&block("bytes", "pairs").unwrap());
    let test = place(0x0103)..=place(0x0109);
    assert_eq!(code[test.clone()], right);
    code.splice(test, wrong);
    assert_eq!(Admissions::new(0).admit(&code), ADMITTED);

    let rows = block("records", "pairs").unwrap();
    let mut lines = String::new();
    let mut said: Vec<u32> = Vec::new();
    let mut records = Vec::new();
    for row in rows.lines().map(cells) {
        let record = record(&row[0]);
        let (line, steps) = match record[0] {
            126 => ("drop", 9),
            125 => ("spent", BUDGET),
            _ => (&*row[1], row[2].parse().unwrap()),
        };
        lines += &format!("{line}\n");
        said.push(steps);
        records.push(record);
    }
    let lengths: Vec<u8> = records.iter().map(|record| record[0]).collect();
    assert_eq!(lengths.iter().filter(|&&length| length == 126).count(), 2);
    assert_eq!(lengths.iter().filter(|&&length| length == 125).count(), 1);
    let steps = assert_lines("pairs_by_order", &code, &records, &lines);
    assert_eq!(steps, said);
}

/// Two old records, taken for one.
#[test]
fn old_records_taken_for_new_ones() {
    let node = hexadecimal(&block("bytes", "node").unwrap());
    let old = |text: &str| {
        let mut bytes = hexadecimal(text);
        bytes.resize(OLD_RECORD, 0);
        bytes
    };
    let mut lines = String::new();
    let mut records = Vec::new();
    for (one, other, line) in [
        ("01 05 7A", "01 06 7A", "refused 8"),
        ("3E 05 01 x62", "00 05", "refused 8"),
        ("01 05 7A", "00 00", "pass"),
        ("3E 06 01 x62", "00 00", "drop"),
    ] {
        let both = [old(one), old(other)].concat();
        records.push(both.try_into().expect("as long as a record"));
        lines += &format!("{line}\n");
    }
    assert_lines("old_records", &node, &records, &lines);
}

/// The bytes of instructions without jumps, in the page's words.
fn assembled(text: &str) -> Vec<u8> {
    let mut words = Vec::new();
    let mut after_literal = false;
    for word in text.split_whitespace() {
        // The assembler takes numbers in small letters.
        words.push(match after_literal {
            true => word.to_lowercase(),
            false => word.to_owned(),
        });
        after_literal = word.starts_with("LIT");
    }
    assemble(&words.join(" "))
}

#[test]
fn the_verdicts_are_as_said() {
    for Block { text, .. } in blocks("verdicts") {
        assert!(text.lines().count() >= 4, "verdicts of every kind");
        for line in text.lines() {
            let [bytes, said, instructions] = &cells(line)[..] else {
                panic!("three parts: {line}");
            };
            let code = hexadecimal(bytes);
            let (words, _) = instructions.split_once(':').unwrap_or((instructions, ""));
            assert_eq!(assembled(words), code, "{line}");
            let name = format!("verdict_{}", bytes.replace(' ', ""));
            assert_lines(&name, &code, &[[0; RECORD]], &format!("{said}\n"));
        }
    }
}

// Refusals

/// The listings of a block, each below its head.
fn parts(text: &str) -> Vec<(&str, Vec<Listed>)> {
    let is_head = |line: &str| line.starts_with("refused ") || line == "admitted";
    let mut parts: Vec<(&str, String)> = Vec::new();
    for line in text.lines() {
        match parts.last_mut() {
            Some((_, lines)) if !is_head(line) => {
                *lines += line;
                *lines += "\n";
            }
            _ => parts.push((line, String::new())),
        }
    }
    let listings = parts.into_iter();
    listings
        .map(|(head, lines)| (head, listing(&lines)))
        .collect()
}

/// The refused programs of a block.
fn wrong(text: &str) -> Vec<(&str, Vec<Listed>)> {
    let mut parts = parts(text);
    parts.retain(|(head, _)| *head != "admitted");
    parts
}

/// The line of a program that breaks a rule: the address that it names, and what it says of the
/// instruction there.
fn told(line: &str) -> Option<(u16, &str)> {
    let (address, sentence) = line.strip_prefix("refused 11 at ")?.split_once(": ")?;
    let address = u16::from_str_radix(address, 16).expect("an address");
    Some((address, sentence))
}

/// The instruction that the line names is the one with the mark. With BRK in its place the program is
/// admitted, with the depths listed.
fn assert_fault(name: &str, head: &str, lines: &[Listed]) {
    let faults = lines
        .iter()
        .filter(|listed| listed.comment.starts_with(FAULT));
    let [fault] = faults.collect::<Vec<_>>()[..] else {
        panic!("{name}: one instruction with {FAULT}");
    };
    let (address, sentence) = told(head).expect(head);
    assert_eq!(address, fault.address, "{name}: {head}");
    assert_eq!(sentence.split(' ').next(), Some(&*fault.instruction));
    assert_ne!(fault.bytes[0], BRK, "{name}");
    let (code, sheet) = program_and_sheet(lines, Some(fault.address));
    assert_admitted_with(&format!("{name} with BRK"), &code, &sheet);
    assert_other_way(name, fault, lines);
}

/// Where the line tells of another way, the listing says where that one comes from: an instruction
/// that goes on to the same address with those depths, or the start.
fn assert_other_way(name: &str, fault: &Listed, lines: &[Listed]) {
    let why = library::explain(&listing::code(lines));
    let words = fault.comment[FAULT.len()..].trim_start();
    let from = words.strip_prefix(OTHER_WAY);
    let differ = RULES[usize::from(why.rule) - 1] == "ways differ";
    assert_eq!(from.is_some(), differ, "{name}: {words}");
    let Some(from) = from else { return };
    let (next, depths) = match from.strip_prefix("comes from ") {
        Some(from) => {
            let from = u16::from_str_radix(from, 16).expect("an address");
            let line = lines.iter().find(|line| line.address == from);
            let line = line.expect("a line of the listing");
            let ahead = line.address + line.bytes.len() as u16;
            let next = match &*line.instruction {
                "JCI" | "JMI" | "JSI" => line.operand.expect("its target"),
                _ => ahead,
            };
            (next, after(line.bytes[0], line.depths.unwrap()).unwrap())
        }
        None => {
            assert_eq!(from, "is the start", "{name}");
            (PROGRAM_START, Depths { working: 0, ret: 0 })
        }
    };
    let told = [why.other.work, why.other.ret].map(u32::from);
    assert_eq!(next, why.next.at, "{name}: {words}");
    assert_eq!([depths.working, depths.ret], told, "{name}: {words}");
}

/// What a line says of an instruction, without its name and numbers, and without the routines that
/// are named where two ways differ in them.
fn form(sentence: &str) -> String {
    let (_, sentence) = sentence.split_once(' ').expect("a name and words");
    let is_number = |word: &str| {
        word.bytes()
            .all(|digit| b"0123456789ABCDEF".contains(&digit))
    };
    let words = sentence.split(' ').map(|word| {
        let bare = word.trim_end_matches(',');
        match bare {
            "byte" => word.replace(bare, "bytes"),
            _ if is_number(bare) => word.replace(bare, "N"),
            _ => word.to_owned(),
        }
    });
    let words: Vec<String> = words.collect();
    words.join(" ").replace(" in routine N", "")
}

/// A row for each rule that `uxn_explain` has a number for, in their order. Its line is that of a
/// program of the page, and all programs that break the rule have the same but for names and numbers.
#[test]
fn the_table_of_reasons() {
    let rows = table("| line | what it means | what to change |");
    assert_eq!(rows.len(), RULES.len());
    assert!(page().contains("The twelve reasons are below"));
    let mut sentences: Vec<BTreeSet<String>> = vec![BTreeSet::new(); RULES.len()];
    for Block { text, .. } in blocks("refused") {
        for (head, lines) in wrong(&text) {
            if let Some((_, sentence)) = told(head) {
                let rule = library::explain(&listing::code(&lines)).rule;
                sentences[usize::from(rule) - 1].insert(sentence.to_owned());
            }
        }
    }
    let mut forms = BTreeSet::new();
    for ((row, sentences), rule) in rows.iter().zip(sentences).zip(RULES) {
        let said = row[0]
            .strip_prefix('`')
            .and_then(|row| row.strip_suffix('`'));
        let said = said.expect("a line between marks");
        assert!(sentences.contains(said), "{rule}: no program has {said}");
        for sentence in sentences {
            assert_eq!(form(&sentence), form(said), "{rule}");
        }
        assert!(row[1].starts_with("rule ") && !row[2].is_empty(), "{rule}");
        forms.insert(form(said));
    }
    assert_eq!(forms.len(), RULES.len(), "{forms:?}");
}

/// So many levels of calls have room on the return stack, and no more.
#[test]
fn levels_of_calls() {
    let most = 127;
    let words: Vec<String> = page().split_whitespace().map(str::to_owned).collect();
    assert!(words.join(" ").contains(&format!("{most} levels of calls")));
    for (levels, number) in [(most, ADMITTED), (most + 1, NOT_ADMITTED)] {
        // Each calls what stands after its last byte; the last one only returns.
        let mut code = assemble("JSI 0001 BRK");
        for _ in 1..levels {
            code.extend(assemble("JSI 0001 JMP2r"));
        }
        code.push(JMP2R);
        assert_eq!(Admissions::new(0).admit(&code), number, "{levels} levels");
    }
}

#[test]
fn every_refusal_is_there() {
    for name in REFUSALS {
        assert!(block("refused", name).is_some(), "no block: refused {name}");
    }
}

#[test]
fn refused_programs_and_the_same_mended() {
    let mut refused = 0;
    for Block { name, text, .. } in blocks("refused") {
        println!("refused {name}");
        let parts = parts(&text);
        let Some(((head, mended), wrong)) = parts.split_last() else {
            panic!("an empty block: {name}");
        };
        assert_eq!(*head, "admitted", "the last part of {name}");
        let code = assert_admitted(&name, mended);
        let mut watch = Watch::admitted(&code).unwrap();
        for frame in [record("00"), data(MOST, 1, 1)] {
            watch.frame(&frame, BUDGET).unwrap();
        }
        assert!(!wrong.is_empty(), "{name}: nothing is refused");
        for (head, lines) in wrong {
            let number = head.split(' ').nth(1).expect(head);
            let number = number.parse().expect("a number");
            let code = listing::code(lines);
            assert_refused(&name, &code, head, number);
            if number == NOT_ADMITTED {
                assert_fault(&name, head, lines);
            }
            refused += 1;
        }
    }
    say(&format!("the page: {refused} programs are refused as said"));
}

/// Each number of the table, from the call that gives it.
#[test]
fn the_numbers_of_the_table() {
    let rows = table("| number | what it means | what to do |");
    let numbers: Vec<u8> = rows.iter().map(|row| row[0].parse().unwrap()).collect();
    assert_eq!(numbers, [5, 7, 8, 9, 10, 11, 15, 16]);

    for (length, line) in [
        (0, "refused 5"),
        (1, "drop"),
        (ADMIT_LIMIT, "drop"),
        (ADMIT_LIMIT + 1, "refused 9"),
        (PROGRAM_LIMIT, "refused 9"),
        (PROGRAM_LIMIT + 1, "refused 9"),
    ] {
        let written = line_for_zeros("numbers", &vec![BRK; length]);
        assert_eq!(written, format!("{line}\n"), "{length} bytes");
    }
    let mut pair = installed(&[BRK]);
    for length in [0, OLD_RECORD, RECORD - 1, RECORD + 1, 2 * RECORD] {
        let reply = pair.frame(&vec![0; length], BUDGET);
        assert_eq!((reply.answer, reply.number), (REFUSED, 7));
    }
    for wrong in ["7F 05", "FF 05", "00 05 01", "7D 05 01 x126"] {
        let reply = pair.frame(&record(wrong), BUDGET);
        assert_eq!((reply.answer, reply.number), (REFUSED, 8));
    }
    let mut admissions = Admissions::new(0);
    assert_eq!(admissions.admit(&[]), 5);
    assert_eq!(admissions.admit(&vec![0; ADMIT_LIMIT + 1]), 9);
    assert_eq!(admissions.admit(&vec![0; ADMIT_LIMIT]), ADMITTED);
    for length in [0, 4, 7, 9, 16] {
        assert_eq!(admissions.admit_into(&[BRK], length), 10);
    }
    assert_eq!(admissions.admit(&[0x02]), 11);

    let folder = folder("the_numbers_of_the_table");
    let too_long = data(OLD_RECORD - 1, 1, 1);
    let part = &too_long[..RECORD - 1];
    for (conversion, bytes, number) in [
        (WIDEN, part, 15),
        (NARROW, part, 15),
        (WIDEN, &too_long[..OLD_RECORD], 8),
        (NARROW, &record("7F 05"), 8),
        (NARROW, &too_long, 16),
    ] {
        let mut command = conversion.of(file(&folder, "records.bin", bytes));
        let said = Written::only_said(format!("refused {number}\n"));
        assert_writes(&mut command, &[], &said);
    }
}

// Sheets

/// The fourth byte of each record is the program's, so a sheet says of which program it is.
#[test]
fn the_sheets_are_as_written() {
    for Block { text, .. } in blocks("sheet") {
        let sheet = hexadecimal(&text);
        let whole = |line| hexadecimal(line).len() == SHEET_RECORD;
        assert!(text.lines().all(whole), "a record on each line");
        let code: Vec<u8> = sheet
            .iter()
            .skip(3)
            .step_by(SHEET_RECORD)
            .copied()
            .collect();
        assert_admitted_with("a sheet", &code, &sheet);
    }
}

#[test]
fn the_sheet_as_a_table() {
    let rows = table("| address | mark | working depth | return depth | byte | routine | |");
    let mut sheet: Vec<u8> = Vec::new();
    for (place, row) in rows.iter().enumerate() {
        assert_eq!(
            row[0],
            format!("{:04X}", usize::from(PROGRAM_START) + place)
        );
        sheet.extend(row[1..4].iter().map(|cell| cell.parse::<u8>().unwrap()));
        sheet.extend(hexadecimal(&row[4]));
        let routine = u16::from_str_radix(&row[5], 16).expect("an address");
        sheet.extend(routine.to_be_bytes());
        sheet.extend([0, 0]);
    }
    let all = hexadecimal(&block("bytes", "all").unwrap());
    assert_eq!(sheet_of(&all), sheet);
}

// Instructions

/// Bytes of operands: `addr8` is one, `addr16` two, and the others have the form's size, if there is
/// one.
fn bytes_of(operands: &str, form: Option<u32>) -> u32 {
    let sizes = operands.split_whitespace().map(|operand| {
        if operand.ends_with("16") {
            2
        } else if operand.ends_with('8') {
            1
        } else {
            form.expect(operand)
        }
    });
    sizes.sum()
}

/// Every byte stands in one of the three tables, and takes and gives what its row says.
#[test]
fn the_tables_of_instructions() {
    let mut seen = BTreeSet::new();
    let mut see = |byte: u8| assert!(seen.insert(byte), "{byte:02X} stands twice");
    let forbidden = forbidden_bytes();

    // Names and bits of the modes, alone and together; the assembler has them in the order 2, k, r.
    let mut named = table("| bit | name | |");
    named.sort_by(|one, other| one[1].cmp(&other[1]));
    let mut modes = vec![(String::new(), 0)];
    for row in named {
        for (name, bits) in modes.clone() {
            modes.push((name + &row[1], bits | hexadecimal(&row[0])[0]));
        }
    }
    assert_eq!(modes.len(), 8);

    for row in table("| code | name | takes | gives | |") {
        let codes = hexadecimal(&row[0]);
        let names: Vec<&str> = row[1].split_whitespace().collect();
        assert_eq!(codes.len(), names.len(), "{row:?}");
        for (code, name) in codes.into_iter().zip(names) {
            for (modes, bits) in &modes {
                let byte = code | bits;
                assert_eq!(assemble(&format!("{name}{modes}")), [byte]);
                see(byte);
                let form = Some(if modes.starts_with('2') { 2 } else { 1 });
                let taken = bytes_of(&row[2], form);
                let (given, to_other) = match row[3].strip_prefix("other:") {
                    Some(given) => (0, bytes_of(given, form)),
                    None => (bytes_of(&row[3], form), 0),
                };
                let Sizes {
                    taken: takes,
                    pushed,
                    length,
                } = sizes(byte);
                let (main, other) = match modes.ends_with('r') {
                    true => ((takes.ret, pushed.ret), (takes.working, pushed.working)),
                    false => ((takes.working, pushed.working), (takes.ret, pushed.ret)),
                };
                assert_eq!((main, other), ((taken, given), (0, to_other)), "{name}");
                assert_eq!(length, 1);
            }
        }
    }

    for row in table("| bytes | name | takes | gives | |") {
        let (code, operand) = row[0].split_at(2);
        let byte = hexadecimal(code)[0];
        see(byte);
        assert_eq!(assemble(&row[1]), [byte]);
        let said = sizes(byte);
        let operand_bytes = operand.split_whitespace().count() as u32;
        assert_eq!(said.length, 1 + operand_bytes, "{row:?}");
        let on_working = (said.taken.working, said.pushed.working);
        let on_return = (said.taken.ret, said.pushed.ret);
        let both = match row[1].ends_with('r') || row[1] == "JSI" {
            true => (on_return, on_working),
            false => (on_working, on_return),
        };
        let named = (bytes_of(&row[2], None), bytes_of(&row[3], None));
        assert_eq!(both, (named, (0, 0)), "{row:?}");
    }

    let mut listed = BTreeSet::new();
    for row in table("| not allowed | bytes | in their place |") {
        let operations = row[0]
            .split_whitespace()
            .map(|name| assemble(name)[0] & 0x1f);
        let operations: Vec<u8> = operations.collect();
        for byte in hexadecimal(&row[1]) {
            assert!(operations.contains(&(byte & 0x1f)), "{byte:02X} in {row:?}");
            listed.insert(byte);
            see(byte);
        }
    }
    assert_eq!(listed, forbidden.into_iter().collect());
    assert_eq!(listed.len(), 39);
    for said in ["The other 39 bytes are", "none of the 39"] {
        assert!(page().contains(said), "{said:?}");
    }
    assert_eq!(seen.len(), 256);
}

// Commands

#[test]
fn the_commands_write_what_is_said() {
    let has_xxd = Command::new("xxd").arg("-v").output().is_ok();
    let programs = program("sheet");
    let mut path = programs.parent().unwrap().as_os_str().to_owned();
    path.push(":");
    path.push(std::env::var_os("PATH").unwrap_or_default());
    let blocks = blocks("console");
    assert!(blocks.len() >= 3, "frames, old records and a sheet");
    for name in ["frames", "sheet", "explain", "widen", "narrow"] {
        let shown = |block: &Block| block.text.contains(&format!("$ {name} "));
        assert!(blocks.iter().any(shown), "no command with {name}");
    }
    for Block { text, .. } in blocks {
        if text.contains("xxd") && !has_xxd {
            say("xxd is not there: commands of docs/FILTERS.md that use it are not run");
            continue;
        }
        let (commands, said): (Vec<&str>, Vec<&str>) =
            text.lines().partition(|line| line.starts_with("$ "));
        let commands: Vec<&str> = commands.iter().map(|command| &command[2..]).collect();
        // As a terminal shows them, lines and messages come in one.
        let mut shell = Command::new("sh");
        shell.args(["-e", "-c", &format!("exec 2>&1\n{}", commands.join("\n"))]);
        shell.env("PATH", &path).current_dir(folder("commands"));
        let shown: String = said.iter().map(|line| format!("{line}\n")).collect();
        assert_writes(&mut shell, &[], &Written::only_out(shown));
    }
}
