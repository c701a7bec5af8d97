//! Machine code as objdump lists it, function by function: of an archive, or of an object.

use std::collections::{BTreeMap, BTreeSet};
use std::path::Path;
use std::process::Command;

use crate::compiled::printed;

pub struct Instruction {
    /// As objdump writes it: `imul   %r14d,%ebx`.
    pub text: String,
    /// What its relocation names, data of the code itself apart: the function that it calls or goes
    /// on to.
    pub to: Option<String>,
}

impl Instruction {
    /// The words before the operands: `imul`, or `rep` and `stos`.
    pub fn names(&self) -> impl Iterator<Item = &str> {
        let of_a_name = |word: &&str| word.starts_with(|first: char| first.is_ascii_lowercase());
        self.text.split_whitespace().take_while(of_a_name)
    }
}

/// The functions, each with its instructions. What can not be read is an error, so that no part of
/// the code is passed over.
pub fn functions(code: &Path) -> BTreeMap<String, Vec<Instruction>> {
    let mut command = Command::new("objdump");
    command.args(["-d", "-r", "--no-show-raw-insn"]);
    let listed = printed(command.arg(code));
    let mut functions: Vec<(String, Vec<Instruction>)> = Vec::new();
    for line in listed.lines() {
        let start = line.strip_suffix(">:");
        if let Some((_, name)) = start.and_then(|start| start.split_once(" <")) {
            functions.push((name.to_owned(), Vec::new()));
        } else if let Some((_, relocation)) = line.split_once(": R_X86_64_") {
            let (_, target) = relocation.split_once('\t').expect("a target");
            let last = functions.last_mut().and_then(|(_, list)| list.last_mut());
            let one = last.expect("an instruction");
            one.to = one.to.take().or(function_named(target));
        } else if let Some((_, text)) = line.split_once(":\t") {
            let one = Instruction {
                text: text.to_owned(),
                to: None,
            };
            assert!(one.names().next().is_some(), "no instruction: {line}");
            functions.last_mut().expect("a function").1.push(one);
        }
    }
    let count = functions.len();
    let functions: BTreeMap<_, _> = functions.into_iter().collect();
    assert_eq!(functions.len(), count, "two functions have one name");
    functions
}

/// The name in a relocation's target, such as `memset-0x4` or `.text.cpu::run-0x4`; none for data, as
/// `.LCPI1_8-0x4` or `.rodata+0x10`.
fn function_named(target: &str) -> Option<String> {
    let name = target
        .rsplit_once(['-', '+'])
        .map_or(target, |(name, _)| name);
    match name.strip_prefix(".text.") {
        Some(own) => Some(own.to_owned()),
        None if name.starts_with('.') => None,
        None => Some(name.to_owned()),
    }
}

/// Which functions these instructions call or go on to.
pub fn called(instructions: &[Instruction]) -> BTreeSet<String> {
    let named = instructions.iter().filter_map(|one| one.to.clone());
    named.collect()
}
