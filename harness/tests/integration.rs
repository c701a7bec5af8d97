//! `docs/INTEGRATION.md`: its programs are built by its commands and print what it says, and its
//! tables agree with the headers and the archive.

use std::collections::{BTreeMap, BTreeSet};
use std::fs;
use std::os::unix::fs::symlink;
use std::path::PathBuf;
use std::process::Command;
use std::thread;

use uxn_filter_harness::calls::{
    Machine, Owned, Reply, ADMIT_LIMIT, LOADED, PROGRAM_START, RECORD, SHEET_RECORD, SPENT,
    WATCH_NONE,
};
use uxn_filter_harness::compiled::{build_c, library, printed, repository};
use uxn_filter_harness::disassembly::{self, called, Instruction};
use uxn_filter_harness::filters::{any_length, filter};
use uxn_filter_harness::library as calls;
use uxn_filter_harness::linked::{self, random_record};
use uxn_filter_harness::page::{self, blocks, table, Block};
use uxn_filter_harness::pair::say;
use uxn_filter_harness::random::{seed, Random};

// The page and the headers

fn page() -> String {
    page::read("INTEGRATION.md")
}

fn header() -> String {
    fs::read_to_string(repository("include/uxn_filter.h")).expect("the header")
}

/// The header for document 01's cases and for tests.
fn bench_header() -> String {
    fs::read_to_string(repository("include/uxn_bench.h")).expect("the header")
}

/// The one block of this kind and name.
fn block<'a>(blocks: &'a [Block], kind: &str, name: &str) -> &'a Block {
    let mut found = blocks
        .iter()
        .filter(|block| block.kind == kind && block.name == name);
    let (first, second) = (found.next(), found.next());
    match (first, second) {
        (Some(block), None) => block,
        (None, _) => panic!("the page has no block {kind} {name}"),
        _ => panic!("the page has two blocks {kind} {name}"),
    }
}

/// The words in backquotes.
fn quoted(text: &str) -> Vec<String> {
    let odd = text.split('`').skip(1).step_by(2);
    odd.map(str::to_owned).collect()
}

/// The first number in a text; it may have commas.
fn number(text: &str) -> usize {
    let start = text.find(|letter: char| letter.is_ascii_digit());
    let start = start.unwrap_or_else(|| panic!("{text:?} has no number"));
    let digits = text[start..]
        .chars()
        .take_while(|letter| letter.is_ascii_digit() || *letter == ',');
    let digits: String = digits.filter(char::is_ascii_digit).collect();
    digits.parse().expect("a number")
}

/// What the page says of the archive, by the first cell.
fn of_the_archive(page: &str, what: &str) -> String {
    let rows = table(page, "| of the archive | |");
    let row = rows.iter().find(|row| row[0] == what);
    row.unwrap_or_else(|| panic!("the page does not say {what:?}"))[1].clone()
}

/// The functions of the header: those that it declares, or those that it has itself. Each begins a
/// line with its type.
fn functions(header: &str, own: bool) -> BTreeSet<String> {
    header
        .lines()
        .filter(|line| line.starts_with(char::is_alphabetic))
        .filter(|line| line.starts_with("static ") == own)
        .filter_map(|line| line.split_once('('))
        .filter_map(|(before, _)| before.rsplit_once(' '))
        .map(|(_, name)| name.to_owned())
        .collect()
}

/// The calls.
fn declared(header: &str) -> BTreeSet<String> {
    functions(header, false)
}

/// The fields of a struct of the header, in order.
fn fields(header: &str, name: &str) -> Vec<String> {
    let (before, _) = header
        .split_once(&format!("}} {name};"))
        .expect("the struct");
    let (_, inside) = before.rsplit_once("typedef struct {").expect("its start");
    inside
        .lines()
        .filter_map(|line| line.split_once(';'))
        .filter_map(|(declaration, _)| declaration.rsplit_once(' '))
        .map(|(_, field)| field.split('[').next().unwrap().to_owned())
        .collect()
}

/// A folder of its own for a test.
fn folder(test: &str) -> PathBuf {
    linked::folder(env!("CARGO_TARGET_TMPDIR"), test)
}

// The programs

/// Builds and runs the program of this name by the page's commands, in a folder that has `include` and
/// `target/staticlib` where the repository's root has them.
fn built_and_run(blocks: &[Block], language: &str, name: &str) -> String {
    let source = block(blocks, language, name);
    let folder = folder(&format!("integration_{name}"));
    fs::write(folder.join(name), &source.text).expect("the source is written");
    symlink(
        repository("include").canonicalize().unwrap(),
        folder.join("include"),
    )
    .expect("a link to the header");
    fs::create_dir(folder.join("target")).expect("a folder is made");
    let archive = library().canonicalize().unwrap();
    symlink(archive.parent().unwrap(), folder.join("target/staticlib"))
        .expect("a link to the library");
    let commands = block(blocks, "sh", name);
    printed(
        Command::new("sh")
            .args(["-e", "-c", &commands.text])
            .current_dir(&folder),
    )
}

#[test]
fn the_programs_print_what_the_page_says() {
    let page = page();
    let blocks = blocks(&page);
    let gcc = "gcc -std=c11 -Wall -Wextra -Werror -pedantic ";
    let rustc = "rustc --edition 2024 ";
    for (language, name, printed, compiler) in [
        ("c", "filter.c", "", gcc),
        ("rust", "filter.rs", "", rustc),
        ("c", "replace.c", "replace.c", gcc),
        ("c", "send.c", "send.c", gcc),
        ("c", "calls.c", "calls.c", gcc),
        ("c", "why.c", "why.c", gcc),
        ("c", "sheets.c", "sheets.c", gcc),
        ("c", "records.c", "records.c", gcc),
    ] {
        let expected = &block(&blocks, "text", printed).text;
        assert!(expected.lines().count() > 4, "too little is printed");
        assert_eq!(&built_and_run(&blocks, language, name), expected, "{name}");
        let commands = &block(&blocks, "sh", name).text;
        assert!(commands.starts_with(compiler), "{commands:?}");
    }
    assert_eq!(blocks.len(), 23, "a block that is not tested");
}

/// C-15: "all other callers of load use this call; the plain load stays for the bench only". The page
/// says once where it is.
#[test]
fn the_page_installs() {
    let page = page();
    for call in declared(&bench_header()) {
        let lines: Vec<&str> = page.lines().filter(|line| line.contains(&call)).collect();
        assert!(
            matches!(lines[..], [line] if line.starts_with("| `include/uxn_bench.h` | ")),
            "{lines:?}"
        );
    }
}

// Constants and layout

#[test]
fn the_page_has_every_constant_with_its_value() {
    let page = page();
    let header = header();
    let defined: Vec<(String, String)> = header
        .lines()
        .filter_map(|line| line.strip_prefix("#define "))
        .filter(|rest| !rest.starts_with("UXN_HOST_GIVES("))
        .filter_map(|rest| {
            let mut words = rest.split_whitespace();
            Some((words.next()?.to_owned(), words.next()?.to_owned()))
        })
        .collect();
    assert!(defined.len() > 10, "the header's constants");
    let versions = table(&page, "| `UXN_FILTER_VERSION` | what is new |");
    for (place, row) in versions.iter().enumerate() {
        assert_eq!(number(&row[0]), place + 1, "a version is left out");
    }
    let version = versions.last().unwrap()[0].clone();
    let mut said = vec![("UXN_FILTER_VERSION".to_owned(), version)];
    for head in [
        "| answer | value | of | meaning |",
        "| watch | value | of | meaning |",
        "| number | value | when | look here |",
        "| rule | value | the instruction at `here` | `count` | `next` | `other` |",
    ] {
        for row in table(&page, head) {
            said.push((row[0].trim_matches('`').to_owned(), row[1].clone()));
        }
    }
    assert_eq!(said, defined, "the page's constants, and the header's");
}

/// The page's layout, as assertions for the C compiler.
#[test]
fn the_structs_are_laid_out_as_the_page_says() {
    let page = page();
    let header = header();
    let mut asserted = String::from("#include <stddef.h>\n#include \"uxn_filter.h\"\n");
    for name in [
        "uxn_machine",
        "uxn_reply",
        "uxn_why",
        "uxn_place",
        "uxn_written",
        "uxn_host",
    ] {
        let head = format!("| field of `{name}` | type | at | meaning |");
        let (before, _) = page.split_once(&head).expect("the table");
        let (_, size) = before.rsplit_once("It has ").expect("the size");
        let size = number(size);
        asserted += &format!("_Static_assert(sizeof({name}) == {size}, \"size of {name}\");\n");
        let mut named = Vec::new();
        for row in table(&page, &head) {
            let field = row[0].trim_matches('`');
            let kind = row[1].trim_matches('`');
            let pointer = match kind.split_once('[') {
                Some((of, length)) => format!("{of} (*)[{length}"),
                None => format!("{kind} *"),
            };
            let at = number(&row[2]);
            asserted += &format!(
                "_Static_assert(offsetof({name}, {field}) == {at}, \"place of {field}\");\n\
                 _Static_assert(_Generic(&(({name} *)0)->{field}, {pointer}: 1, default: 0), \"type of {field}\");\n"
            );
            named.push(field.to_owned());
        }
        assert_eq!(named, fields(&header, name), "fields of {name}");
    }
    asserted += "int main(void) { return 0; }\n";
    let folder = folder("integration_layout");
    let source = folder.join("layout.c");
    fs::write(&source, asserted).expect("the source is written");
    build_c(&source, &folder.join("layout"));
}

#[test]
fn the_page_has_every_function_over_the_struct() {
    let page = page();
    let header = header();
    let rows = table(&page, "| function | call |");
    let mut named = BTreeSet::new();
    for row in &rows {
        let whole = quoted(&row[0]).concat();
        let (name, given) = whole.split_once('(').expect("a function");
        let given: Vec<&str> = given.trim_end_matches(')').split(", ").collect();
        let (_, of_the_header) = header
            .split_once(&format!("static inline uxn_reply {name}("))
            .unwrap_or_else(|| panic!("the header has no {name}"));
        let (of_the_header, _) = of_the_header.split_once(')').expect("its parameters");
        let parameters: Vec<&str> = of_the_header
            .split(',')
            .map(|parameter| parameter.rsplit([' ', '*']).next().unwrap())
            .collect();
        assert_eq!(given, parameters, "{name}");
        for call in quoted(&row[1]) {
            assert_eq!(call, name.replacen("_host", "", 1));
            assert!(declared(&header).contains(&call), "{call}");
        }
        named.insert(name.to_owned());
    }
    assert_eq!(named, functions(&header, true));
}

// The archive

/// Kinds and names of the archive's symbols.
fn symbols() -> Vec<(char, String)> {
    let listed = printed(Command::new("nm").arg("-P").arg(library()));
    let symbols = listed.lines().filter_map(|line| {
        let mut words = line.split(' ');
        let name = words.next()?;
        let kind = words.next()?.chars().next()?;
        Some((kind, name.to_owned()))
    });
    symbols.collect()
}

/// Sizes of the archive's sections.
fn sections() -> BTreeMap<String, usize> {
    let listed = printed(Command::new("size").arg("-A").arg(library()));
    let sections = listed.lines().filter_map(|line| {
        let words: Vec<&str> = line.split_whitespace().collect();
        let [name, size, "0"] = words[..] else {
            return None;
        };
        Some((name.to_owned(), size.parse().ok()?))
    });
    sections.collect()
}

#[test]
fn the_archive_needs_and_defines_what_the_page_says() {
    let page = page();
    let symbols = symbols();
    let of_kind = |kinds: &str| -> BTreeSet<String> {
        let found = symbols.iter().filter(|(kind, _)| kinds.contains(*kind));
        found.map(|(_, name)| name.clone()).collect()
    };
    let needed: BTreeSet<String> = quoted(&of_the_archive(&page, "needs at link time"))
        .into_iter()
        .collect();
    assert_eq!(of_kind("U"), needed, "undefined symbols");
    // Each function is declared in one of the two headers.
    let (mut calls, bench) = (declared(&header()), declared(&bench_header()));
    assert!(calls.is_disjoint(&bench), "{bench:?}");
    calls.extend(bench);
    assert_eq!(of_kind("T"), calls, "functions");
    assert!(of_the_archive(&page, "writable data").starts_with("none"));
    for (kind, name) in &symbols {
        assert!("UTtr".contains(*kind), "{name} is of kind {kind}");
    }
}

#[test]
fn the_archive_has_the_sections_that_the_page_says() {
    let page = page();
    let sections = sections();
    let mut size = 0;
    for (name, bytes) in &sections {
        let known = [".text", ".rodata"]
            .iter()
            .any(|known| name.starts_with(known));
        let empty = [".note.GNU-stack", ".llvm_addrsig"].contains(&&**name) && *bytes == 0;
        assert!(
            known || empty || name == ".comment",
            "section {name} of {bytes} bytes"
        );
        size += if known { *bytes } else { 0 };
    }
    for function in declared(&(header() + &bench_header())) {
        assert!(
            sections.contains_key(&format!(".text.{function}")),
            "{function}"
        );
    }
    let most = number(&of_the_archive(&page, "code and constants"));
    assert!(
        size <= most && most <= size + 10_000,
        "{size} bytes, and the page has {most}"
    );
    assert!(of_the_archive(&page, "unwind tables").starts_with("none"));
}

/// Which functions each function calls.
fn all_called() -> BTreeMap<String, BTreeSet<String>> {
    let mut all = BTreeMap::new();
    for (function, instructions) in disassembly::functions(library()) {
        for one in &instructions {
            let text = &one.text;
            // Without a relocation the call is to its own section, or through a pointer.
            let is_call = one.names().any(|name| name == "call");
            assert!(
                !is_call || one.to.is_some(),
                "{function}: {text} has no name"
            );
            let to_system = ["syscall", "sysenter", "int"];
            let is_to_system = one.names().any(|name| to_system.contains(&name));
            assert!(!is_to_system, "{function}: {text}");
        }
        all.insert(function, called(&instructions));
    }
    all
}

/// One after the other, each function that calls only what has been met before.
#[test]
fn no_function_calls_itself_or_the_host() {
    let page = page();
    let called = all_called();
    assert!(called.len() > declared(&header()).len(), "{called:?}");
    let needed = quoted(&of_the_archive(&page, "needs at link time"));
    let mut met: BTreeSet<String> = needed.into_iter().collect();
    let mut left = called.clone();
    while !left.is_empty() {
        let next = left.iter().find(|(_, names)| names.is_subset(&met));
        let Some((name, _)) = next else {
            panic!("a call in a circle, or to something that is not known: {left:?}");
        };
        let name = name.clone();
        left.remove(&name);
        met.insert(name);
    }
    for what in [
        "heap, threads, files, system calls",
        "recursion, calls through pointers, calls back into the host",
    ] {
        assert_eq!(of_the_archive(&page, what), "none");
    }
}

/// What a function comes to call, in any number of steps.
fn reached(called: &BTreeMap<String, BTreeSet<String>>, function: &str) -> BTreeSet<String> {
    let mut all = BTreeSet::new();
    let mut left = vec![function.to_owned()];
    while let Some(name) = left.pop() {
        for next in called.get(&name).into_iter().flatten() {
            if all.insert(next.clone()) {
                left.push(next.clone());
            }
        }
    }
    all
}

/// `memset` "is called where a program is admitted, explained or loaded": no other call asks the host
/// for it, so that one that is linked alone needs nothing.
#[test]
fn only_what_takes_a_program_calls_the_host() {
    let called = all_called();
    let row = of_the_archive(&page(), "calls out of step, run, event and frame");
    assert!(row.starts_with("none"), "{row}");
    for host in quoted(&row) {
        let takes = declared(&(header() + &bench_header()));
        let asks = takes
            .into_iter()
            .filter(|name| reached(&called, name).contains(&host));
        let asks: Vec<String> = asks.collect();
        let wanted = ["uxn_admit", "uxn_explain", "uxn_install", "uxn_load"];
        assert_eq!(asks, wanted, "{host}");
    }
}

/// The instructions that multiply, by the names that x86-64 with SSE2 has for them, and those that
/// name a routine of a compiler for it, or a function which is not here to be looked at.
fn multiplications(functions: &BTreeMap<String, Vec<Instruction>>) -> Vec<(&str, &str)> {
    let multiplies = |name: &str| name.contains("mul") || name.contains("madd");
    let is_away = |to: &String| to.starts_with("__mul") || !functions.contains_key(to);
    let mut found = Vec::new();
    for (function, instructions) in functions {
        for one in instructions {
            if one.names().any(multiplies) || one.to.as_ref().is_some_and(is_away) {
                found.push((function.as_str(), one.text.as_str()));
            }
        }
    }
    found
}

/// C-13: the chip of the small coupler has no multiplier. No function multiplies, and those of the run
/// call nothing that is not in the archive.
#[test]
fn no_function_multiplies() {
    let page = page();
    let mut functions = disassembly::functions(library());
    let mut run: BTreeSet<String> = BTreeSet::new();
    let mut next: Vec<String> = ["uxn_step", "uxn_run", "uxn_event", "uxn_frame"]
        .map(str::to_owned)
        .to_vec();
    while let Some(name) = next.pop() {
        let Some(instructions) = functions.get(&name) else {
            panic!("the run calls {name}, which is not in the archive");
        };
        if run.insert(name) {
            next.extend(called(instructions));
        }
    }
    let length: usize = run.iter().map(|name| functions[name].len()).sum();
    say(&format!("the run is {run:?}, {length} instructions"));
    assert!(length > 2_000, "{length} instructions in {run:?}");
    assert!(of_the_archive(&page, "calls out of step, run, event and frame").starts_with("none"));

    // What the others need of the host is the host's.
    for name in quoted(&of_the_archive(&page, "needs at link time")) {
        functions.insert(name, Vec::new());
    }
    assert_eq!(multiplications(&functions), [], "multiplications");
    assert_eq!(of_the_archive(&page, "multiply instructions"), "none");
}

#[test]
fn multiplications_are_found() {
    let object = folder("integration_multiplier").join("multiplier.o");
    let mut command = Command::new("cc");
    command.args(["-O3", "-c", "-o"]).arg(&object);
    printed(command.arg(repository("harness/tests/multiplier.c")));
    let functions = disassembly::functions(&object);
    let found: BTreeSet<&str> = multiplications(&functions)
        .iter()
        .map(|(function, _)| *function)
        .collect();
    let does_without = |name: &str| name.starts_with("not_") || name == "__mulhi3";
    let multiplying = functions.keys().map(String::as_str);
    let multiplying = multiplying.filter(|name| !does_without(name));
    assert_eq!(found, multiplying.collect());
    assert_eq!((found.len(), functions.len()), (10, 14));
}

/// Each call on a painted stack: no more than the page says, and not much less.
#[test]
fn calls_take_the_stack_that_the_page_says() {
    let page = page();
    let program = folder("integration_stack").join("stack");
    build_c(&repository("harness/tests/stack.c"), &program);
    let mut most = BTreeMap::new();
    for row in table(&page, "| calls | bytes of stack, at most |") {
        for call in quoted(&row[0]) {
            most.insert(call, number(&row[1]));
        }
    }
    let calls: BTreeSet<String> = most.keys().cloned().collect();
    assert_eq!(calls, declared(&header()), "the calls in the page's table");
    let measured = printed(&mut Command::new(&program));
    assert_eq!(measured.lines().count(), calls.len());
    for line in measured.lines() {
        let (call, taken) = line.split_once(' ').expect("a call and a number");
        let (taken, most) = (number(taken), most[call]);
        say(&format!("stack: {call} takes {taken} bytes"));
        assert!(
            taken <= most && most <= taken + 200,
            "{call} takes {taken} bytes of stack, and the page has {most}"
        );
    }
}

// The calls

/// What a call sets before its first step: with budget 0 it does nothing else.
#[test]
fn calls_set_what_the_page_says() {
    let mut random = Random::new(seed());
    let mut dirty = Owned::new();
    for part in [
        &mut dirty.memory,
        &mut dirty.device_page,
        &mut dirty.working,
        &mut dirty.ret,
    ] {
        random.fill(part);
    }
    dirty.device_page[0x30..0x32].copy_from_slice(&[0x45, 0x67]);
    let given = Machine {
        pc: 0x1234,
        wp: 5,
        rp: 6,
        wp_high: 7,
        rp_high: 4,
    };
    let mut record = [0; RECORD];
    record[..3].copy_from_slice(&[1, 2, 3]);
    let start = Machine::at(PROGRAM_START, 0, 0);

    let mut own = dirty.clone();
    // LIT 07, BRK
    let program = [0x80, 0x07, 0x00];
    let installed = calls::install(given, own.lend(), &program, &mut [0; 3 * SHEET_RECORD]);
    let mut expected = Owned::new();
    expected.memory[0x0100..0x0103].copy_from_slice(&program);
    assert_eq!((installed.answer, installed.machine), (LOADED, start));
    assert!(own == expected, "install");

    let mut own = dirty.clone();
    let framed = calls::frame(given, own.lend(), &record, 0);
    let mut expected = dirty.clone();
    expected.memory[0x0080..0x0100].copy_from_slice(&record);
    expected.device_page[0xf2] = 0;
    assert_eq!((framed.answer, framed.machine), (SPENT, start));
    assert!(own == expected, "frame");

    let mut own = dirty.clone();
    let from_vector = calls::event(given, own.lend(), 3, 0, WATCH_NONE);
    let at_vector = Machine {
        pc: 0x4567,
        ..given
    };
    assert_eq!(
        (from_vector.answer, from_vector.machine),
        (SPENT, at_vector)
    );
    let ran = calls::run(given, own.lend(), 0, WATCH_NONE);
    assert_eq!((ran.answer, ran.machine), (SPENT, given));
    assert!(own == dirty, "event and run");
}

/// The replies to frames of every kind on a filter of its own, and the bytes that they leave.
fn work(seed: u64) -> (Vec<Reply>, Owned) {
    let mut random = Random::new(seed);
    let length = any_length(&mut random, ADMIT_LIMIT);
    let program = filter(&mut random, length);
    let mut sheet = vec![0; SHEET_RECORD * program.len()];
    let mut own = Owned::new();
    let installed = calls::install(Machine::default(), own.lend(), &program, &mut sheet);
    assert_eq!(installed.answer, LOADED);
    let mut replies = vec![installed];
    for _ in 0..300 {
        let record = random_record(&mut random);
        let machine = replies.last().unwrap().machine;
        let budget = random.below(3_000) as u32;
        replies.push(calls::frame(machine, own.lend(), &record, budget));
    }
    (replies, own)
}

/// Machines in threads of their own do what they do one after the other.
#[test]
fn machines_in_several_threads() {
    let seeds = seed()..seed() + 16;
    let threads: Vec<_> = seeds
        .clone()
        .map(|seed| thread::spawn(move || work(seed)))
        .collect();
    for (seed, thread) in seeds.zip(threads) {
        let together = thread.join().expect("a thread ends");
        assert!(together == work(seed), "seed {seed}");
    }
}
