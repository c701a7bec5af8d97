//! `include/uxn_filter.h` and `include/uxn_bench.h` are C and C++, agree with the library, and give
//! what document 01 says; the load without admission is declared in the second alone. The `uxn_host`
//! of the first passes on what it is given, and its version is raised when it changes.

use std::fs;
use std::path::{Path, PathBuf};
use std::process::Command;

use uxn_filter_harness::compiled::{build_c, compile, printed, repository};
use uxn_filter_harness::linked;
use uxn_filter_harness::pair::say;

fn header() -> String {
    fs::read_to_string(repository("include/uxn_filter.h")).expect("the header")
}

/// A folder of its own for a test.
fn folder(test: &str) -> PathBuf {
    linked::folder(env!("CARGO_TARGET_TMPDIR"), test)
}

// The calls

const SAYS: &str = "\
install: answer 1, number 0, steps 0, verdict 0, sent 0 00 00, pc 0100, wp 0, rp 0, high 0 0
sheet, 01 00 00 80 01 00 00 00, 00 00 00 01 00 00 00 00, 01 01 00 80 01 00 00 00, 00 00 00 f2 00 00 00 00, \
01 02 00 17 01 00 00 00, 01 00 00 00 01 00 00 00
step: answer 2, number 0, steps 1, verdict 0, sent 0 00 00, pc 0102, wp 1, rp 0, high 1 0
run: answer 4, number 0, steps 2, verdict 0, sent 0 00 00, pc 0105, wp 0, rp 0, high 2 0
run, watched: answer 4, number 0, steps 2, verdict 0, sent 0 00 00, pc 0104, wp 2, rp 0, high 2 0
step: answer 2, number 0, steps 1, verdict 0, sent 1 f2 00, pc 0105, wp 0, rp 0, high 2 0
step: answer 2, number 0, steps 1, verdict 0, sent 2 ff 00, pc 0106, wp 0, rp 0, high 3 0
run, watched: answer 6, number 0, steps 3, verdict 0, sent 0 00 00, pc 0106, wp 0, rp 0, high 3 0
run, watched: answer 3, number 0, steps 1, verdict 0, sent 0 00 00, pc 0107, wp 0, rp 0, high 3 0
frame: answer 3, number 0, steps 4, verdict 1, sent 0 00 00, pc 0106, wp 0, rp 0, high 2 0
install: answer 0, number 10, steps 0, verdict 0, sent 0 00 00, pc 0106, wp 0, rp 0, high 2 0
sheet, 01 00 00 80 01 00 00 00, 00 00 00 01 00 00 00 00
install: answer 0, number 11, steps 0, verdict 0, sent 0 00 00, pc 0106, wp 0, rp 0, high 2 0
sheet, 00 00 00 00 00 00 00 00, 00 00 00 00 00 00 00 00, 01 01 00 80 01 00 00 00
install: 1
install: 1
install: 1
frame: answer 3, number 0, steps 4, verdict 1, sent 0 00 00, pc 0106, wp 0, rp 0, high 2 0
event: answer 5, number 0, steps 0, verdict 0, sent 0 00 00, pc 0106, wp 0, rp 0, high 2 0
event: answer 3, number 0, steps 4, verdict 0, sent 0 00 00, pc 0106, wp 0, rp 0, high 2 0
event, watched: answer 6, number 0, steps 3, verdict 0, sent 0 00 00, pc 0105, wp 0, rp 0, high 2 0
paused: 1
run: answer 3, number 0, steps 1, verdict 0, sent 0 00 00, pc 0106, wp 0, rp 0, high 2 0
frame: answer 0, number 7, steps 0, verdict 0, sent 0 00 00, pc 0106, wp 0, rp 0, high 2 0
device 16: answer 0, number 6
device 255: answer 0, number 6
device 256: answer 0, number 6
device 259: answer 0, number 6
device 65539: answer 0, number 6
device 4294967295: answer 0, number 6
device -1: 1
load: answer 1, number 0, steps 0, verdict 0, sent 0 00 00, pc 0100, wp 0, rp 0, high 0 0
load: 1
admit: 0, sheet, 01 00 00 80 01 00 00 00, 00 00 00 01 00 00 00 00, 01 01 00 80 01 00 00 00, 00 00 00 f2 00 00 00 00, \
01 02 00 17 01 00 00 00, 01 00 00 00 01 00 00 00
admit: 10, sheet, 01 00 00 80 01 00 00 00, 00 00 00 01 00 00 00 00, 01 01 00 80 01 00 00 00
admit: 0, sheet, 01 00 00 60 01 00 00 00, 00 00 00 00 00 00 00 00, 00 00 00 01 00 00 00 00, 01 00 00 00 01 00 00 00, \
01 00 02 6c 01 04 00 00
admit: 11, sheet, 00 00 00 00 00 00 00 00, 00 00 00 00 00 00 00 00
admit: 1
admit: 1
admit: 1
admit: 1
explain: 11, rule 1, count 2, 0100 0 0 0100, 0000 0 0 0000, 0000 0 0 0000
explain: 11, rule 2, count 0, 0100 0 0 0100, 0000 0 0 0000, 0000 0 0 0000
explain: 11, rule 3, count 2, 0100 0 0 0100, 0000 0 0 0000, 0000 0 0 0000
explain: 11, rule 4, count 2, 0100 0 0 0100, 0000 0 0 0000, 0000 0 0 0000
explain: 11, rule 5, count 1, 0104 0 2 0104, 0000 0 0 0000, 0104 0 2 0104
explain: 11, rule 8, count 0, 0100 0 0 0100, 0102 1 0 0100, 0000 0 0 0000
explain: 11, rule 9, count 0, 0102 1 0 0100, 0100 1 0 0100, 0100 0 0 0100
explain: 11, rule 10, count 0, 0103 0 2 0100, 0000 0 0 0000, 0000 0 0 0000
explain: 11, rule 11, count 0, 0106 0 3 0104, 0000 0 0 0000, 0104 0 2 0104
explain: 1
explain: 11, rule 6, count 256, 027d 254 0 0100, 0000 0 0 0000, 0000 0 0 0000
explain: 11, rule 7, count 256, 027d 0 254 0100, 0000 0 0 0000, 0000 0 0 0000
explain: 0, rule 0, count 0, 0000 0 0 0000, 0000 0 0 0000, 0000 0 0 0000
explain: 1
explain: 1
widen: length 16, line 0, number 0, output 01 02 03 a0 01 00 00 00 00 00 00 f2 00 00 00 00 07 07
narrow: length 8, line 0, number 0, output 01 02 03 a0 00 00 00 f2 07
widen: 1
widen: 1
narrow: 1
narrow: 1
narrow: 1
widen records: length 256, line 0, number 0, output 0:03 1:05 2:07 3:08 4:09 256:07 257:07
narrow records: length 128, line 0, number 0, output 0:03 1:05 2:07 3:08 4:09 128:07
widen records: 1
widen records: 1
narrow records: 1
narrow records: 1
narrow records: 1
narrow records: 1
widen records: 1
";

#[test]
fn a_c_program_makes_every_call() {
    let program = folder("header").join("header");
    build_c(&repository("harness/tests/header.c"), &program);
    assert_eq!(printed(&mut Command::new(&program)), SAYS);
}

// The struct for the usual host

/// Compilers and standards; the first is a must, the others are passed over where they are missing.
const BUILDS: [(&str, &[&str]); 4] = [
    ("gcc", &["c99", "c11", "c17"]),
    ("clang", &["c99", "c17"]),
    ("g++", &["c++11", "c++14", "c++17", "c++20"]),
    ("clang++", &["c++11", "c++17"]),
];

/// Every answer of every call on a machine that has its buffers.
const MET: [&str; 19] = [
    "install: answer 0, number 5",
    "install: answer 0, number 9",
    "install: answer 0, number 10",
    "install: answer 0, number 11",
    "install: answer 1, number 0",
    "step: answer 2, number 0",
    "step: answer 3, number 0",
    "run: answer 3, number 0",
    "run: answer 4, number 0",
    "run: answer 6, number 0",
    "event: answer 0, number 6",
    "event: answer 3, number 0",
    "event: answer 4, number 0",
    "event: answer 5, number 0",
    "event: answer 6, number 0",
    "frame: answer 0, number 7",
    "frame: answer 0, number 8",
    "frame: answer 3, number 0",
    "frame: answer 4, number 0",
];

fn is_there(compiler: &str) -> bool {
    Command::new(compiler).arg("--version").output().is_ok()
}

/// `host.c` with the header of a folder.
fn host_program(compiler: &str, standard: &str, include: &Path, program: &Path) -> Command {
    let source = repository("harness/tests/host.c");
    compile(compiler, standard, include, &source, program)
}

/// Each compiler that is there, with each of its standards.
fn builds() -> Vec<(&'static str, &'static str)> {
    let mut builds = Vec::new();
    for (place, (compiler, standards)) in BUILDS.into_iter().enumerate() {
        if place > 0 && !is_there(compiler) {
            say(&format!(
                "passed over: the headers by {compiler}, for there is none"
            ));
            continue;
        }
        builds.extend(standards.iter().map(|standard| (compiler, *standard)));
    }
    builds
}

/// The calls through the struct give the replies and bytes of the calls themselves, in C and C++.
#[test]
fn the_struct_passes_on() {
    let folder = folder("host");
    for (compiler, standard) in builds() {
        let program = folder.join(format!("{compiler}_{standard}"));
        let include = repository("include");
        let mut built = host_program(compiler, standard, &include, &program);
        assert_eq!(printed(built.arg("-O2")), "");
        let said = printed(&mut Command::new(&program));
        let met = said.lines().map(|line| {
            let (what, count) = line.rsplit_once(": ").expect("a count");
            let count: u32 = count.parse().expect("a number");
            assert!(count >= 10, "{compiler} {standard}: {line}");
            what
        });
        assert!(met.eq(MET), "{compiler} {standard}:\n{said}");
    }
}

/// What may be wrong in the header's struct and functions, as replacements; each has to be seen.
const WRONG: [(&str, &str); 15] = [
    ("host->machine = reply.machine;", "(void)host;"),
    ("uint8_t ret[256]", "uint8_t ret[255]"),
    ("sizeof (host)->device_page", "sizeof (host)->memory"),
    (
        "(host)->working, sizeof (host)->working, (host)->ret, sizeof (host)->ret",
        "(host)->ret, sizeof (host)->ret, (host)->working, sizeof (host)->working",
    ),
    (
        "program, program_length, sheet, sheet_length));",
        "program, program_length / 2, sheet, sheet_length));",
    ),
    (
        "program, program_length, sheet, sheet_length));",
        "program, program_length, sheet + 1, sheet_length));",
    ),
    (
        "program, program_length, sheet, sheet_length));",
        "program, program_length, sheet, 8 * program_length + 0 * sheet_length));",
    ),
    (
        "GIVES(host), budget, watch)",
        "GIVES(host), budget + 1, watch)",
    ),
    (
        "GIVES(host), budget, watch)",
        "GIVES(host), budget, watch % 256)",
    ),
    (
        "GIVES(host), budget, watch)",
        "GIVES(host), budget, watch | 256)",
    ),
    (
        "GIVES(host), device, budget, watch)",
        "GIVES(host), budget, device, watch)",
    ),
    (
        "GIVES(host), device, budget, watch)",
        "GIVES(host), device % 256, budget, watch)",
    ),
    (
        "GIVES(host), device, budget, watch)",
        "GIVES(host), device, budget, watch % 256)",
    ),
    (
        "GIVES(host), device, budget, watch)",
        "GIVES(host), device, budget, watch | 256)",
    ),
    (
        "record, record_length, budget)",
        "record, 128 + 0 * record_length, budget)",
    ),
];

#[test]
fn what_the_struct_does_wrong_is_seen() {
    let header = header();
    for (place, (right, wrong)) in WRONG.into_iter().enumerate() {
        assert_eq!(header.matches(right).count(), 1, "{right}");
        let folder = folder(&format!("wrong_host_{place}"));
        fs::write(folder.join("uxn_filter.h"), header.replace(right, wrong)).expect("a header");
        let program = folder.join("host");
        let mut built = host_program("gcc", "c99", &folder, &program);
        assert_eq!(printed(&mut built), "", "{wrong}");
        let ended = Command::new(&program).output().expect("the program runs");
        let said = String::from_utf8_lossy(&ended.stdout);
        assert!(
            ended.status.code() == Some(1) && said.contains(": another "),
            "{wrong} is not seen:\n{said}"
        );
    }
}

/// Names of the symbols of a program that begin in this way.
fn symbols(program: &Path, start: &str) -> usize {
    let listed = printed(Command::new("nm").arg("-P").arg(program));
    listed
        .lines()
        .filter(|line| line.starts_with(start))
        .count()
}

/// Not optimised, a program has a function for each that it uses, and none that it does not.
#[test]
fn a_host_without_the_struct_pays_nothing() {
    let folder = folder("host_unused");
    let (with, without) = (folder.join("with"), folder.join("without"));
    build_c(&repository("harness/tests/host.c"), &with);
    build_c(&repository("harness/tests/header.c"), &without);
    assert!(symbols(&with, "uxn_host_") > 5);
    assert!(symbols(&without, "uxn_install") == 1);
    assert_eq!(symbols(&without, "uxn_host_"), 0);
}

/// C90 has no `inline`: it gets the calls without the struct.
#[test]
fn the_calls_are_declared_in_c90_too() {
    let folder = folder("header_c90");
    let source = folder.join("calls.c");
    let text = "#include \"uxn_filter.h\"\n\
        typedef int uxn_host;\n\
        int main(void) { return uxn_admit((const uint8_t *)\"\", 0, (uint8_t *)\"\", 0) != UXN_PROGRAM_LENGTH; }\n";
    fs::write(&source, text).expect("the source is written");
    let program = folder.join("calls");
    let mut built = compile("gcc", "c90", &repository("include"), &source, &program);
    assert_eq!(printed(&mut built), "");
    assert_eq!(printed(&mut Command::new(&program)), "");
}

// The load without admission

/// A program that loads one of one byte; C90 and C++ too.
const LOADS: &str = "\
static uint8_t memory[65536], device_page[256], working[256], ret[256];
int main(void)
{
    static const uxn_machine machine = {0, 0, 0, 0, 0};
    static const uint8_t program[1] = {0x02};
    uxn_reply reply = uxn_load(machine, memory, sizeof memory, device_page, sizeof device_page, working, sizeof working, ret,
                               sizeof ret, program, sizeof program);
    return reply.answer != UXN_LOADED || memory[0x0100] != program[0];
}
";

/// The command that builds it, with these headers in their order.
fn loading(compiler: &str, standard: &str, headers: &[&str], program: &Path) -> Command {
    let source = program.with_extension("source");
    let mut text = String::new();
    for header in headers {
        text += &format!("#include \"{header}\"\n");
    }
    fs::write(&source, text + LOADS).expect("the source is written");
    compile(compiler, standard, &repository("include"), &source, program)
}

/// `uxn_bench.h` needs no other header before it, and may stand before or after `uxn_filter.h`.
#[test]
fn the_load_is_declared_by_its_header_alone() {
    let folder = folder("bench");
    let (filter, bench) = ("uxn_filter.h", "uxn_bench.h");
    for (compiler, standard) in [("gcc", "c90")].into_iter().chain(builds()) {
        let named = |place: usize| folder.join(format!("{compiler}_{standard}_{place}"));
        let orders = [&[bench][..], &[filter, bench], &[bench, filter]];
        for (place, headers) in orders.into_iter().enumerate() {
            let program = named(place);
            let mut built = loading(compiler, standard, headers, &program);
            assert_eq!(printed(&mut built), "");
            assert_eq!(printed(&mut Command::new(&program)), "");
        }
        let mut built = loading(compiler, standard, &[filter], &named(orders.len()));
        let ended = built.output().expect("the compiler runs");
        let said = String::from_utf8_lossy(&ended.stderr);
        let first = said.lines().find(|line| line.contains(" error: "));
        assert!(
            !ended.status.success() && first.is_some_and(|line| line.contains("uxn_load")),
            "{built:?} ended with {}:\n{said}",
            ended.status
        );
    }
}

/// With `--gc-sections` a host that does not call it does not have it.
#[test]
fn the_load_is_left_out() {
    let folder = folder("bench_unused");
    let (whole, less) = (folder.join("whole"), folder.join("less"));
    let include = repository("include");
    assert_eq!(
        printed(&mut host_program("gcc", "c99", &include, &whole)),
        ""
    );
    let mut built = host_program("gcc", "c99", &include, &less);
    assert_eq!(printed(built.arg("-Wl,--gc-sections")), "");
    assert_eq!(symbols(&whole, "uxn_load"), 1);
    assert_eq!(symbols(&less, "uxn_load"), 0);
    assert_eq!(symbols(&less, "uxn_install"), 1);
}

// The version

/// The version, and a sum over the header without comments and white space as it is in that version.
const INTERFACE: (&str, u64) = ("8", 8_001_850_762_368_214_468);

/// The header without comments and white space.
fn bare(header: &str) -> String {
    let mut parts = header.split("/*");
    let first = parts.next().unwrap_or("").to_owned();
    let bare = parts.fold(first, |text, part| {
        let (_, after) = part.split_once("*/").expect("the end of a comment");
        text + after
    });
    bare.split_whitespace().collect()
}

/// FNV-1a.
fn sum(text: &str) -> u64 {
    text.bytes().fold(0xcbf2_9ce4_8422_2325, |sum, byte| {
        (sum ^ u64::from(byte)).wrapping_mul(0x0100_0000_01b3)
    })
}

#[test]
fn a_change_raises_the_version() {
    let header = header();
    let version = header
        .lines()
        .find_map(|line| line.strip_prefix("#define UXN_FILTER_VERSION "));
    let now = (version.expect("the version"), sum(&bare(&header)));
    assert_eq!(
        now, INTERFACE,
        "the header has changed: if a call, a struct or a constant is another one, its version is raised; then this test's \
         INTERFACE is what stands on the left"
    );
}
