//! Instructions, counted by callgrind: the same number at every run, however busy the machine is. A
//! program of this crate is started under callgrind with words that make it do every part that is to
//! be counted, one after the other; callgrind writes a number for each.

use std::hint::black_box;
use std::io::ErrorKind;
use std::path::Path;
use std::process::{id, Command};
use std::{env, fs};

use crate::calls::{ADMITTED, SHEET_RECORD, WATCH_NONE};
use crate::peers::{admissions, cores};
use crate::timing::{Growth, Row, ADMITTED_LENGTHS};
use crate::workloads::{operations, prepared, workloads, Workload, SHAPES, STEPS_AN_OPERATION};

/// Steps of the two runs whose counts are subtracted: what a call costs beside its steps falls out.
const STEPS: [u32; 2] = [20_000, 120_000];

/// Callgrind counts a string instruction that fills memory once for each byte, and it costs far less.
/// So the C library, for any length, fills by stores.
const FILL_BY_STORES: &str = "glibc.cpu.x86_rep_stosb_threshold=1000000000";

/// The words of a program that is started under callgrind: this one, and what it is to do.
const INNER: &str = "--counted";
const RUNS: &str = "runs";
const OPERATIONS: &str = "operations";
const ADMISSIONS: &str = "admissions";

/// Does a part, or looks up what it has cost.
type Count<'a> = &'a mut dyn FnMut(&mut dyn FnMut()) -> f64;

/// Callgrind counts inside this function alone, and writes its count whenever it ends.
#[no_mangle]
#[inline(never)]
pub fn uxn_filter_counted(part: &mut dyn FnMut()) {
    part();
    // So that the part is called, and not jumped to.
    black_box(());
}

/// If the words are those of a program under callgrind, does what they say.
pub fn was_inner(words: &[String]) -> bool {
    let [first, what] = words else { return false };
    let mut count = |part: &mut dyn FnMut()| {
        uxn_filter_counted(part);
        0.0
    };
    match (first.as_str(), what.as_str()) {
        (INNER, RUNS) => drop(runs(&mut count)),
        (INNER, OPERATIONS) => drop(single_operations(&mut count)),
        (INNER, ADMISSIONS) => drop(whole_admissions(&mut count)),
        _ => return false,
    }
    true
}

/// Instructions a step, for each workload, in the order of the cores; none where valgrind is missing.
/// The program has to begin with `was_inner`.
pub fn count_runs(program: &Path) -> Option<Vec<Row>> {
    looked_up(program, RUNS, runs)
}

/// Instructions of one operation and a POP, for each of them; else as `count_runs`.
pub fn count_operations(program: &Path) -> Option<Vec<Row>> {
    looked_up(program, OPERATIONS, single_operations)
}

/// Instructions of one admission, for each shape; else as `count_runs`.
pub fn count_admissions(program: &Path) -> Option<Vec<Growth>> {
    looked_up(program, ADMISSIONS, whole_admissions)
}

fn runs(count: Count) -> Vec<Row> {
    let workloads = workloads();
    workloads.iter().map(|one| steps(one, count)).collect()
}

fn single_operations(count: Count) -> Vec<Row> {
    let operations = operations();
    let rows = operations.iter().map(|one| steps(one, count));
    rows.map(|row| row.of_steps(STEPS_AN_OPERATION)).collect()
}

/// Instructions a step of one workload.
fn steps(workload: &Workload, count: Count) -> Row {
    let (machine, start) = prepared(&workload.program);
    let mut owned = start.clone();
    let mut numbers = Vec::new();
    for core in cores() {
        let [few, many] = STEPS.map(|steps| {
            owned.copy_from(&start);
            count(&mut || {
                let reply = (core.run)(machine, owned.lend(), steps, WATCH_NONE);
                assert_eq!(reply.steps, steps, "{}: {}", workload.name, core.name);
            })
        });
        numbers.push((many - few) / f64::from(STEPS[1] - STEPS[0]));
    }
    Row {
        name: workload.name.to_owned(),
        numbers,
    }
}

fn whole_admissions(count: Count) -> Vec<Growth> {
    let admissions = admissions();
    let mut growths = Vec::new();
    for shape in &SHAPES {
        let numbers = ADMITTED_LENGTHS.map(|length| {
            let program = (shape.program)(length);
            let mut sheet = vec![0; SHEET_RECORD * length];
            admissions.each_ref().map(|admission| {
                count(&mut || {
                    let answer = (admission.admit)(&program, &mut sheet);
                    assert_eq!(answer, ADMITTED, "{}: {}", shape.name, admission.name);
                })
            })
        });
        growths.push(Growth {
            name: shape.name,
            numbers: numbers.to_vec(),
        });
    }
    growths
}

/// Goes over the parts with the numbers that callgrind wrote for them.
fn looked_up<T>(program: &Path, what: &str, parts: fn(Count) -> T) -> Option<T> {
    let mut numbers = callgrind(program, what)?.into_iter();
    let found = parts(&mut |_| {
        let count = numbers.next();
        count.filter(|&n| n > 0.0).expect("a count for each part")
    });
    // Nothing is counted outside the parts, up to the end of the program.
    let rest: Vec<f64> = numbers.collect();
    assert_eq!(rest, [0.0], "counts of no part");
    Some(found)
}

/// What callgrind counted, in order: each part, and what came after the last one.
fn callgrind(program: &Path, what: &str) -> Option<Vec<f64>> {
    let written = env::temp_dir().join(format!("uxn-filter-callgrind-{}-{what}", id()));
    let started = Command::new("valgrind")
        .env("GLIBC_TUNABLES", FILL_BY_STORES)
        .args(["--tool=callgrind", "--combine-dumps=yes"])
        .arg("--toggle-collect=uxn_filter_counted")
        .arg("--dump-after=uxn_filter_counted")
        .arg(format!("--callgrind-out-file={}", written.display()))
        .arg(program)
        .args([INNER, what])
        .output();
    let output = match started {
        Err(error) if error.kind() == ErrorKind::NotFound => return None,
        started => started.expect("valgrind can be started"),
    };
    let text = fs::read_to_string(&written).unwrap_or_default();
    let _ = fs::remove_file(&written);
    assert!(
        output.status.success(),
        "valgrind ended with {}:\n{}",
        output.status,
        String::from_utf8_lossy(&output.stderr)
    );
    let lines = text.lines();
    let totals = lines.filter_map(|line| line.strip_prefix("totals: "));
    Some(totals.map(|n| n.parse().expect("a count")).collect())
}
