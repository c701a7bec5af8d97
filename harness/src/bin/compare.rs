//! The speed comparison: the proved library beside a C core and a core in safe Rust. See README.md.

use std::env;
use std::path::Path;
use std::process::exit;

use uxn_filter_harness::counting::{count_operations, count_runs, was_inner};
use uxn_filter_harness::peers::{compilers, cores, Core};
use uxn_filter_harness::settings::Settings;
use uxn_filter_harness::timing::{check_same_end, mean_ratio, time_calls, time_runs, Row};
use uxn_filter_harness::workloads::{operations, workloads, STEPS_AN_OPERATION};

const USAGE: &str = "compare [--rounds N] [--steps N] [--bar RATIO] [--no-callgrind]";
/// Frame calls in a round.
const CALLS: u32 = 5_000;
/// Widths of the columns: names, cores, ratio.
const FIRST: usize = 20;
const EACH: usize = 10;
const LAST: usize = 20;

fn main() {
    let words: Vec<String> = env::args().skip(1).collect();
    if was_inner(&words) {
        return;
    }
    let cores = cores();
    let workloads = workloads();
    let standard = Settings {
        rounds: 60,
        steps: 400_000,
        bar: None,
        callgrind: true,
    };
    let settings = standard.read(USAGE, &words);

    let Settings { rounds, steps, .. } = settings;
    println!("Nanoseconds a step, least of {rounds} rounds of {steps} steps; cores take turns.");
    for line in compilers() {
        println!("{line}");
    }
    for workload in workloads.iter().chain(&operations()) {
        check_same_end(&cores, workload, steps);
    }
    println!("All cores end each workload in the same state.\n");

    let rows: Vec<Row> = workloads
        .iter()
        .map(|workload| time_runs(&cores, workload, rounds, steps))
        .collect();
    table("ns a step", &cores, &rows);
    let mean = print_mean(&cores, &rows);
    let status = settings.judged(mean);
    println!();

    let this = env::current_exe().expect("this program's own file");
    let counted = |count: fn(&Path) -> Option<Vec<Row>>| {
        if !settings.callgrind {
            return None;
        }
        let rows = count(&this);
        if rows.is_none() {
            println!("Instructions are not counted: valgrind is missing.\n");
        }
        rows
    };
    if let Some(rows) = counted(count_runs) {
        table("instructions a step", &cores, &rows);
        print_mean(&cores, &rows);
        println!();
    }

    println!("One operation and a POP of its result; MUL by the bits of the smaller operand.");
    let time = |operation| time_runs(&cores, operation, rounds, steps).of_steps(STEPS_AN_OPERATION);
    let rows: Vec<Row> = operations().iter().map(time).collect();
    table("ns", &cores, &rows);
    println!();
    if let Some(rows) = counted(count_operations) {
        table("instructions", &cores, &rows);
        println!();
    }

    println!(
        "Whole calls: a short filter on a 128-byte record; a load clears 65,536 + 3 x 256 bytes,"
    );
    println!("in C by memset.");
    table("ns a call", &cores, &time_calls(&cores, rounds, CALLS));
    exit(status);
}

/// A line for each row, with the library over the best C peer.
fn table(unit: &str, cores: &[Core], rows: &[Row]) {
    print!("{unit:<FIRST$}");
    for core in cores {
        print!("{:>EACH$}", core.name);
    }
    println!("{:>LAST$}", "library / best C");
    for row in rows {
        print!("{:<FIRST$}", row.name);
        for number in &row.numbers {
            print!("{number:>EACH$.2}");
        }
        println!("{:>LAST$.2}", row.ratio(cores));
    }
}

fn print_mean(cores: &[Core], rows: &[Row]) -> f64 {
    let mean = mean_ratio(cores, rows);
    let width = FIRST + EACH * cores.len();
    println!("{:<width$}{mean:>LAST$.2}", "mean ratio");
    mean
}
