//! The speed comparison of admission: the proved library beside safe Rust, and how both grow with
//! the length of the program. See README.md.

use std::env;
use std::process::exit;

use uxn_filter_harness::counting::{count_admissions, was_inner};
use uxn_filter_harness::peers::admissions;
use uxn_filter_harness::settings::Settings;
use uxn_filter_harness::timing::{
    greatest_admission_ratio, time_admissions, Growth, ADMITTED_LENGTHS,
};
use uxn_filter_harness::workloads::SHAPES;

const USAGE: &str = "compare-admission [--rounds N] [--bar RATIO] [--no-callgrind]";
/// More than so much for each byte is faster growth than the length's.
const LINEAR: f64 = 1.3;
/// Widths of the columns.
const FIRST: usize = 14;
const EACH: usize = 10;
const RATIO: usize = 16;

fn main() {
    let words: Vec<String> = env::args().skip(1).collect();
    if was_inner(&words) {
        return;
    }
    let standard = Settings {
        rounds: 300,
        steps: 1,
        bar: None,
        callgrind: true,
    };
    let settings = standard.read(USAGE, &words);
    let rounds = settings.rounds;
    println!(
        "Nanoseconds an admission, least of {rounds} rounds; library and safe Rust take turns."
    );
    println!("Growth: the number for each byte over that with 512 bytes; 1.00 is linear.");
    println!(
        "straight: no jumps. backward: JMIs, each to the one before it. branches: a JCI in four bytes.\n\
         one routine: calls of it, one after the other. nested: 127 routines, each called by the one\n\
         before it. late: branches with calls, which all wait for a return.\n"
    );

    let timed: Vec<Growth> = SHAPES
        .iter()
        .map(|shape| time_admissions(&admissions(), shape, rounds))
        .collect();
    table("nanoseconds", &timed);
    let status = settings.judged(greatest_admission_ratio(&timed));

    if settings.callgrind {
        println!();
        let this = env::current_exe().expect("this program's own file");
        match count_admissions(&this) {
            Some(counted) => table("instructions", &counted),
            None => println!("Instructions are not counted: valgrind is missing."),
        }
    }
    exit(status);
}

/// The rows of each shape, and a line on those that grow faster than their programs.
fn table(unit: &str, growths: &[Growth]) {
    print!("{unit:<FIRST$}{:>EACH$}", "bytes");
    for admission in &admissions() {
        print!("{:>EACH$}", admission.name);
    }
    print!("{:>RATIO$}", "library / rust");
    println!("{:>RATIO$}{:>RATIO$}", "growth, library", "growth, rust");
    let mut notes = Vec::new();
    for growth in growths {
        print_rows(growth);
        let last = ADMITTED_LENGTHS.len() - 1;
        for (of, admission) in admissions().iter().enumerate() {
            let per_byte = growth.per_byte(of, last);
            if per_byte > LINEAR {
                notes.push(format!(
                    "{}, {}: {per_byte:.2} times as many for each byte with {} bytes as with {}",
                    growth.name, admission.name, ADMITTED_LENGTHS[last], ADMITTED_LENGTHS[0]
                ));
            }
        }
    }
    match &notes[..] {
        [] => println!("No shape grows faster than linearly."),
        notes => println!("Faster than linear: {}.", notes.join("; ")),
    }
}

fn print_rows(growth: &Growth) {
    for (at, length) in ADMITTED_LENGTHS.iter().enumerate() {
        let [library, rust] = growth.numbers[at];
        print!("{:<FIRST$}{length:>EACH$}", growth.name);
        print!(
            "{library:>EACH$.0}{rust:>EACH$.0}{:>RATIO$.2}",
            growth.ratio(at)
        );
        let [of_library, of_rust] = [0, 1].map(|of| growth.per_byte(of, at));
        println!("{of_library:>RATIO$.2}{of_rust:>RATIO$.2}");
    }
}
