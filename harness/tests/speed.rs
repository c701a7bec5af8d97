//! The speed that is promised, in instructions that callgrind counts: they are the same at every run,
//! and a ratio that is too great is a library that does more work. Where valgrind is missing, that is
//! said and passed over. Times are printed and not judged; `compare --bar` judges them.

use std::path::Path;
use std::sync::{Mutex, PoisonError};

use uxn_filter_harness::calls::{Machine, Owned, NO_PORTS, OLD_RECORD, PAUSED, RECORD, SPENT};
use uxn_filter_harness::counting::{count_admissions, count_runs};
use uxn_filter_harness::pair::say;
use uxn_filter_harness::peers::{admissions, cores};
use uxn_filter_harness::random::{seed, Random};
use uxn_filter_harness::timing::{
    check_same_end, greatest_admission_ratio, mean_admission_ratio, mean_ratio, same_end,
    time_admissions, time_runs, Growth, Row, ADMITTED_LENGTHS,
};
use uxn_filter_harness::workloads::{filter, workloads, SHAPES};

/// A step of the library over one of the best C peer: in the mean of the workloads, and in each.
const STEP_BAR: f64 = 1.45;
const EACH_STEP_BAR: f64 = 1.6;

/// An admission of the library over one in safe Rust: in the mean of shapes and lengths, and in each.
const ADMISSION_BAR: f64 = 1.5;
const EACH_ADMISSION_BAR: f64 = 1.8;
/// An admission of 4,096 bytes over one of 512, eight times as many.
const GROWTH_BAR: f64 = 8.0;

const STEPS: u32 = 400_000;
const ROUNDS: u32 = 30;
const ADMISSION_ROUNDS: u32 = 100;

/// What is timed is timed alone.
static ALONE: Mutex<()> = Mutex::new(());

/// Ratios of instructions, each of which is said; those above their bar.
#[derive(Default)]
struct Judged {
    above: Vec<String>,
}

impl Judged {
    fn hold(&mut self, what: &str, ratio: f64, bar: f64) {
        let line = format!("{what} {ratio:.2}, bar {bar}");
        say(&format!("speed, instructions: {line}"));
        if ratio <= bar {
            return;
        }
        self.above.push(line);
    }

    fn end(self) {
        assert!(self.above.is_empty(), "above the bar: {:?}", self.above);
    }
}

fn pass_over(what: &str) {
    say(&format!(
        "speed, instructions: {what}: valgrind is missing, so that nothing is counted or judged"
    ));
}

#[test]
fn steps_beside_the_best_c_peer() {
    let _alone = ALONE.lock().unwrap_or_else(PoisonError::into_inner);
    let cores = cores();
    let workloads = workloads();
    let time = |workload| {
        check_same_end(&cores, workload, STEPS);
        time_runs(&cores, workload, ROUNDS, STEPS)
    };
    let timed: Vec<Row> = workloads.iter().map(time).collect();
    say(&format!(
        "speed, times, not judged: steps, mean ratio {:.2} of {ROUNDS} rounds",
        mean_ratio(&cores, &timed)
    ));

    let Some(counted) = count_runs(Path::new(env!("CARGO_BIN_EXE_compare"))) else {
        return pass_over("steps");
    };
    let mut judged = Judged::default();
    for row in &counted {
        let what = format!("steps, {}", row.name);
        judged.hold(&what, row.ratio(&cores), EACH_STEP_BAR);
    }
    judged.hold("steps, mean", mean_ratio(&cores, &counted), STEP_BAR);
    judged.end();
}

/// What is measured side by side does the same work: watched too, all cores answer the same.
#[test]
fn the_peers_pause_as_the_library_does() {
    let _alone = ALONE.lock().unwrap_or_else(PoisonError::into_inner);
    let cores = cores();
    let mut paused = Vec::new();
    for workload in &workloads() {
        for watch in (0..256).chain(NO_PORTS) {
            let reply = same_end(&cores, workload, 2_000, watch);
            if reply.answer == PAUSED {
                // On the last unit too, and not before it.
                let last = same_end(&cores, workload, reply.steps, watch);
                let before = same_end(&cores, workload, reply.steps - 1, watch);
                assert_eq!((last.answer, before.answer), (PAUSED, SPENT));
                paused.push((workload.name, watch));
            }
        }
    }
    let ports = |name, ports: &[u16]| ports.iter().map(move |&port| (name, port)).collect();
    let expected: [Vec<(&str, u16)>; 3] = [
        ports("ports", &[0x10, 0x11, 0x12, 0x13, 0xf2]),
        ports("decisions", &[0xf2]),
        ports("straight", &[0x30, 0x32, 0x33]),
    ];
    assert_eq!(paused, expected.concat());
}

/// Frames one after the other: of every length byte, with a byte past the data, and of other sizes. Each
/// core is given the same, and ends in the same state.
#[test]
fn the_peers_take_the_records_that_the_library_takes() {
    let cores = cores();
    let mut random = Random::new(seed());
    let mut records: Vec<Vec<u8>> = [0, 1, OLD_RECORD, RECORD - 1, RECORD + 1, 2 * RECORD]
        .map(|size| vec![0; size])
        .to_vec();
    for length in 0..=255u8 {
        let past = (2 + usize::from(length)).min(RECORD);
        let mut record = vec![0; RECORD];
        random.fill(&mut record[..past]);
        record[0] = length;
        records.push(record.clone());
        if past < RECORD {
            record[past + random.below(RECORD - past)] = 1;
            records.push(record.clone());
            record[past..].fill(0);
            record[RECORD - 1] = 1;
            records.push(record);
        }
    }
    let mut ends: Vec<(Machine, Owned)> = cores
        .iter()
        .map(|core| {
            let mut owned = Owned::new();
            let loaded = (core.load)(Machine::default(), owned.lend(), &filter());
            (loaded.machine, owned)
        })
        .collect();
    let mut refused = [0; 9];
    for record in &records {
        let mut replies = Vec::new();
        for (core, (machine, owned)) in cores.iter().zip(&mut ends) {
            let reply = (core.frame)(*machine, owned.lend(), record, 1_000);
            *machine = reply.machine;
            replies.push(reply);
        }
        for ((core, end), reply) in cores.iter().zip(&ends).zip(&replies) {
            let same = *reply == replies[0] && *end == ends[0];
            assert!(same, "{}: another end of {record:02x?}", core.name);
        }
        refused[usize::from(replies[0].number)] += 1;
    }
    // 126 lengths have room for a byte past the data; 127 and more are too long.
    assert_eq!(refused, [127, 0, 0, 0, 0, 0, 0, 6, 2 * 126 + 129]);
}

#[test]
fn admission_beside_safe_rust() {
    let _alone = ALONE.lock().unwrap_or_else(PoisonError::into_inner);
    let admissions = admissions();
    let time = |shape| time_admissions(&admissions, shape, ADMISSION_ROUNDS);
    let timed: Vec<Growth> = SHAPES.iter().map(time).collect();
    say(&format!(
        "speed, times, not judged: admission, greatest ratio {:.2} of {ADMISSION_ROUNDS} rounds",
        greatest_admission_ratio(&timed)
    ));

    let Some(counted) = count_admissions(Path::new(env!("CARGO_BIN_EXE_admission"))) else {
        return pass_over("admission");
    };
    let mut judged = Judged::default();
    for growth in &counted {
        let name = growth.name;
        for (at, length) in ADMITTED_LENGTHS.iter().enumerate() {
            let what = format!("admission, {name}, {length} bytes");
            judged.hold(&what, growth.ratio(at), EACH_ADMISSION_BAR);
        }
        let what = format!("admission, {name}, growth");
        judged.hold(&what, growth.first_to_last(), GROWTH_BAR);
    }
    let mean = mean_admission_ratio(&counted);
    judged.hold("admission, mean", mean, ADMISSION_BAR);
    judged.end();
}
