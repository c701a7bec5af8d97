//! Timing of the cores and of the admissions, interleaved: in each round every one has its turn, and
//! of each the shortest turn counts.

use std::hint::black_box;
use std::time::Instant;

use crate::calls::{Buffers, Owned, Reply, ADMITTED, RECORD, SHEET_RECORD, WATCH_NONE};
use crate::peers::{Admission, Core, Kind};
use crate::workloads::{filter, prepared, record, Shape, Workload};

/// Budget of the timed frame calls.
const FRAME_BUDGET: u32 = 10_000;
/// A load is so many times as long as a frame call, about, and is repeated so much less.
const FRAMES_IN_A_LOAD: u32 = 20;

type Call<'a> = &'a dyn Fn(&Core, Buffers) -> Reply;

/// A measure, and its number for each core, in the order of the cores.
pub struct Row {
    pub name: String,
    pub numbers: Vec<f64>,
}

impl Row {
    /// The library's number over the smallest of the C peers.
    pub fn ratio(&self, cores: &[Core]) -> f64 {
        let least = |kind| {
            let pairs = cores.iter().zip(&self.numbers);
            let of_kind = pairs.filter(|(core, _)| core.kind == kind);
            of_kind.fold(f64::INFINITY, |least, (_, &number)| least.min(number))
        };
        least(Kind::Library) / least(Kind::C)
    }

    /// The numbers of so many steps, from those of one.
    pub fn of_steps(self, steps: f64) -> Row {
        let numbers = self.numbers.iter().map(|number| number * steps).collect();
        Row { numbers, ..self }
    }
}

pub fn mean_ratio(cores: &[Core], rows: &[Row]) -> f64 {
    mean(rows.iter().map(|row| row.ratio(cores)))
}

fn mean(numbers: impl Iterator<Item = f64>) -> f64 {
    let numbers: Vec<f64> = numbers.collect();
    numbers.iter().sum::<f64>() / numbers.len() as f64
}

/// Panics unless all cores end in the same state, byte for byte, after as many steps.
pub fn check_same_end(cores: &[Core], workload: &Workload, steps: u32) {
    let reply = same_end(cores, workload, steps, WATCH_NONE);
    assert_eq!(reply.steps, steps, "{} goes on for ever", workload.name);
}

/// The reply of a run. Panics unless it is that of all cores, and they end in the same state.
pub fn same_end(cores: &[Core], workload: &Workload, budget: u32, watch: u16) -> Reply {
    let mut ends = Vec::new();
    for core in cores {
        let (machine, mut owned) = prepared(&workload.program);
        let reply = (core.run)(machine, owned.lend(), budget, watch);
        ends.push((reply, owned));
        let same = ends.last() == ends.first();
        assert!(
            same,
            "{}: {} ends in another state",
            workload.name, core.name
        );
    }
    ends[0].0
}

/// Nanoseconds a step.
pub fn time_runs(cores: &[Core], workload: &Workload, rounds: u32, steps: u32) -> Row {
    let (machine, start) = prepared(&workload.program);
    let mut owned = start.clone();
    let numbers = least_times(cores, rounds, |core| {
        owned.copy_from(&start);
        let from = Instant::now();
        black_box((core.run)(machine, owned.lend(), steps, WATCH_NONE));
        nanoseconds_since(from) / f64::from(steps)
    });
    Row {
        name: workload.name.to_owned(),
        numbers,
    }
}

/// Nanoseconds of whole calls: a frame that is judged, a frame that is refused, a load.
pub fn time_calls(cores: &[Core], rounds: u32, repeats: u32) -> Vec<Row> {
    let program = filter();
    let good = record();
    let mut bad = good;
    bad[RECORD - 1] = 1;
    let (machine, mut owned) = prepared(&program);

    let load = |core: &Core, lent: Buffers| (core.load)(machine, lent, black_box(&program));
    let judge =
        |core: &Core, lent: Buffers| (core.frame)(machine, lent, black_box(&good), FRAME_BUDGET);
    let refuse =
        |core: &Core, lent: Buffers| (core.frame)(machine, lent, black_box(&bad), FRAME_BUDGET);

    let mut ends = Vec::new();
    for core in cores {
        let loaded = load(core, owned.lend());
        let judged = judge(core, owned.lend());
        let refused = refuse(core, owned.lend());
        ends.push(([loaded, judged, refused], owned.clone()));
        let same = ends.last() == ends.first();
        assert!(same, "{}: load or frame ends in another state", core.name);
    }
    let steps = ends[0].0[1].steps;

    let calls: [(String, u32, Call); 3] = [
        (format!("frame, {steps} steps"), repeats, &judge),
        ("frame, refused".to_owned(), repeats, &refuse),
        ("load".to_owned(), repeats / FRAMES_IN_A_LOAD, &load),
    ];
    calls
        .into_iter()
        .map(|(name, repeats, call)| Row {
            name,
            numbers: least_times(cores, rounds, |core| {
                time_repeated(repeats, &mut owned, |lent| call(core, lent))
            }),
        })
        .collect()
}

/// Nanoseconds a call.
fn time_repeated(repeats: u32, owned: &mut Owned, call: impl Fn(Buffers) -> Reply) -> f64 {
    let from = Instant::now();
    for _ in 0..repeats {
        black_box(call(owned.lend()));
    }
    nanoseconds_since(from) / f64::from(repeats)
}

/// Lengths of the programs that admission is timed with.
pub const ADMITTED_LENGTHS: [usize; 4] = [512, 1_024, 2_048, 4_096];
/// Program bytes in one turn of an admission.
const BYTES_IN_A_TURN: usize = 32_768;

/// A shape's numbers of one admission, nanoseconds or instructions: for each length the library's and
/// that of safe Rust.
pub struct Growth {
    pub name: &'static str,
    pub numbers: Vec<[f64; 2]>,
}

impl Growth {
    /// The library's number over that of safe Rust, at one of the lengths.
    pub fn ratio(&self, at: usize) -> f64 {
        self.numbers[at][0] / self.numbers[at][1]
    }

    fn ratios(&self) -> impl Iterator<Item = f64> + '_ {
        (0..self.numbers.len()).map(|at| self.ratio(at))
    }

    /// The number for each byte at one of the lengths over that at the first: 1.0 where it grows as the
    /// length does.
    pub fn per_byte(&self, of: usize, at: usize) -> f64 {
        let each = |at: usize| self.numbers[at][of] / ADMITTED_LENGTHS[at] as f64;
        each(at) / each(0)
    }

    /// The library's number at the last length over that at the first.
    pub fn first_to_last(&self) -> f64 {
        self.numbers[self.numbers.len() - 1][0] / self.numbers[0][0]
    }
}

/// The greatest ratio of all shapes and lengths.
pub fn greatest_admission_ratio(growths: &[Growth]) -> f64 {
    growths.iter().flat_map(Growth::ratios).fold(0.0, f64::max)
}

pub fn mean_admission_ratio(growths: &[Growth]) -> f64 {
    mean(growths.iter().flat_map(Growth::ratios))
}

/// Panics unless both admit the program and write the same sheet.
pub fn time_admissions(admissions: &[Admission; 2], shape: &Shape, rounds: u32) -> Growth {
    let programs = ADMITTED_LENGTHS.map(shape.program);
    let mut sheets = ADMITTED_LENGTHS.map(|length| vec![0; SHEET_RECORD * length]);
    for (program, sheet) in programs.iter().zip(&mut sheets) {
        let written = admissions.each_ref().map(|admission| {
            let answer = (admission.admit)(program, sheet);
            assert_eq!(answer, ADMITTED, "{}: {}", shape.name, admission.name);
            sheet.clone()
        });
        assert!(written[0] == written[1], "{}: other sheets", shape.name);
    }
    // All lengths in each round, so that a slow while of the machine meets all of them.
    let mut cells = Vec::new();
    for length in 0..ADMITTED_LENGTHS.len() {
        cells.extend(admissions.iter().map(|admission| (admission, length)));
    }
    let least = least_times(&cells, rounds, |&(admission, length)| {
        let repeats = BYTES_IN_A_TURN / ADMITTED_LENGTHS[length];
        let from = Instant::now();
        for _ in 0..repeats {
            black_box((admission.admit)(
                black_box(&programs[length]),
                &mut sheets[length],
            ));
        }
        nanoseconds_since(from) / repeats as f64
    });
    Growth {
        name: shape.name,
        numbers: least.as_chunks::<2>().0.to_vec(),
    }
}

/// The least time of each, in the order given.
fn least_times<T>(cores: &[T], rounds: u32, mut time: impl FnMut(&T) -> f64) -> Vec<f64> {
    let mut least = vec![f64::INFINITY; cores.len()];
    for round in 0..rounds as usize {
        for turn in 0..cores.len() {
            // Another one begins each round.
            let place = (round + turn) % cores.len();
            least[place] = least[place].min(time(&cores[place]));
        }
    }
    least
}

fn nanoseconds_since(from: Instant) -> f64 {
    from.elapsed().as_nanos() as f64
}
