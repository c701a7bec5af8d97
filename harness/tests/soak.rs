//! A soak: rounds of every kind of call, each with a seed of its own. SOAK gives its minutes;
//! without it the soak is a few seconds long.

use uxn_filter_harness::admissions::{pattern, Admissions};
use uxn_filter_harness::calls::{ADMIT_LIMIT, PROGRAM_LIMIT, RECORD, SHEET_RECORD};
use uxn_filter_harness::filters::{any, any_length, filter};
use uxn_filter_harness::pair::{any_watch, Pair, Part};
use uxn_filter_harness::programs::{grammar_made, random_bytes};
use uxn_filter_harness::random::Random;
use uxn_filter_harness::soak::rounds;
use uxn_filter_harness::watch::{any_record, Watch, Watched};

/// Installs of a round.
const INSTALLS: usize = 8;

/// How many steps, installs and admissions were compared, runs and events paused, and steps watched,
/// with the returns among them and the refused installs between them.
#[derive(Default)]
struct Total {
    steps: u64,
    pauses: u64,
    installs: u64,
    admissions: u64,
    watched: u64,
    returns: u64,
    refused_installs: u64,
}

impl Total {
    fn text(&self) -> String {
        let Total {
            steps,
            pauses,
            installs,
            admissions,
            watched,
            returns,
            refused_installs,
        } = self;
        format!(
            "{steps} compared steps, {pauses} pauses, {installs} compared installs, {admissions} compared \
             admissions, {watched} watched steps with {returns} returns and {refused_installs} refused installs \
             between them"
        )
    }
}

#[test]
fn soak() {
    let round = |seed, total: &mut Total| {
        let pair = machine_round(seed);
        total.steps += pair.compared_steps;
        total.pauses += pair.pauses;
        total.installs += install_round(seed);
        total.admissions += admission_round(seed);
        let (watch, refused_installs) = watched_round(seed);
        total.watched += watch.steps;
        total.returns += watch.returns;
        total.refused_installs += refused_installs;
    };
    rounds("soak", round, Total::text);
}

/// Some thousands of compared steps, and some compared calls of every kind.
fn machine_round(seed: u64) -> Pair {
    let mut pair = Pair::new(seed);
    let mut random = Random::new(seed);

    for byte in 0..=255 {
        if byte % 64 == 0 {
            pair.make_dirty(&mut random);
        }
        pair.machine.pc = random.short();
        pair.machine.wp = random.byte();
        pair.machine.rp = random.byte();
        pair.machine.wp_high = random.byte();
        pair.machine.rp_high = random.byte();
        let at = usize::from(pair.machine.pc);
        pair.put(Part::Memory, at, &[byte]);
        for _ in 0..8 {
            pair.step();
        }
    }

    let length = 1 + random.below(PROGRAM_LIMIT);
    let any = random_bytes(&mut random, length, true);
    pair.load(&any);
    let writes = pair.writes(100);
    let watch = any_watch(&mut random, &writes);
    pair.run(10_000, watch);

    let program = grammar_made(&mut random, seed.is_multiple_of(2));
    pair.load(&program);
    let writes = pair.writes(2_000);
    for _ in 0..10 {
        let mut record = [0; RECORD];
        let length = random.below(RECORD + 1);
        random.fill(&mut record[..length]);
        record[0] = length.saturating_sub(2) as u8;
        let budget = random.below(3_000) as u32;
        pair.frame(&record, budget);
        let device = if random.one_in(8) {
            random.word() as u32
        } else {
            random.below(20) as u32
        };
        let budget = random.below(300) as u32;
        let watch = any_watch(&mut random, &writes);
        pair.event(device, budget, watch);
        let budget = random.below(1_000) as u32;
        let watch = any_watch(&mut random, &writes);
        pair.run(budget, watch);
    }
    pair
}

/// Programs of every kind into one machine, one after the other, most with a sheet of the right length,
/// and frames between them; returns the number of the installs.
fn install_round(seed: u64) -> u64 {
    let mut pair = Pair::new(seed);
    let mut random = Random::new(seed);
    for turn in 0..INSTALLS {
        let length = any_length(&mut random, ADMIT_LIMIT + 1);
        let program = any(&mut random, turn, length);
        let sheet = match random.below(8) {
            0 => random.below(2 * SHEET_RECORD * length + 1),
            _ => SHEET_RECORD * length,
        };
        pair.install(&program, &mut pattern(sheet, turn as u64));
        pair.frame(&any_record(&mut random), 100);
    }
    INSTALLS as u64
}

/// Programs of every kind into sheets, most of the right length; returns their number.
fn admission_round(seed: u64) -> u64 {
    let mut admissions = Admissions::new(seed);
    let mut random = Random::new(seed);
    for turn in 0..16 {
        let length = any_length(&mut random, ADMIT_LIMIT + 1);
        let program = any(&mut random, turn, length);
        admissions.admit(&program);
        if random.one_in(8) {
            let sheet = random.below(2 * SHEET_RECORD * length + 1);
            admissions.admit_into(&program, sheet);
        }
    }
    admissions.calls()
}

/// A filter of the grammar with a list of frame calls, watched step by step, and of refused installs,
/// which are counted.
fn watched_round(seed: u64) -> (Watch, u64) {
    let mut random = Random::new(seed);
    let length = any_length(&mut random, ADMIT_LIMIT);
    let program = filter(&mut random, length);
    let mut watch = Watch::admitted(&program).expect("a filter of the grammar");
    match watched_calls(&mut watch, &mut random) {
        Ok(refused_installs) => (watch, refused_installs),
        Err(what) => panic!("seed {seed}:\n  {}\n  {what}", watch.shown()),
    }
}

fn watched_calls(watch: &mut Watch, random: &mut Random) -> Watched<u64> {
    let mut refused_installs = 0;
    for _ in 0..10 {
        watch.put_bytes(random);
        let record = any_record(random);
        let budget = random.below(1_000) as u32;
        match random.below(8) {
            0 => watch.frame_in_wrong_buffers(random, &record, budget)?,
            1 => {
                refused_installs += 1;
                watch.refused_install(random)?
            }
            _ => watch.frame(&record, budget)?,
        };
    }
    Ok(refused_installs)
}
