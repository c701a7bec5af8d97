//! Rounds that go on: SOAK gives the minutes; without it they last a few seconds. SEED gives the
//! first seed; a soak of minutes without it takes one from the clock.

use std::time::{Duration, Instant, SystemTime, UNIX_EPOCH};

use crate::pair::say;
use crate::random::given;

const FEW: Duration = Duration::from_secs(3);

/// Makes rounds, each with a seed of its own, and says each minute and at the end what they came to.
pub fn rounds<T: Default>(name: &str, round: impl Fn(u64, &mut T), text: impl Fn(&T) -> String) {
    let minutes = given("SOAK");
    let time = match minutes {
        Some(minutes) => Duration::from_secs(60 * minutes),
        None => FEW,
    };
    let first = match (given("SEED"), minutes) {
        (Some(seed), _) => seed,
        (None, Some(_)) => clock(),
        (None, None) => 1,
    };
    let start = Instant::now();
    let mut said = start;
    let mut seed = first;
    let mut total = T::default();
    while start.elapsed() < time {
        round(seed, &mut total);
        seed = seed.wrapping_add(1);
        if said.elapsed() > Duration::from_secs(60) {
            said = Instant::now();
            say(&format!(
                "{name}: seeds {first} to {seed}, {}",
                text(&total)
            ));
        }
    }
    let rounds = seed.wrapping_sub(first);
    say(&format!(
        "{name}: {rounds} rounds from seed {first}, {}",
        text(&total)
    ));
}

fn clock() -> u64 {
    let now = SystemTime::now().duration_since(UNIX_EPOCH).unwrap();
    now.as_secs()
}
