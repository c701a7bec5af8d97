//! The words that the two speed comparisons take.

use std::process::exit;

pub struct Settings {
    pub rounds: u32,
    /// Steps of a timed run.
    pub steps: u32,
    /// The ratio of times above which the comparison ends with status 1.
    pub bar: Option<f64>,
    pub callgrind: bool,
}

impl Settings {
    /// Changes them by the words. A word is taken if it stands in the usage; any other one ends the
    /// program with the usage.
    pub fn read(mut self, usage: &str, words: &[String]) -> Settings {
        let mut words = words.iter();
        while let Some(word) = words.next() {
            let taken = usage.contains(&format!("[{word}")) && self.set(word, &mut words);
            if !taken || self.rounds == 0 || self.steps == 0 {
                eprintln!("usage: {usage}");
                exit(2);
            }
        }
        self
    }

    fn set<'a>(&mut self, word: &str, rest: &mut impl Iterator<Item = &'a String>) -> bool {
        if word == "--no-callgrind" {
            self.callgrind = false;
            return true;
        }
        let Some(value) = rest.next() else {
            return false;
        };
        match word {
            "--rounds" => value.parse().map(|rounds| self.rounds = rounds).is_ok(),
            "--steps" => value.parse().map(|steps| self.steps = steps).is_ok(),
            "--bar" => value.parse().map(|bar| self.bar = Some(bar)).is_ok(),
            _ => false,
        }
    }

    /// Says whether the ratio keeps to the bar, where there is one, and is the status to end with.
    pub fn judged(&self, ratio: f64) -> i32 {
        let Some(bar) = self.bar else { return 0 };
        let passed = ratio <= bar;
        println!("bar {bar} {}", if passed { "PASS" } else { "FAIL" });
        i32::from(!passed)
    }
}
