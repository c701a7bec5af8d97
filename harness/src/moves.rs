//! Moves between an old form and a new one, of sheets or of frame records: each of the library is made
//! beside a second one, and the reply, every byte of the output and guard bytes beside it are compared.

use crate::calls::Written;
use crate::pair::say;
use crate::random::Random;

/// Bytes on both sides of a lent output, which no call may touch.
const GUARD: usize = 24;

/// The bytes that a move writes into an output with room, or the number.
pub type Due = Result<Vec<u8>, u8>;

/// A move, what is due, the bytes of a record that it takes, and the most that it writes for so many
/// bytes.
#[derive(Clone, Copy)]
pub struct Way {
    pub name: &'static str,
    pub call: fn(&[u8], &mut [u8]) -> Written,
    pub due: fn(&[u8]) -> Due,
    pub size: usize,
    pub most: fn(usize) -> usize,
}

pub fn written(length: usize) -> Written {
    Written {
        length,
        line: 0,
        number: 0,
    }
}

pub fn refused(number: u8) -> Written {
    Written {
        length: 0,
        line: 0,
        number,
    }
}

/// Two ways, and how often each number came.
pub struct Moves {
    pub ways: [Way; 2],
    random: Random,
    calls: u64,
    pub seen: [u64; 20],
}

impl Moves {
    pub fn new(seed: u64, ways: [Way; 2]) -> Moves {
        Moves {
            ways,
            random: Random::new(seed),
            calls: 0,
            seen: [0; 20],
        }
    }

    /// One call with an output of this length, compared in everything; answers what it wrote.
    pub fn moved(&mut self, way: Way, from: &[u8], length: usize) -> Due {
        let mut lent = vec![0; GUARD + length + GUARD];
        self.random.fill(&mut lent);
        let mut expected = lent.clone();
        let given = from.to_vec();
        let due = match (way.due)(from) {
            Ok(bytes) if length < bytes.len() => Err(13),
            other => other,
        };
        let reply = match &due {
            Ok(bytes) => {
                expected[GUARD..GUARD + bytes.len()].copy_from_slice(bytes);
                written(bytes.len())
            }
            Err(number) => refused(*number),
        };
        let found = (way.call)(&given, &mut lent[GUARD..GUARD + length]);
        let what = || {
            format!(
                "move {} of {} bytes, {:02x?}, into {length}",
                way.name,
                from.len(),
                &from[..from.len().min(64)]
            )
        };
        assert_eq!(found, reply, "{}", what());
        assert!(lent == expected, "the output of the {}", what());
        assert!(given == from, "what is moved by the {}", what());
        self.calls += 1;
        self.seen[usize::from(reply.number)] += 1;
        due
    }

    pub fn compare(&mut self, way: Way, from: &[u8], length: usize) {
        let _ = self.moved(way, from, length);
    }

    /// Outputs just too short, just long enough, longer, and empty.
    pub fn around(&mut self, way: Way, from: &[u8]) {
        let most = (way.most)(from.len());
        for length in [0, most.saturating_sub(1), most, most + 1, most + 9] {
            self.compare(way, from, length);
        }
    }

    pub fn both(&mut self, from: &[u8]) {
        for way in self.ways {
            self.around(way, from);
        }
    }

    /// Every list of at most so many of these records, whole and with bytes of the last one cut off.
    pub fn each_list(&mut self, way: Way, records: &[&[u8]], most: usize) {
        let kinds: Vec<u8> = (0..records.len() as u8).collect();
        for length in 0..=most {
            each_of(&kinds, length, |list| {
                let list: Vec<&[u8]> = list
                    .iter()
                    .map(|&kind| records[usize::from(kind)])
                    .collect();
                let whole = list.concat();
                self.around(way, &whole);
                for cut in 1..way.size.min(whole.len()) {
                    self.around(way, &whole[..whole.len() - cut]);
                }
            });
        }
    }

    /// Says how much was compared; each of these numbers has to have come, and no other.
    pub fn say_total(&self, test: &str, numbers: &[usize]) {
        let counts: Vec<String> = numbers
            .iter()
            .map(|&number| match number {
                0 => format!("{} written", self.seen[number]),
                _ => format!("{} refused with {number}", self.seen[number]),
            })
            .collect();
        say(&format!(
            "{test}: {} moves compared: {}",
            self.calls,
            counts.join(", ")
        ));
        for (number, &count) in self.seen.iter().enumerate() {
            let due = numbers.contains(&number);
            assert_eq!(count > 0, due, "{test}: {count} moves answer {number}");
        }
    }
}

/// Every word of this length with letters from this list.
pub fn each_of(letters: &[u8], length: usize, mut with: impl FnMut(&[u8])) {
    let mut places = vec![0; length];
    let mut word = vec![letters[0]; length];
    loop {
        with(&word);
        let Some(place) = (0..length).find(|&place| places[place] + 1 < letters.len()) else {
            return;
        };
        for before in 0..place {
            places[before] = 0;
            word[before] = letters[0];
        }
        places[place] += 1;
        word[place] = letters[places[place]];
    }
}
