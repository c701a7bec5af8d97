//! The admission of the proved library, the second admission and the one in safe Rust side by side:
//! every call is made on all three, and the answer and every byte of the sheet are compared. Of each
//! program the library is also asked why it is refused: the number is compared, and the reason has to
//! be true.

use crate::calls::{Why, ADMITTED, SHEET_RECORD};
use crate::pair::{say, Guarded, SHOWN};
use crate::reasons::{Search, RULES};
use crate::{library, rust_admission, second_admission};

/// Of a program with which they differ, so many bytes are shown.
const SHOWN_PROGRAM: usize = 64;

pub struct Admissions {
    seed: u64,
    calls: u64,
    pub admitted: u64,
    program_bytes: u64,
    /// The sheet as the last call left it.
    sheet: Vec<u8>,
    /// Why the last program is refused.
    why: Why,
    /// The reasons that were told, by their rule.
    told: [u64; RULES.len()],
}

impl Admissions {
    pub fn new(seed: u64) -> Admissions {
        Admissions {
            seed,
            calls: 0,
            admitted: 0,
            program_bytes: 0,
            sheet: Vec::new(),
            why: Why::default(),
            told: [0; RULES.len()],
        }
    }

    pub fn calls(&self) -> u64 {
        self.calls
    }

    /// The sheet as the last call left it.
    pub fn sheet(&self) -> &[u8] {
        &self.sheet
    }

    /// Why the last program is refused.
    pub fn why(&self) -> Why {
        self.why
    }

    /// The reasons that were told, by their rule.
    pub fn told(&self) -> [(&'static str, u64); RULES.len()] {
        std::array::from_fn(|place| (RULES[place], self.told[place]))
    }

    /// Admission into a sheet of the right length.
    pub fn admit(&mut self, program: &[u8]) -> u8 {
        self.admit_into(program, SHEET_RECORD * program.len())
    }

    /// Admission into a sheet of the length given.
    pub fn admit_into(&mut self, program: &[u8], sheet_length: usize) -> u8 {
        self.compare(program, &[], sheet_length)
    }

    /// Admission of a program after which other bytes stand that are not lent.
    pub fn admit_before(&mut self, program: &[u8], others: &[u8]) -> u8 {
        self.compare(program, others, SHEET_RECORD * program.len())
    }

    /// The sheet is filled with a pattern before the call.
    fn compare(&mut self, program: &[u8], others: &[u8], sheet_length: usize) -> u8 {
        self.calls += 1;
        self.program_bytes += program.len() as u64;
        let found = pattern(sheet_length, self.calls);

        let whole = [program, others].concat();
        let mut given = Guarded::new(whole.len());
        given.bytes_mut().copy_from_slice(&whole);
        let mut sheet = Guarded::new(sheet_length);
        sheet.bytes_mut().copy_from_slice(&found);
        let mine = library::admit(&given.bytes()[..program.len()], sheet.bytes_mut());
        let why = library::explain(&given.bytes()[..program.len()]);

        let mut second_sheet = found.clone();
        let second = second_admission::admit(program, &mut second_sheet);
        let mut rust_sheet = found.clone();
        let rust = rust_admission::admit(program, &mut rust_sheet);

        let mut lines = Vec::new();
        if (mine, second) != (second, rust) {
            lines.push(format!(
                "  answer: library {mine}, second {second}, safe Rust {rust}"
            ));
        }
        lines.extend(differences("second", sheet.bytes(), &second_sheet));
        lines.extend(differences("safe Rust", sheet.bytes(), &rust_sheet));
        if !sheet.guards_stand() {
            lines.push("  the library wrote outside the sheet".to_owned());
        }
        if given.bytes() != whole || !given.guards_stand() {
            lines.push("  the library wrote to the program".to_owned());
        }
        // What a refusal leaves, apart from what the others say of it.
        let left = sheet.bytes();
        match mine {
            ADMITTED => {}
            11 if left.iter().all(|&byte| byte == 0) => {}
            11 => lines.push("  11 leaves a sheet that is not all zero".to_owned()),
            _ if left == found => {}
            number => lines.push(format!("  {number} leaves another sheet than was found")),
        }
        // The reason is the same whatever sheet is lent.
        let number = match second {
            10 => answer(program),
            number => number,
        };
        if why.number != number {
            let told = why.number;
            lines.push(format!("  explained with {told}, second {number}"));
        }
        if let Some(wrong) = Search::new(program).wrong(&why) {
            lines.push(format!("  {wrong}: {why:04x?}"));
        }
        if !lines.is_empty() {
            panic!(
                "seed {}, call {}: admission of {} bytes into a sheet of {sheet_length}:\n  {}\n{}",
                self.seed,
                self.calls,
                program.len(),
                shown(program),
                lines.join("\n")
            );
        }
        self.admitted += u64::from(mine == ADMITTED);
        if let Some(told) = usize::from(why.rule).checked_sub(1) {
            self.told[told] += 1;
        }
        self.why = why;
        self.sheet.clear();
        self.sheet.extend_from_slice(left);
        mine
    }

    /// Of all that was tried, the part that was admitted, in percent.
    pub fn percent_admitted(&self) -> f64 {
        100.0 * self.admitted as f64 / self.calls as f64
    }

    /// Says what was compared and which reasons were told, also where the test runner holds back what passing tests print.
    pub fn say_total(&self, test: &str) {
        say(&format!(
            "{test}: seed {}, {} admissions of {} bytes compared, {} admitted ({:.0} %)",
            self.seed,
            self.calls,
            self.program_bytes,
            self.admitted,
            self.percent_admitted()
        ));
        let told = self.told().map(|(name, number)| format!("{number} {name}"));
        say(&format!("{test}: reasons, {}", told.join(", ")));
    }
}

/// What the second admission answers with a sheet of the right length.
fn answer(program: &[u8]) -> u8 {
    let mut sheet = vec![0; SHEET_RECORD * program.len()];
    second_admission::admit(program, &mut sheet)
}

/// Bytes none of which is 0, others with each call.
pub fn pattern(length: usize, call: u64) -> Vec<u8> {
    let bytes = (0..length as u64).map(|place| (37 * place + 11 * call) as u8 | 1);
    bytes.collect()
}

/// Of a sheet, what the library has and another has not.
pub(crate) fn differences(name: &str, mine: &[u8], other: &[u8]) -> Vec<String> {
    let pairs = mine.iter().zip(other).enumerate();
    let different = pairs.filter(|(_, (mine, other))| mine != other);
    let lines = different.take(SHOWN).map(|(at, (mine, other))| {
        format!(
            "  sheet, record of {:04x}, byte {}: library {mine:02x}, {name} {other:02x}",
            0x0100 + at / SHEET_RECORD,
            at % SHEET_RECORD
        )
    });
    lines.collect()
}

/// The program's first bytes in hexadecimal.
pub fn shown(program: &[u8]) -> String {
    let bytes = program.iter().take(SHOWN_PROGRAM);
    let mut words: Vec<String> = bytes.map(|byte| format!("{byte:02x}")).collect();
    if program.len() > SHOWN_PROGRAM {
        words.push("..".to_owned());
    }
    words.join(" ")
}
