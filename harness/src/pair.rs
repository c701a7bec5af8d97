//! The proved library and the second machine side by side: every call is made on both, and the
//! whole state afterwards is compared, each byte of the four buffers, the record and every reply
//! field; of an install the sheet too.

use std::io::Write;

use crate::admissions::differences;
use crate::calls::{self, Buffers, Machine, Reply, MEMORY, NO_PORTS, PAGE};
use crate::library;
use crate::random::Random;
use crate::second::{self, Answer};

/// Odd, so that the lent buffers are not aligned.
const GUARD: usize = 61;
const GUARD_BYTE: u8 = 0xa5;
const NAMES: [&str; 4] = ["memory", "device page", "working stack", "return stack"];
/// Of a buffer that differs, so many bytes are shown.
pub(crate) const SHOWN: usize = 8;

#[derive(Clone, Copy, PartialEq, Eq, Debug)]
pub enum Part {
    Memory,
    DevicePage,
    Working,
    Ret,
}

pub const PARTS: [Part; 4] = [Part::Memory, Part::DevicePage, Part::Working, Part::Ret];
pub const RIGHT_LENGTHS: [usize; 4] = [MEMORY, PAGE, PAGE, PAGE];

/// A lent buffer with guard bytes on both sides.
pub(crate) struct Guarded(Vec<u8>);

impl Guarded {
    pub(crate) fn new(length: usize) -> Guarded {
        let mut whole = vec![GUARD_BYTE; length + 2 * GUARD];
        whole[GUARD..GUARD + length].fill(0);
        Guarded(whole)
    }

    pub(crate) fn bytes(&self) -> &[u8] {
        &self.0[GUARD..self.0.len() - GUARD]
    }

    pub(crate) fn bytes_mut(&mut self) -> &mut [u8] {
        let end = self.0.len() - GUARD;
        &mut self.0[GUARD..end]
    }

    pub(crate) fn guards_stand(&self) -> bool {
        let untouched = [GUARD_BYTE; GUARD];
        self.0[..GUARD] == untouched && self.0[self.0.len() - GUARD..] == untouched
    }
}

/// What both machines held at some moment.
#[derive(PartialEq, Eq)]
pub struct Snapshot {
    machine: Machine,
    buffers: [Vec<u8>; 4],
}

/// A port that was written, and by which step; the first one is step 1.
#[derive(Clone, Copy, PartialEq, Eq, Debug)]
pub struct PortWrite {
    pub step: u32,
    pub port: u8,
}

pub struct Pair {
    seed: u64,
    calls: u64,
    /// Steps after each of which everything was compared.
    pub compared_steps: u64,
    /// Steps of runs; everything was compared after each run.
    pub run_steps: u64,
    /// Runs and events that were paused.
    pub pauses: u64,
    pub machine: Machine,
    library: [Guarded; 4],
    second: second::Parts,
}

impl Pair {
    pub fn new(seed: u64) -> Pair {
        Pair::with_lengths(seed, RIGHT_LENGTHS)
    }

    pub fn with_lengths(seed: u64, lengths: [usize; 4]) -> Pair {
        let [memory, device_page, working, ret] = lengths.map(|length| vec![0; length]);
        Pair {
            seed,
            calls: 0,
            compared_steps: 0,
            run_steps: 0,
            pauses: 0,
            machine: Machine::default(),
            library: lengths.map(Guarded::new),
            second: second::Parts {
                memory,
                device_page,
                working,
                ret,
            },
        }
    }

    /// The bytes of a buffer, the same in both machines.
    pub fn bytes(&self, part: Part) -> &[u8] {
        self.library[part as usize].bytes()
    }

    pub fn put(&mut self, part: Part, at: usize, bytes: &[u8]) {
        self.library[part as usize].bytes_mut()[at..at + bytes.len()].copy_from_slice(bytes);
        self.second_mut(part)[at..at + bytes.len()].copy_from_slice(bytes);
    }

    pub fn fill_random(&mut self, part: Part, random: &mut Random) {
        let mut bytes = vec![0; self.bytes(part).len()];
        random.fill(&mut bytes);
        self.put(part, 0, &bytes);
    }

    /// Random bytes in every buffer and a random record.
    pub fn make_dirty(&mut self, random: &mut Random) {
        for part in PARTS {
            self.fill_random(part, random);
        }
        self.machine = Machine {
            pc: random.short(),
            wp: random.byte(),
            rp: random.byte(),
            wp_high: random.byte(),
            rp_high: random.byte(),
        };
    }

    pub fn snapshot(&self) -> Snapshot {
        Snapshot {
            machine: self.machine,
            buffers: PARTS.map(|part| self.bytes(part).to_vec()),
        }
    }

    pub fn restore(&mut self, from: &Snapshot) {
        self.machine = from.machine;
        for (part, bytes) in PARTS.into_iter().zip(&from.buffers) {
            self.put(part, 0, bytes);
        }
    }

    pub fn assert_unchanged_since(&self, before: &Snapshot) {
        assert!(
            self.snapshot() == *before,
            "seed {}, call {}: a refused or ignored call changed a lent byte or the record",
            self.seed,
            self.calls
        );
    }

    pub fn load(&mut self, program: &[u8]) -> Reply {
        let before = self.machine;
        let given = program.to_vec();
        let mine = library::load(before, lend(&mut self.library), &given);
        let other = second::load(record_of(before), &mut self.second, program);
        let what = || format!("load of {} bytes", program.len());
        assert!(given == program, "{}: the program was written to", what());
        self.compare(what, mine, other)
    }

    pub fn install(&mut self, program: &[u8], sheet: &mut [u8]) -> Reply {
        let before = self.machine;
        let given = program.to_vec();
        let mut lent = Guarded::new(sheet.len());
        lent.bytes_mut().copy_from_slice(sheet);
        let buffers = lend(&mut self.library);
        let mine = library::install(before, buffers, &given, lent.bytes_mut());
        let other = second::install(record_of(before), &mut self.second, program, sheet);
        let length = sheet.len();
        let what = || {
            let count = program.len();
            format!("install of {count} bytes with a sheet of {length}")
        };
        assert!(given == program, "{}: the program was written to", what());
        let mut more = differences("second", lent.bytes(), sheet);
        if !lent.guards_stand() {
            more.push("  the library wrote outside the sheet".to_owned());
        }
        self.compare_with(what, mine, other, more)
    }

    pub fn step(&mut self) -> Reply {
        let before = self.machine;
        let byte = self
            .bytes(Part::Memory)
            .get(usize::from(before.pc))
            .copied();
        let mine = library::step(before, lend(&mut self.library));
        let other = second::step(record_of(before), &mut self.second);
        self.compared_steps += u64::from(other.steps);
        let what = || match byte {
            Some(byte) => format!("step of byte {byte:02x}"),
            None => "step".to_owned(),
        };
        self.compare(what, mine, other)
    }

    /// `watch` as in C.
    pub fn run(&mut self, budget: u32, watch: u16) -> Reply {
        let before = self.machine;
        let mine = library::run(before, lend(&mut self.library), budget, watch);
        let port = port_of(watch);
        let other = second::run(record_of(before), &mut self.second, budget, port);
        self.run_steps += u64::from(other.steps);
        let what = || format!("run of budget {budget}, watch {watch:02x}");
        self.compare(what, mine, other)
    }

    pub fn event(&mut self, device: u32, budget: u32, watch: u16) -> Reply {
        let before = self.machine;
        let mine = library::event(before, lend(&mut self.library), device, budget, watch);
        let port = port_of(watch);
        let other = second::event(record_of(before), &mut self.second, device, budget, port);
        self.run_steps += u64::from(other.steps);
        let what = || format!("event of device {device}, budget {budget}, watch {watch:02x}");
        self.compare(what, mine, other)
    }

    /// What the next steps write, up to BRK or to so many of them; the machines stay as they are.
    pub fn writes(&mut self, most: u32) -> Vec<PortWrite> {
        let before = self.snapshot();
        let mut writes = Vec::new();
        for step in 1..=most {
            let reply = self.step();
            let ports = &reply.ports[..usize::from(reply.sent)];
            writes.extend(ports.iter().map(|&port| PortWrite { step, port }));
            if reply.answer == calls::BROKE {
                break;
            }
        }
        self.restore(&before);
        writes
    }

    pub fn frame(&mut self, record: &[u8], budget: u32) -> Reply {
        let before = self.machine;
        let given = record.to_vec();
        let mine = library::frame(before, lend(&mut self.library), &given, budget);
        let other = second::frame(record_of(before), &mut self.second, record, budget);
        self.run_steps += u64::from(other.steps);
        let what = || format!("frame of {} bytes, budget {budget}", record.len());
        assert!(given == record, "{}: the record was written to", what());
        self.compare(what, mine, other)
    }

    fn compare(&mut self, what: impl Fn() -> String, mine: Reply, other: second::Reply) -> Reply {
        self.compare_with(what, mine, other, Vec::new())
    }

    /// `more` is what differs beside reply and buffers.
    fn compare_with(
        &mut self,
        what: impl Fn() -> String,
        mine: Reply,
        other: second::Reply,
        more: Vec<String>,
    ) -> Reply {
        self.calls += 1;
        self.pauses += u64::from(mine.answer == calls::PAUSED);
        let expected = reply_of(&other);
        let same = mine == expected
            && more.is_empty()
            && PARTS
                .into_iter()
                .all(|part| self.bytes(part) == self.second(part))
            && self.library.iter().all(Guarded::guards_stand);
        if !same {
            let Machine {
                pc,
                wp,
                rp,
                wp_high,
                rp_high,
            } = self.machine;
            panic!(
                "seed {}, call {}: {} from pc {pc:04x}, wp {wp:02x}, rp {rp:02x}, high marks {wp_high:02x}, {rp_high:02x}:\n{}",
                self.seed,
                self.calls,
                what(),
                self.differences(mine, expected, more)
            );
        }
        self.machine = mine.machine;
        mine
    }

    fn differences(&self, mine: Reply, expected: Reply, more: Vec<String>) -> String {
        let mut lines = Vec::new();
        if mine != expected {
            lines.push(format!(
                "  reply: library {mine:x?}\n         second  {expected:x?}"
            ));
        }
        for part in PARTS {
            let name = NAMES[part as usize];
            let guarded = &self.library[part as usize];
            let pairs = guarded.bytes().iter().zip(self.second(part));
            let different = pairs.enumerate().filter(|(_, (mine, other))| mine != other);
            lines.extend(different.take(SHOWN).map(|(at, (mine, other))| {
                format!("  {name} at {at:04x}: library {mine:02x}, second {other:02x}")
            }));
            if !guarded.guards_stand() {
                lines.push(format!("  {name}: the library wrote outside the buffer"));
            }
        }
        lines.extend(more);
        lines.join("\n")
    }

    fn second(&self, part: Part) -> &[u8] {
        match part {
            Part::Memory => &self.second.memory,
            Part::DevicePage => &self.second.device_page,
            Part::Working => &self.second.working,
            Part::Ret => &self.second.ret,
        }
    }

    fn second_mut(&mut self, part: Part) -> &mut [u8] {
        match part {
            Part::Memory => &mut self.second.memory,
            Part::DevicePage => &mut self.second.device_page,
            Part::Working => &mut self.second.working,
            Part::Ret => &mut self.second.ret,
        }
    }

    /// Says what was compared, also where the test runner holds back what passing tests print.
    pub fn say_total(&self, test: &str) {
        say(&format!(
            "{test}: seed {}, {} calls, {} compared steps, {} steps in compared runs, {} pauses",
            self.seed, self.calls, self.compared_steps, self.run_steps, self.pauses
        ));
    }
}

/// What is watched: one of the ports that a program writes, any port, or a number that is none.
pub fn any_watch(random: &mut Random, writes: &[PortWrite]) -> u16 {
    match random.below(4) {
        0 => random.choose(&NO_PORTS),
        1 | 2 if !writes.is_empty() => random.choose(writes).port.into(),
        _ => random.byte().into(),
    }
}

/// A line on standard error that the test runner does not hold back.
pub fn say(line: &str) {
    // A closed standard error is no reason to fail.
    let _ = writeln!(std::io::stderr(), "{line}");
}

fn lend(guarded: &mut [Guarded; 4]) -> Buffers<'_> {
    let [memory, device_page, working, ret] = guarded;
    Buffers {
        memory: memory.bytes_mut(),
        device_page: device_page.bytes_mut(),
        working: working.bytes_mut(),
        ret: ret.bytes_mut(),
    }
}

fn record_of(machine: Machine) -> second::Record {
    second::Record {
        counter: machine.pc,
        working_pointer: machine.wp,
        return_pointer: machine.rp,
        working_high: machine.wp_high,
        return_high: machine.rp_high,
    }
}

/// What is watched in the C interface: a number above 255 is no port.
fn port_of(watch: u16) -> Option<u8> {
    u8::try_from(watch).ok()
}

/// The second machine's reply in the numbers of the C interface.
fn reply_of(reply: &second::Reply) -> Reply {
    let (answer, number) = match reply.answer {
        Answer::Refused(number) => (calls::REFUSED, number),
        Answer::Loaded => (calls::LOADED, 0),
        Answer::WentOn => (calls::WENT_ON, 0),
        Answer::Broke => (calls::BROKE, 0),
        Answer::Spent => (calls::SPENT, 0),
        Answer::Ignored => (calls::IGNORED, 0),
        Answer::Paused => (calls::PAUSED, 0),
    };
    let mut ports = [0; 2];
    ports[..reply.sent.len()].copy_from_slice(&reply.sent);
    Reply {
        machine: Machine {
            pc: reply.record.counter,
            wp: reply.record.working_pointer,
            rp: reply.record.return_pointer,
            wp_high: reply.record.working_high,
            rp_high: reply.record.return_high,
        },
        steps: reply.steps,
        number,
        answer,
        verdict: reply.verdict,
        sent: reply.sent.len() as u8,
        ports,
    }
}
