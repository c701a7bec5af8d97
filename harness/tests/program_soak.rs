//! A soak of the linked programs `frames` and `sheet`: programs and record files of every kind and
//! length, as files, pipes and standard input, in pieces and with pauses; readers that are slow or
//! leave, full devices, files that can not be read. Each run has to end in time, to write what the
//! second machine or the second admission says, and to say on standard error just what is due. SOAK
//! gives its minutes; without it the soak is a few seconds long.

use std::fmt::{self, Debug, Formatter};
use std::fs::{self, File};
use std::io::{Read, Write};
use std::os::fd::OwnedFd;
use std::os::unix::fs::symlink;
use std::os::unix::net::UnixStream;
use std::path::{Path, PathBuf};
use std::process::{Command, ExitStatus, Stdio};
use std::thread::{self, JoinHandle};
use std::time::Duration;

use uxn_filter_harness::assembler::assemble;
use uxn_filter_harness::calls::{ADMIT_LIMIT, PROGRAM_LIMIT, RECORD};
use uxn_filter_harness::filters::{any, any_length, filter};
use uxn_filter_harness::linked::{
    self, after, calling, ends, expected_lines, expected_sheet, feed, file, frames, pipe, quick,
    random_record, said_at_end, same, sheet, signal, Written, BLOCK, INPUT, IS_FOLDER, NOT_READ,
    NO_FILE, NO_READER, NO_SPACE, OUTPUT,
};
use uxn_filter_harness::programs::either;
use uxn_filter_harness::random::Random;
use uxn_filter_harness::soak::rounds;

/// A pipe that nobody reads from takes no more than so many bytes.
const PIPE: usize = 65_536;
/// One round in so many has a record file of tens of megabytes.
const HUGE: usize = 150;
const IGNORE_SIGNAL: &str = "trap '' PIPE";

/// What was run.
#[derive(Default)]
struct Total {
    frames: u64,
    refused: u64,
    lines: u64,
    records: u64,
    parts: u64,
    sheets: u64,
    admitted: u64,
    wrong: u64,
    left: u64,
    full: u64,
    stopped: u64,
    huge: u64,
}

impl Total {
    fn text(&self) -> String {
        let Total {
            frames,
            refused,
            lines,
            records,
            parts,
            sheets,
            admitted,
            wrong,
            left,
            full,
            stopped,
            huge,
        } = self;
        let megabytes = records / 1_000_000;
        format!(
            "{frames} runs of frames, {refused} with a program that is refused, with {lines} lines from \
             {megabytes} MB of records ({huge} huge files, {parts} with a part record at the end), \
             {sheets} runs of sheet with {admitted} admitted, {wrong} with something that can not be read, \
             {left} with a reader that left, {full} on a full device, {stopped} stopped for a while"
        )
    }
}

// Where bytes come from

/// Bytes, in what pieces they come and with how many pauses.
struct Fed {
    bytes: Vec<u8>,
    random: Random,
    most: usize,
    pauses: usize,
}

impl Fed {
    fn new(random: &mut Random, bytes: &[u8]) -> Fed {
        // Not in so many pieces that it takes long.
        let least = bytes.len() / 2_000;
        Fed {
            bytes: bytes.to_vec(),
            most: least + random.choose(&[1, 64, 100, 5_000, 70_000, 1_000_000]),
            pauses: random.choose(&[0, 0, 3, 10]),
            random: Random::new(random.word()),
        }
    }

    fn into(mut self, to: impl Write) {
        feed(to, &self.bytes, || {
            let piece = 1 + self.random.below(self.most);
            let mut pause = Duration::ZERO;
            if self.pauses > 0 && self.random.one_in(3) {
                self.pauses -= 1;
                pause = Duration::from_micros(self.random.below(3_000) as u64);
            }
            (piece, pause)
        });
    }
}

impl Debug for Fed {
    fn fmt(&self, to: &mut Formatter) -> fmt::Result {
        let Fed { most, pauses, .. } = self;
        let bytes = self.bytes.len();
        write!(
            to,
            "{bytes} bytes in pieces of at most {most}, {pauses} pauses"
        )
    }
}

/// Standard input.
#[derive(Debug)]
enum Input {
    Nothing,
    Open(PathBuf),
    Pipe(Fed),
    Socket(Fed),
    /// A socket whose other end breaks off after these bytes.
    Broken(Fed),
}

/// Standard output.
#[derive(Clone, Copy, Debug)]
enum Sink {
    Whole,
    Slow,
    File,
    Full,
    /// The reader leaves after so many bytes.
    Leaves(usize),
    /// The same, where the program ignores the signal of a closed pipe.
    LeavesUnheard(usize),
}

impl Sink {
    /// For an output of so many bytes.
    fn any(random: &mut Random, length: usize) -> Sink {
        let bytes = random.below(length + length / 4 + 10);
        match random.below(16) {
            0..=7 => Sink::Whole,
            8..=9 => Sink::Slow,
            10 => Sink::File,
            11 => Sink::Full,
            12..=13 => Sink::Leaves(bytes),
            _ => Sink::LeavesUnheard(bytes),
        }
    }

    /// The program, as it is to be started for this output.
    fn command(self, name: &str) -> Command {
        match (self, name) {
            (Sink::LeavesUnheard(_), _) => after(IGNORE_SIGNAL, name),
            (_, "frames") => frames(),
            _ => sheet(),
        }
    }
}

// Runs

/// One run, as it is to be made.
#[derive(Debug)]
struct Run {
    command: Command,
    input: Input,
    /// Named pipes, and what is written to them.
    pipes: Vec<(PathBuf, Fed)>,
    sink: Sink,
    /// Stopped for a while, and continued.
    stopped: bool,
}

struct Ran {
    written: Written,
    status: ExitStatus,
}

/// What the program should write where the output takes all of it.
struct Expected {
    written: Written,
    /// The records have no end, and `written` has the first lines of them.
    endless: bool,
}

fn written(fed: Fed, to: impl Write + Send + 'static) -> JoinHandle<()> {
    thread::spawn(move || fed.into(to))
}

/// Where nobody ever read from a pipe, its writer still waits for a reader.
fn release(path: &Path, writer: JoinHandle<()>) {
    while !writer.is_finished() {
        let reader = File::options().read(true).write(true).open(path);
        drop(reader.expect("the pipe opens"));
        thread::sleep(Duration::from_micros(200));
    }
    writer.join().expect("the pipe is written");
}

fn taken(mut from: impl Read, sink: Sink) -> Vec<u8> {
    let mut out = Vec::new();
    match sink {
        Sink::Leaves(bytes) | Sink::LeavesUnheard(bytes) => {
            let mut some = from.take(bytes as u64);
            some.read_to_end(&mut out).expect("the output is read");
        }
        Sink::Slow => {
            for _ in 0..10 {
                thread::sleep(Duration::from_millis(1));
                let mut part = [0; 700];
                let count = from.read(&mut part).expect("the output is read");
                out.extend(&part[..count]);
            }
            from.read_to_end(&mut out).expect("the output is read");
        }
        _ => {
            from.read_to_end(&mut out).expect("the output is read");
        }
    }
    out
}

impl Run {
    fn run(self, folder: &Path) -> Result<Ran, String> {
        let Run {
            mut command,
            input,
            pipes,
            sink,
            stopped,
        } = self;
        let mut writers = Vec::new();
        let mut to_stdin = None;
        match input {
            Input::Nothing => command.stdin(Stdio::null()),
            Input::Open(path) => command.stdin(File::open(path).expect("the input opens")),
            Input::Pipe(fed) => {
                to_stdin = Some(fed);
                command.stdin(Stdio::piped())
            }
            Input::Socket(fed) => {
                let (ours, theirs) = UnixStream::pair().expect("a pair of sockets");
                writers.push(written(fed, ours));
                command.stdin(OwnedFd::from(theirs))
            }
            Input::Broken(fed) => {
                // What is sent to an end that closes without having read it breaks the connection.
                let (mut ours, mut theirs) = UnixStream::pair().expect("a pair of sockets");
                theirs.write_all(&[0]).expect("the socket takes it");
                ours.write_all(&fed.bytes).expect("the socket takes it");
                command.stdin(OwnedFd::from(theirs))
            }
        };
        let to_file = folder.join("out");
        match sink {
            Sink::Full => {
                command.stdout(File::options().write(true).open("/dev/full").unwrap());
            }
            Sink::File => {
                command.stdout(File::create(&to_file).expect("a file is made"));
            }
            _ => {
                command.stdout(Stdio::piped());
            }
        }
        command.stderr(Stdio::piped());
        let mut child = command.spawn().expect("the program starts");
        // What was lent to the program is open in it alone.
        drop(command);
        if let Some(fed) = to_stdin {
            writers.push(written(fed, child.stdin.take().unwrap()));
        }
        let pipes: Vec<_> = pipes
            .into_iter()
            .map(|(path, fed)| {
                let named = path.clone();
                let open = move || File::options().write(true).open(named);
                let writer = thread::spawn(move || fed.into(open().expect("the pipe opens")));
                (path, writer)
            })
            .collect();
        let stdout = child.stdout.take();
        let out = thread::spawn(move || stdout.map(|from| taken(from, sink)));
        let stderr = child.stderr.take().unwrap();
        let said = thread::spawn(move || taken(stderr, Sink::Whole));
        if stopped {
            signal(&child, "-STOP");
            thread::sleep(Duration::from_millis(1));
            signal(&child, "-CONT");
        }

        let in_time = ends(&mut child);
        for writer in writers {
            writer.join().expect("the input is written");
        }
        for (path, writer) in pipes {
            release(&path, writer);
        }
        if !in_time {
            return Err("the program goes on".to_owned());
        }
        let mut out = out.join().expect("the output is read").unwrap_or_default();
        if matches!(sink, Sink::File) {
            out = fs::read(&to_file).expect("the file is read");
        }
        let said = said.join().expect("standard error is read");
        Ok(Ran {
            written: Written { out, said },
            status: child.wait().expect("the program has ended"),
        })
    }
}

impl Ran {
    /// It ended by itself, and said this.
    fn said(&self, said: &[u8]) -> Result<(), String> {
        same("standard error", &self.written.said, said)?;
        match self.status.code() {
            Some(0) => Ok(()),
            _ => Err(format!("it ended with {}", self.status)),
        }
    }

    /// Where the output fails, that is the one message: what else is said comes after all that is
    /// written.
    fn check(&self, expected: &Expected, sink: Sink) -> Result<(), String> {
        let Expected { written, endless } = expected;
        let Written { out, said } = written;
        let unwritten = |reason| self.said(&Written::failed(OUTPUT, reason).said);
        match sink {
            Sink::Leaves(bytes) | Sink::LeavesUnheard(bytes) if bytes < out.len() => {
                same(OUTPUT, &self.written.out, &out[..bytes])?;
                let failed = unwritten(NO_READER);
                // All may have been written before the reader left.
                match !endless && out.len() - bytes <= PIPE {
                    true => failed.or_else(|_| self.said(said)),
                    false => failed,
                }
            }
            Sink::Full if !out.is_empty() => unwritten(NO_SPACE),
            _ => {
                same(OUTPUT, &self.written.out, out)?;
                self.said(said)
            }
        }
    }
}

/// Makes the run and compares; says the seed and the run where something is not as it should be.
fn compare(seed: u64, folder: &Path, run: Run, expected: &Expected, total: &mut Total) {
    let sink = run.sink;
    let shown = format!("{run:?}");
    let out = expected.written.out.len();
    total.stopped += u64::from(run.stopped);
    match sink {
        Sink::Leaves(bytes) | Sink::LeavesUnheard(bytes) => total.left += u64::from(bytes < out),
        Sink::Full => total.full += u64::from(out > 0),
        _ => {}
    }
    let checked = run.run(folder).and_then(|ran| ran.check(expected, sink));
    if let Err(what) = checked {
        panic!("seed {seed}: {what}\n  {shown}");
    }
}

// frames

/// A program of every kind, and whether it takes few steps.
fn any_program(random: &mut Random) -> (Vec<u8>, bool) {
    let turn = random.below(100);
    let code = match random.below(14) {
        0 => Vec::new(),
        1 => {
            // After BRK nothing is reached.
            let mut code = vec![0; ADMIT_LIMIT - 4 + random.below(8)];
            random.fill(&mut code[1..]);
            code
        }
        2 => vec![0; ADMIT_LIMIT + 1 + random.below(200_000)],
        3 => {
            let length = any_length(random, PROGRAM_LIMIT);
            either(random, turn, length, true)
        }
        4..=6 => {
            // A verdict that hangs on the data.
            let mut code = assemble("LIT 82 LDZ LIT f2 DEO");
            let length = any_length(random, ADMIT_LIMIT);
            code.append(&mut match turn % 4 {
                0 => either(random, turn, length, true),
                _ => filter(random, length),
            });
            code
        }
        7..=9 => {
            let length = any_length(random, ADMIT_LIMIT);
            any(random, turn, length)
        }
        10 => return (calling(), true),
        _ => return (quick(), true),
    };
    (code, false)
}

/// Records of every kind, and bytes of a part record.
fn any_records(random: &mut Random, is_quick: bool) -> Vec<u8> {
    let count = match random.below(10) {
        0 => 0,
        1 => BLOCK - 2 + random.below(4),
        2 if is_quick => 2 * BLOCK - 2 + random.below(4),
        3 if is_quick => random.below(10_000),
        _ => random.below(60),
    };
    records(random, count)
}

fn records(random: &mut Random, count: usize) -> Vec<u8> {
    let mut bytes = Vec::with_capacity(RECORD * (count + 1));
    for _ in 0..count {
        bytes.extend(random_record(random));
    }
    let any = random.below(RECORD);
    let tail = random.choose(&[0, 1, RECORD - 1, any]);
    bytes.extend(vec![1; tail]);
    bytes
}

/// Bytes for a path: a file of this name, or a pipe, or standard input if that is free.
fn placed(random: &mut Random, folder: &Path, name: &str, bytes: &[u8], run: &mut Run) -> PathBuf {
    let free = matches!(run.input, Input::Nothing);
    match random.below(3) {
        0 => {
            let path = folder.join(format!("{name}.pipe"));
            run.pipes.push((path.clone(), Fed::new(random, bytes)));
            path
        }
        1 if free => {
            run.input = Input::Pipe(Fed::new(random, bytes));
            PathBuf::from("/dev/stdin")
        }
        _ => file(folder, name, bytes),
    }
}

/// A path that can not be opened, or not be read, and why.
fn unreadable(random: &mut Random, folder: &Path) -> (PathBuf, &'static str, bool) {
    match random.below(4) {
        0 => (folder.join("missing"), NO_FILE, false),
        1 => (
            folder.join("loop"),
            "Too many levels of symbolic links",
            false,
        ),
        2 => (folder.to_owned(), IS_FOLDER, true),
        _ => (PathBuf::from("/proc/self/mem"), NOT_READ, true),
    }
}

fn frames_run(seed: u64, folder: &Path, total: &mut Total, huge: bool) {
    let mut random = Random::new(seed);
    let random = &mut random;
    let (mut code, mut is_quick) = any_program(random);
    if huge {
        (code, is_quick) = (quick(), true);
    }
    let mut bytes = match huge {
        true => {
            let count = 150_000 + random.below(300_000);
            records(random, count)
        }
        false => any_records(random, is_quick),
    };
    let endless = is_quick && !huge && random.one_in(12);
    if endless {
        bytes = vec![0; RECORD * 1_000];
    }
    let out = expected_lines(&code, &bytes).into_bytes();
    let refused = expected_sheet(&code).out.is_empty();
    let mut sink = Sink::any(random, out.len());
    if endless {
        sink = match random.below(3) {
            0 => Sink::Full,
            1 => Sink::Leaves(random.below(out.len())),
            _ => Sink::LeavesUnheard(random.below(out.len())),
        };
    }
    let mut run = Run {
        command: sink.command("frames"),
        input: Input::Nothing,
        pipes: Vec::new(),
        sink,
        stopped: random.one_in(16),
    };
    let mut program_path = placed(random, folder, "program", &code, &mut run);
    let mut records_path = match endless {
        true => PathBuf::from("/dev/zero"),
        false => placed(random, folder, "records", &bytes, &mut run),
    };
    let mut wrong = None;
    if !endless && !huge && random.one_in(8) {
        let (path, reason, opens) = unreadable(random, folder);
        let failed = Written::failed(&path, reason);
        if random.one_in(2) {
            program_path = path;
            wrong = Some(failed);
        } else {
            records_path = path;
            // The records of a refused program are not read.
            wrong = (!(opens && refused)).then_some(failed);
        }
    }
    total.wrong += u64::from(wrong.is_some());
    let written = wrong.unwrap_or_else(|| {
        let said = said_at_end(&code, &records_path, bytes.len());
        total.parts += u64::from(!said.is_empty());
        Written { out, said }
    });
    run.command.arg(program_path).arg(records_path);
    total.frames += 1;
    total.refused += u64::from(refused);
    total.huge += u64::from(huge);
    total.records += bytes.len() as u64;
    total.lines += written.out.iter().filter(|byte| **byte == b'\n').count() as u64;
    let expected = Expected { written, endless };
    compare(seed, folder, run, &expected, total);
}

// sheet

fn sheet_run(seed: u64, folder: &Path, total: &mut Total) {
    let mut random = Random::new(seed ^ 0x5eed);
    let random = &mut random;
    let code = match random.below(10) {
        0 => Vec::new(),
        1 => vec![0; ADMIT_LIMIT - 1 + random.below(4)],
        2 => any_program(random).0,
        3 => calling(),
        4 => filter(random, ADMIT_LIMIT),
        _ => {
            let turn = random.below(100);
            let length = any_length(random, ADMIT_LIMIT + 1);
            any(random, turn, length)
        }
    };
    let mut wrong = None;
    let input = match random.below(10) {
        0..=4 => Input::Pipe(Fed::new(random, &code)),
        5 => Input::Socket(Fed::new(random, &code)),
        6 => {
            // A read that fails, after some that did not.
            let some = random.below(code.len().min(ADMIT_LIMIT) + 1);
            wrong = Some("Connection reset by peer");
            Input::Broken(Fed::new(random, &code[..some]))
        }
        7 if random.one_in(2) => {
            wrong = Some(IS_FOLDER);
            Input::Open(folder.to_owned())
        }
        _ => Input::Open(file(folder, "program", &code)),
    };
    let written = match wrong {
        Some(reason) => Written::failed(INPUT, reason),
        None => expected_sheet(&code),
    };
    let sink = Sink::any(random, written.out.len());
    let run = Run {
        command: sink.command("sheet"),
        input,
        pipes: Vec::new(),
        sink,
        stopped: random.one_in(16),
    };
    total.sheets += 1;
    total.admitted += u64::from(!written.out.is_empty());
    total.wrong += u64::from(wrong.is_some());
    let expected = Expected {
        written,
        endless: false,
    };
    compare(seed, folder, run, &expected, total);
}

#[test]
fn runs_of_the_programs() {
    let folder = linked::folder(env!("CARGO_TARGET_TMPDIR"), "program_soak");
    for name in ["program.pipe", "records.pipe"] {
        pipe(&folder, name);
    }
    symlink("loop", folder.join("loop")).expect("a link is made");
    let round = |seed: u64, total: &mut Total| {
        frames_run(seed, &folder, total, seed.is_multiple_of(HUGE as u64));
        sheet_run(seed, &folder, total);
    };
    rounds("programs", round, Total::text);
}
