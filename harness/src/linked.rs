//! The linked programs `frames`, `sheet`, `explain`, `widen` and `narrow`: where they stand, how they are
//! run, and what they should write on standard output and say on standard error, from the second machine,
//! the second admission and the second moves of records, and for `explain` from the call of the library.
//! They stand in `target/bin` below the repository's root, or in the folder that UXN_FILTER_BIN names.

use std::ffi::OsStr;
use std::fmt::Display;
use std::fs::{self, File};
use std::io::{Read, Write};
use std::os::unix::ffi::OsStrExt;
use std::path::{Path, PathBuf};
use std::process::{Child, Command, Output, Stdio};
use std::thread;
use std::time::{Duration, Instant};

use crate::assembler::assemble;
use crate::calls::{ADMITTED, ADMIT_LIMIT, MEMORY, OLD_RECORD, PAGE, RECORD, SHEET_RECORD};
use crate::compiled::{printed, repository};
use crate::moves::Due;
use crate::random::Random;
use crate::records;
use crate::second::{self, Answer, Parts};
use crate::{library, second_admission, sentences};

/// Steps that `frames` gives each frame.
pub const BUDGET: u32 = 10_000;
/// The programs read no more than this many bytes of records at once.
pub const BLOCK_BYTES: usize = 65_536;
/// Records of a block.
pub const BLOCK: usize = BLOCK_BYTES / RECORD;
/// A program that should have ended by then hangs.
pub const PATIENCE: Duration = Duration::from_secs(20);

/// Why a call of the system failed, in the C library's words.
pub const NO_FILE: &str = "No such file or directory";
pub const IS_FOLDER: &str = "Is a directory";
pub const NOT_READ: &str = "Input/output error";
pub const NOT_OPEN: &str = "Bad file descriptor";
pub const NO_SPACE: &str = "No space left on device";
pub const NO_READER: &str = "Broken pipe";
/// Of a name that is no UTF-8 text, which opens no file.
pub const NO_TEXT: &str = "Invalid or incomplete multibyte or wide character";

/// A name of standard input.
pub const STDIN: &str = "/dev/stdin";

/// What is named where standard input or standard output fails.
pub const INPUT: &str = "standard input";
pub const OUTPUT: &str = "standard output";

/// `80 01 80 F2 17 00`: passes every frame.
pub const PASSES: [u8; 6] = [0x80, 0x01, 0x80, 0xf2, 0x17, 0x00];

/// Passes a frame whose first data byte is not 0, in few steps: what takes time is the reading and
/// the writing.
pub fn quick() -> Vec<u8> {
    assemble("LIT 82 LDZ LIT f2 DEO BRK")
}

/// Passes a frame whose first two data bytes have the same high half, which a routine finds out with
/// the help of another one.
pub fn calling() -> Vec<u8> {
    assemble(
        "LIT 82 JSI =high LIT 10 STZ
        LIT 83 JSI =high LIT 10 LDZ EQU LIT f2 DEO BRK
        @high LDZ JSI =shift JMP2r
        @shift LIT 04 SFT JMP2r",
    )
}

// Programs and files

pub fn program(name: &str) -> PathBuf {
    let folder = match std::env::var_os("UXN_FILTER_BIN") {
        Some(named) => PathBuf::from(named),
        None => repository("target/bin"),
    };
    let path = folder.join(name);
    assert!(
        path.is_file(),
        "the program {} is missing: `tools/build {name}` in the repository's root makes it",
        path.display()
    );
    path
}

pub fn frames() -> Command {
    Command::new(program("frames"))
}

pub fn sheet() -> Command {
    Command::new(program("sheet"))
}

pub fn explain() -> Command {
    Command::new(program("explain"))
}

/// `widen` or `narrow`: its name, and how many bytes the records have that it reads and writes.
#[derive(Clone, Copy)]
pub struct Conversion {
    pub name: &'static str,
    pub from: usize,
    pub to: usize,
}

pub const WIDEN: Conversion = Conversion {
    name: "widen",
    from: OLD_RECORD,
    to: RECORD,
};
pub const NARROW: Conversion = Conversion {
    name: "narrow",
    from: RECORD,
    to: OLD_RECORD,
};

impl Conversion {
    pub fn of(self, file: impl AsRef<OsStr>) -> Command {
        let mut command = Command::new(program(self.name));
        command.arg(file);
        command
    }

    /// What becomes of a file, from the second moves.
    pub fn due(self, file: &[u8]) -> Due {
        records::due(file, self.from, self.to)
    }

    /// What it writes and says of a file that can be read.
    pub fn expected(self, file: &[u8]) -> Written {
        match self.due(file) {
            Ok(moved) => Written::only_out(moved),
            Err(number) => Written::only_said(format!("refused {number}\n")),
        }
    }
}

/// The program, started by a shell that has done something first.
pub fn after(shell: &str, name: &str) -> Command {
    let mut command = Command::new("sh");
    command
        .args(["-c", &format!("{shell}; exec \"$@\""), "sh"])
        .arg(program(name));
    command
}

/// A folder of its own for a test, empty; `within` is the test's CARGO_TARGET_TMPDIR.
pub fn folder(within: &str, test: &str) -> PathBuf {
    let path = Path::new(within).join(test);
    if path.exists() {
        fs::remove_dir_all(&path).expect("an old folder goes");
    }
    fs::create_dir_all(&path).expect("a folder is made");
    path
}

pub fn file(folder: &Path, name: &str, bytes: &[u8]) -> PathBuf {
    let path = folder.join(name);
    fs::write(&path, bytes).expect("a file is written");
    path
}

pub fn pipe(folder: &Path, name: &str) -> PathBuf {
    let path = folder.join(name);
    let made = Command::new("mkfifo")
        .arg(&path)
        .status()
        .expect("mkfifo runs");
    assert!(made.success());
    path
}

/// A device that takes no byte.
pub fn full() -> Stdio {
    let device = File::options().write(true).open("/dev/full");
    device.expect("the device opens").into()
}

/// Makes commands whose read of this number, from 1 on, fails.
pub fn failing(folder: &Path) -> impl Fn(Command, usize) -> Command {
    let library = folder.join("failing.so");
    let source = Path::new(env!("CARGO_MANIFEST_DIR")).join("tests/failing.c");
    let mut build = Command::new("cc");
    build.args(["-Wall", "-Wextra", "-Werror", "-shared", "-fPIC"]);
    assert_eq!(printed(build.arg(source).arg("-o").arg(&library)), "");
    move |mut command, read| {
        command.env("LD_PRELOAD", &library);
        command.env("FAILING_READ", read.to_string());
        command
    }
}

// Runs

/// Waits for the end, and says whether it came in time.
pub fn ends(child: &mut Child) -> bool {
    let start = Instant::now();
    while start.elapsed() < PATIENCE {
        if child.try_wait().expect("the program runs").is_some() {
            return true;
        }
        thread::sleep(Duration::from_millis(1));
    }
    child.kill().expect("the program is ended");
    child.wait().expect("the program is ended");
    false
}

/// Sends a signal: `-STOP`, `-CONT`.
pub fn signal(child: &Child, name: &str) {
    let id = child.id().to_string();
    let sent = Command::new("kill").args([name, &id]).output();
    // It may have ended before.
    sent.expect("kill runs");
}

/// A run to its end with the whole of standard input there from the start.
pub fn run(command: &mut Command, input: &[u8]) -> Output {
    run_in_pieces(command, input, input.len().max(1), Duration::ZERO)
}

/// A program that has begun, with pipes for its input, its output and its messages.
pub fn begun(command: &mut Command) -> Child {
    command
        .stdin(Stdio::piped())
        .stdout(Stdio::piped())
        .stderr(Stdio::piped())
        .spawn()
        .expect("the program starts")
}

pub fn run_in_pieces(command: &mut Command, input: &[u8], piece: usize, pause: Duration) -> Output {
    let mut child = begun(command);
    let stdin = child.stdin.take().unwrap();
    let input = input.to_vec();
    let writer = thread::spawn(move || feed(stdin, &input, || (piece, pause)));
    let output = child.wait_with_output().expect("the program runs");
    writer.join().expect("the input is written");
    output
}

/// Writes in pieces; `next` gives the size of each and the pause after it. The reader may leave
/// before the end.
pub fn feed(mut to: impl Write, input: &[u8], mut next: impl FnMut() -> (usize, Duration)) {
    let mut at = 0;
    while at < input.len() {
        let (piece, pause) = next();
        let end = input.len().min(at + piece.max(1));
        if to.write_all(&input[at..end]).is_err() {
            return;
        }
        at = end;
        if !pause.is_zero() {
            thread::sleep(pause);
        }
    }
}

/// What `frames` writes for two files; on standard error it says what is due, and nothing else.
pub fn lines_of(program: &Path, records: &Path) -> String {
    let output = run(frames().arg(program).arg(records), &[]);
    let mut code = Vec::new();
    // No more is read than tells whether it is refused.
    File::open(program)
        .and_then(|file| file.take(ADMIT_LIMIT as u64 + 1).read_to_end(&mut code))
        .expect("the program is read");
    let length = fs::metadata(records).expect("the records").len();
    let said = said_at_end(&code, records, length as usize);
    assert_said(&output, &said, "frames");
    String::from_utf8(output.stdout).expect("lines are text")
}

/// What `sheet` writes for a program; on standard error it says what is due, and nothing else.
pub fn sheet_of(program: &[u8]) -> Vec<u8> {
    let output = run(&mut sheet(), program);
    assert_said(&output, &expected_sheet(program).said, "sheet");
    output.stdout
}

// What they write

/// What a run writes on standard output and says on standard error.
pub struct Written {
    pub out: Vec<u8>,
    pub said: Vec<u8>,
}

impl Written {
    /// Nothing on standard error.
    pub fn only_out(out: impl Into<Vec<u8>>) -> Written {
        let (out, said) = (out.into(), Vec::new());
        Written { out, said }
    }

    /// Nothing on standard output.
    pub fn only_said(said: impl Into<Vec<u8>>) -> Written {
        let (out, said) = (Vec::new(), said.into());
        Written { out, said }
    }

    /// The message of a call of the system that failed, and nothing else: what it was for, and the
    /// reason in the C library's words.
    pub fn failed(what: impl AsRef<OsStr>, reason: &str) -> Written {
        let what = what.as_ref().as_bytes();
        Written::only_said([what, b": ", reason.as_bytes(), b"\n"].concat())
    }
}

/// Whether the bytes that came `from` there are those expected, or where they begin to differ.
pub fn same(from: &str, found: &[u8], expected: &[u8]) -> Result<(), String> {
    if found == expected {
        return Ok(());
    }
    let pairs = found.iter().zip(expected);
    let at = pairs.take_while(|(one, other)| one == other).count();
    let some = |bytes: &[u8]| {
        bytes[at..bytes.len().min(at + 80)]
            .escape_ascii()
            .to_string()
    };
    Err(format!(
        "{from} has {} bytes and should have {}; from byte {at} on it has \"{}\" and should have \"{}\"",
        found.len(),
        expected.len(),
        some(found),
        some(expected)
    ))
}

/// The run ended by itself, with status 0 as always, and said this on standard error.
fn assert_said(output: &Output, said: &[u8], what: impl Display) {
    if let Err(difference) = same("standard error", &output.stderr, said) {
        panic!("{what}: {difference}");
    }
    assert_eq!(output.status.code(), Some(0), "{what}: {}", output.status);
}

/// The same, and this is what it wrote.
pub fn assert_written(output: &Output, expected: &Written, what: impl Display) {
    if let Err(difference) = same(OUTPUT, &output.stdout, &expected.out) {
        panic!("{what}: {difference}");
    }
    assert_said(output, &expected.said, what);
}

/// A run with the whole of standard input there from the start writes this.
pub fn assert_writes(command: &mut Command, input: &[u8], expected: &Written) {
    let output = run(command, input);
    assert_written(&output, expected, format_args!("{command:?}"));
}

// What they should write

fn line(reply: &second::Reply) -> String {
    match reply.answer {
        Answer::Broke if reply.verdict != 0 => "pass\n".to_owned(),
        Answer::Broke => "drop\n".to_owned(),
        Answer::Spent => "spent\n".to_owned(),
        Answer::Refused(number) => format!("refused {number}\n"),
        other => panic!("no frame call answers {other:?}"),
    }
}

/// A fresh second machine with the program installed, or refused.
fn installed(program: &[u8]) -> (second::Reply, Parts) {
    let mut parts = Parts {
        memory: vec![0; MEMORY],
        device_page: vec![0; PAGE],
        working: vec![0; PAGE],
        ret: vec![0; PAGE],
    };
    let mut sheet = vec![0; SHEET_RECORD * program.len()];
    let reply = second::install(second::START, &mut parts, program, &mut sheet);
    (reply, parts)
}

/// The lines of `frames`, from the second machine.
pub fn expected_lines(program: &[u8], records: &[u8]) -> String {
    let (reply, mut parts) = installed(program);
    if reply.answer != Answer::Loaded {
        return line(&reply);
    }
    let mut state = reply.record;
    let mut lines = String::new();
    for frame in records.chunks_exact(RECORD) {
        let reply = second::frame(state, &mut parts, frame, BUDGET);
        state = reply.record;
        lines += &line(&reply);
    }
    lines
}

/// What `frames` says when so many bytes of records have come to their end. Those of a program that
/// is refused are not read.
pub fn said_at_end(program: &[u8], records: &Path, length: usize) -> Vec<u8> {
    let rest = length % RECORD;
    if rest == 0 || installed(program).0.answer != Answer::Loaded {
        return Vec::new();
    }
    let counted = format!(": bytes at the end that are no whole record: {rest}\n");
    [records.as_os_str().as_bytes(), counted.as_bytes()].concat()
}

/// The lines of `frames` and what it says, for records that are under this name.
pub fn expected_frames(program: &[u8], records: &[u8], name: impl AsRef<Path>) -> Written {
    Written {
        out: expected_lines(program, records).into_bytes(),
        said: said_at_end(program, name.as_ref(), records.len()),
    }
}

/// The bytes of `sheet` and what it says, from the second admission.
pub fn expected_sheet(program: &[u8]) -> Written {
    let mut sheet = vec![0; SHEET_RECORD * program.len()];
    match second_admission::admit(program, &mut sheet) {
        ADMITTED => Written::only_out(sheet),
        number => Written::only_said(format!("refused {number}\n")),
    }
}

/// The line of `explain`, from the call.
pub fn expected_explained(program: &[u8]) -> Written {
    Written::only_out(sentences::line(program, &library::explain(program)))
}

/// Good records of every length, and records of wrong form.
pub fn random_record(random: &mut Random) -> [u8; RECORD] {
    let mut frame = [0; RECORD];
    random.fill(&mut frame);
    let most = RECORD - 2;
    match random.below(8) {
        0 => {}
        1 => {
            frame[0] = 1 + most as u8;
        }
        2 => {
            let length = random.below(most);
            frame[0] = length as u8;
            frame[2 + length..].fill(0);
            let past = 2 + length + random.below(most - length);
            frame[past] = 1;
        }
        _ => {
            let length = random.below(most + 1);
            frame[0] = length as u8;
            frame[2 + length..].fill(0);
        }
    }
    frame
}
