//! The linked programs `frames`, `sheet` and `explain`: arguments, files and pipes of every kind,
//! their lines, sheets and messages beside the second machine, the second admission and the call that
//! explains, and the example. Of all programs, `widen` and `narrow` too: `--help`, wrong arguments, little
//! memory, and valgrind.

use std::collections::BTreeSet;
use std::ffi::OsStr;
use std::fs::{self, File};
use std::io::{self, BufRead, BufReader, Read, Write};
use std::os::fd::OwnedFd;
use std::os::unix::ffi::OsStrExt;
use std::os::unix::net::UnixStream;
use std::path::{Path, PathBuf};
use std::process::{Command, Stdio};
use std::sync::{mpsc, Mutex};
use std::thread;
use std::time::{Duration, Instant};

use uxn_filter_harness::admissions::Admissions;
use uxn_filter_harness::assembler::assemble;
use uxn_filter_harness::calls::{
    ADMIT_LIMIT, BROKE, OLD_RECORD, PROGRAM_LIMIT, RECORD, SHEET_RECORD,
};
use uxn_filter_harness::compiled::repository;
use uxn_filter_harness::filters::{
    any, any_length, broken, climb, filter, forbidden_bytes, likely_bytes, FAULTS, ROOM_FOR_A_FAULT,
};
use uxn_filter_harness::library;
use uxn_filter_harness::linked::{
    self, after, assert_writes, assert_written, calling, ends, expected_explained, expected_frames,
    expected_lines, expected_sheet, explain, failing, file, frames, full, lines_of, pipe, program,
    quick, random_record, run, run_in_pieces, said_at_end, sheet, sheet_of, Conversion, Written,
    BLOCK, BLOCK_BYTES, BUDGET, INPUT, IS_FOLDER, NARROW, NOT_OPEN, NOT_READ, NO_FILE, NO_READER,
    NO_SPACE, NO_TEXT, OUTPUT, PASSES, PATIENCE, STDIN, WIDEN,
};
use uxn_filter_harness::listing::{self, hexadecimal, listing, Listed};
use uxn_filter_harness::opcodes::{BRK, DUP, INC, JMP2R, LIT, POP, STA};
use uxn_filter_harness::pair::{say, Pair};
use uxn_filter_harness::programs::either;
use uxn_filter_harness::random::{seed, Random};
use uxn_filter_harness::reasons::RULES;
use uxn_filter_harness::records::{any_good, changed};
use uxn_filter_harness::sentences;

/// Between pieces of input.
const PAUSE: Duration = Duration::from_millis(5);

/// A file of the repository's example.
fn example(name: &str) -> PathBuf {
    repository("crates/frames/data").join(name)
}

/// A folder of its own for a test.
fn folder(test: &str) -> PathBuf {
    linked::folder(env!("CARGO_TARGET_TMPDIR"), test)
}

fn record(node: u8, data: &[u8]) -> [u8; RECORD] {
    let mut record = [0; RECORD];
    record[0] = data.len() as u8;
    record[1] = node;
    record[2..2 + data.len()].copy_from_slice(data);
    record
}

/// LIT without its operand: not the whole instruction lies in the program.
const REFUSED: [u8; 1] = [0x80];

/// A program for each refusal of an install, and the one line that `frames` writes of it.
fn refusals() -> [(Vec<u8>, &'static str); 3] {
    [
        (Vec::new(), "refused 5\n"),
        (vec![BRK; ADMIT_LIMIT + 1], "refused 9\n"),
        (REFUSED.to_vec(), "refused 11\n"),
    ]
}

/// A program of every kind by turns, one that may come to the ends of the depths, and one with a fault.
fn of_every_kind(random: &mut Random, turn: usize) -> [Vec<u8>; 3] {
    let length = any_length(random, ADMIT_LIMIT + 1);
    let any = any(random, turn, length);
    let [working, ret] = [(); 2].map(|()| random.choose(&[0, 1, 5, 250, 254, 255]));
    let mut deep = climb(working, ret);
    let length = 1 + random.below(40);
    deep.extend(likely_bytes(random, length));
    let fault = FAULTS[turn % FAULTS.len()];
    [any, deep, broken(random, ROOM_FOR_A_FAULT, fault)]
}

// Arguments

/// How the program is called and what it does, as it says when it is asked.
fn usage(name: &str) -> String {
    let output = run(Command::new(program(name)).arg("--help"), &PASSES);
    let text = String::from_utf8(output.stdout.clone()).expect("the usage is text");
    assert_written(&output, &Written::only_out(&*text), name);
    text
}

/// The numbers in a text; thousands have a comma.
fn numbers(text: &str) -> Vec<usize> {
    text.split(|sign: char| !sign.is_ascii_digit() && sign != ',')
        .map(|number| number.replace(',', ""))
        .filter(|number| !number.is_empty())
        .map(|number| number.parse().expect("a number"))
        .collect()
}

#[test]
fn help() {
    let budget = BUDGET as usize;
    let of_frames = [
        RECORD,
        budget,
        5,
        9,
        ADMIT_LIMIT,
        11,
        8,
        RECORD - 2,
        0,
        OLD_RECORD,
    ];
    let of_sheet = [5, 9, ADMIT_LIMIT, 11];
    // The mode 2 is for 16 bits.
    let of_explain = [5, 9, ADMIT_LIMIT, 11, 2, 16];
    let of_widen = [OLD_RECORD, RECORD, 15, OLD_RECORD, 8, OLD_RECORD - 2, 0];
    let [old_most, most] = [OLD_RECORD - 2, RECORD - 2];
    let of_narrow = [
        RECORD, OLD_RECORD, OLD_RECORD, 15, RECORD, 8, most, 0, 16, old_most,
    ];
    for (name, first, said) in [
        ("frames", "usage: frames PROGRAM RECORDS", &of_frames[..]),
        ("sheet", "usage: sheet < PROGRAM > SHEET", &of_sheet[..]),
        ("explain", "usage: explain < PROGRAM", &of_explain[..]),
        ("widen", "usage: widen FILE > NEW", &of_widen[..]),
        ("narrow", "usage: narrow FILE > OLD", &of_narrow[..]),
    ] {
        let text = usage(name);
        assert_eq!(text.lines().next(), Some(first));
        assert!(text.ends_with('\n'), "{text:?}");
        assert_eq!(numbers(&text), said, "{text}");
    }
}

/// One argument that is not just `--help`, and wrong numbers of arguments.
#[test]
fn wrong_arguments() {
    let help = || "--help".to_owned();
    let mut words: Vec<String> = [
        "", "-", "-h", "help", "--hel", "--helpx", " --help", "x.rom",
    ]
    .map(str::to_owned)
    .to_vec();
    words.push(help() + &"x".repeat(5_000));
    for place in 0..help().len() {
        let mut word = help();
        word.replace_range(place..=place, "x");
        words.push(word);
    }
    let one: Vec<Vec<String>> = words.into_iter().map(|word| vec![word]).collect();
    let records = example("records.bin").display().to_string();
    let mut more = Vec::new();
    for count in [3, 9] {
        more.push(vec![example("filter.rom").display().to_string(); count]);
        more.push(vec![help(); count]);
    }
    let none = Vec::new();
    let two = vec![help(); 2];
    let files = vec![records.clone(); 2];
    let help_first = vec![help(), records.clone()];
    let help_last = vec![records, help()];
    let of_file = [&none, &two, &files, &help_first, &help_last];
    for (name, others) in [
        ("frames", one.iter().chain([&none]).collect()),
        ("sheet", one.iter().chain([&two]).collect()),
        ("explain", one.iter().chain([&two]).collect()),
        // One argument is a name.
        ("widen", Vec::from(of_file)),
        ("narrow", Vec::from(of_file)),
    ] {
        let expected = Written::only_said(usage(name));
        for arguments in more.iter().chain(others) {
            let mut command = Command::new(program(name));
            assert_writes(command.args(arguments), &PASSES, &expected);
        }
    }
}

// frames: files

#[test]
fn frames_says_what_it_can_not_read() {
    const TOO_LONG: &str = "File name too long";
    let folder = folder("frames_says_what_it_can_not_read");
    let passes = file(&folder, "passes.rom", &PASSES);
    let records = file(&folder, "records.bin", &[0; RECORD + 1]);
    let missing = folder.join("missing");
    let empty_name = PathBuf::new();
    let long_name = PathBuf::from("x".repeat(5_000));
    for (program, records, what, reason) in [
        (&missing, &records, missing.as_os_str(), NO_FILE),
        (&passes, &missing, missing.as_os_str(), NO_FILE),
        (&folder, &records, folder.as_os_str(), IS_FOLDER),
        (&passes, &folder, folder.as_os_str(), IS_FOLDER),
        (&empty_name, &records, OsStr::new(""), NO_FILE),
        (&passes, &empty_name, OsStr::new(""), NO_FILE),
        (&long_name, &records, OsStr::new("PROGRAM"), TOO_LONG),
        (&passes, &long_name, OsStr::new("RECORDS"), TOO_LONG),
    ] {
        let expected = Written::failed(what, reason);
        assert_writes(frames().arg(program).arg(records), &[], &expected);
    }

    // Where the file can be read all the same, as by root, there is nothing to see.
    let locked = file(&folder, "locked", &PASSES);
    let chmod = Command::new("chmod").arg("000").arg(&locked).status();
    assert!(chmod.expect("chmod runs").success());
    if File::open(&locked).is_err() {
        let expected = Written::failed(&locked, "Permission denied");
        assert_writes(frames().arg(&locked).arg(&records), &[], &expected);
    }
}

/// Both files are opened before anything is written.
#[test]
fn a_refused_program_and_records_that_are_missing() {
    let folder = folder("a_refused_program_and_records_that_are_missing");
    let missing = folder.join("missing");
    let expected = Written::failed(&missing, NO_FILE);
    for (code, _) in refusals() {
        let refused = file(&folder, "refused.rom", &code);
        assert_writes(frames().arg(&refused).arg(&missing), &[], &expected);
    }
}

/// Whatever the record file is: empty, with records of a wrong form, with a part record, without end, or
/// one that can not be read. Nothing of it is read.
#[test]
fn a_refused_program_gives_one_line() {
    let folder = folder("a_refused_program_gives_one_line");
    let none = file(&folder, "none.bin", &[]);
    let wrong = file(&folder, "wrong.bin", &[0xff; 3 * RECORD]);
    let part = file(&folder, "part.bin", &[0; RECORD + 9]);
    for (code, line) in refusals() {
        let rom = file(&folder, "program.rom", &code);
        let [endless, unreadable] = ["/dev/zero", "/proc/self/mem"].map(Path::new);
        for records in [&*none, &wrong, &part, endless, unreadable, &folder] {
            let expected = Written::only_out(line);
            assert_writes(frames().arg(&rom).arg(records), &[], &expected);
        }
    }
}

#[test]
fn lengths_of_programs() {
    let folder = folder("lengths_of_programs");
    let records = file(
        &folder,
        "records.bin",
        &[&record(1, &[7])[..], &record(2, &[]), &[0; 9]].concat(),
    );
    let none = file(&folder, "none.bin", &[]);
    let passes = "pass\npass\n";
    for (length, lines) in [
        (0, "refused 5\n"),
        (1, "refused 11\n"),
        (PASSES.len() - 1, "refused 11\n"),
        (PASSES.len(), passes),
        (ADMIT_LIMIT - 1, passes),
        (ADMIT_LIMIT, passes),
        (ADMIT_LIMIT + 1, "refused 9\n"),
        (PROGRAM_LIMIT, "refused 9\n"),
        (PROGRAM_LIMIT + 1, "refused 9\n"),
        (70_000, "refused 9\n"),
        (1_000_000, "refused 9\n"),
    ] {
        let mut code = PASSES.to_vec();
        code.resize(length, BRK);
        let rom = file(&folder, "program.rom", &code);
        assert_eq!(lines_of(&rom, &records), lines, "length {length}");
        let alone = if lines == passes { "" } else { lines };
        assert_eq!(lines_of(&rom, &none), alone, "length {length}");
    }
    let shortest = file(&folder, "program.rom", &[BRK]);
    assert_eq!(lines_of(&shortest, &records), "drop\ndrop\n");
    // No more is read than tells that it is too long.
    assert_eq!(lines_of(Path::new("/dev/zero"), &records), "refused 9\n");
}

/// The last byte of the longest program is there, and is judged.
#[test]
fn the_longest_program_is_installed_whole() {
    let folder = folder("the_longest_program_is_installed_whole");
    let records = file(&folder, "records.bin", &record(0, &[]));
    // Jumps over bytes that are not allowed to the last six, which pass the frame.
    let mut over = assemble("JMI 0ff7");
    over.resize(ADMIT_LIMIT - PASSES.len(), STA);
    over.extend(PASSES);
    // Every byte is reached.
    let mut straight = assemble("LIT 01");
    let end = assemble("LIT f2 DEO BRK");
    straight.resize(ADMIT_LIMIT - end.len(), INC);
    straight.extend(end);
    for mut code in [over, straight] {
        assert_eq!(code.len(), ADMIT_LIMIT);
        let rom = file(&folder, "program.rom", &code);
        assert_eq!(lines_of(&rom, &records), "pass\n");
        code[ADMIT_LIMIT - 1] = POP;
        let rom = file(&folder, "program.rom", &code);
        assert_eq!(lines_of(&rom, &records), "refused 11\n");
    }
}

/// BRK with the last step of the budget is BRK, and one step later it is not reached.
#[test]
fn the_budget_of_a_frame() {
    let folder = folder("the_budget_of_a_frame");
    let records = file(&folder, "records.bin", &record(0, &[]));
    for (more, line) in [(0, "pass\n"), (1, "spent\n")] {
        // 1,998 turns of five steps, six others, and one for each JMI.
        let mut code = assemble("JMI 0000").repeat(4 + more);
        code.extend(assemble(
            "LIT2 07ce @turn LIT2 0001 SUB2 DUP2 ORA JCI =turn
            POP2 LIT 01 LIT f2 DEO BRK",
        ));
        let rom = file(&folder, "program.rom", &code);
        assert_eq!(lines_of(&rom, &records), line);
        let mut pair = Pair::new(0);
        pair.load(&code);
        let steps = pair.frame(&record(0, &[]), 2 * BUDGET).steps;
        assert_eq!(steps as usize, BUDGET as usize + more);
    }
}

#[test]
fn lengths_of_record_files() {
    let folder = folder("lengths_of_record_files");
    let passes = file(&folder, "passes.rom", &PASSES);
    for length in [65_535, 65_536, 65_537, 65_663, 65_664, 131_072, 200_000] {
        let records = file(&folder, "records.bin", &vec![0; length]);
        assert_eq!(
            lines_of(&passes, &records),
            "pass\n".repeat(length / RECORD),
            "length {length}"
        );
    }
}

/// A part record of every length that it can have, 0 too, after no record, some, and a whole block.
#[test]
fn part_records() {
    let folder = folder("part_records");
    let filter = quick();
    let rom = file(&folder, "filter.rom", &filter);
    let mut random = Random::new(seed());
    let whole: Vec<u8> = (0..BLOCK)
        .flat_map(|_| random_record(&mut random))
        .collect();
    for length in 0..RECORD {
        let mut part = vec![0; length];
        random.fill(&mut part);
        for count in [0, 1, 3, BLOCK] {
            let bytes = [&whole[..RECORD * count], &part].concat();
            let records = file(&folder, "records.bin", &bytes);
            let expected = expected_frames(&filter, &bytes, &records);
            assert_writes(frames().arg(&rom).arg(&records), &[], &expected);
        }
        let bytes = [&whole[..RECORD * 2], &part].concat();
        let expected = expected_frames(&filter, &bytes, STDIN);
        for piece in [1 + length, 50] {
            let mut command = frames();
            command.arg(&rom).arg(STDIN);
            let output = run_in_pieces(&mut command, &bytes, piece, Duration::from_micros(200));
            assert_written(
                &output,
                &expected,
                format_args!("{length} in pieces of {piece}"),
            );
        }
    }
}

#[test]
fn ten_megabytes_of_records() {
    let folder = folder("ten_megabytes_of_records");
    let mut random = Random::new(seed());
    let mut bytes = Vec::new();
    while bytes.len() < 10_000_000 {
        bytes.extend(random_record(&mut random));
    }
    bytes.extend([0; RECORD - 1]);
    let records = file(&folder, "records.bin", &bytes);
    let filter = quick();
    let rom = file(&folder, "filter.rom", &filter);
    let start = Instant::now();
    let lines = lines_of(&rom, &records);
    let time = start.elapsed();
    let whole = bytes.len() / RECORD;
    assert_eq!(lines.lines().count(), whole);
    assert!(lines == expected_lines(&filter, &bytes), "the lines differ");
    say(&format!("frames: {whole} records in {time:?}"));
    assert!(time < PATIENCE, "too slow: {time:?}");
}

// frames: admission

/// C-15: "a filter goes in only if admitted". Each of these passes the frame where it runs, for its
/// verdict comes before what is wrong.
#[test]
fn no_program_runs_that_is_not_admitted() {
    let folder = folder("no_program_runs_that_is_not_admitted");
    let frame = record(5, &[1]);
    let records = file(&folder, "records.bin", &frame);
    let line = |code: &[u8]| lines_of(&file(&folder, "program.rom", code), &records);
    let mut wrong = vec![
        [climb(255, 0), assemble("DUP BRK")].concat(),
        [climb(0, 254), assemble("JSI 0000 BRK")].concat(),
    ];
    for byte in forbidden_bytes() {
        let mut code = assemble("LIT2 0000 LIT2 0000 LIT2r 0000 LIT2r 0000");
        code.extend([byte, BRK]);
        wrong.push(code);
    }
    wrong.extend(
        [
            "LIT",
            "POP BRK",
            "POPr BRK",
            "JSI 0001 BRK POP2r BRK",
            "JMI 0000",
            "LIT 00 JCI =end LIT 00 @end BRK",
            "LIT2r 0000 JMP2r",
            "JSI 0001 BRK LITr 00 JMP2r",
            "LIT2 0000 JSI =sub BRK @sub JCI =less JMP2r @less POP JMP2r",
        ]
        .map(assemble),
    );
    let verdict = assemble("LIT 01 LIT f2 DEO");
    let mut told = BTreeSet::new();
    let mut pair = Pair::new(0);
    for code in wrong {
        let reached = [&verdict[..], &code].concat();
        assert_eq!(line(&reached), "refused 11\n", "{code:02x?}");
        told.insert(library::explain(&reached).rule);
        // The plain load takes it.
        pair.load(&reached);
        let reply = pair.frame(&frame, BUDGET);
        assert_eq!((reply.answer, reply.verdict), (BROKE, 1), "{code:02x?}");
        let not_reached = [&verdict[..], &[BRK], &code].concat();
        assert_eq!(line(&not_reached), "pass\n", "{code:02x?}");
    }
    let every: BTreeSet<u8> = (1..=RULES.len() as u8).collect();
    assert_eq!(told, every, "the rules that are broken");
}

/// The lines of those that are admitted are those of the second machine, the others are refused as the
/// second admission refuses them.
#[test]
fn lines_of_random_programs_and_records() {
    let folder = folder("lines_of_random_programs_and_records");
    let mut random = Random::new(seed());
    let words = ["pass", "drop", "spent", "refused 8", "refused 11"];
    let mut seen = [0; 5];
    for turn in 0..300 {
        let length = any_length(&mut random, 1_500);
        let mut code = match turn % 4 {
            0 => either(&mut random, turn / 4, length, true),
            1 => {
                let codes = of_every_kind(&mut random, turn / 4);
                codes[random.below(codes.len())].clone()
            }
            _ => filter(&mut random, length),
        };
        if turn % 2 == 0 {
            // A verdict that hangs on the data: the first data byte goes to port F2.
            let mut with_verdict = assemble("LIT 82 LDZ LIT f2 DEO");
            with_verdict.append(&mut code);
            code = with_verdict;
        }
        let count = random.below(60);
        let mut bytes: Vec<u8> = (0..count)
            .flat_map(|_| random_record(&mut random))
            .collect();
        let tail = random.below(RECORD);
        bytes.extend(vec![1; tail]);
        let rom = file(&folder, "program.rom", &code);
        let records = file(&folder, "records.bin", &bytes);
        let lines = lines_of(&rom, &records);
        assert_eq!(
            lines,
            expected_lines(&code, &bytes),
            "seed {}, turn {turn}",
            seed()
        );
        for (seen, word) in seen.iter_mut().zip(words) {
            *seen += lines.lines().filter(|line| *line == word).count();
        }
    }
    assert!(
        seen.iter().all(|&count| count > 50),
        "{}: {seen:?}",
        words.join(", ")
    );
    say(&format!(
        "frames beside the second machine: {}: {seen:?}",
        words.join(", ")
    ));
}

// frames: pieces

#[test]
fn a_program_in_pieces() {
    let records = example("records.bin");
    let bytes = fs::read(&records).unwrap();
    let mut longest = PASSES.to_vec();
    longest.resize(ADMIT_LIMIT, BRK);
    let mut codes = vec![fs::read(example("filter.rom")).unwrap(), longest];
    codes.extend(refusals().map(|(code, _)| code));
    for code in codes {
        let expected = expected_frames(&code, &bytes, &records);
        let mut command = frames();
        command.arg(STDIN).arg(&records);
        let pause = Duration::from_micros(500);
        let output = run_in_pieces(&mut command, &code, 1 + code.len() / 60, pause);
        let what = format_args!("a program of {} bytes in pieces", code.len());
        assert_written(&output, &expected, what);
    }
}

#[test]
fn records_in_pieces() {
    let filter = fs::read(example("filter.rom")).unwrap();
    let mut records = fs::read(example("records.bin")).unwrap();
    records.extend([0; 40]);
    let expected = expected_frames(&filter, &records, STDIN);
    for piece in [1, 7, 64, 127, 128, 129, 200] {
        let output = run_in_pieces(
            frames().arg(example("filter.rom")).arg(STDIN),
            &records,
            piece,
            Duration::from_micros(200),
        );
        assert_written(&output, &expected, format_args!("pieces of {piece}"));
    }
}

/// The line of a record comes before the next record is sent.
#[test]
fn a_line_comes_at_once() {
    let folder = folder("a_line_comes_at_once");
    let records = pipe(&folder, "records");
    let mut child = frames()
        .arg(example("filter.rom"))
        .arg(&records)
        .stdout(Stdio::piped())
        .stderr(Stdio::piped())
        .spawn()
        .expect("the program starts");
    let stdout = BufReader::new(child.stdout.take().unwrap());
    let (send, lines) = mpsc::channel();
    thread::spawn(move || {
        for line in stdout.lines() {
            send.send(line.expect("lines are text")).unwrap();
        }
    });
    let mut to = File::options()
        .write(true)
        .open(&records)
        .expect("the pipe opens");
    for (value, expected) in [(1, "pass"), (1, "drop"), (2, "pass"), (3, "pass")] {
        let frame = record(9, &[3, 7, value]);
        // In two pieces: the first alone gives no line.
        let (first, rest) = frame.split_at(20);
        to.write_all(first).expect("the pipe takes it");
        thread::sleep(PAUSE);
        to.write_all(rest).expect("the pipe takes it");
        let line = lines.recv_timeout(PATIENCE).expect("a line comes");
        assert_eq!(line, expected);
    }
    to.write_all(&[0; 20]).expect("the pipe takes it");
    drop(to);
    assert!(ends(&mut child), "frames goes on after its input has ended");
    assert_eq!(lines.iter().next(), None);
    let said = said_at_end(&PASSES, &records, 4 * RECORD + 20);
    let output = child.wait_with_output().expect("the program has ended");
    assert_written(&output, &Written::only_said(said), "frames");
}

// frames: what the system gives it

/// Whatever a shell has closed before; the files are opened on the numbers that are free then.
#[test]
fn descriptors_that_are_closed() {
    let folder = folder("descriptors_that_are_closed");
    let bytes = [0; 3 * RECORD + 5];
    let passes = file(&folder, "passes.rom", &PASSES);
    let records = file(&folder, "records.bin", &bytes);
    let not_admitted = file(&folder, "refused.rom", &REFUSED);
    let unwritten = || Written::failed(OUTPUT, NOT_OPEN);
    let nothing = || Written::only_out("");
    for (rom, code) in [(&passes, &PASSES[..]), (&not_admitted, &REFUSED)] {
        let all = || expected_frames(code, &bytes, &records);
        let unsaid = || Written::only_out(all().out);
        for (closed, expected) in [
            ("exec <&-", all()),
            ("exec 2>&-", unsaid()),
            ("exec <&- 2>&-", unsaid()),
            ("exec >&-", unwritten()),
            ("exec <&- >&-", unwritten()),
            ("exec >&- 2>&-", nothing()),
            ("exec <&- >&- 2>&-", nothing()),
        ] {
            let mut command = after(closed, "frames");
            assert_writes(command.arg(rom).arg(&records), &[], &expected);
        }
    }
    assert_eq!(fs::read(&passes).unwrap(), PASSES);
    assert_eq!(fs::read(&records).unwrap(), bytes);

    let admitted = || expected_sheet(&PASSES);
    let refused = || expected_sheet(&REFUSED);
    for (closed, code, expected) in [
        ("exec <&-", &PASSES[..], Written::failed(INPUT, NOT_OPEN)),
        ("exec >&-", &PASSES, unwritten()),
        ("exec 2>&-", &PASSES, admitted()),
        ("exec >&-", &REFUSED, refused()),
        ("exec 2>&-", &REFUSED, nothing()),
        ("exec >&- 2>&-", &PASSES, nothing()),
    ] {
        assert_writes(&mut after(closed, "sheet"), code, &expected);
    }

    for code in [&PASSES[..], &REFUSED] {
        for (closed, expected) in [
            ("exec <&-", Written::failed(INPUT, NOT_OPEN)),
            ("exec >&-", unwritten()),
            ("exec 2>&-", expected_explained(code)),
            ("exec >&- 2>&-", nothing()),
        ] {
            assert_writes(&mut after(closed, "explain"), code, &expected);
        }
    }
}

/// Where a message can not be written all else is as ever, also into a pipe whose reader has gone.
#[test]
fn standard_error_that_takes_nothing() {
    let folder = folder("standard_error_that_takes_nothing");
    let bytes = [0; 3 * RECORD + 5];
    let passes = file(&folder, "passes.rom", &PASSES);
    let refused = file(&folder, "refused.rom", &REFUSED);
    let records = file(&folder, "records.bin", &bytes);
    let lines = expected_lines(&PASSES, &bytes).into_bytes();
    let mut of_frames = frames();
    of_frames.arg(&passes).arg(&records);
    for (mut command, out) in [(of_frames, lines), (sheet(), Vec::new())] {
        let mut ended = |said: Stdio| {
            let input = File::open(&refused).unwrap();
            let child = command.stdin(input).stdout(Stdio::piped()).stderr(said);
            let child = child.spawn().expect("the program starts");
            let output = child.wait_with_output().expect("the program runs");
            assert_eq!(output.stdout, out);
            output.status
        };
        assert_eq!(ended(full()).code(), Some(0));
        let (reader, writer) = io::pipe().expect("a pipe");
        drop(reader);
        assert_eq!(ended(writer.into()).code(), Some(0));
    }
}

/// A read that fails, in the place of any that there are: the lines before it stand, and no bytes are
/// counted.
#[test]
fn a_read_that_fails() {
    let folder = folder("a_read_that_fails");
    let failing = failing(&folder);
    let passes = file(&folder, "passes.rom", &PASSES);
    for length in [0, 1, RECORD - 1] {
        let bytes = vec![0; 3 * RECORD + length];
        let records = file(&folder, "records.bin", &bytes);
        let all = expected_frames(&PASSES, &bytes, &records);
        let cut = Written {
            out: all.out.clone(),
            said: Written::failed(&records, NOT_READ).said,
        };
        // The program, its end, the records, their end.
        for (read, expected) in [
            (1, &Written::failed(&passes, NOT_READ)),
            (2, &Written::failed(&passes, NOT_READ)),
            (3, &Written::failed(&records, NOT_READ)),
            (4, &cut),
            (5, &all),
        ] {
            let mut command = failing(frames(), read);
            assert_writes(command.arg(&passes).arg(&records), &[], expected);
        }
    }
    // A refused program is read to its end, or as far as tells that it is too long, and nothing else is.
    let records = file(&folder, "records.bin", &[0; RECORD]);
    for ((code, line), reads) in refusals().into_iter().zip([1, 1, 2]) {
        let rom = file(&folder, "refused.rom", &code);
        for read in 1..=reads + 2 {
            let expected = match read <= reads {
                true => Written::failed(&rom, NOT_READ),
                false => Written::only_out(line),
            };
            let mut command = failing(frames(), read);
            assert_writes(command.arg(&rom).arg(&records), &[], &expected);
        }
    }
    for code in [&PASSES[..], &REFUSED] {
        let both = [
            (sheet as fn() -> Command, expected_sheet(code)),
            (explain, expected_explained(code)),
        ];
        for (command, expected) in both {
            let unread = Written::failed(INPUT, NOT_READ);
            for (read, expected) in [(1, &unread), (2, &unread), (3, &expected)] {
                assert_writes(&mut failing(command(), read), code, expected);
            }
        }
    }
}

/// A name is any bytes but 0 and the slash.
#[test]
fn names_of_any_bytes() {
    let folder = folder("names_of_any_bytes");
    let every: Vec<u8> = (1..=255).filter(|byte| *byte != b'/').collect();
    let halves = every.split_at(every.len() / 2);
    let ascii: Vec<u8> = every.iter().copied().filter(u8::is_ascii).collect();
    let letters = "\u{80}\u{7ff}\u{800}\u{10000}\u{10ffff}".as_bytes();
    for bytes in [
        halves.0, halves.1, &ascii, letters, b"--help", b"-h", b"--", b"-", b" ",
    ] {
        // A name that is no text opens no file, whatever is there.
        let text = std::str::from_utf8(bytes).is_ok();
        let name = OsStr::from_bytes(bytes);
        fs::write(folder.join(name), PASSES).expect("a file is written");
        let records = [OsStr::from_bytes(b"records-"), name].join(OsStr::new(""));
        let bytes = [0; RECORD + 6];
        fs::write(folder.join(&records), bytes).expect("a file is written");
        let expected = match text {
            true => expected_frames(&PASSES, &bytes, &records),
            false => Written::failed(name, NO_TEXT),
        };
        let mut command = frames();
        command.arg(name).arg(&records).current_dir(&folder);
        assert_writes(&mut command, &[], &expected);
        fs::remove_file(folder.join(name)).expect("the file goes");
        let gone = if text { NO_FILE } else { NO_TEXT };
        assert_writes(&mut command, &[], &Written::failed(name, gone));
    }
}

/// The program is read to the end of standard input; no record is left there.
#[test]
fn both_from_one_input() {
    let mut input = PASSES.to_vec();
    input.extend([0; 5 * RECORD]);
    let none = Written::only_out("");
    assert_writes(frames().args([STDIN, STDIN]), &input, &none);
    let folder = folder("both_from_one_input");
    let mut code = PASSES.to_vec();
    code.resize(3 * RECORD + 17, 0);
    let both = file(&folder, "both", &code);
    let expected = expected_frames(&code, &code, &both);
    assert_writes(frames().args([&both, &both]), &[], &expected);
}

/// A record file of any length takes the same memory.
#[test]
fn little_memory() {
    let folder = folder("little_memory");
    let passes = file(&folder, "passes.rom", &PASSES);
    let records = folder.join("records.bin");
    let count = 1_000_000;
    let zeros = File::create(&records).expect("a file is made");
    zeros
        .set_len((RECORD * count + 1) as u64)
        .expect("the file is lengthened");
    let expected = Written {
        out: b"pass\n".repeat(count),
        said: said_at_end(&PASSES, &records, RECORD * count + 1),
    };
    let mut command = after("ulimit -v 16384 && ulimit -s 512", "frames");
    assert_writes(command.arg(&passes).arg(&records), &[], &expected);
    for code in [&PASSES[..], &REFUSED] {
        let mut command = after("ulimit -v 16384 && ulimit -s 128", "sheet");
        assert_writes(&mut command, code, &expected_sheet(code));
    }
    // The longest program, and calls as deep as can be.
    let mut deep = assemble("JSI 0001 BRK");
    deep.extend(assemble("JSI 0001 JMP2r").repeat(126));
    deep.push(JMP2R);
    assert_eq!(expected_explained(&deep).out, b"admitted\n");
    let one = file(&folder, "one.bin", &[0; RECORD]);
    for code in [&PASSES[..], &REFUSED, &deep, &vec![DUP; ADMIT_LIMIT]] {
        let mut command = after("ulimit -v 16384 && ulimit -s 128", "explain");
        assert_writes(&mut command, code, &expected_explained(code));
        let rom = file(&folder, "program.rom", code);
        let mut command = after("ulimit -v 16384 && ulimit -s 512", "frames");
        let expected = expected_frames(code, &[0; RECORD], &one);
        assert_writes(command.arg(&rom).arg(&one), &[], &expected);
    }
    // Records of zeros are good ones in both forms; with one byte more they are none.
    for (more, conversion) in [WIDEN, NARROW]
        .into_iter()
        .flat_map(|one| [(0, one), (1, one)])
    {
        let length = 300 * BLOCK_BYTES + conversion.from;
        let zeros = File::create(&records).expect("a file is made");
        zeros
            .set_len((length + more) as u64)
            .expect("the file is lengthened");
        let expected = match more {
            0 => Written::only_out(vec![0; length / conversion.from * conversion.to]),
            _ => Written::only_said("refused 15\n"),
        };
        let mut command = after("ulimit -v 16384 && ulimit -s 256", conversion.name);
        assert_writes(command.arg(&records), &[], &expected);
    }
}

// frames: standard output that takes nothing

/// Records without end, and a reader that takes one line.
#[test]
fn a_reader_that_leaves() {
    let folder = folder("a_reader_that_leaves");
    let passes = file(&folder, "passes.rom", &PASSES);
    // Whether or not the shell ignores the signal of a closed pipe, the write fails.
    for shell in ["true", "trap '' PIPE"] {
        let mut child = after(shell, "frames")
            .arg(&passes)
            .arg("/dev/zero")
            .stdout(Stdio::piped())
            .stderr(Stdio::piped())
            .spawn()
            .expect("the program starts");
        let mut lines = BufReader::new(child.stdout.take().unwrap());
        let mut line = String::new();
        lines.read_line(&mut line).expect("a line comes");
        assert_eq!(line, "pass\n");
        drop(lines);
        assert!(ends(&mut child), "frames goes on with nobody reading");
        let output = child.wait_with_output().expect("the program has ended");
        assert_written(&output, &Written::failed(OUTPUT, NO_READER), shell);
    }
}

/// An output that takes no more: the program says so, and nothing else, and ends.
fn assert_gives_up(rom: &Path, records: &Path, output: Stdio, reason: &str) {
    let mut child = frames()
        .arg(rom)
        .arg(records)
        .stdout(output)
        .stderr(Stdio::piped())
        .spawn()
        .expect("the program starts");
    assert!(ends(&mut child), "frames goes on though nothing is written");
    let output = child.wait_with_output().expect("the program has ended");
    assert_written(&output, &Written::failed(OUTPUT, reason), "frames");
}

#[test]
fn a_full_device() {
    let folder = folder("a_full_device");
    let passes = file(&folder, "passes.rom", &PASSES);
    let records = file(&folder, "records.bin", &[0; RECORD + 40]);
    let mut codes = vec![PASSES.to_vec()];
    codes.extend(refusals().map(|(code, _)| code));
    for code in codes {
        let rom = file(&folder, "program.rom", &code);
        for records in [Path::new("/dev/zero"), &records] {
            assert_gives_up(&rom, records, full(), NO_SPACE);
        }
    }
    // There is no line to be written.
    let part = file(&folder, "part.bin", &[0; 40]);
    let child = frames()
        .args([&passes, &part])
        .stdout(full())
        .stderr(Stdio::piped())
        .spawn();
    let output = child
        .and_then(|child| child.wait_with_output())
        .expect("the program runs");
    assert_written(
        &output,
        &expected_frames(&PASSES, &[0; 40], &part),
        "frames",
    );
}

/// The C library's words for what would have to wait.
const NOT_YET: &str = "Resource temporarily unavailable";

/// Two ends of a connection; the second one does not wait.
fn impatient() -> (UnixStream, OwnedFd) {
    let (ours, theirs) = UnixStream::pair().expect("a pair of sockets");
    theirs.set_nonblocking(true).expect("it does not wait");
    (ours, theirs.into())
}

/// What has been written before it is full is there.
#[test]
fn an_output_that_does_not_wait() {
    let folder = folder("an_output_that_does_not_wait");
    let passes = file(&folder, "passes.rom", &PASSES);
    let (mut ours, theirs) = impatient();
    assert_gives_up(&passes, Path::new("/dev/zero"), theirs.into(), NOT_YET);
    let mut lines = Vec::new();
    ours.read_to_end(&mut lines).expect("the lines are read");
    let expected = b"pass\n".repeat(lines.len().div_ceil(5));
    assert!(!lines.is_empty() && lines == expected[..lines.len()]);
}

// The example

fn example_listing() -> Vec<Listed> {
    let text = fs::read_to_string(example("filter.txt")).unwrap();
    let (_, table) = text
        .split_once("address  bytes     instruction\n")
        .expect("the head of the table");
    listing(table)
}

#[test]
fn the_listing_is_the_filter() {
    let code = listing::code(&example_listing());
    assert_eq!(code, fs::read(example("filter.rom")).unwrap());
}

#[test]
fn the_records_are_as_their_text_says() {
    let text = fs::read_to_string(example("records.txt")).unwrap();
    let mut bytes: Vec<u8> = Vec::new();
    let mut lines = String::new();
    for line in text.lines() {
        if let Some((_, said)) = line
            .split_once(": ")
            .filter(|_| line.starts_with("record "))
        {
            bytes.resize(bytes.len().next_multiple_of(RECORD), 0);
            lines += said;
            lines += "\n";
        } else if let Some(part) = line.strip_prefix("    | ") {
            bytes.extend(hexadecimal(part));
        }
    }
    bytes.resize(bytes.len().next_multiple_of(RECORD), 0);
    assert_eq!(bytes, fs::read(example("records.bin")).unwrap());
    let filter = fs::read(example("filter.rom")).unwrap();
    assert_eq!(lines, expected_lines(&filter, &bytes));
    assert_eq!(
        lines,
        lines_of(&example("filter.rom"), &example("records.bin"))
    );
    let gate = example("../stdout");
    assert_eq!(lines, fs::read_to_string(gate).unwrap());
}

/// The sheet of the example filter marks the listed instructions, with the listed depths.
#[test]
fn the_example_is_admitted() {
    let filter = fs::read(example("filter.rom")).unwrap();
    assert_eq!(sheet_of(&filter), listing::sheet(&example_listing()));
}

// sheet

/// The sheet of document 01, in records of 8 bytes by C-19.
const PASSES_SHEET: [u8; 48] = [
    0x01, 0x00, 0x00, 0x80, 0x01, 0x00, 0x00, 0x00, 0x00, 0x00, 0x00, 0x01, 0x00, 0x00, 0x00, 0x00,
    0x01, 0x01, 0x00, 0x80, 0x01, 0x00, 0x00, 0x00, 0x00, 0x00, 0x00, 0xf2, 0x00, 0x00, 0x00, 0x00,
    0x01, 0x02, 0x00, 0x17, 0x01, 0x00, 0x00, 0x00, 0x01, 0x00, 0x00, 0x00, 0x01, 0x00, 0x00, 0x00,
];

/// Each number, and nothing but the number; the first that applies.
#[test]
fn refused_sheets() {
    let stores = assemble("LIT 00 LIT2 0010 STA BRK");
    let long = vec![0; ADMIT_LIMIT + 1];
    let long_and_wrong = vec![0x02; ADMIT_LIMIT + 1];
    for (code, said) in [
        (&[][..], "refused 5\n"),
        (&long, "refused 9\n"),
        (&long_and_wrong, "refused 9\n"),
        (&long_and_wrong[1..], "refused 11\n"),
        (&REFUSED, "refused 11\n"),
        (&stores, "refused 11\n"),
    ] {
        let expected = Written::only_said(said);
        assert_writes(&mut sheet(), code, &expected);
        let pause = Duration::from_micros(100);
        let output = run_in_pieces(&mut sheet(), code, 1 + code.len() / 40, pause);
        assert_written(&output, &expected, "in pieces");
    }
    // No more is read than tells that it is too long.
    let zeros = File::open("/dev/zero").expect("the device opens");
    let output = sheet().stdin(zeros).output().expect("the program runs");
    assert_written(&output, &Written::only_said("refused 9\n"), "/dev/zero");
}

#[test]
fn sheets_of_every_length() {
    assert_eq!(sheet_of(&PASSES), PASSES_SHEET);
    assert_eq!(sheet_of(&[]), []);
    assert_eq!(sheet_of(&[0x00]), [1, 0, 0, 0, 1, 0, 0, 0]);
    assert_eq!(sheet_of(&REFUSED), []);
    let mut random = Random::new(seed());
    for length in [2, 1_000, ADMIT_LIMIT - 1, ADMIT_LIMIT] {
        // After BRK nothing is reached.
        let mut code = vec![0; length];
        random.fill(&mut code[1..]);
        let records = code.iter().map(|&byte| [0, 0, 0, byte, 0, 0, 0, 0]);
        let mut expected: Vec<u8> = records.flatten().collect();
        [expected[0], expected[4]] = [1, 1];
        assert!(sheet_of(&code) == expected, "length {length}");
    }
    for length in [ADMIT_LIMIT + 1, ADMIT_LIMIT + 2, 65_536, 100_000] {
        assert_eq!(sheet_of(&vec![0; length]), [], "length {length}");
    }
}

/// Programs of every kind, about half of them admitted.
#[test]
fn sheets_beside_the_second_admission() {
    let mut random = Random::new(seed());
    let mut admitted = 0;
    let programs = 300;
    for turn in 0..programs {
        let length = any_length(&mut random, ADMIT_LIMIT + 1);
        let code = any(&mut random, turn, length);
        let expected = expected_sheet(&code);
        admitted += usize::from(expected.said.is_empty());
        let output = run(&mut sheet(), &code);
        assert_written(&output, &expected, format_args!("turn {turn}"));
    }
    say(&format!("sheet: {admitted} of {programs} are admitted"));
    assert!((programs / 4..=programs * 3 / 4).contains(&admitted));
}

/// A filter with subroutines, through both programs.
#[test]
fn a_filter_with_subroutines() {
    let code = calling();
    let [first, high, shift] = [0x0100, 0x0115, 0x011a];
    let records = code.iter().map(|&byte| [0, 0, 0, byte, 0, 0, 0, 0]);
    let mut records: Vec<[u8; SHEET_RECORD]> = records.collect();
    for (place, working, ret, routine) in [
        (0x00, 0, 0, first),
        (0x02, 1, 0, first),
        (0x05, 1, 0, first),
        (0x07, 2, 0, first),
        (0x08, 0, 0, first),
        (0x0a, 1, 0, first),
        (0x0d, 1, 0, first),
        (0x0f, 2, 0, first),
        (0x10, 2, 0, first),
        (0x11, 1, 0, first),
        (0x13, 2, 0, first),
        (0x14, 0, 0, first),
        (0x15, 1, 2, high),
        (0x16, 1, 2, high),
        (0x19, 1, 2, high),
        (0x1a, 1, 4, shift),
        (0x1c, 2, 4, shift),
        (0x1d, 1, 4, shift),
    ] {
        let [routine_high, routine_low] = u16::to_be_bytes(routine);
        let byte = code[place];
        records[place] = [1, working, ret, byte, routine_high, routine_low, 0, 0];
    }
    assert_eq!(sheet_of(&code), records.as_flattened());

    let folder = folder("a_filter_with_subroutines");
    let rom = file(&folder, "calling.rom", &code);
    let mut frames_bytes = Vec::new();
    let mut lines = String::new();
    for (data, line) in [
        (&[0x12, 0x1f][..], "pass\n"),
        (&[0x12, 0x2f], "drop\n"),
        (&[0xf0, 0xff, 0x00], "pass\n"),
        (&[0xf0, 0x0f], "drop\n"),
        (&[0x07], "pass\n"),
        (&[], "pass\n"),
    ] {
        frames_bytes.extend(record(3, data));
        lines += line;
    }
    let records = file(&folder, "records.bin", &frames_bytes);
    assert_eq!(lines_of(&rom, &records), lines);
    assert_eq!(expected_lines(&code, &frames_bytes), lines);
    let mut random = Random::new(seed());
    let many: Vec<u8> = (0..2_000)
        .flat_map(|_| random_record(&mut random))
        .collect();
    let records = file(&folder, "records.bin", &many);
    let expected = expected_frames(&code, &many, &records);
    assert_writes(frames().arg(&rom).arg(&records), &[], &expected);
}

#[test]
fn a_sheet_of_a_program_in_pieces() {
    let mut longest = vec![0x40; ADMIT_LIMIT];
    longest[0] = 0;
    for (code, piece, pause) in [
        (&PASSES[..], 1, Duration::from_millis(20)),
        (&longest, 100, Duration::from_micros(100)),
    ] {
        let output = run_in_pieces(&mut sheet(), code, piece, pause);
        assert_written(&output, &expected_sheet(code), "a program in pieces");
    }
}

#[test]
fn sheet_says_what_it_can_not_read_or_write() {
    let folder = folder("sheet_says_what_it_can_not_read_or_write");
    // There is nothing there yet, and it does not wait.
    let (_ours, theirs) = impatient();
    for (input, reason) in [
        (Stdio::from(File::open(&folder).unwrap()), IS_FOLDER),
        (theirs.into(), NOT_YET),
    ] {
        let output = sheet().stdin(input).output().expect("the program runs");
        assert_written(&output, &Written::failed(INPUT, reason), "sheet");
    }

    // Where it is refused there is nothing to be written.
    for (code, expected) in [
        (&PASSES[..], Written::failed(OUTPUT, NO_SPACE)),
        (&REFUSED, expected_sheet(&REFUSED)),
    ] {
        let rom = file(&folder, "program.rom", code);
        let child = sheet()
            .stdin(File::open(&rom).unwrap())
            .stdout(full())
            .stderr(Stdio::piped())
            .spawn();
        let output = child.and_then(|child| child.wait_with_output());
        assert_written(&output.expect("the program runs"), &expected, "sheet");
    }
}

// explain

/// The lines of every length and of programs by name, from a pipe, in pieces and from a file.
#[test]
fn lines_of_explain() {
    let folder = folder("lines_of_explain");
    let long_and_wrong = vec![POP; ADMIT_LIMIT + 1];
    let mut outside = vec![INC; ADMIT_LIMIT];
    outside[0] = LIT;
    let stores = assemble("LIT 00 LIT2 0010 STA BRK");
    let cut = "refused 11 at 0100: LIT is 2 bytes long, and the program ends after 1 of them\n";
    let pops = "refused 11 at 0100: POP takes 1 byte of the working stack, which holds 0\n";
    let off =
        "refused 11 at 10FF: INC goes on to 1100, outside the program, which is 0100 to 10FF\n";
    for (code, line) in [
        (&[][..], "refused 5\n"),
        (&[BRK], "admitted\n"),
        (&PASSES, "admitted\n"),
        (&vec![BRK; ADMIT_LIMIT - 1], "admitted\n"),
        (&vec![BRK; ADMIT_LIMIT], "admitted\n"),
        (&vec![BRK; ADMIT_LIMIT + 1], "refused 9\n"),
        (&vec![BRK; ADMIT_LIMIT + 2], "refused 9\n"),
        (&vec![BRK; 100_000], "refused 9\n"),
        (&long_and_wrong, "refused 9\n"),
        (&long_and_wrong[1..], pops),
        (&outside, off),
        (&REFUSED, cut),
        (
            &stores,
            "refused 11 at 0105: STA is not allowed in a filter\n",
        ),
    ] {
        let expected = Written::only_out(line);
        assert_writes(&mut explain(), code, &expected);
        let pause = Duration::from_micros(100);
        let output = run_in_pieces(&mut explain(), code, 1 + code.len() / 40, pause);
        assert_written(&output, &expected, "in pieces");
        let rom = File::open(file(&folder, "program.rom", code)).unwrap();
        let output = explain().stdin(rom).output().expect("the program runs");
        assert_written(&output, &expected, "from a file");
        assert_eq!(expected_explained(code).out, line.as_bytes());
    }
    // No more is read than tells that it is too long.
    let zeros = File::open("/dev/zero").expect("the device opens");
    let output = explain().stdin(zeros).output().expect("the program runs");
    assert_written(&output, &Written::only_out("refused 9\n"), "/dev/zero");
}

/// The example that `rt ci` runs.
#[test]
fn the_example_of_explain() {
    let [input, line] =
        ["stdin", "stdout"].map(|name| fs::read(repository("crates/explain").join(name)).unwrap());
    assert_writes(&mut explain(), &input, &Written::only_out(line));
}

#[test]
fn explain_says_what_it_can_not_read_or_write() {
    let folder = folder("explain_says_what_it_can_not_read_or_write");
    // There is nothing there yet, and it does not wait.
    let (_ours, theirs) = impatient();
    for (input, reason) in [
        (Stdio::from(File::open(&folder).unwrap()), IS_FOLDER),
        (theirs.into(), NOT_YET),
    ] {
        let output = explain().stdin(input).output().expect("the program runs");
        assert_written(&output, &Written::failed(INPUT, reason), "explain");
    }

    // There is always a line to be written.
    for code in [&[][..], &PASSES, &REFUSED] {
        let rom = file(&folder, "program.rom", code);
        let ended = |output: Stdio| {
            let child = explain()
                .stdin(File::open(&rom).unwrap())
                .stdout(output)
                .stderr(Stdio::piped())
                .spawn();
            let output = child.and_then(|child| child.wait_with_output());
            output.expect("the program runs")
        };
        let expected = Written::failed(OUTPUT, NO_SPACE);
        assert_written(&ended(full()), &expected, "explain");
        let (reader, writer) = io::pipe().expect("a pipe");
        drop(reader);
        let expected = Written::failed(OUTPUT, NO_READER);
        assert_written(&ended(writer.into()), &expected, "explain");
    }
}

/// Programs of every kind: the line is that of the reason which the call gives, and every rule is among
/// them. The reason is held to be true, and the number is that of the second admission.
#[test]
fn lines_beside_the_call() {
    let mut admissions = Admissions::new(seed());
    let mut random = Random::new(seed());
    let mut lines = 0;
    let mut both = |code: &[u8]| {
        admissions.admit(code);
        let expected = sentences::line(code, &admissions.why());
        assert_writes(&mut explain(), code, &Written::only_out(expected));
        lines += 1;
    };
    for turn in 0..800 {
        for code in of_every_kind(&mut random, turn) {
            both(&code);
        }
    }
    for (name, told) in admissions.told() {
        assert!(told >= 5, "{told} {name}");
    }
    say(&format!("explain: {lines} lines as the call has them"));
    admissions.say_total("explain");
}

// Success

/// The command by which `README.md` tells whether a program is admitted.
#[test]
fn a_script_tells_success() {
    let folder = folder("a_script_tells_success");
    let page = fs::read_to_string(repository("README.md")).expect("the page");
    let shown: Vec<&str> = page
        .lines()
        .filter(|line| line.contains("2> said"))
        .collect();
    let [shown] = shown[..] else {
        panic!("one command of README.md: {shown:?}");
    };
    let script = |rom: &Path| {
        let mut command = shown.to_owned();
        for (named, path) in [
            ("target/bin/sheet", &*program("sheet")),
            ("crates/frames/data/filter.rom", rom),
        ] {
            assert_eq!(command.matches(named).count(), 1, "{shown}");
            command = command.replace(named, &format!("'{}'", path.display()));
        }
        let mut shell = Command::new("sh");
        let output = run(shell.args(["-c", &command]).current_dir(&folder), &[]);
        String::from_utf8(output.stdout).expect("text")
    };
    let written = folder.join("filter.sheet");
    assert_eq!(script(&file(&folder, "passes.rom", &PASSES)), "admitted\n");
    assert_eq!(fs::read(&written).expect("the sheet"), PASSES_SHEET);
    let refused = file(&folder, "refused.rom", &REFUSED);
    assert_eq!(script(&refused), "refused 11\n");
    assert_eq!(fs::read(&written).expect("the sheet"), []);

    // A reader that leaves before there is a sheet: the write fails, and that is said.
    fs::remove_file(&written).expect("the file goes");
    let [rom, written] = ["passes.pipe", "filter.sheet"].map(|name| pipe(&folder, name));
    let coming = rom.clone();
    let leaves = thread::spawn(move || {
        let mut to = File::options().write(true).open(coming)?;
        drop(File::open(written)?);
        to.write_all(&PASSES)
    });
    assert_eq!(script(&rom), format!("{OUTPUT}: {NO_READER}\n"));
    leaves.join().unwrap().expect("the program is written");
}

// All, under valgrind

/// A run, and what it should write.
struct Watched {
    program: &'static str,
    arguments: Vec<PathBuf>,
    input: Vec<u8>,
    expected: Written,
}

fn watched_frames(program: &Path, records: &Path) -> Watched {
    let expected = match fs::read(records) {
        Ok(bytes) => expected_frames(&fs::read(program).expect("the program"), &bytes, records),
        Err(_) => Written::failed(records, IS_FOLDER),
    };
    Watched {
        program: "frames",
        arguments: vec![program.to_owned(), records.to_owned()],
        input: Vec::new(),
        expected,
    }
}

fn watched_sheet(input: &[u8]) -> Watched {
    Watched {
        program: "sheet",
        arguments: Vec::new(),
        input: input.to_vec(),
        expected: expected_sheet(input),
    }
}

fn watched_explain(input: &[u8]) -> Watched {
    Watched {
        program: "explain",
        arguments: Vec::new(),
        input: input.to_vec(),
        expected: expected_explained(input),
    }
}

fn watched_conversion(conversion: Conversion, records: &Path) -> Watched {
    let expected = match fs::read(records) {
        Ok(bytes) => conversion.expected(&bytes),
        Err(_) => Written::failed(records, IS_FOLDER),
    };
    Watched {
        program: conversion.name,
        arguments: vec![records.to_owned()],
        input: Vec::new(),
        expected,
    }
}

fn watched_help(program: &'static str) -> Watched {
    Watched {
        program,
        arguments: vec![PathBuf::from("--help")],
        input: Vec::new(),
        expected: Written::only_out(usage(program)),
    }
}

/// No byte is used that was never set, and none outside of what there is.
#[test]
fn valgrind_has_nothing_to_say() {
    if Command::new("valgrind").arg("--version").output().is_err() {
        say("passed over: the programs under valgrind, for there is no valgrind");
        return;
    }
    let folder = folder("valgrind_has_nothing_to_say");
    let mut random = Random::new(seed());
    // A program of every kind with some records, more than a block with a short one.
    let quick = file(&folder, "quick.rom", &quick());
    let calls = file(&folder, "calling.rom", &calling());
    let mut bytes: Vec<u8> = (0..BLOCK + 6)
        .flat_map(|_| random_record(&mut random))
        .collect();
    let many = file(&folder, "many.bin", &bytes);
    bytes.truncate(4 * RECORD + 30);
    let few = file(&folder, "few.bin", &bytes);
    let mut runs = vec![
        watched_frames(&example("filter.rom"), &example("records.bin")),
        watched_frames(&quick, &many),
        watched_frames(&calls, &many),
        watched_frames(&quick, &folder),
        watched_sheet(&[]),
        watched_sheet(&calling()),
        watched_help("frames"),
        watched_help("sheet"),
        watched_explain(&[]),
        watched_explain(&calling()),
        watched_help("explain"),
    ];
    let longest = filter(&mut random, ADMIT_LIMIT);
    let mut codes = vec![vec![BRK], longest, vec![DUP; ADMIT_LIMIT]];
    codes.extend(refusals().map(|(code, _)| code));
    for (place, code) in codes.iter().enumerate() {
        let rom = file(&folder, &format!("{place}.rom"), code);
        runs.push(watched_frames(&rom, &few));
    }
    for (turn, length) in [(0, 2_000), (2, ADMIT_LIMIT), (0, ADMIT_LIMIT + 1)] {
        let code = any(&mut random, turn, length);
        runs.push(watched_explain(&code));
        runs.push(watched_sheet(&code));
    }
    for fault in FAULTS.into_iter().step_by(3) {
        let code = broken(&mut random, ROOM_FOR_A_FAULT, fault);
        runs.push(watched_explain(&code));
    }
    // More than a block, good and broken and with a part record, an empty file, and none.
    for conversion in [WIDEN, NARROW] {
        runs.push(watched_help(conversion.name));
        runs.push(watched_conversion(conversion, &folder));
        let good = any_good(&mut random, conversion.from, OLD_RECORD - 2);
        let good = good.repeat(BLOCK_BYTES / conversion.from + 3);
        let place = good.len() - 1;
        for (name, bytes) in [
            ("good", &good[..]),
            ("part", &good[..place]),
            (
                "broken",
                &changed(good.clone(), place - conversion.from + 1, 0xff),
            ),
            ("empty", &[]),
        ] {
            let name = format!("{name}-{}.bin", conversion.name);
            let records = file(&folder, &name, bytes);
            runs.push(watched_conversion(conversion, &records));
        }
    }

    let next = Mutex::new(runs.iter());
    let watch = || loop {
        let Some(watched) = next.lock().unwrap().next() else {
            return;
        };
        let mut command = Command::new("valgrind");
        command
            .args(["--error-exitcode=9", "-q"])
            .arg(program(watched.program))
            .args(&watched.arguments);
        assert_writes(&mut command, &watched.input, &watched.expected);
    };
    thread::scope(|scope| {
        for _ in 0..2 {
            scope.spawn(watch);
        }
    });
    say(&format!("valgrind: {} runs", runs.len()));
}
