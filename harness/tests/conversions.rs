//! The linked programs `widen` and `narrow`: files of every small length, records of every kind, every
//! refusal and every order of them over the blocks that are read, files there and back, random files,
//! each beside the second moves; names, links, pipes, what changes between the two passes, reads that
//! fail, outputs that are closed or full. `tests/programs.rs` has `--help`, wrong arguments, little
//! memory and valgrind.

use std::ffi::OsStr;
use std::fs::{self, File};
use std::io::{self, Read, Write};
use std::os::fd::{AsRawFd, OwnedFd};
use std::os::unix::ffi::OsStrExt;
use std::os::unix::fs::{symlink, FileExt};
use std::os::unix::net::{UnixListener, UnixStream};
use std::path::{Path, PathBuf};
use std::process::{Child, Command, Output, Stdio};
use std::thread;
use std::time::{Duration, Instant};

use uxn_filter_harness::calls::{OLD_RECORD, RECORD};
use uxn_filter_harness::compiled::repository;
use uxn_filter_harness::linked::{
    self, after, assert_writes, assert_written, begun, ends, failing, feed, file, full, pipe,
    signal, Conversion, Written, BLOCK_BYTES, IS_FOLDER, NARROW, NOT_OPEN, NOT_READ, NO_FILE,
    NO_READER, NO_SPACE, NO_TEXT, OUTPUT, PATIENCE, STDIN, WIDEN,
};
use uxn_filter_harness::moves::Due;
use uxn_filter_harness::pair::say;
use uxn_filter_harness::random::{seed, Random};
use uxn_filter_harness::records::{any_good, changed, new_kinds, old_kinds, record};

const BOTH: [Conversion; 2] = [WIDEN, NARROW];

/// As many data bytes as a record of both forms can have.
const MOST: usize = OLD_RECORD - 2;

/// A folder of its own for a test.
fn folder(test: &str) -> PathBuf {
    linked::folder(env!("CARGO_TARGET_TMPDIR"), test)
}

// Compared runs

/// Runs over a file, and how often each number came; 0 is for none.
struct Runs {
    path: PathBuf,
    seen: [u64; 17],
}

impl Runs {
    fn new(test: &str) -> Runs {
        Runs {
            path: folder(test).join("records.bin"),
            seen: [0; 17],
        }
    }

    /// A run over these bytes writes and says what is due; answers that.
    fn compare(&mut self, conversion: Conversion, bytes: &[u8]) -> Due {
        fs::write(&self.path, bytes).expect("a file is written");
        let mut command = conversion.of(&self.path);
        let output = command.stdin(Stdio::null()).output();
        let what = format!("{} of {} bytes", conversion.name, bytes.len());
        assert_written(
            &output.expect("the program runs"),
            &conversion.expected(bytes),
            what,
        );
        let due = conversion.due(bytes);
        self.seen[usize::from(*due.as_ref().err().unwrap_or(&0))] += 1;
        due
    }

    /// The same, where this number is due, or none.
    fn assert(&mut self, conversion: Conversion, bytes: &[u8], number: Option<u8>, what: &str) {
        let due = self.compare(conversion, bytes);
        assert_eq!(due.err(), number, "{}: {what}", conversion.name);
    }

    /// Each of these numbers has to have come, and no other.
    fn say_total(&self, test: &str, numbers: &[usize]) {
        let total: u64 = self.seen.iter().sum();
        let counts = numbers.iter().map(|&number| match number {
            0 => format!("{} written", self.seen[number]),
            _ => format!("{} refused with {number}", self.seen[number]),
        });
        let counts: Vec<String> = counts.collect();
        say(&format!(
            "{test}, seed {}: {total} runs compared: {}",
            seed(),
            counts.join(", ")
        ));
        for (number, &count) in self.seen.iter().enumerate() {
            let due = numbers.contains(&number);
            assert_eq!(count > 0, due, "{test}: {count} runs with {number}");
        }
    }
}

/// What comes of files that can be read: 16 of `narrow` alone.
const NUMBERS: [usize; 4] = [0, 8, 15, 16];

/// The records of every kind, those of the old form for `widen` and of the new form for `narrow`: the
/// first three are good.
fn kinds(conversion: Conversion) -> Vec<Vec<u8>> {
    match conversion.from {
        OLD_RECORD => old_kinds(),
        _ => new_kinds(),
    }
}

/// So many records that both forms have room for.
fn good_records(random: &mut Random, conversion: Conversion, count: usize) -> Vec<u8> {
    let records = (0..count).flat_map(|_| {
        let any = random.below(MOST + 1);
        let length = random.choose(&[0, any, any, MOST]);
        any_good(random, conversion.from, length)
    });
    records.collect()
}

fn blocks_of(conversion: Conversion, count: usize) -> Vec<u8> {
    let mut random = Random::new(seed());
    good_records(
        &mut random,
        conversion,
        count * BLOCK_BYTES / conversion.from,
    )
}

/// The record of this number is another one.
fn with_record(bytes: &[u8], place: usize, record: &[u8]) -> Vec<u8> {
    let mut bytes = bytes.to_vec();
    bytes[place * record.len()..][..record.len()].copy_from_slice(record);
    bytes
}

// Small files

/// Every byte is written out here.
#[test]
fn worked_cases() {
    let folder = folder("worked_cases");
    let start = [3, 5, 7, 8, 9];
    let old = [&start[..], &[0; 59], &[0; 64]].concat();
    let new = [&start[..], &[0; 123], &[0; 128]].concat();
    let [mut longest, mut longest_old] = [[9; 128]; 2];
    longest[0] = 126;
    longest_old[0] = 62;
    longest_old[64..].fill(0);
    let [mut too_long, mut past] = [[0; 128]; 2];
    too_long[0] = 127;
    past[127] = 1;
    let refused = |number: u8| Written::only_said(format!("refused {number}\n"));
    let cases: [(Conversion, &[u8], Written); 17] = [
        (WIDEN, &[], Written::only_out([])),
        (WIDEN, &old, Written::only_out(&*new)),
        (WIDEN, &longest_old[..64], Written::only_out(longest_old)),
        (WIDEN, &[0; 63], refused(15)),
        (WIDEN, &[255; 65], refused(15)),
        (WIDEN, &longest[..64], refused(8)),
        (WIDEN, &[&old[..], &past[64..]].concat(), refused(8)),
        (NARROW, &[], Written::only_out([])),
        (NARROW, &new, Written::only_out(&*old)),
        (NARROW, &longest_old, Written::only_out(&longest_old[..64])),
        (NARROW, &[0; 64], refused(15)),
        (NARROW, &[255; 129], refused(15)),
        (NARROW, &too_long, refused(8)),
        (NARROW, &past, refused(8)),
        (NARROW, &longest, refused(16)),
        (NARROW, &[longest, past].concat(), refused(8)),
        (
            NARROW,
            &[past, longest, [0; 128]].concat()[1..],
            refused(15),
        ),
    ];
    for (conversion, bytes, expected) in cases {
        let records = file(&folder, "records.bin", bytes);
        assert_writes(&mut conversion.of(&records), &[], &expected);
        // What is read is as it was.
        assert_eq!(fs::read(&records).unwrap(), bytes);
    }
}

/// The examples that `rt ci` runs.
#[test]
fn the_examples() {
    for conversion in BOTH {
        let folder = repository("crates").join(conversion.name);
        let [records, written] =
            ["data/records.bin", "stdout"].map(|name| fs::read(folder.join(name)).unwrap());
        assert!(!written.is_empty(), "records are written");
        assert!(conversion.due(&records) == Ok(written.clone()));
        let mut command = conversion.of(folder.join("data/records.bin"));
        assert_writes(&mut command, &[], &Written::only_out(written));
    }
}

#[test]
fn every_small_length() {
    let mut runs = Runs::new("every_small_length");
    let mut random = Random::new(seed());
    let mut any = vec![0; 300];
    random.fill(&mut any);
    // As records of the new form these have bytes past their data, and the next ones are too long.
    let longest = record(OLD_RECORD, 9, &[0xff; 62]).repeat(5);
    let too_long = record(RECORD, 9, &[0xff; 63]).repeat(3);
    for conversion in BOTH {
        let good = record(conversion.from, 9, &[1, 2, 3]).repeat(5);
        for length in 0..=300 {
            for file in [&vec![0; 300], &any, &longest, &too_long, &good] {
                runs.compare(conversion, &file[..length]).ok();
            }
        }
    }
    runs.say_total("every small length", &NUMBERS);
}

/// Lists of at most two records of every kind, each length byte, and each byte past the data.
#[test]
fn records_of_every_kind() {
    let mut runs = Runs::new("records_of_every_kind");
    for conversion in BOTH {
        let kinds = kinds(conversion);
        for one in &kinds {
            runs.compare(conversion, one).ok();
            for other in &kinds {
                runs.compare(conversion, &[&one[..], other].concat()).ok();
            }
        }
        for length in 0..=255 {
            let zeros = vec![0; conversion.from];
            runs.compare(conversion, &changed(zeros, 0, length)).ok();
        }
        let good = record(conversion.from, 9, &[1, 2, 3]);
        for place in 1..conversion.from {
            let due = (place >= 5).then_some(8);
            let bytes = changed(good.clone(), place, 0x80);
            runs.assert(conversion, &bytes, due, &format!("byte {place}"));
        }
    }
    runs.say_total("records of every kind", &[0, 8, 16]);
}

// Blocks

/// Every length from a record before the end of a block to a record after it, with good records.
#[test]
fn lengths_around_the_ends_of_blocks() {
    let mut runs = Runs::new("lengths_around_the_ends_of_blocks");
    for conversion in BOTH {
        let bytes = blocks_of(conversion, 3);
        for blocks in [1, 2] {
            let end = blocks * BLOCK_BYTES;
            for length in end - conversion.from..=end + conversion.from {
                let whole = length % conversion.from == 0;
                let due = (!whole).then_some(15);
                runs.assert(conversion, &bytes[..length], due, &format!("{length}"));
            }
        }
    }
    runs.say_total("lengths around the ends of blocks", &[0, 15]);
}

/// Numbers of records near the ends of blocks.
fn counts_and_places(block: usize) -> impl Iterator<Item = (usize, usize)> {
    let counts = [1, 2, 3].map(|blocks| [block * blocks - 1, block * blocks, block * blocks + 1]);
    counts.into_iter().flatten().flat_map(move |count| {
        let mut places = [1, 2, 3].map(|end| [block * end - 1, block * end]).concat();
        places.extend([0, 1, count - 2, count - 1]);
        places.sort_unstable();
        places.dedup();
        places.retain(|&place| place < count);
        places.into_iter().map(move |place| (count, place))
    })
}

/// A record of each wrong kind as the first or the last one of its block or file, in files that end with
/// a block, a record before it or a record after it; whole, and with a part record at the end.
#[test]
fn a_wrong_record_at_the_ends_of_blocks() {
    let mut runs = Runs::new("a_wrong_record_at_the_ends_of_blocks");
    for conversion in BOTH {
        let bytes = blocks_of(conversion, 4);
        let of = |count: usize| &bytes[..count * conversion.from];
        for (count, place) in counts_and_places(BLOCK_BYTES / conversion.from) {
            for (kind, wrong) in kinds(conversion).iter().enumerate().skip(3) {
                let what = format!("{count} records, at {place} one of kind {kind}");
                let number = match conversion.from {
                    RECORD if kind < 5 => 16,
                    _ => 8,
                };
                let mut file = with_record(of(count), place, wrong);
                runs.assert(conversion, &file, Some(number), &what);
                file.push(0);
                runs.assert(conversion, &file, Some(15), &what);
            }
        }
    }
    runs.say_total("a wrong record at the ends of blocks", &[8, 15, 16]);
}

/// Every set of reasons to be refused, with the records at every two ends of four blocks, the last of
/// them not full: 15 before 8, 8 before 16, wherever they stand.
#[test]
fn refusals_in_their_order_over_blocks() {
    let mut runs = Runs::new("refusals_in_their_order_over_blocks");
    for conversion in BOTH {
        let block = BLOCK_BYTES / conversion.from;
        let mut bytes = blocks_of(conversion, 4);
        bytes.truncate((3 * block + 2) * conversion.from);
        let kinds = kinds(conversion);
        let [first_broken, last_broken] = [
            kinds[kinds.len() - 4].clone(),
            kinds.last().unwrap().clone(),
        ];
        let too_long = record(conversion.from, 5, &vec![1; conversion.from - 2]);
        let ends = [1, 2, 3].map(|end| [block * end - 1, block * end]).concat();
        let places: Vec<usize> = [0].into_iter().chain(ends).chain([3 * block + 1]).collect();
        for (at, other) in places
            .iter()
            .flat_map(|&at| places.iter().map(move |&other| (at, other)))
            .filter(|(at, other)| at != other)
        {
            for broken in [&first_broken, &last_broken] {
                for reasons in 0..8 {
                    let [has_part, has_broken, is_too_long] =
                        [4, 2, 1].map(|reason| reasons & reason != 0);
                    let mut file = bytes.clone();
                    if is_too_long {
                        // In the old form there is none: it is a good record there.
                        file = with_record(&file, other, &too_long);
                    }
                    if has_broken {
                        file = with_record(&file, at, broken);
                    }
                    if has_part {
                        file.pop();
                    }
                    let number = match () {
                        () if has_part => Some(15),
                        () if has_broken => Some(8),
                        () if is_too_long && conversion.from == RECORD => Some(16),
                        () => None,
                    };
                    let what = format!("reasons {reasons}, broken at {at}, too long at {other}");
                    runs.assert(conversion, &file, number, &what);
                }
            }
        }
    }
    runs.say_total("refusals in their order over blocks", &NUMBERS);
}

// There and back, and random files

/// Files of some megabytes, from file to file: what comes back is what was there.
#[test]
fn large_files_there_and_back() {
    let folder = folder("large_files_there_and_back");
    let mut random = Random::new(seed());
    let start = Instant::now();
    let mut total = 0;
    for (there, back) in [(WIDEN, NARROW), (NARROW, WIDEN)] {
        for count in [1, 40_000, 70_003] {
            let bytes = good_records(&mut random, there, count);
            let first = file(&folder, "first.bin", &bytes);
            let moved = |conversion: Conversion, from: &Path, name: &str| {
                let to = folder.join(name);
                let output = conversion
                    .of(from)
                    .stdout(File::create(&to).expect("a file is made"))
                    .output()
                    .expect("the program runs");
                assert_written(&output, &Written::only_out([]), name);
                to
            };
            let second = moved(there, &first, "second.bin");
            let third = moved(back, &second, "third.bin");
            let what = format!("{} and back, {count} records", there.name);
            assert!(there.due(&bytes) == Ok(fs::read(second).unwrap()), "{what}");
            assert!(fs::read(third).unwrap() == bytes, "{what}");
            assert!(fs::read(first).unwrap() == bytes, "{what}");
            // From a file to a pipe.
            let output = there.of(folder.join("first.bin")).output();
            let output = output.expect("the program runs");
            assert_written(&output, &there.expected(&bytes), &what);
            total += bytes.len();
        }
    }
    let time = start.elapsed();
    say(&format!(
        "there and back, seed {}: {total} bytes in {time:?}",
        seed()
    ));
}

/// Files of up to some blocks, most of them with few records that are changed, cut off or broken.
#[test]
fn random_files() {
    let mut runs = Runs::new("random_files");
    let mut random = Random::new(seed());
    for turn in 0..600 {
        let conversion = BOTH[turn % 2];
        let block = BLOCK_BYTES / conversion.from;
        let most = random.choose(&[3, 50, 3 * block]);
        let count = match turn % 5 {
            0 => block * random.below(4),
            _ => random.below(most),
        };
        let mut bytes = good_records(&mut random, conversion, count);
        let kinds = kinds(conversion);
        for _ in 0..random.choose(&[0, 0, 1, 2]).min(count) {
            let place = random.below(count);
            let kind = random.below(kinds.len());
            bytes = with_record(&bytes, place, &kinds[kind]);
        }
        if !bytes.is_empty() && random.one_in(3) {
            let place = random.below(bytes.len());
            bytes[place] = random.choose(&[0, 1, 62, 63, 126, 127, 255]);
        }
        if random.one_in(5) {
            bytes.truncate(random.below(bytes.len() + 1));
        }
        runs.compare(conversion, &bytes).ok();
    }
    runs.say_total("random files", &NUMBERS);
}

// Names

const NO_SUCH_DEVICE: &str = "No such device or address";

#[test]
fn what_can_not_be_read() {
    let folder = folder("what_can_not_be_read");
    let records = file(&folder, "records.bin", &[0; 2 * RECORD]);
    let missing = folder.join("missing");
    let below = records.join("below");
    let loops = folder.join("loops");
    symlink(&loops, &loops).expect("a link is made");
    let nowhere = folder.join("nowhere");
    symlink(&missing, &nowhere).expect("a link is made");
    // The path that a socket is made by must not be long.
    let opened = File::open(&folder).expect("the folder opens");
    let short = format!("/proc/self/fd/{}/socket", opened.as_raw_fd());
    let _listener = UnixListener::bind(short).expect("a socket is made");
    let socket = folder.join("socket");
    let [long_name, longest_name] = [5_000, 4_000].map(|length| PathBuf::from("x".repeat(length)));
    const TOO_LONG: &str = "File name too long";
    let cases: [(&Path, &OsStr, &str); 10] = [
        (&missing, missing.as_os_str(), NO_FILE),
        (&nowhere, nowhere.as_os_str(), NO_FILE),
        (Path::new(""), OsStr::new(""), NO_FILE),
        (Path::new("-"), OsStr::new("-"), NO_FILE),
        (&folder, folder.as_os_str(), IS_FOLDER),
        (&below, below.as_os_str(), "Not a directory"),
        (
            &loops,
            loops.as_os_str(),
            "Too many levels of symbolic links",
        ),
        (&socket, socket.as_os_str(), NO_SUCH_DEVICE),
        (&longest_name, longest_name.as_os_str(), TOO_LONG),
        (&long_name, OsStr::new("FILE"), TOO_LONG),
    ];
    for conversion in BOTH {
        for (path, what, reason) in cases {
            let expected = Written::failed(what, reason);
            assert_writes(&mut conversion.of(path), &[0; RECORD], &expected);
        }
    }

    // Where the file can be read all the same, as by root, there is nothing to see.
    let locked = file(&folder, "locked", &[0; RECORD]);
    let chmod = Command::new("chmod").arg("000").arg(&locked).status();
    assert!(chmod.expect("chmod runs").success());
    if File::open(&locked).is_err() {
        let expected = Written::failed(&locked, "Permission denied");
        for conversion in BOTH {
            assert_writes(&mut conversion.of(&locked), &[], &expected);
        }
    }
}

#[test]
fn files_by_a_link() {
    let folder = folder("files_by_a_link");
    for conversion in BOTH {
        let mut bytes = blocks_of(conversion, 2);
        bytes.truncate(bytes.len() - conversion.from);
        let [link, second, hard] = ["link", "second", "hard"]
            .map(|name| folder.join(format!("{name}-{}", conversion.name)));
        for bytes in [&bytes[..], &bytes[1..], &[]] {
            let records = file(&folder, "records.bin", bytes);
            for path in [&link, &second, &hard] {
                fs::remove_file(path).ok();
            }
            symlink(&records, &link).expect("a link is made");
            symlink(&link, &second).expect("a link is made");
            fs::hard_link(&records, &hard).expect("a link is made");
            for path in [&link, &second, &hard] {
                let mut command = conversion.of(path);
                assert_writes(&mut command, &[], &conversion.expected(bytes));
            }
        }
    }
}

/// A name is any bytes but 0 and the slash; just `--help` alone is none.
#[test]
fn names_of_any_bytes() {
    let folder = folder("names_of_any_bytes_of_records");
    let every: Vec<u8> = (1..=255).filter(|byte| *byte != b'/').collect();
    let halves = every.split_at(every.len() / 2);
    let ascii: Vec<u8> = every.iter().copied().filter(u8::is_ascii).collect();
    let names: [&[u8]; 10] = [
        halves.0,
        halves.1,
        &ascii,
        "\u{80}\u{7ff}\u{800}\u{10000}\u{10ffff}".as_bytes(),
        b"./--help",
        b"--helpx",
        b"--hel",
        b"--",
        b"-h",
        b" ",
    ];
    for conversion in BOTH {
        for bytes in names {
            let name = OsStr::from_bytes(bytes);
            let records = record(conversion.from, 9, &[1, 2, 3]);
            fs::write(folder.join(name), &records).expect("a file is written");
            let mut command = conversion.of(name);
            command.current_dir(&folder);
            // A name that is no text opens no file, whatever is there.
            let text = std::str::from_utf8(bytes).is_ok();
            let expected = match text {
                true => conversion.expected(&records),
                false => Written::failed(name, NO_TEXT),
            };
            assert_writes(&mut command, &[], &expected);
            fs::remove_file(folder.join(name)).expect("the file goes");
            let gone = if text { NO_FILE } else { NO_TEXT };
            assert_writes(&mut command, &[], &Written::failed(name, gone));
        }
    }
}

// What can not be read twice, or changes

/// What is written, and the message that it is not whole.
fn not_whole(out: impl Into<Vec<u8>>, name: impl AsRef<OsStr>) -> Written {
    const MESSAGE: &[u8] =
        b": can not be read twice, or changed meanwhile: what was written is not that file\n";
    Written {
        out: out.into(),
        said: [name.as_ref().as_bytes(), MESSAGE].concat(),
    }
}

/// The output of a run that has to end in time.
fn ended(mut child: Child, what: &str) -> Output {
    assert!(ends(&mut child), "{what} does not end");
    child.wait_with_output().expect("the program has ended")
}

/// Standard input that is a pipe: at the second pass nothing is left there.
#[test]
fn standard_input() {
    let folder = folder("standard_input");
    for conversion in BOTH {
        let whole = blocks_of(conversion, 3);
        let wrong = changed(whole.clone(), 0, 0xff);
        let lengths = [0, 1, conversion.from, 5 * conversion.from, whole.len()];
        for (bytes, length) in [&whole, &wrong]
            .into_iter()
            .flat_map(|bytes| lengths.map(|length| (bytes, length)))
        {
            let bytes = bytes[..length].to_vec();
            let expected = match conversion.due(&bytes) {
                Ok(moved) if !moved.is_empty() => not_whole([], STDIN),
                _ => conversion.expected(&bytes),
            };
            let what = format!("{} of a pipe with {length} bytes", conversion.name);
            let mut child = begun(&mut conversion.of(STDIN));
            let stdin = child.stdin.take().unwrap();
            let writer = thread::spawn(move || feed(stdin, &bytes, || (1_000, Duration::ZERO)));
            assert_written(&ended(child, &what), &expected, &what);
            writer.join().expect("the input is written");
        }

        // A file is read from its start each time; there is nothing in the device, and a connection can
        // not be opened by its name.
        let records = file(&folder, "records.bin", &whole);
        let (_ours, theirs) = UnixStream::pair().expect("a pair of sockets");
        let theirs = OwnedFd::from(theirs);
        for (input, expected) in [
            (
                Stdio::from(File::open(&records).unwrap()),
                conversion.expected(&whole),
            ),
            (Stdio::null(), Written::only_out([])),
            (theirs.into(), Written::failed(STDIN, NO_SUCH_DEVICE)),
        ] {
            let output = conversion.of(STDIN).stdin(input).output();
            assert_written(
                &output.expect("the program runs"),
                &expected,
                conversion.name,
            );
        }
    }
}

/// Waits until the process has this file open, or has it no more.
fn wait_until(process: u32, path: &Path, is_open: bool) {
    let start = Instant::now();
    loop {
        let descriptors = fs::read_dir(format!("/proc/{process}/fd"));
        let mut descriptors = descriptors.into_iter().flatten().flatten();
        let open = descriptors.any(|one| fs::read_link(one.path()).is_ok_and(|to| to == path));
        if open == is_open {
            return;
        }
        assert!(
            start.elapsed() < PATIENCE,
            "{} stays as it is",
            path.display()
        );
        thread::sleep(Duration::from_millis(1));
    }
}

/// A run over a pipe with a name, which is opened for each pass and has these bytes then. Another
/// writer comes when the program has left the pipe.
fn of_pipe(conversion: Conversion, folder: &Path, passes: &[&[u8]], what: &str) -> Output {
    let [path, out] = ["pipe", "out"].map(|name| folder.join(name));
    fs::remove_file(&path).ok();
    pipe(folder, "pipe");
    let child = conversion
        .of(&path)
        .stdin(Stdio::null())
        .stdout(File::create(&out).expect("a file is made"))
        .stderr(Stdio::piped())
        .spawn()
        .expect("the program starts");
    let process = child.id();
    let passes: Vec<Vec<u8>> = passes.iter().map(|bytes| bytes.to_vec()).collect();
    let writer = thread::spawn(move || {
        for bytes in passes {
            let to = File::options().write(true).open(&path);
            wait_until(process, &path, true);
            feed(to.expect("the pipe opens"), &bytes, || {
                (1_000, Duration::ZERO)
            });
            wait_until(process, &path, false);
        }
    });
    let mut output = ended(child, what);
    // It waits for ever if the program did not open the pipe for each pass.
    let start = Instant::now();
    while !writer.is_finished() {
        assert!(start.elapsed() < PATIENCE, "{what}: a pass is missing");
        thread::sleep(Duration::from_millis(1));
    }
    writer.join().expect("the pipe is written");
    output.stdout = fs::read(out).expect("the output");
    output
}

/// A pipe with a name has for the second pass what another writer writes.
#[test]
fn pipes_with_a_name() {
    let folder = folder("pipes_with_a_name");
    let folder = fs::canonicalize(folder).expect("the folder is there");
    let path = folder.join("pipe");
    for conversion in BOTH {
        let block = BLOCK_BYTES / conversion.from;
        let size = conversion.from;
        let all = blocks_of(conversion, 4);
        let good = &all[..(3 * block + 5) * size];
        let moved = |bytes: &[u8]| conversion.due(bytes).expect("good records");
        // A block that is refused, or with which there are more bytes than before, is not written, nor what comes after it.
        let wrong = kinds(conversion).pop().unwrap();
        let broken = with_record(good, 2 * block, &wrong);
        let broken_end = with_record(good, 3 * block + 4, &wrong);
        let cases: Vec<(&str, Vec<&[u8]>, Written)> = vec![
            ("the same", vec![good, good], Written::only_out(moved(good))),
            ("nothing", vec![good, &[]], not_whole([], &path)),
            (
                "a record less",
                vec![good, &good[size..]],
                not_whole(moved(&good[size..]), &path),
            ),
            (
                "a record more",
                vec![good, &all[..good.len() + size]],
                not_whole(moved(&all[..3 * BLOCK_BYTES]), &path),
            ),
            (
                "a byte more",
                vec![good, &all[..=good.len()]],
                not_whole(moved(&all[..3 * BLOCK_BYTES]), &path),
            ),
            (
                "a block less",
                vec![&all, &all[..3 * BLOCK_BYTES]],
                not_whole(moved(&all[..3 * BLOCK_BYTES]), &path),
            ),
            (
                "a broken record",
                vec![good, &broken],
                not_whole(moved(&good[..2 * BLOCK_BYTES]), &path),
            ),
            // It is as long as it was.
            (
                "a broken record at the end",
                vec![good, &broken_end],
                not_whole(moved(&good[..3 * BLOCK_BYTES]), &path),
            ),
            ("records after none", vec![&[], good], not_whole([], &path)),
            ("none twice", vec![&[], &[]], Written::only_out([])),
            // It is not opened again.
            ("refused", vec![&broken], Written::only_said("refused 8\n")),
            (
                "cut off",
                vec![&broken[1..]],
                Written::only_said("refused 15\n"),
            ),
        ];
        for (what, passes, expected) in cases {
            let what = format!("{} of a pipe, then {what}", conversion.name);
            let output = of_pipe(conversion, &folder, &passes, &what);
            assert_written(&output, &expected, what);
        }
    }
}

/// A file that is another one after the first pass. The second one has begun when there is a byte of its
/// output, and it waits where the pipe is full: it has not come to the last blocks then.
#[test]
fn a_file_that_changes() {
    let folder = folder("a_file_that_changes");
    for conversion in BOTH {
        let all = blocks_of(conversion, 44);
        let good = &all[..43 * BLOCK_BYTES];
        let moved = |bytes: &[u8]| conversion.due(bytes).expect("good records");
        let late = 40 * BLOCK_BYTES;
        let path = folder.join("records.bin");
        let length = |length: usize| {
            let file = File::options().write(true).open(&path);
            file.and_then(|file| file.set_len(length as u64))
                .expect("the length");
        };
        let append = |bytes: &[u8]| {
            let file = File::options().append(true).open(&path);
            file.and_then(|mut file| file.write_all(bytes))
                .expect("more bytes");
        };
        let broken = kinds(conversion).pop().unwrap();
        let put = |at: usize| {
            let file = File::options().write(true).open(&path);
            file.and_then(|file| file.write_all_at(&broken, at as u64))
                .expect("other bytes");
        };
        let whole = || Written::only_out(moved(good));
        let cut = |length: usize| not_whole(moved(&all[..length]), &path);
        let cases: [(&str, &dyn Fn(), Written); 8] = [
            ("stays", &|| (), whole()),
            ("ends with a block", &|| length(late), cut(late)),
            (
                "ends with a record",
                &|| length(late + conversion.from),
                cut(late + conversion.from),
            ),
            ("ends with a part record", &|| length(late + 1), cut(late)),
            (
                "has a record more",
                &|| append(&all[good.len()..][..conversion.from]),
                cut(good.len()),
            ),
            (
                "has a broken record",
                &|| put(late + 7 * conversion.from),
                cut(late),
            ),
            (
                "has a broken record at its end",
                &|| put(good.len() - conversion.from),
                cut(good.len() - BLOCK_BYTES),
            ),
            // What is read goes on to be there.
            (
                "is removed",
                &|| fs::remove_file(&path).expect("the file goes"),
                whole(),
            ),
        ];
        for (what, change, expected) in cases {
            let what = format!("{}: a file that {what}", conversion.name);
            fs::write(&path, good).expect("a file is written");
            let mut child = conversion
                .of(&path)
                .stdout(Stdio::piped())
                .stderr(Stdio::piped())
                .spawn()
                .expect("the program starts");
            let mut stdout = child.stdout.take().unwrap();
            let mut out = vec![0];
            stdout.read_exact(&mut out).expect("a byte comes");
            change();
            let reader = thread::spawn(move || stdout.read_to_end(&mut out).map(|_| out));
            let mut output = ended(child, &what);
            output.stdout = reader.join().unwrap().expect("the output is read");
            assert_written(&output, &expected, what);
        }
    }
}

/// A file that is appended to itself grows while it is read again. The second pass ends where it has more
/// bytes than the first one had.
#[test]
fn a_file_that_is_its_own_output() {
    let folder = folder("a_file_that_is_its_own_output");
    for conversion in BOTH {
        let good = blocks_of(conversion, 3);
        let path = folder.join("records.bin");
        fs::write(&path, &good).expect("a file is written");
        let itself = File::options().append(true).open(&path);
        let what = format!("{} of a file to itself", conversion.name);
        let child = conversion
            .of(&path)
            .stdout(itself.expect("the file is opened"))
            .stderr(Stdio::piped())
            .spawn()
            .expect("the program starts");
        let mut output = ended(child, &what);
        let after = fs::read(&path).expect("the file is read");
        assert_eq!(after[..good.len()], good, "{what}");
        output.stdout = after[good.len()..].to_vec();
        let moved = conversion.due(&good).expect("good records");
        assert_written(&output, &not_whole(moved, &path), what);
    }
}

// What the system gives them

/// A read that fails, in the place of any that there are. In the first pass nothing is written; in the
/// second one what was written before it stands.
#[test]
fn a_read_that_fails() {
    let folder = folder("a_read_of_records_that_fails");
    let failing = failing(&folder);
    for conversion in BOTH {
        let bytes = blocks_of(conversion, 2);
        let bytes = &bytes[..BLOCK_BYTES + 3 * conversion.from];
        let records = file(&folder, "records.bin", bytes);
        let nothing = || Written::failed(&records, NOT_READ);
        let first_block = || Written {
            out: conversion.due(&bytes[..BLOCK_BYTES]).expect("good records"),
            said: nothing().said,
        };
        // A block, the rest, the end; and again.
        for (read, expected) in [
            (1, nothing()),
            (2, nothing()),
            (3, nothing()),
            (4, nothing()),
            (5, first_block()),
            (6, first_block()),
            (7, conversion.expected(bytes)),
        ] {
            let mut command = failing(conversion.of(&records), read);
            assert_writes(&mut command, &[], &expected);
        }
        // Of a file that is refused there is one pass, and what is not read is not judged.
        let records = file(&folder, "records.bin", &[0xff; RECORD]);
        for (read, expected) in [
            (1, nothing()),
            (2, nothing()),
            (3, Written::only_said("refused 8\n")),
        ] {
            let mut command = failing(conversion.of(&records), read);
            assert_writes(&mut command, &[], &expected);
        }
    }
}

/// Whatever a shell has closed before; the file is opened on the numbers that are free then, and stays as
/// it is.
#[test]
fn descriptors_that_are_closed() {
    let folder = folder("descriptors_of_conversions_that_are_closed");
    for conversion in BOTH {
        let bytes = blocks_of(conversion, 2);
        let records = file(&folder, "records.bin", &bytes);
        let part = file(&folder, "part.bin", &bytes[1..]);
        let all = || conversion.expected(&bytes);
        let refused = || Written::only_said("refused 15\n");
        let unwritten = || Written::failed(OUTPUT, NOT_OPEN);
        let nothing = || Written::only_out("");
        for (closed, path, expected) in [
            ("exec <&-", &records, all()),
            ("exec 2>&-", &records, all()),
            ("exec <&- 2>&-", &records, all()),
            ("exec >&-", &records, unwritten()),
            ("exec <&- >&-", &records, unwritten()),
            ("exec >&- 2>&-", &records, nothing()),
            ("exec <&- >&- 2>&-", &records, nothing()),
            ("exec <&-", &part, refused()),
            ("exec >&-", &part, refused()),
            ("exec 2>&-", &part, nothing()),
            ("exec <&- >&- 2>&-", &part, nothing()),
        ] {
            let mut command = after(closed, conversion.name);
            assert_writes(command.arg(path), &[], &expected);
        }
        assert!(fs::read(&records).unwrap() == bytes);
        assert!(fs::read(&part).unwrap() == bytes[1..]);
    }
}

/// Where nothing is to be written, a device that takes nothing does no harm.
#[test]
fn a_full_device() {
    let folder = folder("a_full_device_for_records");
    for conversion in BOTH {
        let bytes = blocks_of(conversion, 3);
        let no_space = || Written::failed(OUTPUT, NO_SPACE);
        for (bytes, expected) in [
            (&bytes[..conversion.from], no_space()),
            (&bytes[..BLOCK_BYTES], no_space()),
            (&bytes, no_space()),
            (&[], Written::only_out("")),
            (&bytes[1..], Written::only_said("refused 15\n")),
        ] {
            let records = file(&folder, "records.bin", bytes);
            let child = conversion
                .of(&records)
                .stdout(full())
                .stderr(Stdio::piped())
                .spawn()
                .expect("the program starts");
            let output = ended(child, conversion.name);
            assert_written(&output, &expected, conversion.name);
        }
    }
}

/// A reader that takes some bytes, and one that takes none.
#[test]
fn a_reader_that_leaves() {
    let folder = folder("a_reader_of_records_that_leaves");
    for conversion in BOTH {
        let bytes = blocks_of(conversion, 20);
        let records = file(&folder, "records.bin", &bytes);
        let moved = conversion.due(&bytes).expect("good records");
        // Whether or not the shell ignores the signal of a closed pipe, the write fails.
        for (shell, taken) in ["true", "trap '' PIPE"]
            .into_iter()
            .flat_map(|shell| [0, 1, 100_000].map(|taken| (shell, taken)))
        {
            let mut child = after(shell, conversion.name)
                .arg(&records)
                .stdout(Stdio::piped())
                .stderr(Stdio::piped())
                .spawn()
                .expect("the program starts");
            let mut stdout = child.stdout.take().unwrap();
            let mut some = vec![0; taken];
            stdout.read_exact(&mut some).expect("some bytes come");
            assert!(some == moved[..taken], "{taken} bytes");
            drop(stdout);
            let output = ended(child, conversion.name);
            assert_written(&output, &Written::failed(OUTPUT, NO_READER), shell);
        }
    }
}

/// A program that is stopped while it writes, and goes on: a write may then have taken a part alone.
#[test]
fn writes_that_are_interrupted() {
    let folder = folder("writes_that_are_interrupted");
    for conversion in BOTH {
        let bytes = blocks_of(conversion, 10);
        let records = file(&folder, "records.bin", &bytes);
        let mut child = conversion
            .of(&records)
            .stdout(Stdio::piped())
            .stderr(Stdio::piped())
            .spawn()
            .expect("the program starts");
        let mut stdout = child.stdout.take().unwrap();
        let mut out = Vec::new();
        for _ in 0..10 {
            let mut some = [0; 10_000];
            stdout.read_exact(&mut some).expect("some bytes come");
            out.extend(some);
            // It has filled the pipe again, and waits.
            thread::sleep(Duration::from_millis(5));
            signal(&child, "-STOP");
            thread::sleep(Duration::from_millis(2));
            signal(&child, "-CONT");
        }
        let reader = thread::spawn(move || stdout.read_to_end(&mut out).map(|_| out));
        let mut output = ended(child, conversion.name);
        output.stdout = reader.join().unwrap().expect("the output is read");
        assert_written(&output, &conversion.expected(&bytes), conversion.name);
    }
}

/// Where the number can not be said, nothing is written all the same.
#[test]
fn standard_error_that_takes_nothing() {
    let folder = folder("standard_error_of_conversions_that_takes_nothing");
    let part = file(&folder, "part.bin", &[0; RECORD + 1]);
    for conversion in BOTH {
        let status = |said: Stdio| {
            let child = conversion
                .of(&part)
                .stdout(Stdio::piped())
                .stderr(said)
                .spawn();
            let output = ended(child.expect("the program starts"), conversion.name);
            assert_eq!(output.stdout, []);
            output.status
        };
        assert_eq!(status(full()).code(), Some(0));
        let (reader, writer) = io::pipe().expect("a pipe");
        drop(reader);
        assert_eq!(status(writer.into()).code(), Some(0));
    }
}
