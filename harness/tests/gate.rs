//! `.ci/verdicts`, by which the gate reads what rt ci printed: it takes a verdict for each crate that
//! is listed, and nothing less.

use std::fs;
use std::process::{id, Command};

use uxn_filter_harness::compiled::repository;

const VERDICT: &str = "logic=proved functions=3 sum=dac8208d650f15bf native=nat,char,string \
                       logic-built=trusted libraries-built=trusted statements=trusted";
const PROGRAM_VERDICT: &str =
    "logic=proved functions=3 axioms=5 target=x86_64-unknown-linux-gnu cpu=x86-64-v2 \
     sum=dac8208d650f15bf native=nat,char,string logic-built=trusted libraries-built=trusted \
     statements=trusted";
/// What rt ci says of a crate that an earlier run proved, in the place of its verdict.
const KEPT: &str =
    "is kept: an earlier run on this machine proved the same files over the same libraries";
/// What rt ci prints after the proofs.
const REST: &str =
    "rt: must-fail model/word: refused, as it must be (first at specs/Bytes.antt:3:1; 4 s)\n\
                    rt: sheet ran as nobody, and wrote what its file 'stdout' has (0 s)\n\
                    rt: ok; handles allowed: none; must-fail edits: 162 refused; every proof and must-fail edit was done in this run\n\
                    183 passed, 0 failed\n";

struct Crate {
    name: String,
    verdict: String,
    proved: String,
}

impl Crate {
    fn text(&self) -> String {
        let Crate {
            name,
            verdict,
            proved,
        } = self;
        format!(
            "fn {name}::first: proved\nlibrary std: modules loaded=0 checked=0\n{verdict}{proved}"
        )
    }
}

fn listed() -> Vec<Crate> {
    let list = fs::read_to_string(repository("crates.txt")).expect("the list");
    let lines = list.lines().filter(|line| !line.starts_with('#'));
    let names = lines.filter_map(|line| line.split([':', ' ']).next());
    let listed = names.map(|name| {
        let program = repository("crates").join(name).join("src/main.rt");
        let (verdict, linked) = match program.is_file() {
            true => (PROGRAM_VERDICT, "linked target=x86_64-unknown-linux-gnu\n"),
            false => (VERDICT, ""),
        };
        Crate {
            name: name.to_owned(),
            verdict: format!("{verdict}\n"),
            proved: format!("{linked}rt: {name} proved\n"),
        }
    });
    listed.collect()
}

/// What the script says of a log, and whether it passes it.
fn judged(case: &str, crates: &[Crate], rest: &str) -> (bool, String) {
    let log = std::env::temp_dir().join(format!(
        "uxn-filter-gate-{}-{}",
        id(),
        case.replace(' ', "-")
    ));
    let proofs: String = crates.iter().map(Crate::text).collect();
    fs::write(&log, proofs + rest).expect("a log");
    let run = Command::new(repository(".ci/verdicts")).arg(&log).output();
    let _ = fs::remove_file(&log);
    let output = run.expect("the script");
    let said = String::from_utf8_lossy(&output.stdout).into_owned();
    (output.status.success(), said)
}

fn refused(case: &str, crates: &[Crate], rest: &str) {
    let (passed, said) = judged(case, crates, rest);
    assert!(!passed && said.starts_with("verdicts: "), "{case}: {said}");
}

#[test]
fn a_verdict_for_each_crate() {
    let crates = listed();
    assert!(crates.len() > 2);
    let (passed, said) = judged("all", &crates, REST);
    assert!(passed && said.is_empty(), "{said}");
    refused("no log", &[], "");
    refused("no proofs", &[], REST);
}

/// What is changed, and how.
type Change = (&'static str, fn(&mut Crate));

/// The lines of one crate are changed: of the first one, one between, the last one.
#[test]
fn a_verdict_that_is_missing_or_another() {
    let changes: [Change; 15] = [
        ("no verdict", |one| one.verdict.clear()),
        ("no line of the crate", |one| one.proved.clear()),
        ("neither", |one| {
            one.verdict.clear();
            one.proved.clear();
        }),
        ("twice the verdict", |one| {
            one.verdict += &one.verdict.clone()
        }),
        ("twice the line", |one| one.proved += &one.proved.clone()),
        ("twice both", |one| one.proved += &one.text()),
        ("the verdict behind", |one| {
            one.proved += &std::mem::take(&mut one.verdict)
        }),
        ("not proved", |one| {
            one.verdict = one.verdict.replace("=proved", "=not-proved")
        }),
        ("another first word", |one| {
            one.verdict.insert_str(0, "note: ")
        }),
        ("not of this run", |one| {
            one.proved = one.proved.replace(
                " proved\n",
                " proved (unchanged since it was last proved)\n",
            );
        }),
        ("of the quick loop", |one| {
            one.verdict = one.verdict.replace(" sum=", " incremental=trusted sum=");
        }),
        ("C functions of its own", |one| {
            one.verdict = one.verdict.replace(" sum=", " foreign=1 sum=");
        }),
        ("no number of functions", |one| {
            one.verdict = one.verdict.replace("functions=3 ", "");
        }),
        ("a line cut short", |one| {
            one.verdict = "logic=proved functions=3 ax ...[rt: cut, 90 more]\n".to_owned();
        }),
        ("the name of no crate", |one| {
            one.proved = one.proved.replace(&one.name, "nobody");
        }),
    ];
    for (case, change) in changes {
        let last = listed().len() - 1;
        for at in [0, last / 2, last] {
            let mut crates = listed();
            change(&mut crates[at]);
            refused(&format!("{case} {}", crates[at].name), &crates, REST);
        }
    }
}

#[test]
fn a_library_with_an_axiom() {
    for at in 0..listed().len() {
        let mut crates = listed();
        let one = &mut crates[at];
        let program = one.verdict.contains("axioms=");
        one.verdict = format!("{PROGRAM_VERDICT}\n");
        let case = format!("axiom {}", one.name);
        let (passed, said) = judged(&case, &crates, REST);
        assert_eq!(passed, program, "{case}: {said}");
    }
}

#[test]
fn a_verdict_of_no_crate() {
    refused("a further one", &listed(), &format!("{VERDICT}\n"));
    refused(
        "a further crate",
        &listed(),
        &format!("{VERDICT}\nrt: further proved\n{REST}"),
    );
}

/// A crate that is kept has one line, and no verdict.
#[test]
fn a_crate_that_is_kept() {
    let last = listed().len() - 1;
    let kept = |crates: &mut Vec<Crate>, at: usize, line: &str| {
        crates[at].verdict.clear();
        crates[at].proved = format!("rt: {} {line}\n", crates[at].name);
    };
    for at in [0, last / 2, last] {
        let mut crates = listed();
        kept(&mut crates, at, KEPT);
        let (passed, said) = judged(&format!("kept {at}"), &crates, REST);
        assert!(passed && said.is_empty(), "{said}");
        crates[at].verdict = format!("{VERDICT}\n");
        refused(&format!("kept and proved {at}"), &crates, REST);
        kept(&mut crates, at, "is kept: nobody knows why");
        refused(&format!("kept otherwise {at}"), &crates, REST);
        let line = crates[at].proved.clone();
        kept(&mut crates, at, KEPT);
        crates[at].proved += &line;
        refused(&format!("kept twice {at}"), &crates, REST);
    }
    let mut crates = listed();
    for at in 0..=last {
        kept(&mut crates, at, KEPT);
    }
    let (passed, said) = judged("all kept", &crates, REST);
    assert!(passed && said.is_empty(), "{said}");
}
