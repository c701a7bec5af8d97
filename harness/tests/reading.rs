//! `docs/PROOFS.md` names what there is: every definition, law and function of a row stands in a
//! file of that row, every must-fail edit is there, and none is left out. What `docs/READING.md`
//! quotes stands in the tree, word for word. `README.md` and `CONTRIBUTING.md` name every crate.

use std::collections::BTreeSet;
use std::fs;
use std::path::{Path, PathBuf};

use uxn_filter_harness::compiled::repository;
use uxn_filter_harness::page::{self, blocks, table};

/// The head of the tables that are looked up.
const HEAD: &str = "| requirement | definition | theorem or contract | file | must-fail edits |";
/// The page had so many rows and edits when it was written; fewer would be a part of it lost.
const ROWS: usize = 130;
const EDITS: usize = 259;
/// The head of the tables of `docs/READING.md` whose last column is quoted, and what it had of these
/// rows and of blocks.
const SIGNS: &str = "| written | read | as in |";
const SIGN_ROWS: usize = 31;
const BLOCKS: usize = 13;

struct Row {
    requirement: String,
    names: Vec<String>,
    files: Vec<String>,
    edits: Vec<String>,
}

/// What stands between backticks.
fn quoted(cell: &str) -> Vec<String> {
    cell.split('`')
        .skip(1)
        .step_by(2)
        .map(str::to_owned)
        .collect()
}

fn is_name(word: &str) -> bool {
    word.starts_with(|c: char| c.is_ascii_alphabetic()) && word.chars().all(in_name)
}

fn in_name(c: char) -> bool {
    c.is_ascii_alphanumeric() || c == '_' || c == '-'
}

fn rows() -> Vec<Row> {
    let row = |cells: Vec<String>| {
        let [requirement, definition, contract, file, edits] = &cells[..] else {
            panic!("a row of five cells: {cells:?}");
        };
        let mut names = [quoted(definition), quoted(contract)].concat();
        names.retain(|name| is_name(name));
        Row {
            requirement: requirement.clone(),
            names,
            files: quoted(file),
            edits: quoted(edits),
        }
    };
    let page = page::read("PROOFS.md");
    table(&page, HEAD).into_iter().map(row).collect()
}

fn text_of(file: &Path) -> String {
    match fs::read_to_string(file) {
        Ok(text) => text,
        Err(error) => panic!("{}: {error}", file.display()),
    }
}

/// The word stands in the text, and is no part of a longer one.
fn has_word(text: &str, word: &str) -> bool {
    text.match_indices(word).any(|(at, _)| {
        let before = text[..at].chars().next_back();
        let after = text[at + word.len()..].chars().next();
        !before.is_some_and(in_name) && !after.is_some_and(in_name)
    })
}

/// `crate/edit` for every must-fail edit of the tree.
fn edits() -> BTreeSet<String> {
    let mut found = BTreeSet::new();
    for folder in entries(&repository("crates")) {
        for edit in entries(&folder.join("must-fail")) {
            let name = edit.file_stem().unwrap().to_string_lossy().into_owned();
            let of = folder.file_name().unwrap().to_string_lossy().into_owned();
            found.insert(format!("{of}/{name}"));
        }
    }
    found
}

/// The text of every definition, proof and function of the tree.
fn sources() -> Vec<String> {
    let mut found = Vec::new();
    let mut folders = vec![repository("crates")];
    while let Some(folder) = folders.pop() {
        for path in entries(&folder) {
            if path.is_dir() {
                folders.push(path);
            } else if path
                .extension()
                .is_some_and(|of| of == "antt" || of == "rt")
            {
                found.push(text_of(&path));
            }
        }
    }
    found
}

fn entries(folder: &Path) -> Vec<PathBuf> {
    let Ok(listed) = fs::read_dir(folder) else {
        return Vec::new();
    };
    listed.map(|entry| entry.unwrap().path()).collect()
}

#[test]
fn every_name_stands_in_a_file_of_its_row() {
    let rows = rows();
    assert!(rows.len() >= ROWS, "only {} rows", rows.len());
    for row in &rows {
        assert!(!row.files.is_empty(), "{}: no file", row.requirement);
        let texts: Vec<String> = row
            .files
            .iter()
            .map(|file| text_of(&repository("crates").join(file)))
            .collect();
        for name in &row.names {
            let in_path = row
                .files
                .iter()
                .any(|file| file.split('/').any(|part| part == name));
            assert!(
                in_path || texts.iter().any(|text| has_word(text, name)),
                "{}: {name} is in none of {:?}",
                row.requirement,
                row.files
            );
        }
    }
}

#[test]
fn every_edit_is_there_and_none_is_left_out() {
    let there = edits();
    assert!(there.len() >= EDITS, "only {} edits", there.len());
    let named: BTreeSet<String> = rows().into_iter().flat_map(|row| row.edits).collect();
    for edit in &named {
        assert!(there.contains(edit), "there is no edit {edit}");
    }
    for edit in &there {
        assert!(named.contains(edit), "docs/PROOFS.md does not name {edit}");
    }
}

/// An edit makes a definition or the code wrong, and not a proof.
#[test]
fn no_edit_is_one_of_a_proof() {
    for edit in edits() {
        let (of, name) = edit.split_once('/').unwrap();
        let path = format!("crates/{of}/must-fail/{name}.edit");
        let text = text_of(&repository(&path));
        let files: Vec<&str> = text
            .lines()
            .filter_map(|line| line.strip_prefix("file: "))
            .collect();
        assert!(!files.is_empty(), "{edit}");
        for file in files {
            assert!(
                file.starts_with("src/") || file.starts_with("specs/"),
                "{edit} edits {file}"
            );
        }
    }
}

/// A block names the file that it is from; a line in the last column of a table is from any file.
#[test]
fn what_is_quoted_stands_in_the_tree() {
    let page = page::read("READING.md");
    let quoted_blocks = blocks(&page);
    assert!(quoted_blocks.len() >= BLOCKS, "{}", quoted_blocks.len());
    for block in &quoted_blocks {
        let text = text_of(&repository("crates").join(&block.name));
        assert!(
            text.contains(&block.text),
            "{} has no such lines:\n{}",
            block.name,
            block.text
        );
    }
    let sources = sources();
    let rows = table(&page, SIGNS);
    assert!(rows.len() >= SIGN_ROWS, "only {} rows", rows.len());
    for row in rows {
        let lines = quoted(row.last().unwrap());
        assert!(!lines.is_empty(), "{row:?} quotes nothing");
        for line in lines {
            let stands = sources.iter().any(|text| text.contains(&line));
            assert!(stands, "no file has {line}");
        }
    }
}

#[test]
fn the_map_and_the_layers_have_every_crate() {
    let map = text_of(&repository("README.md"));
    let layers = text_of(&repository("CONTRIBUTING.md"));
    let has_row = |page: &str, text: &str| {
        let mut rows = page.lines().filter(|line| line.starts_with('|'));
        rows.any(|row| row.contains(text))
    };
    let listed = text_of(&repository("crates.txt"));
    for line in listed.lines().filter(|line| !line.starts_with('#')) {
        let name = line.split([':', ' ']).next().unwrap();
        let in_map = has_row(&map, &format!("`crates/{name}"));
        assert!(in_map, "README.md has no row for crates/{name}");
        let in_layers = has_row(&layers, &format!("`{name}`"));
        assert!(in_layers, "CONTRIBUTING.md has no layer with {name}");
    }
}
