//! Pages of `docs` that the tests read: fenced blocks and tables.

use std::fs;

use crate::compiled::repository;

pub fn read(name: &str) -> String {
    fs::read_to_string(repository("docs").join(name)).expect("the page")
}

/// A fenced block; its first line is a kind and, after a space, a name.
pub struct Block {
    pub kind: String,
    pub name: String,
    pub text: String,
}

pub fn blocks(page: &str) -> Vec<Block> {
    let mut blocks = Vec::new();
    let mut open: Option<Block> = None;
    for line in page.lines() {
        match (line.strip_prefix("```"), &mut open) {
            (Some(head), None) => {
                let (kind, name) = head.split_once(' ').unwrap_or((head, ""));
                open = Some(Block {
                    kind: kind.to_owned(),
                    name: name.to_owned(),
                    text: String::new(),
                });
            }
            (Some(end), Some(_)) => {
                assert_eq!(end, "", "the end of a block");
                blocks.extend(open.take());
            }
            (None, Some(block)) => {
                block.text += line;
                block.text += "\n";
            }
            (None, None) => {}
        }
    }
    assert!(open.is_none(), "a block that does not end");
    blocks
}

/// The parts of a line between bars.
pub fn cells(line: &str) -> Vec<String> {
    line.split('|').map(|cell| cell.trim().to_owned()).collect()
}

/// The rows of the table that has this head, or of all tables that have it.
pub fn table(page: &str, head: &str) -> Vec<Vec<String>> {
    let mut rows = Vec::new();
    let mut lines = page.lines();
    while lines.by_ref().any(|line| line == head) {
        // The line below the head.
        lines.next();
        rows.extend(lines.by_ref().map_while(|line| {
            let row = line.strip_prefix('|')?.strip_suffix('|')?;
            Some(cells(row))
        }));
    }
    assert!(!rows.is_empty(), "the page has no table {head}");
    rows
}
