//! The stored plan files: every refusal number of the reader, every limit at it
//! and one past it. Each case says its expected answer by hand; the reference
//! only confirms it before a file is written.

mod accepted;
mod answered;
mod ask;
pub mod calls;
mod contents;
mod empty;
mod lengths;
mod order;
mod refused;
mod texts;

use crate::brute;
use crate::calls::read;
use crate::protocol::{text, Request};
use crate::write::{end, head};
use std::fs;
use std::io::{Error, Result};
use std::path::Path;

/// The offset of the record behind the head.
const SECOND: usize = 7;

/// A head for 3 nodes and 5 variables, one record, and the end.
fn around(record: Vec<u8>) -> Vec<u8> {
    [head(3, 5), record, end()].concat()
}

/// A file with its expected answer of `read`.
pub struct Case {
    name: String,
    what: String,
    file: Vec<u8>,
    expected: String,
}

/// The cases as they are collected.
#[derive(Default)]
pub struct Cases(Vec<Case>);

impl Cases {
    fn add(&mut self, name: &str, what: &str, file: Vec<u8>, expected: String) {
        self.0.push(Case {
            name: name.into(),
            what: what.into(),
            file,
            expected,
        });
    }

    fn refused(&mut self, number: u32, offset: usize, name: &str, what: &str, file: Vec<u8>) {
        let name = format!("refused-{number}-{name}");
        self.add(&name, what, file, format!("refused {number} {offset}"));
    }

    /// `counts`: nodes, variables, edges, atoms, clauses, literals.
    fn accepted(&mut self, counts: [usize; 6], name: &str, what: &str, file: Vec<u8>) {
        let counts = counts.map(|count| count.to_string()).join(" ");
        self.add(
            &format!("accepted-{name}"),
            what,
            file,
            format!("accepted {counts}"),
        );
    }
}

pub fn cases() -> Vec<Case> {
    let mut cases = Cases::default();
    accepted::add(&mut cases);
    refused::add(&mut cases);
    contents::add(&mut cases);
    order::add(&mut cases);
    cases.0
}

const INDEX: &str = "index.txt";

const INDEX_HEAD: &str = "\
# Stored plan files: name, expected answer of read, what it is.
# refused NUMBER VALUE | accepted NODES VARIABLES EDGES ATOMS CLAUSES LITERALS
";

/// Writes all files and the index; refuses to if an expectation does not hold.
pub fn write_files(folder: &Path) -> Result<()> {
    fs::create_dir_all(folder)?;
    let mut index = String::from(INDEX_HEAD);
    for case in cases() {
        confirm(&case)?;
        let name = format!("{}.plan", case.name);
        fs::write(folder.join(&name), &case.file)?;
        index += &format!("{name:<42} {:<32} {}\n", case.expected, case.what);
    }
    fs::write(folder.join(INDEX), index)
}

/// What brute force says of a file.
fn brute_read(file: &[u8]) -> String {
    match brute::reader::read(file) {
        Ok(counts) => format!(
            "accepted {}",
            counts.map(|count| count.to_string()).join(" ")
        ),
        Err(refusal) => format!("refused {} {}", refusal.number, refusal.value),
    }
}

fn confirm(case: &Case) -> Result<()> {
    let said = text(read(&case.file));
    let again = brute_read(&case.file);
    if said == case.expected && again == case.expected {
        return Ok(());
    }
    let Case { name, expected, .. } = case;
    Err(Error::other(format!(
        "{name}: expected {expected}, read {said}, brute {again}"
    )))
}

/// The files of a folder's index as requests to read them.
pub fn requests(folder: &Path) -> Result<Vec<Request>> {
    let index = fs::read_to_string(folder.join(INDEX))?;
    let names = index.lines().filter(|line| !line.starts_with('#'));
    names
        .filter_map(|line| line.split_whitespace().next())
        .map(|name| fs::read(folder.join(name)).map(Request::read))
        .collect()
}
