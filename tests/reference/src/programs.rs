//! What the programs `linkplan`, `linkcnf`, `linkdimacs` and `linkrules` print.

use crate::calls::{self, Answer};
use crate::clauses;
use crate::dimacs;
use crate::file::{self, Refusal, CLAUSES, LITERALS, RECORD_HEAD};
use crate::meaning::ON;
use crate::search::{Outcome, Searched};

pub const BUDGET: u32 = 1_000_000;
pub const ROOM: usize = 16_384;

pub fn linkplan(file: &[u8]) -> String {
    // A refused file has no variables, and its refusal comes before the result is looked at.
    let variables = file::read(file).map_or(0, |plan| plan.variables);
    let mut result = vec![0; variables];
    let (outcome, branchings) = match calls::search(file, BUDGET, &mut result) {
        Answer::Plan(branchings) => (Outcome::Plan(result), branchings),
        Answer::Impossible(branchings) => (Outcome::Impossible, branchings),
        Answer::Undecided(branchings) => (Outcome::Undecided, branchings),
        Answer::Refused(refusal) => return refusal_line(refusal),
        other => unreachable!("search answered {other:?}"),
    };
    searched_lines(&Searched {
        outcome,
        branchings,
    })
}

/// The verdict, the plan if there is one, and the count.
pub fn searched_lines(searched: &Searched) -> String {
    let verdict = match &searched.outcome {
        Outcome::Plan(values) => format!("s SATISFIABLE\n{}", plan_line(values)),
        Outcome::Impossible => "s UNSATISFIABLE\n".into(),
        Outcome::Undecided => "s UNKNOWN\n".into(),
    };
    format!("{verdict}c branchings {}\n", searched.branchings)
}

/// All variables with sign and a closing 0.
fn plan_line(values: &[i8]) -> String {
    let mut line = String::from("v");
    for (place, &value) in values.iter().enumerate() {
        let sign = if value == ON { "" } else { "-" };
        line += &format!(" {sign}{}", place + 1);
    }
    line + " 0\n"
}

pub fn linkcnf(file: &[u8]) -> String {
    let mut out = vec![0; ROOM];
    match calls::write_clauses(file, &mut out) {
        Answer::Written { numbers, .. } => clauses::lines(&out[..numbers]),
        Answer::Refused(refusal) => refusal_line(refusal),
        other => unreachable!("write_clauses answered {other:?}"),
    }
}

/// The whole text, however long it is.
pub fn linkdimacs(file: &[u8]) -> String {
    let writable = file::read(file).and_then(|plan| calls::check_writable(&plan).map(|()| plan));
    match writable {
        Ok(plan) => dimacs::print(&plan),
        Err(refusal) => refusal_line(refusal),
    }
}

/// `file` is what the argument names, `text` what comes on standard input.
pub fn linkrules(file: &[u8], text: &[u8]) -> Vec<u8> {
    let mut records = vec![0; dimacs::record_bytes(CLAUSES, LITERALS)];
    match calls::read_dimacs(file, text, &mut records) {
        Answer::Rules { clauses, literals } => {
            let (before, end) = file.split_at(file.len() - RECORD_HEAD);
            let records = &records[..dimacs::record_bytes(clauses, literals)];
            [before, records, end].concat()
        }
        Answer::Refused(refusal) => refusal_line(refusal).into_bytes(),
        other => unreachable!("read_dimacs answered {other:?}"),
    }
}

fn refusal_line(refusal: Refusal) -> String {
    format!("r {} {}\n", refusal.number, refusal.value)
}
