//! Requests whose answers are written by hand; the reference and brute force only
//! confirm them.

use super::brute_read;
use crate::brute;
use crate::file::read;
use crate::protocol::{line, Request, READ, READ_DIMACS};
use std::io::{Error, Result};

/// A request with the beginning of its line.
pub struct Answered {
    pub request: Request,
    expected: String,
}

impl Answered {
    pub fn new(request: Request, expected: &str) -> Answered {
        Answered {
            request,
            expected: expected.into(),
        }
    }

    /// Whether the reference and brute force say what is expected.
    pub fn confirm(&self) -> Result<()> {
        let said = line(&self.request);
        let answer = answer_of(&self.expected);
        let again = brute_answer(&self.request).unwrap_or(answer.into());
        if said.starts_with(&self.expected) && answer_of(&said) == answer && again == answer {
            return Ok(());
        }
        Err(Error::other(format!(
            "call {}, text {}: expected {}, said {said}, brute {again}",
            self.request.call,
            self.request.text().escape_ascii(),
            self.expected
        )))
    }
}

/// A line without the places of its buffer.
fn answer_of(line: &str) -> &str {
    line.split(" :").next().unwrap_or("")
}

/// What brute force says of a file; or of a text, where its file is good and its room
/// is not in question.
fn brute_answer(request: &Request) -> Option<String> {
    if request.call == READ {
        return Some(brute_read(&request.file));
    }
    let plan = read(&request.file).ok()?;
    if request.call != READ_DIMACS || line(request).starts_with("refused 12") {
        return None;
    }
    let given = [plan.variables, plan.clauses.len(), plan.literals()];
    Some(match brute::rules::read(given, &request.text()) {
        Ok(clauses) => format!("rules {} {}", clauses.len(), clauses.concat().len()),
        Err(refusal) => format!("refused {} {}", refusal.number, refusal.value),
    })
}
