//! The requests that `linkcalls` reads and the line it prints for each.

use crate::calls::{self, Answer};
use crate::judge::Judgement;
use std::fmt::{Display, Write};

pub const READ: u8 = 1;
pub const JUDGE: u8 = 2;
pub const CLOSE: u8 = 3;
pub const REASON: u8 = 4;
pub const SEARCH: u8 = 5;
pub const WRITE_CLAUSES: u8 = 6;
pub const WRITE_DIMACS: u8 = 7;
pub const READ_DIMACS: u8 = 8;

/// A longer file or a larger room makes a request bad.
pub const MOST_FILE_BYTES: usize = 20_480;
pub const MOST_ROOM: usize = 20_480;

/// A longer text has no room in the two bytes of its length.
pub const MOST_TEXT_BYTES: usize = 65_535;

/// Every place of a lent buffer before the call.
pub const BEFORE: i8 = 77;

pub const BAD_REQUEST: &str = "bad request";

#[derive(Clone, Debug, Default, PartialEq, Eq)]
pub struct Request {
    pub call: u8,
    pub file: Vec<u8>,
    /// The assignment; for `read_dimacs` the text's bytes stand here.
    pub assignment: Vec<i8>,
    pub atom: u16,
    pub budget: u32,
    pub room: u16,
}

impl Request {
    pub fn read(file: Vec<u8>) -> Request {
        Request {
            call: READ,
            file,
            ..Request::default()
        }
    }

    pub fn set_text(&mut self, text: &[u8]) {
        self.assignment = text.iter().map(|&byte| byte as i8).collect();
    }

    pub fn text(&self) -> Vec<u8> {
        self.assignment.iter().map(|&value| value as u8).collect()
    }

    pub fn to_bytes(&self) -> Vec<u8> {
        let mut bytes = vec![self.call];
        bytes.extend((self.file.len() as u16).to_be_bytes());
        bytes.extend(&self.file);
        bytes.extend((self.assignment.len() as u16).to_be_bytes());
        bytes.extend(self.text());
        bytes.extend(self.atom.to_be_bytes());
        bytes.extend(self.budget.to_be_bytes());
        bytes.extend(self.room.to_be_bytes());
        bytes
    }
}

/// The whole stream of some requests.
pub fn stream(requests: &[Request]) -> Vec<u8> {
    requests.iter().flat_map(Request::to_bytes).collect()
}

/// The bytes of a stream not yet read.
struct Rest<'a>(&'a [u8]);

impl<'a> Rest<'a> {
    fn take(&mut self, count: usize) -> Option<&'a [u8]> {
        let (taken, rest) = self.0.split_at_checked(count)?;
        self.0 = rest;
        Some(taken)
    }

    fn number(&mut self, bytes: usize) -> Option<usize> {
        let taken = self.take(bytes)?;
        Some(
            taken
                .iter()
                .fold(0, |sum, &byte| sum << 8 | usize::from(byte)),
        )
    }

    /// `None` where the request is cut off or asks for more than it may.
    fn request(&mut self) -> Option<Request> {
        let call = self.number(1)? as u8;
        let length = self.number(2).filter(|&length| length <= MOST_FILE_BYTES)?;
        let file = self.take(length)?.to_vec();
        let length = self.number(2)?;
        let assignment = self.take(length)?.iter().map(|&byte| byte as i8).collect();
        let atom = self.number(2)? as u16;
        let budget = self.number(4)? as u32;
        let room = self.number(2).filter(|&room| room <= MOST_ROOM)? as u16;
        let known = (READ..=READ_DIMACS).contains(&call);
        known.then_some(Request {
            call,
            file,
            assignment,
            atom,
            budget,
            room,
        })
    }
}

/// The good requests of a stream, and whether it ends well.
pub fn requests(stream: &[u8]) -> (Vec<Request>, bool) {
    let mut rest = Rest(stream);
    let mut requests = Vec::new();
    while !rest.0.is_empty() {
        match rest.request() {
            Some(request) => requests.push(request),
            None => return (requests, false),
        }
    }
    (requests, true)
}

/// What `linkcalls` prints for a whole stream.
pub fn answers(stream: &[u8]) -> String {
    let (requests, good) = requests(stream);
    let mut lines = String::new();
    for request in &requests {
        lines += &line(request);
        lines.push('\n');
    }
    if !good {
        lines += BAD_REQUEST;
        lines.push('\n');
    }
    lines
}

/// What `linkcalls` prints for one request, without the line's end.
pub fn line(request: &Request) -> String {
    let file = &request.file;
    let room = usize::from(request.room);
    match request.call {
        READ => text(calls::read(file)),
        JUDGE => text(calls::judge(file, &request.assignment)),
        CLOSE => {
            let mut result = vec![BEFORE; room];
            let answer = calls::close(file, &request.assignment, &mut result);
            text(answer) + &places(&result)
        }
        REASON => {
            let mut out = vec![i16::from(BEFORE); room];
            let atom = request.atom.into();
            let answer = calls::reason(file, &request.assignment, atom, &mut out);
            text(answer) + &places(&out)
        }
        SEARCH => {
            let mut result = vec![BEFORE; room];
            let answer = calls::search(file, request.budget, &mut result);
            text(answer) + &places(&result)
        }
        WRITE_CLAUSES => {
            let mut out = vec![i32::from(BEFORE); room];
            let answer = calls::write_clauses(file, &mut out);
            text(answer) + &places(&out)
        }
        WRITE_DIMACS => {
            let mut out = vec![BEFORE as u8; room];
            let answer = calls::write_dimacs(file, &mut out);
            text(answer) + &places(&out)
        }
        _ => {
            let mut out = vec![BEFORE as u8; room];
            let answer = calls::read_dimacs(file, &request.text(), &mut out);
            text(answer) + &places(&out)
        }
    }
}

/// ` :` and every place of the buffer, each behind one blank.
fn places<T: Display>(buffer: &[T]) -> String {
    let mut text = String::from(" :");
    for place in buffer {
        write!(text, " {place}").expect("a string takes everything");
    }
    text
}

pub fn text(answer: Answer) -> String {
    match answer {
        Answer::Accepted {
            nodes,
            variables,
            edges,
            atoms,
            clauses,
            literals,
        } => {
            format!("accepted {nodes} {variables} {edges} {atoms} {clauses} {literals}")
        }
        Answer::Judged(Judgement::Plan) => "plan".into(),
        Answer::Judged(Judgement::Clause(number)) => format!("clause {number}"),
        Answer::Judged(Judgement::Atom(number)) => format!("atom {number}"),
        Answer::Closed => "closed".into(),
        Answer::Clash => "clash".into(),
        Answer::Holds(count) => format!("holds {count}"),
        Answer::Fails(count) => format!("fails {count}"),
        Answer::Open => "open".into(),
        Answer::Plan(branchings) => format!("plan {branchings}"),
        Answer::Impossible(branchings) => format!("impossible {branchings}"),
        Answer::Undecided(branchings) => format!("undecided {branchings}"),
        Answer::Written {
            variables,
            clauses,
            numbers,
        } => {
            format!("written {variables} {clauses} {numbers}")
        }
        Answer::Printed(bytes) => format!("printed {bytes}"),
        Answer::Rules { clauses, literals } => format!("rules {clauses} {literals}"),
        Answer::Refused(refusal) => format!("refused {} {}", refusal.number, refusal.value),
    }
}
