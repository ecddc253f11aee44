//! The eight public calls on file bytes, with refusals 9 to 13 and the lent buffer.
//!
//! The reader's refusals 1 to 8 come first, then 9 to 11 or those of a text, then 13,
//! then 12.
//! A lent buffer is written last of all, so everything that is not a written
//! answer leaves it as it was.

use crate::clauses;
use crate::close;
use crate::dimacs;
use crate::file::{self, PlanFile, Refusal};
use crate::judge::{self, Judgement};
use crate::meaning::{OFF, ON, OPEN};
use crate::reason::{self, Reason};
use crate::search::{self, Outcome};

/// What a call answers. The names are those of the lines that `linkcalls` prints.
#[derive(Clone, Copy, Debug, PartialEq, Eq)]
pub enum Answer {
    Accepted {
        nodes: usize,
        variables: usize,
        edges: usize,
        atoms: usize,
        clauses: usize,
        literals: usize,
    },
    Judged(Judgement),
    Closed,
    Clash,
    Holds(usize),
    Fails(usize),
    Open,
    Plan(u32),
    Impossible(u32),
    Undecided(u32),
    Written {
        variables: usize,
        clauses: usize,
        numbers: usize,
    },
    /// The bytes of a printed text.
    Printed(usize),
    Rules {
        clauses: usize,
        literals: usize,
    },
    Refused(Refusal),
}

type Checked<T> = Result<T, Refusal>;

fn answer(checked: Checked<Answer>) -> Answer {
    checked.unwrap_or_else(Answer::Refused)
}

pub fn read(file: &[u8]) -> Answer {
    answer(file::read(file).map(|plan| Answer::Accepted {
        nodes: plan.nodes,
        variables: plan.variables,
        edges: plan.edges.len(),
        atoms: plan.atoms.len(),
        clauses: plan.clauses.len(),
        literals: plan.literals(),
    }))
}

pub fn judge(file: &[u8], assignment: &[i8]) -> Answer {
    answer(try_judge(file, assignment))
}

fn try_judge(file: &[u8], assignment: &[i8]) -> Checked<Answer> {
    let plan = file::read(file)?;
    check_length(&plan, assignment.len())?;
    check_values(assignment, &[ON, OFF])?;
    Ok(Answer::Judged(judge::judge(&plan, assignment)))
}

pub fn close(file: &[u8], given: &[i8], result: &mut [i8]) -> Answer {
    answer(try_close(file, given, result))
}

fn try_close(file: &[u8], given: &[i8], result: &mut [i8]) -> Checked<Answer> {
    let plan = file::read(file)?;
    check_length(&plan, given.len())?;
    check_length(&plan, result.len())?;
    check_values(given, &[ON, OFF, OPEN])?;
    let Ok(closed) = close::close(&plan, given) else {
        return Ok(Answer::Clash);
    };
    result.copy_from_slice(&closed);
    Ok(Answer::Closed)
}

pub fn reason(file: &[u8], assignment: &[i8], atom: usize, out: &mut [i16]) -> Answer {
    answer(try_reason(file, assignment, atom, out))
}

fn try_reason(file: &[u8], assignment: &[i8], atom: usize, out: &mut [i16]) -> Checked<Answer> {
    let plan = file::read(file)?;
    check_length(&plan, assignment.len())?;
    check_values(assignment, &[ON, OFF, OPEN])?;
    check_atom(&plan, atom)?;
    match reason::reason(&plan, assignment, &plan.atoms[atom - 1]) {
        Reason::Holds(clause) => fill(out, &clause).map(|()| Answer::Holds(clause.len())),
        Reason::Fails(clause) => fill(out, &clause).map(|()| Answer::Fails(clause.len())),
        Reason::Open => Ok(Answer::Open),
    }
}

pub fn search(file: &[u8], budget: u32, result: &mut [i8]) -> Answer {
    answer(try_search(file, budget, result))
}

fn try_search(file: &[u8], budget: u32, result: &mut [i8]) -> Checked<Answer> {
    let plan = file::read(file)?;
    check_length(&plan, result.len())?;
    let searched = search::search(&plan, budget);
    Ok(match searched.outcome {
        Outcome::Plan(values) => {
            result.copy_from_slice(&values);
            Answer::Plan(searched.branchings)
        }
        Outcome::Impossible => Answer::Impossible(searched.branchings),
        Outcome::Undecided => Answer::Undecided(searched.branchings),
    })
}

pub fn write_clauses(file: &[u8], out: &mut [i32]) -> Answer {
    answer(try_write_clauses(file, out))
}

fn try_write_clauses(file: &[u8], out: &mut [i32]) -> Checked<Answer> {
    let plan = file::read(file)?;
    check_writable(&plan)?;
    // Counted first: the list of a full file is long, and refused in any buffer we try.
    check_room(out.len(), clauses::counts(&plan).numbers)?;
    let written = clauses::write(&plan);
    fill(out, &written.numbers)?;
    Ok(Answer::Written {
        variables: written.variables,
        clauses: written.clauses,
        numbers: written.numbers.len(),
    })
}

pub fn write_dimacs(file: &[u8], out: &mut [u8]) -> Answer {
    answer(try_write_dimacs(file, out))
}

fn try_write_dimacs(file: &[u8], out: &mut [u8]) -> Checked<Answer> {
    let plan = file::read(file)?;
    check_writable(&plan)?;
    let text = dimacs::print(&plan);
    fill(out, text.as_bytes())?;
    Ok(Answer::Printed(text.len()))
}

pub fn read_dimacs(file: &[u8], text: &[u8], out: &mut [u8]) -> Answer {
    answer(try_read_dimacs(file, text, out))
}

fn try_read_dimacs(file: &[u8], text: &[u8], out: &mut [u8]) -> Checked<Answer> {
    let clauses = dimacs::read(&file::read(file)?, text)?;
    fill(out, &dimacs::records(&clauses))?;
    Ok(Answer::Rules {
        clauses: clauses.len(),
        literals: clauses.iter().map(Vec::len).sum(),
    })
}

/// Refusal 9, for assignments and results alike.
fn check_length(plan: &PlanFile, length: usize) -> Checked<()> {
    if length == plan.variables {
        Ok(())
    } else {
        Err(Refusal {
            number: 9,
            value: plan.variables,
        })
    }
}

/// Refusal 10, with the first wrong place from 0.
fn check_values(assignment: &[i8], allowed: &[i8]) -> Checked<()> {
    match assignment.iter().position(|value| !allowed.contains(value)) {
        None => Ok(()),
        Some(place) => Err(Refusal {
            number: 10,
            value: place,
        }),
    }
}

/// Refusal 11.
fn check_atom(plan: &PlanFile, atom: usize) -> Checked<()> {
    let count = plan.atoms.len();
    if (1..=count).contains(&atom) {
        Ok(())
    } else {
        Err(Refusal {
            number: 11,
            value: count,
        })
    }
}

/// Refusal 13, for both forms of the written-out clauses.
pub fn check_writable(plan: &PlanFile) -> Checked<()> {
    match plan.first_about_lengths() {
        None => Ok(()),
        Some(atom) => Err(Refusal {
            number: 13,
            value: atom,
        }),
    }
}

/// Refusal 12.
fn check_room(room: usize, needed: usize) -> Checked<()> {
    if needed <= room {
        Ok(())
    } else {
        Err(Refusal {
            number: 12,
            value: needed,
        })
    }
}

/// A written answer fills the first places of the buffer; the rest stays.
fn fill<T: Copy>(out: &mut [T], written: &[T]) -> Checked<()> {
    check_room(out.len(), written.len())?;
    out[..written.len()].copy_from_slice(written);
    Ok(())
}
