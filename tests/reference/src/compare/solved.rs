//! The stock solvers read what `linkdimacs` prints, as it is, and agree with `linkplan`.

use super::process::Programs;
use super::stock::Stock;
use super::Settings;
use crate::clauses::counts;
use crate::generate::requests::Subject;
use crate::random::Random;

/// Keeps these files apart from those of the other comparisons.
const PARTS: u64 = 4 << 40;

/// A longer list would take a solver more than a moment.
const MOST_NUMBERS: usize = 100_000;

#[derive(Default)]
pub struct Solved {
    pub plans: usize,
    pub impossible: usize,
    pub with_empty_clause: usize,
    pub with_long_edge: usize,
    /// With an atom of kind 3, and so without a text.
    pub refused: usize,
    /// The solvers that were there.
    pub stock: Vec<String>,
}

pub fn check(settings: &Settings, programs: &Programs) -> Result<Solved, String> {
    let stock = Stock::all(settings);
    let mut solved = Solved::default();
    let mut number = 0;
    while !stock.is_empty() && solved.plans + solved.impossible < settings.solved {
        let subject = draw(settings.seed, number);
        number += 1;
        let Some(subject) = subject else {
            continue;
        };
        let file = &subject.file;
        if let Some(atom) = subject.first_about_lengths() {
            let line = format!("r 13 {atom}\n");
            programs.expect("linkdimacs", &[], file, line.as_bytes())?;
            solved.refused += 1;
            continue;
        }
        let text = programs.run("linkdimacs", file)?;
        let exists = says_plan(programs, file)?;
        for solver in &stock {
            if let Err(message) = agrees(solver, &text, exists) {
                let shown = programs.difference("a text", file, b"", &text)?;
                return Err(format!("{message}\n{shown}"));
            }
        }
        match exists {
            true => solved.plans += 1,
            false => solved.impossible += 1,
        }
        solved.with_empty_clause += usize::from(subject.has_empty_clause());
        solved.with_long_edge += usize::from(subject.has_long_edge());
    }
    solved.stock = stock.into_iter().map(|solver| solver.name).collect();
    Ok(solved)
}

/// A file that `linkplan` decides. With an atom, the highest variable of the list is
/// in some clause, so that a solver can tell whether the `p` line's count is right.
fn draw(seed: u64, number: u64) -> Option<Subject> {
    let mut random = Random::part(seed, PARTS + number);
    let subject = Subject::draw(&mut random);
    let (plan, _) = subject.decided()?;
    let refused = plan.first_about_lengths().is_some();
    let fits = refused || !plan.atoms.is_empty() && counts(plan).numbers <= MOST_NUMBERS;
    fits.then_some(subject)
}

/// Whether `linkplan` finds a plan.
fn says_plan(programs: &Programs, file: &[u8]) -> Result<bool, String> {
    let printed = programs.run("linkplan", file)?;
    match String::from_utf8_lossy(&printed).lines().next() {
        Some("s SATISFIABLE") => Ok(true),
        Some("s UNSATISFIABLE") => Ok(false),
        other => Err(format!(
            "linkplan printed {other:?} for a file with a short search\n"
        )),
    }
}

fn agrees(solver: &Stock, text: &[u8], exists: bool) -> Result<(), String> {
    match (solver.ask(text)?.is_some(), exists) {
        (true, false) => Err(format!("{} finds a model, linkplan no plan", solver.name)),
        (false, true) => Err(format!("{} finds no model, linkplan a plan", solver.name)),
        _ => Ok(()),
    }
}
