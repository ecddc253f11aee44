//! SAT solvers on the clauses that `linkcalls` writes, against the plan that its
//! search finds.

use super::batches;
use super::process::Programs;
use super::stock::Stock;
use super::Settings;
use crate::clauses::counts;
use crate::file::PlanFile;
use crate::generate::requests::Subject;
use crate::protocol::{Request, MOST_ROOM, SEARCH, WRITE_CLAUSES};
use crate::random::Random;
use crate::sat;
use crate::written;

/// Keeps these files apart from those of the other comparisons.
const PARTS: u64 = 2 << 40;
const BATCH: usize = 50;

#[derive(Default)]
pub struct Checked {
    pub plans: usize,
    pub impossible: usize,
    pub with_empty_clause: usize,
    pub with_long_edge: usize,
    /// With an atom of kind 3, and so without written clauses.
    pub refused: usize,
    pub stock: Option<String>,
}

pub fn check(settings: &Settings, programs: &Programs) -> Result<Checked, String> {
    let stock = Stock::all(settings).into_iter().next();
    let mut checked = Checked::default();
    let mut number = 0;
    while checked.plans + checked.impossible < settings.sat {
        let missing = settings.sat - checked.plans - checked.impossible;
        let plans = draw(settings.seed, &mut number, missing.min(BATCH));
        let requests: Vec<Request> = plans.iter().flat_map(|(_, two)| two.clone()).collect();
        let lines = batches::run(programs, &requests, &[])?;
        for (k, (plan, two)) in plans.iter().enumerate() {
            if let Some(atom) = plan.first_about_lengths() {
                expect_refused(&lines[2 * k + 1], atom)?;
                checked.refused += 1;
                continue;
            }
            let answers = Answers::of(&lines[2 * k], &lines[2 * k + 1]);
            if let Err(message) = check_one(plan, &answers, stock.as_ref()) {
                let shown = format!("{}\n{}\n", lines[2 * k], lines[2 * k + 1]);
                let input = [two[0].to_bytes(), two[1].to_bytes()].concat();
                let shown = programs.difference("a list", &input, b"", shown.as_bytes())?;
                return Err(message + "\n" + &shown);
            }
            match answers.plan {
                Some(_) => checked.plans += 1,
                None => checked.impossible += 1,
            }
            checked.with_empty_clause += usize::from(plan.has_empty_clause());
            checked.with_long_edge += usize::from(plan.has_long_edge());
        }
    }
    checked.stock = stock.map(|stock| stock.name);
    Ok(checked)
}

/// `linkcalls` printed what the reference expects; this is what that has to be.
fn expect_refused(line: &str, atom: usize) -> Result<(), String> {
    if line.starts_with(&format!("refused 13 {atom} :")) {
        return Ok(());
    }
    Err(format!(
        "atom {atom} is of kind 3, and the answer is {line}\n"
    ))
}

/// Accepted files with something to write, a decided search and a list that fits. An
/// atom of kind 3 has no list, whatever the room.
fn draw(seed: u64, number: &mut u64, wanted: usize) -> Vec<(PlanFile, [Request; 2])> {
    let mut drawn = Vec::new();
    while drawn.len() < wanted {
        let mut random = Random::part(seed, PARTS + *number);
        *number += 1;
        let subject = Subject::draw(&mut random);
        let Some((plan, searched)) = subject.decided() else {
            continue;
        };
        let numbers = match plan.first_about_lengths() {
            Some(_) => random.below(2_000),
            None => counts(plan).numbers,
        };
        if !plan.atoms.is_empty() && numbers <= MOST_ROOM {
            let search = Request {
                call: SEARCH,
                file: subject.file.clone(),
                budget: searched.branchings,
                room: plan.variables as u16,
                ..Request::default()
            };
            let write = Request {
                call: WRITE_CLAUSES,
                room: numbers as u16,
                ..search.clone()
            };
            drawn.push((plan.clone(), [search, write]));
        }
    }
    drawn
}

/// What the two lines of `linkcalls` say.
struct Answers {
    plan: Option<Vec<i8>>,
    variables: usize,
    clauses: Vec<Vec<i32>>,
}

impl Answers {
    fn of(searched: &str, written: &str) -> Answers {
        let plan = searched.starts_with("plan ").then(|| places(searched));
        let variables = written.split(' ').nth(1).and_then(|word| word.parse().ok());
        Answers {
            plan,
            variables: variables.expect("a written list says its variables"),
            clauses: sat::clauses_of(&places::<i32>(written)),
        }
    }
}

fn places<T: std::str::FromStr>(line: &str) -> Vec<T> {
    let (_, places) = line.split_once(" :").expect("a line with a buffer");
    places
        .split_whitespace()
        .filter_map(|word| word.parse().ok())
        .collect()
}

fn check_one(plan: &PlanFile, answers: &Answers, stock: Option<&Stock>) -> Result<(), String> {
    let own = &mut |variables: usize, clauses: &[Vec<i32>]| Ok(sat::solve(variables, clauses));
    let Answers {
        plan: found,
        variables,
        clauses,
    } = answers;
    let found = found.as_deref();
    written::check(plan, *variables, clauses, found, own)
        .map_err(|message| format!("own solver: {message}"))?;
    let Some(stock) = stock else {
        return Ok(());
    };
    let ask = &mut |variables: usize, clauses: &[Vec<i32>]| stock.solve(variables, clauses);
    written::check(plan, *variables, clauses, found, ask)
        .map_err(|message| format!("{}: {message}", stock.name))
}
