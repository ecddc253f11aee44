//! The small SAT solver against trying everything, and the written clauses of
//! larger files against the search.

use crate::brute::plans;
use crate::clauses;
use crate::generate::requests::Subject;
use crate::generate::{empty, file, Sort};
use crate::random::Random;
use crate::sat::{clauses_of, solve};
use crate::search::Outcome;
use crate::written;

/// Random clauses, from loose to tight, so that both answers come up.
pub fn check(random: &mut Random) {
    let variables = random.between(1, 10);
    let count = random.between(0, 5 * variables);
    let clause = |random: &mut Random| -> Vec<i16> {
        let length = random.between(1, 4);
        let literal = |random: &mut Random| {
            let variable = random.between(1, variables) as i16;
            random.pick(&[variable, -variable])
        };
        (0..length).map(|_| literal(random)).collect()
    };
    let mut clauses: Vec<Vec<i16>> = (0..count).map(|_| clause(random)).collect();
    empty::at_times(&mut clauses, random);
    let is_model = |values: &Vec<i8>| clauses.iter().all(|c| plans::clause_is_true(values, c));
    let exists = plans::assignments(variables).any(|values| is_model(&values));
    let wide: Vec<Vec<i32>> = clauses
        .iter()
        .map(|c| c.iter().map(|&literal| literal.into()).collect())
        .collect();
    let found = solve(variables, &wide);
    assert_eq!(found.is_some(), exists, "solving {clauses:?}");
    if let Some(model) = found {
        let values = model.iter().map(|&on| if on { 1 } else { -1 }).collect();
        assert!(is_model(&values), "{values:?} is no model of {clauses:?}");
    }
}

/// The list of a larger file than brute force can do.
const MOST_NUMBERS: usize = 20_000;

/// The solver and the search agree on files with rings, protection and hop limits.
pub fn check_written(random: &mut Random) {
    let sort = random.pick(&[Sort::Metro, Sort::Tight, Sort::Medium, Sort::Delays]);
    let subject = Subject::of(sort, file(sort, random));
    let Some((plan, searched)) = subject.decided() else {
        return;
    };
    if plan.first_about_lengths().is_some() || clauses::counts(plan).numbers > MOST_NUMBERS {
        return;
    }
    let list = clauses::write(plan);
    let found = match &searched.outcome {
        Outcome::Plan(values) => Some(values.as_slice()),
        _ => None,
    };
    let own = &mut |variables: usize, clauses: &[Vec<i32>]| Ok(solve(variables, clauses));
    let checked = written::check(plan, list.variables, &clauses_of(&list.numbers), found, own);
    assert_eq!(checked, Ok(()), "{plan:?}");
}
