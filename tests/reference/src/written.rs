//! What the written clauses of a file have to say, asked of any SAT solver:
//! satisfiable exactly if there is a plan, a model's first part a plan, and
//! exactly one continuation for the plan found.

use crate::brute::plans::is_plan;
use crate::file::PlanFile;
use crate::judge::{judge, Judgement};

/// A solver: variables and clauses in, a model or none out, or what went wrong.
pub type Solve<'a> = &'a mut dyn FnMut(usize, &[Vec<i32>]) -> Result<Option<Vec<bool>>, String>;

/// `found` is the search's plan, or `None` where it said "impossible".
pub fn check(
    plan: &PlanFile,
    variables: usize,
    clauses: &[Vec<i32>],
    found: Option<&[i8]>,
    solve: Solve,
) -> Result<(), String> {
    let model = solve(variables, clauses)?;
    match (&model, found) {
        (None, None) => return Ok(()),
        (None, Some(_)) => return Err("there is a plan, but the clauses have no model".into()),
        (Some(_), None) => return Err("there is no plan, but the clauses have a model".into()),
        (Some(model), Some(_)) => check_first_part(plan, model)?,
    }
    match continuations(variables, clauses, found.unwrap_or(&[]), solve)? {
        1 => Ok(()),
        count => Err(format!(
            "the plan has {count} continuations (2 stands for more)"
        )),
    }
}

fn check_first_part(plan: &PlanFile, model: &[bool]) -> Result<(), String> {
    let values: Vec<i8> = model[..plan.variables]
        .iter()
        .map(|&on| if on { 1 } else { -1 })
        .collect();
    if judge(plan, &values) == Judgement::Plan && is_plan(plan, &values) {
        Ok(())
    } else {
        Err(format!("the first part of a model is no plan: {values:?}"))
    }
}

/// How many models agree with `values` on the first variables, counted up to 2.
pub fn continuations(
    variables: usize,
    clauses: &[Vec<i32>],
    values: &[i8],
    solve: Solve,
) -> Result<usize, String> {
    let mut clauses = clauses.to_vec();
    for (place, &value) in values.iter().enumerate() {
        clauses.push(vec![(place as i32 + 1) * i32::from(value)]);
    }
    let Some(model) = solve(variables, &clauses)? else {
        return Ok(0);
    };
    clauses.push(other_than(&model));
    Ok(1 + usize::from(solve(variables, &clauses)?.is_some()))
}

/// The clause that keeps a model from being found again.
fn other_than(model: &[bool]) -> Vec<i32> {
    let opposite = |(place, &on): (usize, &bool)| {
        let variable = place as i32 + 1;
        if on {
            -variable
        } else {
            variable
        }
    };
    model.iter().enumerate().map(opposite).collect()
}
