//! Plans by trying every assignment.

use super::walks::Walks;
use crate::file::{Edge, PlanFile};

/// All assignments, off before on, the lowest variable counting most.
pub fn assignments(variables: usize) -> impl Iterator<Item = Vec<i8>> {
    (0..1u32 << variables).map(move |mask| {
        (0..variables)
            .rev()
            .map(|bit| if mask >> bit & 1 == 1 { 1 } else { -1 })
            .collect()
    })
}

pub fn atom_is_right(plan: &PlanFile, values: &[i8], number: usize) -> bool {
    let is_on = |edge: &Edge| values[edge.variable - 1] == 1;
    let atom = &plan.atoms[number - 1];
    Walks::of(plan, is_on).truth(atom) == (values[atom.variable - 1] == 1)
}

pub fn clause_is_true(values: &[i8], clause: &[i16]) -> bool {
    clause.iter().any(|&literal| {
        let value = values[usize::from(literal.unsigned_abs()) - 1];
        value == if literal > 0 { 1 } else { -1 }
    })
}

pub fn is_plan(plan: &PlanFile, values: &[i8]) -> bool {
    plan.clauses
        .iter()
        .all(|clause| clause_is_true(values, clause))
        && (1..=plan.atoms.len()).all(|number| atom_is_right(plan, values, number))
}

/// The search's plan is the first of all plans in this order.
pub fn first_plan(plan: &PlanFile) -> Option<Vec<i8>> {
    assignments(plan.variables).find(|values| is_plan(plan, values))
}
