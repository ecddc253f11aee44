//! Document 01, "Judging and reasons": judging a full assignment.

use crate::file::PlanFile;
use crate::meaning::{atom_truth, literal_value, value, Graph, ON};

#[derive(Clone, Copy, Debug, PartialEq, Eq)]
pub enum Judgement {
    Plan,
    /// The first clause without a true literal, from 1.
    Clause(usize),
    /// The first atom whose variable is wrong, from 1, where no clause is to blame.
    Atom(usize),
}

/// `values` has no open variable, so the under graph is the graph of all on-edges.
pub fn judge(plan: &PlanFile, values: &[i8]) -> Judgement {
    let is_true = |literal: &i16| literal_value(values, *literal) == ON;
    if let Some(k) = plan
        .clauses
        .iter()
        .position(|clause| !clause.iter().any(is_true))
    {
        return Judgement::Clause(k + 1);
    }
    let wrong = plan.atoms.iter().position(|atom| {
        (value(values, atom.variable) == ON) != atom_truth(plan, Graph::Under, values, atom)
    });
    match wrong {
        Some(k) => Judgement::Atom(k + 1),
        None => Judgement::Plan,
    }
}
