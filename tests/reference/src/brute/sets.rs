//! Closing by its definition: of all sets of literals that contain the given
//! ones and obey the rules, the smallest is the intersection.
//!
//! A set is a mask: bit 2(v - 1) is "v on", the bit above it "v off". A set
//! may hold both signs; the set of all literals always obeys.

use super::walks::Walks;
use crate::file::{Edge, PlanFile};

/// The sets of more variables would be too many to list.
pub const MOST_VARIABLES: usize = 6;

pub type Set = u32;

pub fn on(variable: usize) -> Set {
    1 << (2 * (variable - 1))
}

pub fn off(variable: usize) -> Set {
    2 << (2 * (variable - 1))
}

fn of_literal(literal: i16) -> Set {
    let variable = usize::from(literal.unsigned_abs());
    if literal > 0 {
        on(variable)
    } else {
        off(variable)
    }
}

pub fn of_values(values: &[i8]) -> Set {
    let literal = |(place, &value): (usize, &i8)| match value {
        1 => on(place + 1),
        -1 => off(place + 1),
        _ => 0,
    };
    values.iter().enumerate().map(literal).sum()
}

pub fn to_values(variables: usize, set: Set) -> Vec<i8> {
    let value = |v: usize| i8::from(set & on(v) != 0) - i8::from(set & off(v) != 0);
    (1..=variables).map(value).collect()
}

fn has_both_signs(variables: usize, set: Set) -> bool {
    (1..=variables).any(|v| set & on(v) != 0 && set & off(v) != 0)
}

fn is_false(set: Set, literal: i16) -> bool {
    set & of_literal(-literal) != 0
}

/// All others false gives the one, whether or not it is false itself: if it is,
/// the clause is a clash in both readings, and this one keeps intersections closed.
fn obeys_clause(set: Set, clause: &[i16]) -> bool {
    clause.iter().all(|&one| {
        let others_false = clause
            .iter()
            .all(|&other| other == one || is_false(set, other));
        !others_false || set & of_literal(one) != 0
    })
}

fn obeys_atoms(plan: &PlanFile, set: Set) -> bool {
    let under = Walks::of(plan, |edge: &Edge| set & on(edge.variable) != 0);
    let over = Walks::of(plan, |edge: &Edge| set & off(edge.variable) == 0);
    plan.atoms.iter().all(|atom| {
        (!under.truth(atom) || set & on(atom.variable) != 0)
            && (over.truth(atom) || set & off(atom.variable) != 0)
    })
}

/// All obeying sets of a small file.
pub struct Obeying<'a> {
    plan: &'a PlanFile,
    sets: Vec<Set>,
}

impl Obeying<'_> {
    pub fn of(plan: &PlanFile) -> Obeying<'_> {
        assert!(plan.variables <= MOST_VARIABLES);
        let obeys = |&set: &Set| {
            plan.clauses.iter().all(|clause| obeys_clause(set, clause)) && obeys_atoms(plan, set)
        };
        let sets = (0..1 << (2 * plan.variables)).filter(obeys).collect();
        Obeying { plan, sets }
    }

    /// The closing of a set, or `None` for a clash.
    pub fn close(&self, given: Set) -> Option<Set> {
        let above = self.sets.iter().filter(|&&set| set & given == given);
        let smallest = above.fold(Set::MAX, |smallest, set| smallest & set);
        let all_false = |clause: &Vec<i16>| clause.iter().all(|&l| is_false(smallest, l));
        let clash = has_both_signs(self.plan.variables, smallest)
            || self.plan.clauses.iter().any(all_false);
        (!clash).then_some(smallest)
    }

    /// The branchings of the search from a set, and the plan it ends in.
    pub fn tree(&self, given: Set) -> (u64, Option<Set>) {
        let Some(closed) = self.close(given) else {
            return (0, None);
        };
        let open = |&v: &usize| closed & (on(v) | off(v)) == 0;
        let Some(lowest) = (1..=self.plan.variables).find(open) else {
            return (0, Some(closed));
        };
        match self.tree(closed | off(lowest)) {
            (count, Some(found)) => (count + 1, Some(found)),
            (count, None) => {
                let (more, found) = self.tree(closed | on(lowest));
                (count + more + 1, found)
            }
        }
    }
}
