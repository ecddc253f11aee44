//! Document 01, "Search": closing and branching call each other.

use crate::close::close;
use crate::file::PlanFile;
use crate::meaning::{OFF, ON, OPEN};

#[derive(Clone, Debug, PartialEq, Eq)]
pub enum Outcome {
    Plan(Vec<i8>),
    Impossible,
    Undecided,
}

#[derive(Clone, Debug, PartialEq, Eq)]
pub struct Searched {
    pub outcome: Outcome,
    pub branchings: u32,
}

/// Undecided exactly if the search without a budget counts more branchings than `budget`.
pub fn search(plan: &PlanFile, budget: u32) -> Searched {
    let mut search = Search {
        plan,
        budget,
        branchings: 0,
    };
    let outcome = search.settle(&vec![OPEN; plan.variables]);
    Searched {
        outcome,
        branchings: search.branchings,
    }
}

struct Search<'a> {
    plan: &'a PlanFile,
    budget: u32,
    branchings: u32,
}

impl Search<'_> {
    /// The closing step: clash, plan, or on to branching.
    fn settle(&mut self, given: &[i8]) -> Outcome {
        let Ok(closed) = close(self.plan, given) else {
            return Outcome::Impossible;
        };
        match closed.iter().position(|&value| value == OPEN) {
            None => Outcome::Plan(closed),
            Some(lowest) => self.branch(closed, lowest),
        }
    }

    /// The branching step: off first, and on only if off held no plan.
    fn branch(&mut self, mut closed: Vec<i8>, lowest: usize) -> Outcome {
        if self.branchings == self.budget {
            return Outcome::Undecided;
        }
        self.branchings += 1;
        closed[lowest] = OFF;
        match self.settle(&closed) {
            Outcome::Impossible => (),
            decided => return decided,
        }
        closed[lowest] = ON;
        self.settle(&closed)
    }
}
