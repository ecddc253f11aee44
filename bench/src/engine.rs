//! Document 01's search, branching by branching the same tree, with a trail
//! instead of copies.

use crate::clauses::Clauses;
use crate::graph::{Graph, Marks};
use crate::literals::{off, on, Clash, Lit, Trail};
use reference::file::PlanFile;
use reference::search::{Outcome, Searched};

/// Where to go back to: the variable that was tried off there.
struct Tried {
    variable: usize,
    set: usize,
    marks: Marks,
}

pub struct Engine {
    variables: usize,
    clauses: Clauses,
    graph: Graph,
    trail: Trail,
    /// The trail's literals before this place have been followed.
    followed: usize,
    /// For each atom, its variable.
    atoms: Vec<usize>,
    /// Atoms settled by the last look at the graphs.
    settled: Vec<Lit>,
    tried: Vec<Tried>,
}

pub fn search(plan: &PlanFile, budget: u32) -> Searched {
    Engine::of(plan).search(budget)
}

impl Engine {
    pub fn of(plan: &PlanFile) -> Engine {
        Engine {
            variables: plan.variables,
            clauses: Clauses::of(plan.variables, &plan.clauses),
            graph: Graph::of(plan),
            trail: Trail::all_open(plan.variables),
            followed: 0,
            atoms: plan.atoms.iter().map(|atom| atom.variable).collect(),
            settled: Vec::new(),
            tried: Vec::with_capacity(plan.variables),
        }
    }

    pub fn search(&mut self, budget: u32) -> Searched {
        let mut branchings = 0;
        if self.first_closing().is_err() {
            return Searched {
                outcome: Outcome::Impossible,
                branchings,
            };
        }
        loop {
            let Some(variable) = self.trail.lowest_open() else {
                let values = self.trail.values(self.variables);
                return Searched {
                    outcome: Outcome::Plan(values),
                    branchings,
                };
            };
            if branchings == budget {
                return Searched {
                    outcome: Outcome::Undecided,
                    branchings,
                };
            }
            branchings += 1;
            let (set, marks) = (self.trail.len(), self.graph.marks());
            self.tried.push(Tried {
                variable,
                set,
                marks,
            });
            self.trail.push(off(variable));
            while self.close().is_err() {
                if !self.try_on() {
                    return Searched {
                        outcome: Outcome::Impossible,
                        branchings,
                    };
                }
            }
        }
    }

    /// Goes back to the last variable tried off only, and tries it on.
    fn try_on(&mut self) -> bool {
        let Some(tried) = self.tried.pop() else {
            return false;
        };
        self.take_back(tried.set, tried.marks);
        self.trail.push(on(tried.variable));
        true
    }

    fn take_back(&mut self, set: usize, marks: Marks) {
        self.graph.forget_changes();
        self.graph.take_back(marks);
        while self.trail.len() > set {
            let was_followed = self.trail.len() <= self.followed;
            if let (Some(l), true) = (self.trail.pop(), was_followed) {
                self.graph.unset(usize::from(l / 2), l % 2 == 0);
            }
        }
        self.followed = set;
    }

    pub fn first_closing(&mut self) -> Result<(), Clash> {
        if self.clauses.has_empty {
            return Err(Clash);
        }
        for k in 0..self.clauses.units.len() {
            self.trail.add(self.clauses.units[k])?;
        }
        self.follow_clauses()?;
        self.follow_graphs(true)?;
        self.close()
    }

    /// Clauses first, since they are cheap; the graphs once nothing else follows.
    fn close(&mut self) -> Result<(), Clash> {
        loop {
            self.follow_clauses()?;
            self.follow_graphs(false)?;
            if self.followed == self.trail.len() {
                return Ok(());
            }
        }
    }

    fn follow_clauses(&mut self) -> Result<(), Clash> {
        while self.followed < self.trail.len() {
            let l = self.trail.at(self.followed);
            self.followed += 1;
            self.graph.set(usize::from(l / 2), l % 2 == 0);
            self.clauses.follow(l, &mut self.trail)?;
        }
        Ok(())
    }

    fn follow_graphs(&mut self, all: bool) -> Result<(), Clash> {
        let (atoms, settled) = (&self.atoms, &mut self.settled);
        settled.clear();
        self.graph.follow(all, |atom, holds| {
            settled.push(if holds {
                on(atoms[atom])
            } else {
                off(atoms[atom])
            });
        });
        for k in 0..self.settled.len() {
            self.trail.add(self.settled[k])?;
        }
        Ok(())
    }

    pub fn graph(&self) -> &Graph {
        &self.graph
    }
}
