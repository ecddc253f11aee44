//! Putting a plan file together piece by piece.

use crate::file::{Atom, Edge, Kind, PlanFile};
use crate::random::Random;

impl PlanFile {
    pub fn with_nodes(nodes: usize) -> PlanFile {
        PlanFile {
            nodes,
            ..PlanFile::default()
        }
    }

    /// The number of a new variable.
    pub fn variable(&mut self) -> usize {
        self.variables += 1;
        self.variables
    }

    pub fn edge_of(&mut self, from: usize, to: usize, variable: usize) {
        self.edges.push(Edge {
            from,
            to,
            variable,
            stated_length: None,
        });
    }

    /// An edge with a length.
    pub fn long_edge_of(&mut self, from: usize, to: usize, variable: usize, length: usize) {
        self.edges.push(Edge {
            from,
            to,
            variable,
            stated_length: Some(length),
        });
    }

    /// A one-way link of some length with a new variable.
    pub fn long_edge(&mut self, from: usize, to: usize, length: usize) -> usize {
        let variable = self.variable();
        self.long_edge_of(from, to, variable, length);
        variable
    }

    /// A two-way link, as long both ways.
    pub fn long_link(&mut self, a: usize, b: usize, length: usize) -> usize {
        let variable = self.long_edge(a, b, length);
        self.long_edge_of(b, a, variable, length);
        variable
    }

    /// A one-way link with a new variable.
    pub fn edge(&mut self, from: usize, to: usize) -> usize {
        let variable = self.variable();
        self.edge_of(from, to, variable);
        variable
    }

    /// A two-way link is two edges that share a variable.
    pub fn link(&mut self, a: usize, b: usize) -> usize {
        let variable = self.edge(a, b);
        self.edge_of(b, a, variable);
        variable
    }

    pub fn atom_of(&mut self, kind: Kind, from: usize, to: usize, variable: usize) {
        self.atoms.push(Atom {
            kind,
            from,
            to,
            variable,
        });
    }

    fn atom(&mut self, kind: Kind, from: usize, to: usize) -> usize {
        let variable = self.variable();
        self.atom_of(kind, from, to, variable);
        variable
    }

    /// "From reaches to", with a new variable.
    pub fn reaches(&mut self, from: usize, to: usize) -> usize {
        self.atom(Kind::Reaches, from, to)
    }

    /// "From is within so many hops of to", with a new variable.
    pub fn within(&mut self, from: usize, to: usize, bound: usize) -> usize {
        self.atom(Kind::Within(bound), from, to)
    }

    /// "The length from one to the other is at most so much", with a new variable.
    pub fn length_at_most(&mut self, from: usize, to: usize, bound: usize) -> usize {
        self.atom(Kind::LengthAtMost(bound), from, to)
    }

    pub fn one_of(&mut self, variables: &[usize]) {
        self.clauses
            .push(variables.iter().map(|&variable| variable as i16).collect());
    }

    pub fn not_all(&mut self, variables: &[usize]) {
        self.clauses.push(
            variables
                .iter()
                .map(|&variable| -(variable as i16))
                .collect(),
        );
    }

    pub fn must(&mut self, variable: usize) {
        self.one_of(&[variable]);
    }

    pub fn must_not(&mut self, variable: usize) {
        self.not_all(&[variable]);
    }

    /// Of `variables` at most `most` may be on: every larger group is forbidden.
    pub fn at_most(&mut self, most: usize, variables: &[usize]) {
        let mut group = Vec::new();
        self.forbid_groups(most + 1, variables, &mut group);
    }

    fn forbid_groups(&mut self, more: usize, variables: &[usize], group: &mut Vec<usize>) {
        if more == 0 {
            self.not_all(group);
            return;
        }
        for (k, &variable) in variables.iter().enumerate() {
            group.push(variable);
            self.forbid_groups(more - 1, &variables[k + 1..], group);
            group.pop();
        }
    }

    /// The same file with its variables numbered in another order, so that atoms
    /// come before edges as often as behind them.
    pub fn renumbered(&self, random: &mut Random) -> PlanFile {
        let mut order: Vec<usize> = (1..=self.variables).collect();
        random.shuffle(&mut order);
        let new = |variable: usize| order[variable - 1];
        let mut plan = self.clone();
        plan.edges
            .iter_mut()
            .for_each(|edge| edge.variable = new(edge.variable));
        plan.atoms
            .iter_mut()
            .for_each(|atom| atom.variable = new(atom.variable));
        for literal in plan.clauses.iter_mut().flatten() {
            *literal = new(literal.unsigned_abs().into()) as i16 * literal.signum();
        }
        plan
    }
}
