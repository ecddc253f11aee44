//! Document 01, "Writing out clauses". They are written for files without an atom of
//! kind 3 (request C-13); the calls refuse the others before they come here.

use crate::file::{Atom, Kind, PlanFile};
use std::fmt::Write;

/// The written list: each clause ended by 0.
#[derive(Clone, Debug, Default, PartialEq, Eq)]
pub struct Written {
    pub variables: usize,
    pub clauses: usize,
    pub numbers: Vec<i32>,
    /// Where each atom's block begins in `numbers`.
    pub blocks: Vec<usize>,
}

impl Written {
    /// The file's clauses, then each atom's block.
    pub fn parts(&self) -> Vec<&[i32]> {
        let ends = [&[0], &self.blocks[..], &[self.numbers.len()]].concat();
        ends.windows(2)
            .map(|ends| &self.numbers[ends[0]..ends[1]])
            .collect()
    }

    fn clause(&mut self, literals: &[i32]) {
        self.numbers.extend_from_slice(literals);
        self.numbers.push(0);
        self.clauses += 1;
    }
}

/// The counts alone, by the document's formulas; a full file has 16 million numbers.
#[derive(Clone, Copy, Debug, PartialEq, Eq)]
pub struct Counts {
    pub variables: usize,
    pub clauses: usize,
    pub numbers: usize,
}

pub fn counts(plan: &PlanFile) -> Counts {
    let (n, m) = (plan.nodes, plan.edges.len());
    let mut counts = Counts {
        variables: plan.variables,
        clauses: plan.clauses.len(),
        numbers: plan.literals() + plan.clauses.len(),
    };
    for atom in &plan.atoms {
        let l = last_level(plan, atom);
        counts.variables += (l + 1) * n + l * m;
        counts.clauses += n + l * (4 * m + 2 * n) + 2;
        counts.numbers += 2 * n + l * (14 * m + 6 * n) + 6;
    }
    counts
}

pub fn write(plan: &PlanFile) -> Written {
    let mut out = Written {
        variables: plan.variables,
        ..Written::default()
    };
    for clause in &plan.clauses {
        let literals: Vec<i32> = clause.iter().map(|&literal| literal.into()).collect();
        out.clause(&literals);
    }
    for atom in &plan.atoms {
        out.blocks.push(out.numbers.len());
        write_block(plan, atom, &mut out);
    }
    out
}

/// One clause a line, with its 0.
pub fn lines(numbers: &[i32]) -> String {
    let mut lines = String::new();
    for number in numbers {
        let behind = if *number == 0 { '\n' } else { ' ' };
        write!(lines, "{number}{behind}").expect("a string takes everything");
    }
    lines
}

/// L of the document: a path that repeats no node has at most n - 1 hops.
fn last_level(plan: &PlanFile, atom: &Atom) -> usize {
    let longest = plan.nodes - 1;
    match atom.kind {
        Kind::Reaches => longest,
        Kind::Within(bound) => bound.min(longest),
        Kind::LengthAtMost(_) => unreachable!("a file about lengths is refused with 13"),
    }
}

/// The new variables of a block: R(i, w), and T(i, e) with e from 0.
struct Names {
    r: Vec<Vec<i32>>,
    t: Vec<Vec<i32>>,
}

fn name_variables(plan: &PlanFile, last_level: usize, out: &mut Written) -> Names {
    let mut fresh = |count: usize| -> Vec<i32> {
        let first = out.variables as i32 + 1;
        out.variables += count;
        (first..first + count as i32).collect()
    };
    let mut names = Names {
        r: Vec::new(),
        t: Vec::new(),
    };
    for i in 0..=last_level {
        names.r.push(fresh(plan.nodes));
        if i < last_level {
            names.t.push(fresh(plan.edges.len()));
        }
    }
    names
}

fn write_block(plan: &PlanFile, atom: &Atom, out: &mut Written) {
    let last = last_level(plan, atom);
    let names = name_variables(plan, last, out);
    for w in 0..plan.nodes {
        let at_start = names.r[0][w];
        out.clause(&[if w == atom.from { at_start } else { -at_start }]);
    }
    for i in 0..last {
        write_steps(plan, &names, i, out);
        write_arrivals(plan, &names, i, out);
    }
    let a = atom.variable as i32;
    let reached = names.r[last][atom.to];
    out.clause(&[-a, reached]);
    out.clause(&[a, -reached]);
}

/// T(i, e) says: edge e is on, and its start is reached in i hops or fewer.
fn write_steps(plan: &PlanFile, names: &Names, i: usize, out: &mut Written) {
    for (e, edge) in plan.edges.iter().enumerate() {
        let (t, x, r) = (names.t[i][e], edge.variable as i32, names.r[i][edge.from]);
        out.clause(&[-t, x]);
        out.clause(&[-t, r]);
        out.clause(&[-x, -r, t]);
    }
}

/// R(i + 1, w) says: w is reached already, or some step leads into it.
fn write_arrivals(plan: &PlanFile, names: &Names, i: usize, out: &mut Written) {
    for w in 0..plan.nodes {
        let (now, next) = (names.r[i][w], names.r[i + 1][w]);
        let steps: Vec<i32> = (0..plan.edges.len())
            .filter(|&e| plan.edges[e].to == w)
            .map(|e| names.t[i][e])
            .collect();
        let mut arrival = vec![-next, now];
        arrival.extend(&steps);
        out.clause(&arrival);
        out.clause(&[-now, next]);
        for step in steps {
            out.clause(&[-step, next]);
        }
    }
}
