//! Walks by matrix: place (s, t) of the k-th power says whether k edges in a
//! row lead from s to t. Lengths by the same powers, with the smallest sum in place
//! of "some" and a sum in place of "both".

use crate::file::{Atom, Edge, Kind, PlanFile};
use std::cell::OnceCell;

type Matrix = Vec<Vec<bool>>;

/// The smallest sum of lengths from s to t, or none.
type Sums = Vec<Vec<Option<u64>>>;

/// All walks over some of a file's edges.
pub struct Walks {
    powers: Vec<Matrix>,
    edges: Vec<Edge>,
    /// Made when they are asked for, since few files speak of them.
    sums: OnceCell<Sums>,
}

fn square<T>(nodes: usize, place: impl Fn(usize, usize) -> T) -> Vec<Vec<T>> {
    (0..nodes)
        .map(|s| (0..nodes).map(|t| place(s, t)).collect())
        .collect()
}

/// One step over some edges.
fn step(nodes: usize, edges: &[Edge]) -> Matrix {
    let leads = |s: usize, t: usize| edges.iter().any(|edge| (edge.from, edge.to) == (s, t));
    square(nodes, leads)
}

fn product(a: &Matrix, b: &Matrix) -> Matrix {
    let nodes = a.len();
    square(nodes, |s, t| (0..nodes).any(|via| a[s][via] && b[via][t]))
}

/// The powers 0 to nodes - 1: a fewest-hops path repeats no node.
fn powers(step: &Matrix) -> Vec<Matrix> {
    let mut powers = vec![square(step.len(), |s, t| s == t)];
    while powers.len() < step.len() {
        powers.push(product(&powers[powers.len() - 1], step));
    }
    powers
}

/// Nothing, or one edge.
fn at_most_one(nodes: usize, edges: &[Edge]) -> Sums {
    square(nodes, |s, t| {
        let between = edges.iter().filter(|edge| (edge.from, edge.to) == (s, t));
        let stays = (s == t).then_some(0);
        between
            .map(|edge| edge.stated_length.unwrap_or(1) as u64)
            .chain(stays)
            .min()
    })
}

/// Two walks in a row, the smallest sum of all.
fn smallest_sums(a: &Sums, b: &Sums) -> Sums {
    let nodes = a.len();
    let via = |s: usize, t: usize, via: usize| Some(a[s][via]? + b[via][t]?);
    square(nodes, |s, t| (0..nodes).filter_map(|v| via(s, t, v)).min())
}

/// Twice as many edges each time, until they are as many as there are nodes.
fn sums(nodes: usize, edges: &[Edge]) -> Sums {
    let mut sums = at_most_one(nodes, edges);
    let mut edges = 1;
    while edges < nodes {
        sums = smallest_sums(&sums, &sums);
        edges *= 2;
    }
    sums
}

impl Walks {
    /// Over the edges that are wanted.
    pub fn of(plan: &PlanFile, wanted: impl Fn(&Edge) -> bool) -> Walks {
        let wanted = |edge: &&Edge| wanted(edge);
        let edges: Vec<Edge> = plan.edges.iter().filter(wanted).copied().collect();
        Walks {
            powers: powers(&step(plan.nodes, &edges)),
            edges,
            sums: OnceCell::new(),
        }
    }

    pub fn hops(&self, s: usize, t: usize) -> Option<usize> {
        self.powers.iter().position(|power| power[s][t])
    }

    pub fn length(&self, s: usize, t: usize) -> Option<u64> {
        let sums = self
            .sums
            .get_or_init(|| sums(self.powers.len(), &self.edges));
        sums[s][t]
    }

    /// "Reaches": some power says so; "within d": one of the powers 0 to d does.
    pub fn truth(&self, atom: &Atom) -> bool {
        let most = match atom.kind {
            Kind::Reaches => self.powers.len(),
            Kind::Within(bound) => bound + 1,
            Kind::LengthAtMost(bound) => {
                let length = self.length(atom.from, atom.to);
                return length.is_some_and(|length| length <= bound as u64);
            }
        };
        let powers = self.powers.iter().take(most);
        powers.into_iter().any(|power| power[atom.from][atom.to])
    }
}
