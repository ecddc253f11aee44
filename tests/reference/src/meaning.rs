//! Document 01, "Meaning": literals, the under and over graphs, hops, atom truth;
//! and the lengths of request C-13.

use crate::file::{Atom, Edge, Kind, PlanFile};

pub const ON: i8 = 1;
pub const OFF: i8 = -1;
pub const OPEN: i8 = 0;

/// The value of a variable, numbered from 1.
pub fn value(values: &[i8], variable: usize) -> i8 {
    values[variable - 1]
}

pub fn variable(literal: i16) -> usize {
    literal.unsigned_abs().into()
}

/// The literal that says `variable` is `value` (on or off).
pub fn literal(variable: usize, value: i8) -> i16 {
    variable as i16 * i16::from(value)
}

/// Whether a literal is true (on), false (off) or open.
pub fn literal_value(values: &[i8], literal: i16) -> i8 {
    value(values, variable(literal)) * literal.signum() as i8
}

#[derive(Clone, Copy, Debug, PartialEq, Eq)]
pub enum Graph {
    /// The edges that are on.
    Under,
    /// The edges that are not off.
    Over,
}

pub fn has_edge(graph: Graph, values: &[i8], edge: &Edge) -> bool {
    match graph {
        Graph::Under => value(values, edge.variable) == ON,
        Graph::Over => value(values, edge.variable) != OFF,
    }
}

/// What a path is measured by.
#[derive(Clone, Copy, Debug, PartialEq, Eq)]
pub enum Measure {
    Hops,
    Lengths,
}

/// What an atom of a kind asks for.
pub fn measure(kind: Kind) -> Measure {
    match kind {
        Kind::Reaches | Kind::Within(_) => Measure::Hops,
        Kind::LengthAtMost(_) => Measure::Lengths,
    }
}

/// How far an edge leads: an edge of either tag is one hop.
pub fn cost(measure: Measure, edge: &Edge) -> usize {
    match measure {
        Measure::Hops => 1,
        Measure::Lengths => edge.length(),
    }
}

/// The distances from one node to each node; `None` is "no path", and never a number.
pub type Distances = Vec<Option<usize>>;

/// The edges of a graph.
pub type Edges = Vec<Edge>;

pub fn edges(plan: &PlanFile, graph: Graph, values: &[i8]) -> Edges {
    let there = |edge: &&Edge| has_edge(graph, values, edge);
    plan.edges.iter().filter(there).copied().collect()
}

pub fn distances_over(measure: Measure, nodes: usize, edges: &Edges, source: usize) -> Distances {
    match measure {
        Measure::Hops => hops_over(nodes, edges, source),
        Measure::Lengths => lengths_over(nodes, edges, source),
    }
}

/// Nodes are met in the order of their hops, so the first count is the fewest.
fn hops_over(nodes: usize, edges: &Edges, source: usize) -> Distances {
    let mut neighbours = vec![Vec::new(); nodes];
    for edge in edges {
        neighbours[edge.from].push(edge.to);
    }
    let mut hops = vec![None; nodes];
    hops[source] = Some(0);
    let mut met = vec![(source, 0)];
    let mut at = 0;
    while at < met.len() {
        let (node, count) = met[at];
        at += 1;
        for &next in &neighbours[node] {
            if hops[next].is_none() {
                hops[next] = Some(count + 1);
                met.push((next, count + 1));
            }
        }
    }
    hops
}

/// Every edge is tried again until none leads to its end by a smaller sum.
fn lengths_over(nodes: usize, edges: &Edges, source: usize) -> Distances {
    let mut lengths: Distances = vec![None; nodes];
    lengths[source] = Some(0);
    loop {
        let before = lengths.clone();
        for edge in edges {
            let sum = lengths[edge.from].map(|length| length + edge.length());
            lengths[edge.to] = smaller(lengths[edge.to], sum);
        }
        if lengths == before {
            return lengths;
        }
    }
}

/// Any number is smaller than none.
fn smaller(a: Option<usize>, b: Option<usize>) -> Option<usize> {
    match (a, b) {
        (Some(a), Some(b)) => Some(a.min(b)),
        (only, None) | (None, only) => only,
    }
}

/// The distances that an atom's kind asks for, from its source.
pub fn distances(plan: &PlanFile, graph: Graph, values: &[i8], atom: &Atom) -> Distances {
    let edges = edges(plan, graph, values);
    distances_over(measure(atom.kind), plan.nodes, &edges, atom.from)
}

/// An atom's truth, given these distances. No path makes every bound false.
pub fn truth(atom: &Atom, distances: &Distances) -> bool {
    match (distances[atom.to], atom.kind) {
        (None, _) => false,
        (Some(_), Kind::Reaches) => true,
        (Some(distance), Kind::Within(bound) | Kind::LengthAtMost(bound)) => distance <= bound,
    }
}

pub fn atom_truth(plan: &PlanFile, graph: Graph, values: &[i8], atom: &Atom) -> bool {
    truth(atom, &distances(plan, graph, values, atom))
}

#[derive(Clone, Copy, Debug, PartialEq, Eq)]
pub enum Verdict {
    /// True in the under graph.
    Holds,
    /// False in the over graph.
    Fails,
    Open,
}

pub fn verdict(plan: &PlanFile, values: &[i8], atom: &Atom) -> Verdict {
    if atom_truth(plan, Graph::Under, values, atom) {
        Verdict::Holds
    } else if !atom_truth(plan, Graph::Over, values, atom) {
        Verdict::Fails
    } else {
        Verdict::Open
    }
}
