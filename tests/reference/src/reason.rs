//! Document 01, "Judging and reasons": the reason for one atom; for kind 3 "kind 2's
//! rule with lengths for hops and the edge's length for 1" (request C-13).

use crate::file::{Atom, Edge, Kind, PlanFile};
use crate::meaning::{
    cost, distances, has_edge, literal, measure, value, verdict, Distances, Graph, Verdict, OFF, ON,
};
use std::collections::BTreeSet;

#[derive(Clone, Debug, PartialEq, Eq)]
pub enum Reason {
    Holds(Vec<i16>),
    Fails(Vec<i16>),
    Open,
}

/// `values` is taken as given and not closed.
pub fn reason(plan: &PlanFile, values: &[i8], atom: &Atom) -> Reason {
    match verdict(plan, values, atom) {
        Verdict::Holds => Reason::Holds(clause(atom, ON, &path(plan, values, atom))),
        Verdict::Fails => Reason::Fails(clause(atom, OFF, &cut(plan, values, atom))),
        Verdict::Open => Reason::Open,
    }
}

/// The atom's literal, then the opposite of each premise. The premises of "holds"
/// are on-edges, those of "fails" off-edges; the set makes the variables rise.
fn clause(atom: &Atom, side: i8, premises: &BTreeSet<usize>) -> Vec<i16> {
    let mut literals = vec![literal(atom.variable, side)];
    literals.extend(premises.iter().map(|&variable| literal(variable, -side)));
    literals
}

/// The edge variables of one path, read back from the target one edge at a time. No
/// edge leads nowhere (a hop is 1, and a length at least 1), so the source alone is at 0.
fn path(plan: &PlanFile, values: &[i8], atom: &Atom) -> BTreeSet<usize> {
    let under = distances(plan, Graph::Under, values, atom);
    let leads = |edge: &Edge| {
        let start = under[edge.from]?;
        Some(start + cost(measure(atom.kind), edge))
    };
    let mut premises = BTreeSet::new();
    let mut node = atom.to;
    while under[node] != Some(0) {
        let step = plan
            .edges
            .iter()
            .filter(|edge| has_edge(Graph::Under, values, edge))
            .find(|edge| edge.to == node && leads(edge) == under[node])
            .expect("a node at some distance has an edge on a shortest path to it");
        premises.insert(step.variable);
        node = step.from;
    }
    premises
}

/// The off edges that would bring the target nearer, seen in the over graph.
fn cut(plan: &PlanFile, values: &[i8], atom: &Atom) -> BTreeSet<usize> {
    let over = distances(plan, Graph::Over, values, atom);
    plan.edges
        .iter()
        .filter(|edge| value(values, edge.variable) == OFF)
        .filter(|edge| crosses(atom.kind, &over, edge))
        .map(|edge| edge.variable)
        .collect()
}

fn crosses(kind: Kind, over: &Distances, edge: &Edge) -> bool {
    let behind = |from: usize| from + cost(measure(kind), edge);
    match (kind, over[edge.from], over[edge.to]) {
        (_, None, _) => false,
        (Kind::Reaches, Some(_), to) => to.is_none(),
        (Kind::Within(d) | Kind::LengthAtMost(d), Some(from), None) => from < d,
        (Kind::Within(d) | Kind::LengthAtMost(d), Some(from), Some(to)) => {
            from < d && to > behind(from)
        }
    }
}
