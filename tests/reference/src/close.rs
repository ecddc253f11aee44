//! Document 01, "Meaning": closing, the smallest set that obeys the rules.

use crate::file::{Atom, PlanFile};
use crate::meaning::{
    distances_over, edges, literal, literal_value, measure, truth, Distances, Edges, Graph,
    Measure, OFF, ON, OPEN,
};

/// The given literals led to both signs of a variable, or to a clause with all false.
#[derive(Clone, Copy, Debug, PartialEq, Eq)]
pub struct Clash;

/// Applies the rules in rounds until a round gives nothing new.
pub fn close(plan: &PlanFile, given: &[i8]) -> Result<Vec<i8>, Clash> {
    let mut values = given.to_vec();
    loop {
        let before = values.clone();
        apply_clauses(plan, &mut values)?;
        apply_atoms(plan, &mut values)?;
        if values == before {
            return Ok(values);
        }
    }
}

/// Puts a literal into the set.
fn add(values: &mut [i8], literal: i16) -> Result<(), Clash> {
    match literal_value(values, literal) {
        OFF => Err(Clash),
        _ => {
            values[usize::from(literal.unsigned_abs()) - 1] = literal.signum() as i8;
            Ok(())
        }
    }
}

fn apply_clauses(plan: &PlanFile, values: &mut [i8]) -> Result<(), Clash> {
    for clause in &plan.clauses {
        match not_false(clause, values) {
            NotFalse::None => return Err(Clash),
            NotFalse::One(literal) => add(values, literal)?,
            NotFalse::More => (),
        }
    }
    Ok(())
}

enum NotFalse {
    None,
    One(i16),
    More,
}

/// The literals of a clause that are not false, a repeated one counted once.
fn not_false(clause: &[i16], values: &[i8]) -> NotFalse {
    let mut found = NotFalse::None;
    for &literal in clause.iter().filter(|&&l| literal_value(values, l) != OFF) {
        found = match found {
            NotFalse::None => NotFalse::One(literal),
            NotFalse::One(one) if one == literal => NotFalse::One(one),
            _ => return NotFalse::More,
        };
    }
    found
}

/// Atom variables serve no edge, so no atom's literal changes the graphs of this round.
fn apply_atoms(plan: &PlanFile, values: &mut [i8]) -> Result<(), Clash> {
    let mut under = Walks::new(plan, Graph::Under, values);
    let mut over = Walks::new(plan, Graph::Over, values);
    for atom in &plan.atoms {
        if truth(atom, under.of(atom)) {
            add(values, literal(atom.variable, ON))?;
        }
        if !truth(atom, over.of(atom)) {
            add(values, literal(atom.variable, OFF))?;
        }
    }
    debug_assert!(values.iter().all(|v| [ON, OFF, OPEN].contains(v)));
    Ok(())
}

/// The distances of one graph, walked once for each source and measure that is asked for.
struct Walks {
    nodes: usize,
    edges: Edges,
    hops: Vec<Option<Distances>>,
    lengths: Vec<Option<Distances>>,
}

impl Walks {
    fn new(plan: &PlanFile, graph: Graph, values: &[i8]) -> Walks {
        Walks {
            nodes: plan.nodes,
            edges: edges(plan, graph, values),
            hops: vec![None; plan.nodes],
            lengths: vec![None; plan.nodes],
        }
    }

    fn of(&mut self, atom: &Atom) -> &Distances {
        let measure = measure(atom.kind);
        let known = match measure {
            Measure::Hops => &mut self.hops,
            Measure::Lengths => &mut self.lengths,
        };
        known[atom.from]
            .get_or_insert_with(|| distances_over(measure, self.nodes, &self.edges, atom.from))
    }
}
