//! Files at each limit and one past it, with random contents. Now and then the
//! last record of its sort has another fault too, for the order of the two.

use super::scattered::literal;
use super::{empty, lengths};
use crate::file::{
    Kind, PlanFile, ATOMS, BOUND, CLAUSES, EDGES, FILE_BYTES, LENGTH, LITERALS, NODES, VARIABLES,
};
use crate::random::Random;
use crate::write;

/// A file at one of the limits, or one past it.
pub fn limit(random: &mut Random) -> Vec<u8> {
    let past = random.below(2);
    match random.below(10) {
        0 => write::to_bytes(&full(random)),
        1 => with_nodes(NODES + past, random),
        2 => with_variables(VARIABLES + past, random),
        3 => faulty(with_edges(EDGES + past, random), random),
        4 => faulty(with_atoms(ATOMS + past, random), random),
        5 => faulty(with_clauses(CLAUSES + past, random), random),
        6 => faulty(with_literals(LITERALS + past, random), random),
        7 => faulty(with_empty_clauses(CLAUSES + past, random), random),
        8 => with_bound(BOUND + past, random),
        _ => with_bytes(FILE_BYTES + past, random),
    }
}

/// The limits that lengths have a part in: edges of both tags together, atoms, the ends
/// of a length and of a bound.
pub fn with_lengths(random: &mut Random) -> Vec<u8> {
    let past = random.below(2);
    match random.below(8) {
        0..=3 => {
            let mut plan = with_edges(EDGES + past, random);
            lengths::put_in(&mut plan, random);
            faulty(plan, random)
        }
        4 => {
            let mut plan = with_atoms(ATOMS + past, random);
            lengths::put_in(&mut plan, random);
            faulty(plan, random)
        }
        5 => {
            let mut plan = full(random);
            lengths::put_in(&mut plan, random);
            write::to_bytes(&plan)
        }
        6 => with_length(random.pick(&[0, 1, LENGTH]), random),
        // As long as anything gets: 63 spans.
        _ => write::to_bytes(&longest_row(random)),
    }
}

/// An edge of a length, and a bound at either end of its range.
fn with_length(length: usize, random: &mut Random) -> Vec<u8> {
    let mut plan = PlanFile::with_nodes(random.between(2, 6));
    let x = plan.long_edge(0, 1, length);
    let a = plan.length_at_most(0, 1, random.pick(&[0, 1, LENGTH - 1, LENGTH]));
    plan.one_of(&[x, a]);
    write::to_bytes(&plan)
}

fn longest_row(random: &mut Random) -> PlanFile {
    let mut plan = PlanFile::with_nodes(NODES);
    for k in 1..NODES {
        let x = plan.long_edge(k - 1, k, LENGTH);
        plan.must(x);
    }
    for _ in 0..random.between(1, 4) {
        let (from, to) = (random.pick(&[0, 61, 62]), NODES - 1);
        plan.length_at_most(from, to, random.pick(&[0, LENGTH - 1, LENGTH, 65_473]));
    }
    plan
}

/// The bytes of a file, one time in four with a second fault: a field out of
/// range, or a variable for an edge and an atom.
fn faulty(mut plan: PlanFile, random: &mut Random) -> Vec<u8> {
    let (nodes, variables) = (plan.nodes, plan.variables);
    if random.chance(25) {
        let shared = plan.edges.first().map_or(1, |edge| edge.variable);
        if let Some(atom) = plan.atoms.last_mut() {
            atom.variable = random.pick(&[shared, variables + 1]);
        }
        if let Some(edge) = plan.edges.last_mut() {
            edge.to = random.pick(&[edge.to, nodes]);
        }
        if let Some(literal) = plan.clauses.last_mut().and_then(|clause| clause.last_mut()) {
            *literal = random.pick(&[0, variables as i16 + 1, i16::MIN]);
        }
    }
    if random.chance(50) {
        write::mixed_records(&plan, random).concat()
    } else {
        write::to_bytes(&plan)
    }
}

fn with_nodes(nodes: usize, random: &mut Random) -> Vec<u8> {
    let mut plan = PlanFile::with_nodes(nodes);
    let from = random.below(nodes);
    plan.edge(from, nodes - 1);
    plan.reaches(from, nodes - 1);
    write::to_bytes(&plan)
}

fn with_variables(variables: usize, random: &mut Random) -> Vec<u8> {
    let mut plan = PlanFile::with_nodes(random.between(1, NODES));
    plan.variables = variables;
    plan.edge_of(0, plan.nodes - 1, random.pick(&[1, variables]));
    // Every variable has a clause of its own, so that the search is short.
    for variable in 1..=variables {
        if random.chance(50) {
            plan.must(variable);
        } else {
            plan.must_not(variable);
        }
    }
    write::to_bytes(&plan)
}

fn with_edges(edges: usize, random: &mut Random) -> PlanFile {
    let mut plan = PlanFile::with_nodes(random.between(2, NODES));
    plan.variables = EDGES;
    for _ in 0..edges {
        let (from, to) = (random.below(plan.nodes), random.below(plan.nodes));
        plan.edge_of(from, to, random.between(1, EDGES));
    }
    let target = random.below(plan.nodes);
    let reached = plan.reaches(0, target);
    plan.must(reached);
    plan
}

fn with_atoms(atoms: usize, random: &mut Random) -> PlanFile {
    let mut plan = PlanFile::with_nodes(random.between(2, 12));
    for _ in 0..10 {
        let (from, to) = (random.below(plan.nodes), random.below(plan.nodes));
        plan.edge(from, to);
    }
    for _ in 0..atoms {
        let (from, to) = (random.below(plan.nodes), random.below(plan.nodes));
        plan.within(from, to, random.below(5));
    }
    plan
}

fn add_clause(plan: &mut PlanFile, length: usize, random: &mut Random) {
    let variables = plan.variables;
    let drawn = (0..length).map(|_| literal(variables, random));
    plan.clauses.push(drawn.collect());
}

/// Clauses of one to three literals over few variables.
fn with_clauses(clauses: usize, random: &mut Random) -> PlanFile {
    let mut plan = PlanFile::with_nodes(1);
    plan.variables = random.between(4, VARIABLES);
    for _ in 0..clauses {
        let length = random.between(1, 3);
        add_clause(&mut plan, length, random);
    }
    plan
}

/// So many literals in as few or as many clauses as it happens.
fn with_literals(literals: usize, random: &mut Random) -> PlanFile {
    let mut plan = PlanFile::with_nodes(1);
    plan.variables = random.between(4, VARIABLES);
    let mut left = literals;
    while left > 0 {
        let most = random.pick(&[8, 40, 1_000, LITERALS + 1]);
        let length = if left <= 8 {
            left
        } else {
            random.between(8, most.max(8)).min(left)
        };
        add_clause(&mut plan, length, random);
        left -= length;
    }
    plan
}

/// So many clauses, the last of them and some or all others empty, with no, few or
/// as many literals as there may be, or one more.
fn with_empty_clauses(clauses: usize, random: &mut Random) -> PlanFile {
    let any = random.below(LITERALS);
    let literals = random.pick(&[0, 1, any, LITERALS, LITERALS, LITERALS + 1]);
    let mut plan = with_literals(literals, random);
    let missing = clauses - 1 - plan.clauses.len();
    empty::scatter(&mut plan.clauses, missing, random);
    plan.clauses.push(Vec::new());
    plan
}

fn with_bound(bound: usize, random: &mut Random) -> Vec<u8> {
    let mut plan = PlanFile::with_nodes(random.between(2, 6));
    let x = plan.edge(0, 1);
    let a = plan.within(0, 1, bound);
    plan.one_of(&[x, a]);
    write::to_bytes(&plan)
}

/// No file of so many bytes is accepted: the rest stands behind the end record.
fn with_bytes(bytes: usize, random: &mut Random) -> Vec<u8> {
    let mut file = write::to_bytes(&with_clauses(random.between(1, CLAUSES), random));
    file.resize(bytes, random.pick(&[0, 5, 255]));
    file
}

/// The largest file there is: every limit reached at once.
pub fn full(random: &mut Random) -> PlanFile {
    let mut plan = PlanFile::with_nodes(NODES);
    plan.variables = VARIABLES;
    for k in 0..EDGES {
        plan.edge_of(random.below(NODES), random.below(NODES), k + 1);
    }
    for k in 0..ATOMS {
        let kind = if random.chance(50) {
            Kind::Reaches
        } else {
            Kind::Within(random.below(8))
        };
        plan.atom_of(
            kind,
            random.below(NODES),
            random.below(NODES),
            EDGES + k + 1,
        );
    }
    for _ in 0..CLAUSES {
        add_clause(&mut plan, LITERALS / CLAUSES, random);
    }
    plan
}

/// The file with the longest written-out list: "reaches" has the most levels.
pub fn with_longest_list(random: &mut Random) -> PlanFile {
    let mut plan = full(random);
    for atom in &mut plan.atoms {
        atom.kind = Kind::Reaches;
    }
    plan
}
