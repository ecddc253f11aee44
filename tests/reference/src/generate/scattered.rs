//! Random files: nothing about them is sensible, so that every rule gets its turn.

use super::empty;
use crate::file::{Kind, PlanFile, BOUND};
use crate::random::Random;

/// How large a random file may get.
struct Size {
    nodes: usize,
    variables: usize,
    edges: usize,
    atoms: usize,
    clauses: usize,
    clause_length: usize,
}

const TINY: Size = Size {
    nodes: 5,
    variables: 5,
    edges: 7,
    atoms: 3,
    clauses: 4,
    clause_length: 3,
};
const SMALL: Size = Size {
    nodes: 6,
    variables: 9,
    edges: 10,
    atoms: 4,
    clauses: 8,
    clause_length: 4,
};
const MEDIUM: Size = Size {
    nodes: 14,
    variables: 34,
    edges: 34,
    atoms: 8,
    clauses: 40,
    clause_length: 5,
};

/// Small enough for the brute-force opinion.
pub fn tiny(random: &mut Random) -> PlanFile {
    if random.chance(60) {
        scattered(&TINY, random)
    } else {
        tight_of(random.between(2, 6), random)
    }
}

/// No clauses of one literal, and about as many of two to four as leave it open
/// whether there is a plan, so that the search has to branch to find out.
pub fn tight(random: &mut Random) -> PlanFile {
    tight_of(random.between(6, 24), random)
}

fn tight_of(variables: usize, random: &mut Random) -> PlanFile {
    let mut plan = PlanFile::with_nodes(random.between(2, 6));
    plan.variables = variables;
    let roles = roles(variables, random);
    let edges = random.between(roles.edges.len(), 3 * variables);
    add_edges(&mut plan, &roles, edges, random);
    // An atom from a node to itself, or two that share a variable, would end most
    // searches at once.
    for &variable in &roles.atoms {
        let from = random.below(plan.nodes);
        let to = (from + random.between(1, plan.nodes - 1)) % plan.nodes;
        plan.atom_of(kind(plan.nodes, random), from, to, variable);
    }
    let clauses = random.between(2 * variables, 9 * variables / 2);
    for _ in 0..clauses {
        let length = random.pick(&[2, 3, 3, 3, 3, 3, 4, 5]);
        add_clause(&mut plan, length, random);
    }
    empty::at_times(&mut plan.clauses, random);
    plan
}

pub fn small(random: &mut Random) -> PlanFile {
    scattered(&SMALL, random)
}

pub fn medium(random: &mut Random) -> PlanFile {
    scattered(&MEDIUM, random)
}

/// Which variables may serve edges and which atoms; none may serve both.
struct Roles {
    edges: Vec<usize>,
    atoms: Vec<usize>,
}

/// Low numbers go to either role as often as high ones.
fn roles(variables: usize, random: &mut Random) -> Roles {
    let mut roles = Roles {
        edges: Vec::new(),
        atoms: Vec::new(),
    };
    for variable in 1..=variables {
        match random.below(10) {
            0..=5 => roles.edges.push(variable),
            6..=8 => roles.atoms.push(variable),
            _ => (),
        }
    }
    roles
}

fn scattered(size: &Size, random: &mut Random) -> PlanFile {
    let mut plan = PlanFile::with_nodes(random.between(1, size.nodes));
    plan.variables = random.between(1, size.variables);
    let roles = roles(plan.variables, random);
    add_edges(&mut plan, &roles, random.between(0, size.edges), random);
    add_atoms(&mut plan, &roles, random.between(0, size.atoms), random);
    let clauses = random.between(0, size.clauses);
    for _ in 0..clauses {
        let shortest = if random.chance(15) { 1 } else { 2 };
        add_clause(
            &mut plan,
            random.between(shortest, size.clause_length),
            random,
        );
    }
    empty::at_times(&mut plan.clauses, random);
    plan
}

fn add_edges(plan: &mut PlanFile, roles: &Roles, count: usize, random: &mut Random) {
    if roles.edges.is_empty() {
        return;
    }
    for _ in 0..count {
        let (from, to) = (random.below(plan.nodes), random.below(plan.nodes));
        plan.edge_of(from, to, random.pick(&roles.edges));
    }
}

fn add_atoms(plan: &mut PlanFile, roles: &Roles, count: usize, random: &mut Random) {
    if roles.atoms.is_empty() {
        return;
    }
    for _ in 0..count {
        let (from, to) = (random.below(plan.nodes), random.below(plan.nodes));
        let kind = kind(plan.nodes, random);
        plan.atom_of(kind, from, to, random.pick(&roles.atoms));
    }
}

/// Mostly bounds that matter for the file's size; now and then an end of the range.
fn kind(nodes: usize, random: &mut Random) -> Kind {
    match random.below(10) {
        0..=3 => Kind::Reaches,
        4..=8 => Kind::Within(random.below(nodes + 1).min(BOUND)),
        _ => Kind::Within(random.pick(&[0, 1, BOUND - 1, BOUND])),
    }
}

/// A literal may repeat, and both signs of a variable may stand in one clause.
fn add_clause(plan: &mut PlanFile, length: usize, random: &mut Random) {
    let mut clause: Vec<i16> = Vec::new();
    for _ in 0..length {
        let literal = match clause.last() {
            Some(&last) if random.chance(8) => last,
            Some(&last) if random.chance(5) => -last,
            _ => literal(plan.variables, random),
        };
        clause.push(literal);
    }
    plan.clauses.push(clause);
}

pub fn literal(variables: usize, random: &mut Random) -> i16 {
    let variable = random.between(1, variables) as i16;
    random.pick(&[variable, -variable])
}

/// Two halves with no edge from the first into the second, and atoms across.
pub fn no_path(random: &mut Random) -> PlanFile {
    let half = random.between(1, 6);
    let mut plan = PlanFile::with_nodes(2 * half);
    let edges = random.between(0, 14);
    for _ in 0..edges {
        let (a, b) = (random.below(2 * half), random.below(2 * half));
        let crosses = a < half && b >= half;
        plan.edge(if crosses { b } else { a }, if crosses { a } else { b });
    }
    let atoms = random.between(1, 4);
    for _ in 0..atoms {
        let (from, to) = (random.below(half), half + random.below(half));
        let variable = match random.below(3) {
            0 => plan.reaches(from, to),
            1 => plan.within(from, to, BOUND),
            _ => plan.within(from, to, random.below(2 * half)),
        };
        if random.chance(8) {
            plan.must(variable);
        }
    }
    let clauses = random.between(0, 5);
    for _ in 0..clauses {
        add_clause(&mut plan, random.between(2, 4), random);
    }
    empty::at_times(&mut plan.clauses, random);
    plan.renumbered(random)
}

/// Few variables for many edges and atoms: two-way links, bundles, repeated
/// edges, self edges, repeated atoms, atoms that pull one variable two ways.
pub fn shared(random: &mut Random) -> PlanFile {
    let mut plan = PlanFile::with_nodes(random.between(2, 8));
    let links = random.between(1, 6);
    for _ in 0..links {
        let (a, b) = (random.below(plan.nodes), random.below(plan.nodes));
        let x = plan.link(a, b);
        match random.below(4) {
            0 => plan.edge_of(a, b, x),
            1 => plan.edge_of(a, a, x),
            2 => plan.edge_of(b, random.below(plan.nodes), x),
            _ => (),
        }
    }
    let atoms = random.between(1, 3);
    for _ in 0..atoms {
        let (from, to) = (random.below(plan.nodes), random.below(plan.nodes));
        let variable = plan.reaches(from, to);
        match random.below(3) {
            0 => plan.atom_of(Kind::Within(random.below(plan.nodes)), from, to, variable),
            1 => plan.atom_of(Kind::Reaches, to, from, variable),
            _ => (),
        }
    }
    let clauses = random.between(0, 6);
    for _ in 0..clauses {
        add_clause(&mut plan, random.between(1, 4), random);
    }
    empty::at_times(&mut plan.clauses, random);
    plan.renumbered(random)
}
