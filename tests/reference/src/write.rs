//! Writing plan files, whole ones and the pieces that damaged ones are made of.

use crate::file::{Atom, Edge, Kind, PlanFile, ATOM, CLAUSE, EDGE, END, HEAD, LONG_EDGE};
use crate::random::Random;

/// One record, with the value length that fits.
pub fn record(tag: u8, value: &[u8]) -> Vec<u8> {
    record_of_length(tag, value.len() as u16, value)
}

/// One record whose length field says what it likes.
pub fn record_of_length(tag: u8, length: u16, value: &[u8]) -> Vec<u8> {
    let mut bytes = vec![tag];
    bytes.extend(length.to_be_bytes());
    bytes.extend(value);
    bytes
}

fn fields(values: &[usize]) -> Vec<u8> {
    values
        .iter()
        .flat_map(|&value| (value as u16).to_be_bytes())
        .collect()
}

pub fn head(nodes: usize, variables: usize) -> Vec<u8> {
    record(HEAD, &fields(&[nodes, variables]))
}

pub fn edge(from: usize, to: usize, variable: usize) -> Vec<u8> {
    record(EDGE, &fields(&[from, to, variable]))
}

pub fn long_edge(from: usize, to: usize, variable: usize, length: usize) -> Vec<u8> {
    record(LONG_EDGE, &fields(&[from, to, variable, length]))
}

pub fn atom(kind: u8, from: usize, to: usize, bound: usize, variable: usize) -> Vec<u8> {
    let mut value = vec![kind];
    value.extend(fields(&[from, to, bound, variable]));
    record(ATOM, &value)
}

pub fn clause(literals: &[i16]) -> Vec<u8> {
    let value: Vec<u8> = literals
        .iter()
        .flat_map(|literal| literal.to_be_bytes())
        .collect();
    record(CLAUSE, &value)
}

pub fn end() -> Vec<u8> {
    record(END, &[])
}

fn edge_record(e: &Edge) -> Vec<u8> {
    match e.stated_length {
        None => edge(e.from, e.to, e.variable),
        Some(length) => long_edge(e.from, e.to, e.variable, length),
    }
}

fn atom_record(a: &Atom) -> Vec<u8> {
    match a.kind {
        Kind::Reaches => atom(1, a.from, a.to, 0, a.variable),
        Kind::Within(bound) => atom(2, a.from, a.to, bound, a.variable),
        Kind::LengthAtMost(bound) => atom(3, a.from, a.to, bound, a.variable),
    }
}

/// The records between head and end: edges, then atoms, then clauses.
fn middle(plan: &PlanFile) -> [Vec<Vec<u8>>; 3] {
    [
        plan.edges.iter().map(edge_record).collect(),
        plan.atoms.iter().map(atom_record).collect(),
        plan.clauses
            .iter()
            .map(|literals| clause(literals))
            .collect(),
    ]
}

fn framed(plan: &PlanFile, middle: impl Iterator<Item = Vec<u8>>) -> Vec<Vec<u8>> {
    let mut records = vec![head(plan.nodes, plan.variables)];
    records.extend(middle);
    records.push(end());
    records
}

/// The file's records, sort by sort.
pub fn records(plan: &PlanFile) -> Vec<Vec<u8>> {
    framed(plan, middle(plan).into_iter().flatten())
}

/// The file's records, the three sorts mixed, each sort in its own order.
pub fn mixed_records(plan: &PlanFile, random: &mut Random) -> Vec<Vec<u8>> {
    let sorts = middle(plan);
    let mut turns: Vec<usize> = (0..3)
        .flat_map(|sort| vec![sort; sorts[sort].len()])
        .collect();
    random.shuffle(&mut turns);
    let mut queues = sorts.map(Vec::into_iter);
    framed(
        plan,
        turns.into_iter().filter_map(|sort| queues[sort].next()),
    )
}

pub fn to_bytes(plan: &PlanFile) -> Vec<u8> {
    records(plan).concat()
}
