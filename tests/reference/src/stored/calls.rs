//! The stored stream over all eight calls: cases chosen by hand, then drawn ones.

use super::answered::Answered;
use super::ask::{close, judge, read, reason, search, write_clauses};
use super::{empty, lengths, texts};
use crate::file::{Kind, PlanFile};
use crate::generate::requests::requests as drawn;
use crate::generate::{draw_with_lengths, draw_without_lengths};
use crate::protocol::{Request, READ_DIMACS};
use crate::sample;
use crate::write::to_bytes;
use std::io::Result;

const SEED: u64 = 2;
const DRAWN: usize = 600;
/// About files with lengths, texts among them, which are left out.
const DRAWN_WITH_LENGTHS: usize = 65;
/// Longer files and texts would make the stored stream large and say nothing new.
const LARGEST: usize = 700;

/// Those whose answers are written by hand.
fn answered() -> Vec<Answered> {
    let mut answered = texts::answered();
    answered.extend(empty::answered());
    answered.extend(lengths::answered());
    answered
}

/// Whether they are answered as they say.
pub fn confirm() -> Result<()> {
    answered().iter().try_for_each(Answered::confirm)
}

pub fn requests() -> Result<Vec<Request>> {
    confirm()?;
    let mut requests = sample_requests();
    requests.extend(small_cases());
    requests.extend(shared_cases());
    requests.extend(hop_cases());
    requests.extend(refused_file());
    requests.extend(answered().into_iter().map(|one| one.request));
    let mut some = drawn(draw_without_lengths, SEED, DRAWN, LARGEST);
    let mut lengths = drawn(draw_with_lengths, SEED, DRAWN_WITH_LENGTHS, LARGEST);
    lengths.retain(|request| request.call != READ_DIMACS);
    some.extend(lengths);
    some.retain(|request| request.assignment.len() <= LARGEST);
    requests.extend(some);
    Ok(requests)
}

/// P5 to P10, the runs that document 01 names, and each of 9 to 12 with and
/// without what would come after it.
fn sample_requests() -> Vec<Request> {
    let file = &sample::bytes();
    let plan = [1, 1, -1, -1, 1];
    let mut requests = vec![
        read(file),
        judge(file, &plan),
        judge(file, &[1, 1, 1, -1, 1]),
        judge(file, &[1, 1, -1, -1, -1]),
        judge(file, &[1, 1, -1, 1, 1]),
        judge(file, &[1, -1, -1, -1, 1]),
        judge(file, &[1, 1, 0, 2, 1]),
        judge(file, &[1, 1, -1, -1, -128]),
        judge(file, &plan[..4]),
        judge(file, &[]),
        close(file, &[0; 5], 5),
        close(file, &[-1, 0, -1, 0, 0], 5),
        close(file, &plan, 5),
        close(file, &[0, 0, 1, 0, 0], 5),
        close(file, &[0, -1, 0, 0, 0], 5),
        close(file, &[0, 0, 3, 3, 0], 4),
        close(file, &[0, 0, 3, 3, 0], 5),
        close(file, &[0; 4], 5),
        close(file, &[0; 6], 4),
        close(file, &[0; 5], 6),
        close(file, &[0; 5], 0),
    ];
    for room in [4, 3, 2, 0] {
        requests.push(reason(file, &[1, 1, 0, 0, 0], 2, room));
        requests.push(reason(file, &[0, 0, -1, 0, 0], 1, room));
    }
    for atom in [0, 1, 2, 3, 65_535] {
        requests.push(reason(file, &[0; 5], atom, 0));
        requests.push(reason(file, &[2; 5], atom, 4));
        requests.push(reason(file, &[1; 4], atom, 4));
        requests.push(reason(file, &[1; 5], atom, 4));
        requests.push(reason(file, &[-1; 5], atom, 4));
    }
    for budget in [0, 1, 6, 7, 8, 1_000_000, u32::MAX] {
        requests.push(search(file, budget, 5));
    }
    requests.extend([0, 4, 6].map(|room| search(file, 7, room)));
    requests.extend([0, 207, 208, 210].map(|room| write_clauses(file, room)));
    requests
}

/// P1 to P4: alone, within 0, no path, three edges in a row.
fn small_cases() -> Vec<Request> {
    let mut alone = PlanFile::with_nodes(1);
    alone.reaches(0, 0);
    let mut near = PlanFile::with_nodes(2);
    near.edge(0, 1);
    near.within(0, 1, 0);
    let mut no_path = PlanFile::with_nodes(2);
    no_path.edge(1, 0);
    no_path.within(0, 1, 255);
    let mut row = PlanFile::with_nodes(4);
    (0..3).for_each(|k| {
        row.edge(k, k + 1);
    });
    row.within(0, 3, 3);
    row.within(0, 3, 2);
    [alone, near, no_path, row]
        .iter()
        .flat_map(every_call)
        .collect()
}

/// Every call on a file whose variables are all on, all off or all open.
fn every_call(plan: &PlanFile) -> Vec<Request> {
    let file = &to_bytes(plan);
    let room = plan.variables as u16;
    let mut requests = vec![
        read(file),
        search(file, 1_000, room),
        write_clauses(file, 1_200),
    ];
    for value in [1, -1, 0] {
        let values = &vec![value; plan.variables];
        requests.push(judge(file, values));
        requests.push(close(file, values, room));
        for atom in 1..=plan.atoms.len() as u16 {
            requests.push(reason(file, values, atom, 6));
        }
    }
    requests
}

/// Two-way links, equal edges, self edges, a path whose variables come in falling
/// order, a cut with one variable twice, clauses with repeats and both signs.
fn shared_cases() -> Vec<Request> {
    let mut ladder = PlanFile::with_nodes(5);
    ladder.variables = 9;
    let edges = [
        (0, 1, 9),
        (1, 0, 9),
        (1, 2, 2),
        (1, 2, 1),
        (0, 0, 3),
        (2, 3, 5),
        (0, 3, 5),
        (3, 4, 4),
    ];
    edges
        .iter()
        .for_each(|&(from, to, variable)| ladder.edge_of(from, to, variable));
    ladder.atom_of(Kind::Reaches, 0, 4, 6);
    ladder.atom_of(Kind::Within(2), 0, 4, 7);
    ladder.atom_of(Kind::Within(2), 0, 2, 6);
    ladder.clauses = vec![
        vec![8, 8],
        vec![-8, 8, 6],
        vec![6, 6, 7, -8],
        vec![-3, -3, -8],
    ];
    let file = &to_bytes(&ladder);
    let mut requests = every_call(&ladder);
    let partial: [[i8; 9]; 6] = [
        [0, 1, 0, 1, 1, 0, 0, 0, 1],
        [1, 1, 0, 1, -1, 0, 0, 0, 1],
        [-1, -1, 0, 0, -1, 0, 0, 0, 0],
        [0, 0, 0, -1, 0, 0, 0, 0, 0],
        [0, 0, 0, 0, -1, 0, 0, 0, -1],
        [0, 1, -1, 1, 1, 1, 1, 1, 1],
    ];
    for values in &partial {
        requests.push(close(file, values, 9));
        for atom in 1..=3 {
            requests.push(reason(file, values, atom, 9));
        }
    }
    requests
}

/// "Fails" with a bound, edge by edge on both sides of each comparison: starts at
/// d - 1 and at d hops, ends one hop further, two hops further and not reached.
fn hop_cases() -> Vec<Request> {
    let mut plan = PlanFile::with_nodes(7);
    let edges = [
        (0, 1),
        (0, 2),
        (2, 3),
        (1, 3),
        (0, 3),
        (3, 4),
        (0, 4),
        (3, 5),
        (5, 6),
        (6, 4),
        (2, 4),
    ];
    let variables: Vec<usize> = edges
        .iter()
        .map(|&(from, to)| plan.edge(from, to))
        .collect();
    for bound in 0..=5 {
        plan.within(0, 4, bound);
    }
    plan.reaches(0, 4);
    let file = &to_bytes(&plan);
    let off: [&[usize]; 7] = [
        &[4, 5, 6, 7, 11],
        &[4, 5, 7, 6, 10, 11],
        &[4, 5, 7, 11],
        &[5, 6, 7, 10, 11],
        &[6, 7, 8, 11],
        &[1, 2, 5, 7],
        &[3, 4, 5, 6, 7, 8, 9, 10, 11],
    ];
    let mut requests = Vec::new();
    for dark in off {
        for rest in [0, 1] {
            let mut values = vec![0; plan.variables];
            for &variable in &variables {
                values[variable - 1] = if dark.contains(&variable) { -1 } else { rest };
            }
            for atom in 1..=7 {
                requests.push(reason(file, &values, atom, 8));
            }
            requests.push(close(file, &values, plan.variables as u16));
        }
    }
    requests
}

/// A refused file is refused by every call, whatever else is wrong.
fn refused_file() -> Vec<Request> {
    let file = &sample::bytes()[..70];
    vec![
        read(file),
        judge(file, &[2; 3]),
        close(file, &[2; 3], 2),
        reason(file, &[2; 3], 0, 2),
        search(file, 0, 2),
        write_clauses(file, 2),
        write_clauses(&[], 0),
    ]
}
