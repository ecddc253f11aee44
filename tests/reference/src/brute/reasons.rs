//! Verdicts by filling the open edges in every way, reasons by listing all paths.

use super::plans;
use super::walks::Walks;
use crate::file::{Atom, Edge, Kind, PlanFile};
use crate::meaning::Verdict;

/// "Holds" if every filling of the open variables makes the atom true, "fails" if none does.
pub fn verdict(plan: &PlanFile, values: &[i8], atom: &Atom) -> Verdict {
    let truths: Vec<bool> = fillings(values)
        .map(|full| {
            let is_on = |edge: &Edge| full[edge.variable - 1] == 1;
            Walks::of(plan, is_on).truth(atom)
        })
        .collect();
    match (truths.contains(&true), truths.contains(&false)) {
        (true, false) => Verdict::Holds,
        (false, true) => Verdict::Fails,
        _ => Verdict::Open,
    }
}

fn fillings(values: &[i8]) -> impl Iterator<Item = Vec<i8>> + '_ {
    let fits = move |full: &Vec<i8>| full.iter().zip(values).all(|(f, &v)| v == 0 || *f == v);
    plans::assignments(values.len()).filter(fits)
}

pub fn holds_clause(plan: &PlanFile, values: &[i8], atom: &Atom) -> Vec<i16> {
    let path = first_path_back(plan, values, atom);
    let variables = path
        .iter()
        .map(|&number| plan.edges[number].variable)
        .collect();
    with_premises(atom.variable as i16, variables, -1)
}

/// The rule picks the smallest edge at each step back, so it picks, of all
/// shortest paths written backwards, the first in the order of words.
fn first_path_back(plan: &PlanFile, values: &[i8], atom: &Atom) -> Vec<usize> {
    let paths = paths_back(plan, values, atom.from, atom.to, &[]);
    let size = |path: &Vec<usize>| match atom.kind {
        Kind::LengthAtMost(_) => path.iter().map(|&k| plan.edges[k].length()).sum(),
        _ => path.len(),
    };
    let shortest = paths.iter().map(size).min();
    let first = paths
        .into_iter()
        .filter(|path| Some(size(path)) == shortest);
    first.min().expect("an atom that holds has a path")
}

/// All edge sequences from s to t over on-edges that meet no node twice, the last
/// edge first. `met` holds the nodes met behind t.
fn paths_back(
    plan: &PlanFile,
    values: &[i8],
    s: usize,
    t: usize,
    met: &[usize],
) -> Vec<Vec<usize>> {
    if s == t {
        return vec![Vec::new()];
    }
    let met = [met, &[t]].concat();
    let mut paths = Vec::new();
    for (number, edge) in plan.edges.iter().enumerate() {
        let leads = edge.to == t && !met.contains(&edge.from);
        if leads && values[edge.variable - 1] == 1 {
            for rest in paths_back(plan, values, s, edge.from, &met) {
                paths.push([vec![number], rest].concat());
            }
        }
    }
    paths
}

pub fn fails_clause(plan: &PlanFile, values: &[i8], atom: &Atom) -> Vec<i16> {
    let not_off = |edge: &Edge| values[edge.variable - 1] != -1;
    let walks = Walks::of(plan, not_off);
    let mut variables = Vec::new();
    for edge in plan.edges.iter().filter(|edge| !not_off(edge)) {
        if crosses(&walks, atom, edge) {
            variables.push(edge.variable);
        }
    }
    with_premises(-(atom.variable as i16), variables, 1)
}

fn crosses(walks: &Walks, atom: &Atom, edge: &Edge) -> bool {
    let x = walks.hops(atom.from, edge.from);
    let y = walks.hops(atom.from, edge.to);
    match atom.kind {
        Kind::Reaches => x.is_some() && y.is_none(),
        Kind::Within(d) => x.is_some_and(|x| x < d && y.is_none_or(|y| y > x + 1)),
        Kind::LengthAtMost(d) => {
            let x = walks.length(atom.from, edge.from);
            let y = walks.length(atom.from, edge.to);
            let length = edge.length() as u64;
            x.is_some_and(|x| x < d as u64 && y.is_none_or(|y| y > x + length))
        }
    }
}

fn with_premises(first: i16, mut variables: Vec<usize>, sign: i16) -> Vec<i16> {
    variables.sort();
    variables.dedup();
    let opposites = variables.into_iter().map(|variable| sign * variable as i16);
    std::iter::once(first).chain(opposites).collect()
}
