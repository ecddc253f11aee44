//! What document 01 says of its sample and of small cases, and what request C-13 and
//! its readings say of lengths, number by number.

use crate::calls::{self, Answer};
use crate::clauses;
use crate::file::{read, Kind, PlanFile, Refusal};
use crate::judge::Judgement;
use crate::meaning::{atom_truth, distances_over, Graph, Measure};
use crate::programs;
use crate::sample;
use crate::write::to_bytes;

pub fn check() {
    check_small_cases();
    check_length_cases();
    check_length_reasons();
    check_unwritable();
    check_sample_cases();
    check_sample_runs();
    check_refusals();
}

fn truth(plan: &PlanFile, kind: Kind, from: usize, to: usize) -> bool {
    let mut plan = plan.clone();
    let variable = plan.variable();
    plan.atom_of(kind, from, to, variable);
    let all_on = vec![1; plan.variables];
    atom_truth(&plan, Graph::Under, &all_on, &plan.atoms[0])
}

/// P1 to P4.
fn check_small_cases() {
    let alone = PlanFile::with_nodes(1);
    assert!(truth(&alone, Kind::Reaches, 0, 0));
    let mut pair = PlanFile::with_nodes(2);
    assert!(!truth(&pair, Kind::Within(255), 0, 1));
    pair.edge(0, 1);
    assert!(!truth(&pair, Kind::Within(0), 0, 1));
    let mut row = PlanFile::with_nodes(4);
    (0..3).for_each(|k| {
        row.edge(k, k + 1);
    });
    assert!(truth(&row, Kind::Within(3), 0, 3));
    assert!(!truth(&row, Kind::Within(2), 0, 3));
}

/// Two hops round the lake, of 600 each, and four downtown, of 100 each.
fn lake() -> PlanFile {
    let mut lake = PlanFile::with_nodes(6);
    lake.long_edge(0, 1, 600);
    lake.long_edge(1, 5, 600);
    for (from, to) in [(0, 2), (2, 3), (3, 4), (4, 5)] {
        lake.long_edge(from, to, 100);
    }
    lake
}

fn check_length_cases() {
    let lake = lake();
    for (bound, expected) in [(400, true), (399, false), (1_200, true), (65_535, true)] {
        assert_eq!(truth(&lake, Kind::LengthAtMost(bound), 0, 5), expected);
    }
    // An edge of tag 6 is one hop.
    assert!(truth(&lake, Kind::Within(2), 0, 5));
    assert!(!truth(&lake, Kind::Within(1), 0, 5));
    assert!(truth(&lake, Kind::Reaches, 0, 5));
    // From a node to itself, and where there is no path.
    assert!(truth(&lake, Kind::LengthAtMost(0), 3, 3));
    assert!(!truth(&lake, Kind::LengthAtMost(65_535), 5, 0));
    assert!(!truth(&lake, Kind::LengthAtMost(0), 5, 0));
    // Tag 2 means length 1.
    let mut row = PlanFile::with_nodes(3);
    row.edge(0, 1);
    row.edge(1, 2);
    assert!(truth(&row, Kind::LengthAtMost(2), 0, 2));
    assert!(!truth(&row, Kind::LengthAtMost(1), 0, 2));
    // 63 spans of 65,535: no sum is cut at 16 bits.
    let mut longest = PlanFile::with_nodes(64);
    (0..63).for_each(|k| {
        longest.long_edge(k, k + 1, 65_535);
    });
    let lengths = distances_over(Measure::Lengths, 64, &longest.edges, 0);
    assert_eq!(lengths[63], Some(4_128_705));
    assert!(truth(&longest, Kind::LengthAtMost(65_535), 0, 1));
    assert!(!truth(&longest, Kind::LengthAtMost(65_534), 0, 1));
    for target in 2..64 {
        assert!(!truth(&longest, Kind::LengthAtMost(65_535), 0, target));
    }
}

/// Two ways of the same length: the smallest edge number at each step back. And a cut
/// with an edge on either side of each comparison.
fn check_length_reasons() {
    let mut ties = PlanFile::with_nodes(4);
    ties.long_edge(2, 3, 2);
    ties.long_edge(1, 3, 3);
    ties.long_edge(0, 2, 3);
    ties.long_edge(0, 1, 2);
    let atom = ties.length_at_most(0, 3, 5) as i16;
    let mut out = [77; 4];
    assert_eq!(
        calls::reason(&to_bytes(&ties), &[1, 1, 1, 1, 0], 1, &mut out),
        Answer::Holds(3)
    );
    assert_eq!(out, [atom, -1, -3, 77]);
    // The direct edge would bring 6 where 5 is the bound, the way over 1 brings 5 and more.
    let mut cut = PlanFile::with_nodes(3);
    cut.long_edge(0, 1, 2);
    cut.long_edge(1, 2, 3);
    cut.long_edge(1, 2, 9);
    cut.long_edge(0, 2, 11);
    cut.length_at_most(0, 2, 5);
    let mut out = [77; 4];
    assert_eq!(
        calls::reason(&to_bytes(&cut), &[0, -1, 0, -1, 0], 1, &mut out),
        Answer::Fails(2)
    );
    assert_eq!(out, [-5, 2, 77, 77]);
}

fn check_unwritable() {
    let mut plan = lake();
    plan.within(0, 5, 3);
    plan.length_at_most(0, 5, 400);
    plan.length_at_most(0, 5, 399);
    let file = to_bytes(&plan);
    assert_eq!(calls::write_clauses(&file, &mut []), refused(13, 2));
    assert_eq!(
        calls::write_dimacs(&file, &mut [77; 20_000]),
        refused(13, 2)
    );
    assert_eq!(programs::linkcnf(&file), "r 13 2\n");
    assert_eq!(programs::linkdimacs(&file), "r 13 2\n");
}

/// P5 to P10.
fn check_sample_cases() {
    let file = sample::bytes();
    assert_eq!(file.len(), 71);
    let judged = |values: &[i8]| calls::judge(&file, values);
    assert_eq!(judged(&[1, 1, -1, -1, 1]), Answer::Judged(Judgement::Plan));
    assert_eq!(
        judged(&[1, 1, 1, -1, 1]),
        Answer::Judged(Judgement::Atom(1))
    );
    let mut result = [77; 5];
    assert_eq!(calls::close(&file, &[0; 5], &mut result), Answer::Closed);
    assert_eq!(result, [0, 0, 0, -1, 1]);
    assert_eq!(
        calls::close(&file, &[-1, 0, -1, 0, 0], &mut result),
        Answer::Clash
    );
    assert_eq!(result, [0, 0, 0, -1, 1]);
    let mut out = [77; 4];
    assert_eq!(
        calls::reason(&file, &[1, 1, 0, 0, 0], 2, &mut out),
        Answer::Holds(3)
    );
    assert_eq!(out, [5, -1, -2, 77]);
    let mut out = [77; 4];
    assert_eq!(
        calls::reason(&file, &[0, 0, -1, 0, 0], 1, &mut out),
        Answer::Fails(2)
    );
    assert_eq!(out, [-4, 3, 77, 77]);
}

fn check_sample_runs() {
    let file = sample::bytes();
    let mut result = [77; 5];
    assert_eq!(calls::search(&file, 6, &mut result), Answer::Undecided(6));
    assert_eq!(result, [77; 5]);
    assert_eq!(calls::search(&file, 7, &mut result), Answer::Plan(7));
    assert_eq!(result, [1, 1, -1, -1, 1]);
    let printed = "s SATISFIABLE\nv 1 2 -3 -4 5 0\nc branchings 7\n";
    assert_eq!(programs::linkplan(&file), printed);
    let plan = read(&file).expect("the sample is accepted");
    let written = clauses::write(&plan);
    assert_eq!(
        (written.variables, written.clauses, written.numbers.len()),
        (29, 66, 208)
    );
}

fn refused(number: u32, value: usize) -> Answer {
    Answer::Refused(Refusal { number, value })
}

fn check_refusals() {
    let file = sample::bytes();
    assert_eq!(calls::read(&[]), refused(2, 0));
    assert_eq!(programs::linkplan(&[]), "r 2 0\n");
    let mut out = [77; 207];
    assert_eq!(calls::write_clauses(&file, &mut out), refused(12, 208));
    assert_eq!(out, [77; 207]);
    // Each of 9 to 12 comes before the next, whatever else is wrong.
    let mut out = [77; 1];
    assert_eq!(calls::reason(&file, &[2; 4], 9, &mut out), refused(9, 5));
    assert_eq!(
        calls::reason(&file, &[0, 2, 2, 0, 0], 9, &mut out),
        refused(10, 1)
    );
    assert_eq!(
        calls::reason(&file, &[1, 1, 0, 0, 0], 3, &mut out),
        refused(11, 2)
    );
    assert_eq!(
        calls::reason(&file, &[1, 1, 0, 0, 0], 2, &mut out),
        refused(12, 3)
    );
    assert_eq!(calls::reason(&file, &[0; 5], 2, &mut []), Answer::Open);
    let mut result = [77; 4];
    assert_eq!(calls::close(&file, &[2; 5], &mut result), refused(9, 5));
    assert_eq!(calls::judge(&file, &[1, 1, 0, 2, 1]), refused(10, 2));
    assert_eq!(calls::search(&file, 0, &mut result), refused(9, 5));
}
