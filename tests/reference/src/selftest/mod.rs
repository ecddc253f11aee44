//! The reference against its own second opinions, on many small files.

mod answers;
mod known;
mod rules;
mod solver;

use crate::brute;
use crate::brute::sets::{self, Obeying};
use crate::calls::{self, Answer};
use crate::clauses;
use crate::close::close;
use crate::file::{read, PlanFile, Refusal};
use crate::generate::{self, damaged, delays, lengths, limits, scattered, Sort, SORTS};
use crate::judge::{judge, Judgement};
use crate::meaning::{distances_over, verdict, Measure, Verdict};
use crate::random::Random;
use crate::reason::{reason, Reason};
use crate::sat;
use crate::search::{search, Outcome};
use crate::stored;
use crate::write;
use crate::written::continuations;

/// Panics at the first difference, with the seed and the file in the message.
pub fn run(seed: u64, files: usize) -> String {
    known::check();
    rules::check_known();
    stored::calls::confirm().expect("the stored calls answer as they say");
    for number in 0..files as u64 {
        let mut random = Random::part(seed, number);
        check_reading(&mut random);
        check_small(&mut random);
        check_lengths(&mut random);
        rules::check(&mut random);
        solver::check(&mut random);
        if number % 4 == 0 {
            answers::check(&mut random);
            solver::check_written(&mut random);
        }
    }
    check_full_file(&mut Random::new(seed));
    format!("selftest: seed {seed}, {files} files, no difference\n")
}

fn check_reading(random: &mut Random) {
    let sorts = [random.pick(&SORTS), Sort::Damaged, Sort::Damaged];
    for sort in sorts {
        check_read(&generate::file(sort, random));
    }
    check_read(&damaged::damaged(random));
    check_read(&damaged::with_lengths(random));
    if random.chance(10) {
        check_read(&limits::with_lengths(random));
    }
}

fn check_read(file: &[u8]) {
    let counts = read(file).map(|plan| {
        let (edges, atoms) = (plan.edges.len(), plan.atoms.len());
        [
            plan.nodes,
            plan.variables,
            edges,
            atoms,
            plan.clauses.len(),
            plan.literals(),
        ]
    });
    assert_eq!(counts, brute::reader::read(file), "reading {file:?}");
}

/// A file comes back from its bytes as it went in, in any order of its sorts.
fn check_round_trip(plan: &PlanFile, random: &mut Random) {
    assert_eq!(read(&write::to_bytes(plan)).as_ref(), Ok(plan));
    assert_eq!(
        read(&write::mixed_records(plan, random).concat()).as_ref(),
        Ok(plan)
    );
}

fn check_small(random: &mut Random) {
    let mut plan = scattered::tiny(random);
    if random.chance(40) {
        lengths::put_in(&mut plan, random);
    }
    check_round_trip(&plan, random);
    let obeying = Obeying::of(&plan);
    check_judging(&plan);
    check_search(&plan, &obeying);
    match plan.first_about_lengths() {
        None => check_clauses(&plan),
        Some(atom) => check_unwritable(&plan, atom),
    }
    for _ in 0..12 {
        let values: Vec<i8> = (0..plan.variables)
            .map(|_| random.pick(&[-1, 0, 0, 1]))
            .collect();
        check_closing(&plan, &obeying, &values);
        check_reasons(&plan, &values);
    }
}

/// All distances of a file that is made for lengths, and judging where there are many
/// more nodes and edges than brute force can try assignments of.
fn check_lengths(random: &mut Random) {
    let plan = delays::delays(random);
    check_round_trip(&plan, random);
    let values: Vec<i8> = (0..plan.variables)
        .map(|_| random.pick(&[1, 1, 1, -1]))
        .collect();
    let is_on = |edge: &crate::file::Edge| values[edge.variable - 1] == 1;
    let walks = brute::walks::Walks::of(&plan, is_on);
    let lit = plan.edges.iter().copied().filter(is_on).collect();
    for source in 0..plan.nodes {
        let hops = distances_over(Measure::Hops, plan.nodes, &lit, source);
        let lengths = distances_over(Measure::Lengths, plan.nodes, &lit, source);
        for target in 0..plan.nodes {
            assert_eq!(hops[target], walks.hops(source, target), "{plan:?}");
            let length = lengths[target].map(|length| length as u64);
            assert_eq!(length, walks.length(source, target), "{plan:?}");
        }
    }
    let clause = |c: &Vec<i16>| !brute::plans::clause_is_true(&values, c);
    let wrong = |k: &usize| !brute::plans::atom_is_right(&plan, &values, *k);
    let expected = match plan.clauses.iter().position(clause) {
        Some(k) => Judgement::Clause(k + 1),
        None => {
            let atom = (1..=plan.atoms.len()).find(wrong);
            atom.map_or(Judgement::Plan, Judgement::Atom)
        }
    };
    assert_eq!(judge(&plan, &values), expected, "judging in {plan:?}");
}

/// Refused with 13 whatever the room, and the room stays as it was.
fn check_unwritable(plan: &PlanFile, atom: usize) {
    let file = write::to_bytes(plan);
    let refused = Answer::Refused(Refusal {
        number: 13,
        value: atom,
    });
    for room in [0, 1, 5_000] {
        let mut list = vec![77; room];
        assert_eq!(calls::write_clauses(&file, &mut list), refused, "{plan:?}");
        let mut text = vec![77; room];
        assert_eq!(calls::write_dimacs(&file, &mut text), refused, "{plan:?}");
        assert!(list.iter().all(|&place| place == 77));
        assert!(text.iter().all(|&place| place == 77));
    }
}

fn check_judging(plan: &PlanFile) {
    for values in brute::plans::assignments(plan.variables) {
        let judged = judge(plan, &values);
        let clause = plan
            .clauses
            .iter()
            .position(|c| !brute::plans::clause_is_true(&values, c));
        let atom = (1..=plan.atoms.len()).find(|&k| !brute::plans::atom_is_right(plan, &values, k));
        let expected = match (clause, atom) {
            (Some(k), _) => Judgement::Clause(k + 1),
            (None, Some(number)) => Judgement::Atom(number),
            (None, None) => Judgement::Plan,
        };
        assert_eq!(judged, expected, "judging {values:?} in {plan:?}");
        assert_eq!(
            judged == Judgement::Plan,
            brute::plans::is_plan(plan, &values)
        );
    }
}

fn check_closing(plan: &PlanFile, obeying: &Obeying, values: &[i8]) {
    let closed = close(plan, values).ok();
    let expected = obeying
        .close(sets::of_values(values))
        .map(|set| sets::to_values(plan.variables, set));
    assert_eq!(closed, expected, "closing {values:?} in {plan:?}");
}

fn check_search(plan: &PlanFile, obeying: &Obeying) {
    let searched = search(plan, u32::MAX);
    let first = brute::plans::first_plan(plan);
    let expected = match first {
        Some(values) => Outcome::Plan(values),
        None => Outcome::Impossible,
    };
    assert_eq!(searched.outcome, expected, "searching {plan:?}");
    let (count, found) = obeying.tree(0);
    assert_eq!(
        u64::from(searched.branchings),
        count,
        "counting in {plan:?}"
    );
    assert_eq!(found.is_some(), expected != Outcome::Impossible);
    check_budgets(plan, searched.branchings, &expected);
    check_most_branchings(plan, count);
}

/// Undecided exactly if B is above the budget; then the count is the budget.
fn check_budgets(plan: &PlanFile, count: u32, decided: &Outcome) {
    for budget in 0..=count + 1 {
        let searched = search(plan, budget);
        if count > budget {
            assert_eq!(searched.outcome, Outcome::Undecided);
            assert_eq!(searched.branchings, budget);
        } else {
            assert_eq!(&searched.outcome, decided);
            assert_eq!(searched.branchings, count);
        }
    }
}

/// With k variables open after the first closing, B is at most 2 to the k, less 1.
fn check_most_branchings(plan: &PlanFile, count: u64) {
    let open = close(plan, &vec![0; plan.variables]).map_or(0, |closed| {
        closed.iter().filter(|&&value| value == 0).count()
    });
    assert!(
        count < 1 << open,
        "{count} branchings with {open} open in {plan:?}"
    );
}

fn check_reasons(plan: &PlanFile, values: &[i8]) {
    for atom in &plan.atoms {
        let said = brute::reasons::verdict(plan, values, atom);
        assert_eq!(
            verdict(plan, values, atom),
            said,
            "{atom:?} under {values:?} in {plan:?}"
        );
        let given = reason(plan, values, atom);
        let expected = match said {
            Verdict::Holds => Reason::Holds(brute::reasons::holds_clause(plan, values, atom)),
            Verdict::Fails => Reason::Fails(brute::reasons::fails_clause(plan, values, atom)),
            Verdict::Open => Reason::Open,
        };
        assert_eq!(
            given, expected,
            "reason for {atom:?} under {values:?} in {plan:?}"
        );
        if let Reason::Holds(clause) | Reason::Fails(clause) = given {
            check_reason_is_true(plan, atom, &clause);
        }
    }
}

/// A reason is true in every assignment where its atom's variable equals its truth.
fn check_reason_is_true(plan: &PlanFile, atom: &crate::file::Atom, clause: &[i16]) {
    let number = plan
        .atoms
        .iter()
        .position(|other| other == atom)
        .expect("it is there")
        + 1;
    for values in brute::plans::assignments(plan.variables) {
        if brute::plans::atom_is_right(plan, &values, number) {
            assert!(
                brute::plans::clause_is_true(&values, clause),
                "{clause:?} in {plan:?}"
            );
        }
    }
}

/// The written clauses have a continuation for every plan, exactly one, and none
/// for any other assignment.
fn check_clauses(plan: &PlanFile) {
    let written = clauses::write(plan);
    let counts = clauses::counts(plan);
    let list = sat::clauses_of(&written.numbers);
    assert_eq!(counts.variables, written.variables);
    assert_eq!(counts.clauses, written.clauses);
    assert_eq!(counts.clauses, list.len());
    assert_eq!(counts.numbers, written.numbers.len());
    for values in brute::plans::assignments(plan.variables) {
        let expected = usize::from(brute::plans::is_plan(plan, &values));
        let own = &mut |variables: usize, clauses: &[Vec<i32>]| Ok(sat::solve(variables, clauses));
        let found = continuations(written.variables, &list, &values, own);
        assert_eq!(found, Ok(expected), "continuing {values:?} in {plan:?}");
    }
}

/// The formulas of document 01 against the largest list there is.
fn check_full_file(random: &mut Random) {
    let plan = limits::full(random);
    check_read(&write::to_bytes(&plan));
    let counts = clauses::counts(&plan);
    let written = clauses::write(&plan);
    assert_eq!(counts.numbers, written.numbers.len());
    assert_eq!(counts.clauses, written.clauses);
    assert_eq!(counts.variables, written.variables);
    let highest = written
        .numbers
        .iter()
        .map(|number| number.unsigned_abs())
        .max();
    assert_eq!(highest, Some(counts.variables as u32));
}
