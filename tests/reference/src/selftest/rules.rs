//! Texts of rules: reading against brute force, printing against reading, and
//! what is known of the sample.

use crate::brute;
use crate::calls::{self, Answer};
use crate::clauses;
use crate::dimacs;
use crate::file::{read, PlanFile, Refusal};
use crate::generate::{lengths, limits, scattered, texts};
use crate::programs::{linkdimacs, linkrules};
use crate::random::Random;
use crate::sample;
use crate::sat;
use crate::write;

pub fn check_known() {
    let file = sample::bytes();
    assert_eq!(linkdimacs(&file), sample::DIMACS);
    assert_eq!(linkdimacs(&file[..70]), "r 2 68\n");
    check_known_rooms(&file);
    check_known_rules(&file);
}

fn check_known_rooms(file: &[u8]) {
    let needed = sample::DIMACS.len();
    let mut short = vec![77; needed - 1];
    let refused = Answer::Refused(Refusal {
        number: 12,
        value: needed,
    });
    assert_eq!(calls::write_dimacs(file, &mut short), refused);
    assert_eq!(short, vec![77; needed - 1]);
    let mut long = vec![77; needed + 1];
    assert_eq!(
        calls::write_dimacs(file, &mut long),
        Answer::Printed(needed)
    );
    assert_eq!(long, [sample::DIMACS.as_bytes(), b"M"].concat());
}

/// The sample without its clauses, and its clauses as house rules.
fn check_known_rules(file: &[u8]) {
    let bare = [&file[..58], &file[68..]].concat();
    let rules = b"c house rules\np cnf 5 2\n5\n0 -4\nc off\n0";
    assert_eq!(linkrules(&bare, rules), file);
    assert_eq!(linkrules(&bare, b"p cnf 5 1\n5\n0 -4 0"), b"r 21 0\n");
    assert_eq!(linkrules(&bare[..60], rules), b"r 2 58\n");
}

pub fn check(random: &mut Random) {
    let mut plan = match random.below(40) {
        0 => limits::full(random),
        1..=4 => scattered::medium(random),
        _ => scattered::small(random),
    };
    // Rules are put into a file about lengths too, and records of tag 6 stay.
    let written = plan.clone();
    if random.chance(30) {
        lengths::put_in(&mut plan, random);
    }
    for _ in 0..2 {
        check_reading(&plan, &texts::text(&plan, random), random);
    }
    // A full file's list is too long to be printed and read so often.
    if plan.edges.len() < 100 {
        check_printing(&written);
        check_same_text(&written, random);
    }
}

fn check_reading(plan: &PlanFile, text: &[u8], random: &mut Random) {
    let given = [plan.variables, plan.clauses.len(), plan.literals()];
    let rules = dimacs::read(plan, text);
    let wide = |clause: &Vec<i16>| clause.iter().map(|&literal| literal.into()).collect();
    let said: Result<Vec<Vec<i32>>, Refusal> = rules
        .as_ref()
        .map(|clauses| clauses.iter().map(wide).collect())
        .map_err(|&refusal| refusal);
    assert_eq!(
        said,
        brute::rules::read(given, text),
        "reading {:?}",
        text.escape_ascii().to_string()
    );
    if let Ok(clauses) = rules {
        check_putting_in(plan, clauses, text, random);
    }
}

/// The file with the rules put in is the same plan, the rules behind its own clauses.
fn check_putting_in(plan: &PlanFile, clauses: Vec<Vec<i16>>, text: &[u8], random: &mut Random) {
    let file = write::mixed_records(plan, random).concat();
    let mut expected = plan.clone();
    expected.clauses.extend(clauses);
    assert_eq!(read(&linkrules(&file, text)), Ok(expected));
}

/// Lengths have no part in the clauses of kinds 1 and 2: an edge of either tag is one hop.
fn check_same_text(plan: &PlanFile, random: &mut Random) {
    let mut long = plan.clone();
    lengths::put_into_edges(&mut long, random);
    assert_eq!(
        linkdimacs(&write::to_bytes(&long)),
        dimacs::print(plan),
        "{plan:?}"
    );
}

/// A printed text reads back as the written-out list, and each block stands behind
/// its own comment.
fn check_printing(plan: &PlanFile) {
    let written = clauses::write(plan);
    let text = dimacs::print(plan);
    let rules = dimacs::parse(text.as_bytes()).expect("a printed text is good");
    assert_eq!(
        (rules.p, rules.variables, rules.count),
        (0, written.variables, written.clauses)
    );
    let read: Vec<Vec<i32>> = rules.clauses.into_iter().map(|c| c.literals).collect();
    assert_eq!(read, sat::clauses_of(&written.numbers), "printing {plan:?}");
    let mut lines: Vec<&str> = text.lines().collect();
    for number in (1..=plan.atoms.len()).rev() {
        let mut before = plan.clone();
        before.atoms.truncate(number - 1);
        // The `p` line, the clauses and the comments before this one.
        let place = 1 + clauses::counts(&before).clauses + number - 1;
        assert_eq!(lines.remove(place), format!("c atom {number}"), "{plan:?}");
    }
    assert_eq!(lines.len(), 1 + written.clauses);
    assert_eq!(
        lines[1..].join("\n"),
        clauses::lines(&written.numbers).trim_end()
    );
}
