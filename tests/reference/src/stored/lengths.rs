//! Stored requests of every call about lengths (request C-13).

use super::answered::Answered;
use super::ask::{close, judge, read, reason, search, write_clauses, write_dimacs};
use super::texts::{case, places};
use crate::file::PlanFile;
use crate::sample;
use crate::write::{clause, edge, end, head, long_edge, to_bytes};

pub fn answered() -> Vec<Answered> {
    let mut cases = lake_truths();
    cases.extend(lake_reasons());
    cases.extend(lake_closings());
    cases.extend(lake_searches());
    cases.extend(tie_cases());
    cases.extend(cut_cases());
    cases.extend(small_cases());
    cases.extend(far_cases());
    cases.extend(longest_cases());
    cases.extend(interleaved_cases());
    cases.extend(unwritable_cases());
    cases.extend(hop_cases());
    cases.extend(numbering_cases());
    cases.extend(rule_cases());
    cases
}

/// Two hops round the lake, 600 each (1, 2), and four downtown, 100 each (3 to 6). From
/// 0 to 5: at most 400 (7), at most 399 (8), within 2 (9), reaches (10), at most 1,200
/// (11), at most 1,199 (12).
fn lake(clauses: &[&[i16]]) -> Vec<u8> {
    let mut plan = PlanFile::with_nodes(6);
    plan.long_edge(0, 1, 600);
    plan.long_edge(1, 5, 600);
    for (from, to) in [(0, 2), (2, 3), (3, 4), (4, 5)] {
        plan.long_edge(from, to, 100);
    }
    plan.length_at_most(0, 5, 400);
    plan.length_at_most(0, 5, 399);
    plan.within(0, 5, 2);
    plan.reaches(0, 5);
    plan.length_at_most(0, 5, 1_200);
    plan.length_at_most(0, 5, 1_199);
    plan.clauses = clauses.iter().map(|one| one.to_vec()).collect();
    to_bytes(&plan)
}

/// The links, then the atoms' variables.
fn both(links: &[i8], atoms: &[i8]) -> Vec<i8> {
    [links, atoms].concat()
}

const ALL_LIT: [i8; 6] = [1, 1, 1, 1, 1, 1];
const LAKE_LIT: [i8; 6] = [1, 1, -1, -1, -1, -1];
const DOWNTOWN_LIT: [i8; 6] = [-1, -1, 1, 1, 1, 1];

/// What is true with these links, and each atom's variable turned round.
fn judged(file: &[u8], links: &[i8], truths: &[i8]) -> Vec<Answered> {
    let mut cases = vec![Answered::new(judge(file, &both(links, truths)), "plan")];
    for k in 0..truths.len() {
        let mut wrong = truths.to_vec();
        wrong[k] = -wrong[k];
        let expected = format!("atom {}", k + 1);
        cases.push(Answered::new(judge(file, &both(links, &wrong)), &expected));
    }
    cases
}

fn lake_truths() -> Vec<Answered> {
    let file = &lake(&[]);
    let mut cases = vec![Answered::new(read(file), "accepted 6 12 6 6 0 0")];
    cases.extend(judged(file, &ALL_LIT, &[1, -1, 1, 1, 1, 1]));
    cases.extend(judged(file, &LAKE_LIT, &[-1, -1, 1, 1, 1, -1]));
    cases.extend(judged(file, &DOWNTOWN_LIT, &[1, -1, -1, 1, 1, 1]));
    let nowhere = both(&[1, -1, 1, 1, -1, 1], &[-1; 6]);
    cases.push(Answered::new(judge(file, &nowhere), "plan"));
    cases
}

/// What a reason answers, and the answer again where the room is one too short.
fn reasons(file: &[u8], links: &[i8], atoms: usize, expected: &[(u16, &str)]) -> Vec<Answered> {
    let values = both(links, &vec![0; atoms]);
    let ask =
        |&(atom, expected): &(u16, &str)| Answered::new(reason(file, &values, atom, 6), expected);
    expected.iter().map(ask).collect()
}

fn lake_reasons() -> Vec<Answered> {
    let file = &lake(&[]);
    let of = |links: &[i8], expected: &[(u16, &str)]| reasons(file, links, 6, expected);
    let mut cases = of(
        &ALL_LIT,
        &[
            (1, "holds 5 : 7 -3 -4 -5 -6 77"),
            (2, "fails 1 : -8 77 77 77 77 77"),
            (3, "holds 3 : 9 -1 -2 77 77 77"),
            (4, "holds 3 : 10 -1 -2 77 77 77"),
            (5, "holds 5 : 11 -3 -4 -5 -6 77"),
            (6, "holds 5 : 12 -3 -4 -5 -6 77"),
        ],
    );
    cases.extend(of(
        &LAKE_LIT,
        &[
            (1, "fails 2 : -7 3 77 77 77 77"),
            (2, "fails 2 : -8 3 77 77 77 77"),
            (5, "holds 3 : 11 -1 -2 77 77 77"),
            (6, "fails 2 : -12 3 77 77 77 77"),
        ],
    ));
    cases.extend(of(
        &[0, 0, 1, -1, 1, 1],
        &[
            (1, "fails 2 : -7 4 77 77 77 77"),
            (5, "open : 77 77 77 77 77 77"),
            (6, "fails 2 : -12 4 77 77 77 77"),
        ],
    ));
    cases.extend(of(
        &[0; 6],
        &[
            (1, "open : 77 77 77 77 77 77"),
            (2, "fails 1 : -8 77 77 77 77 77"),
            (7, "refused 11 6 : 77 77 77 77 77 77"),
        ],
    ));
    let lit = both(&ALL_LIT, &[0; 6]);
    cases.extend([
        Answered::new(reason(file, &lit, 1, 5), "holds 5 : 7 -3 -4 -5 -6"),
        Answered::new(reason(file, &lit, 1, 4), "refused 12 5 : 77 77 77 77"),
        Answered::new(reason(file, &lit, 2, 0), "refused 12 1 :"),
    ]);
    cases
}

fn line(values: &[i8]) -> String {
    let places: String = values.iter().map(|value| format!(" {value}")).collect();
    format!("closed :{places}")
}

fn lake_closings() -> Vec<Answered> {
    let file = &lake(&[]);
    let closes = |links: &[i8], atoms: &[i8]| {
        let given = both(links, &[0; 6]);
        Answered::new(close(file, &given, 12), &line(&both(links, atoms)))
    };
    let clash = |links: &[i8], atoms: &[i8]| {
        let expected = format!("clash :{}", " 77".repeat(12));
        Answered::new(close(file, &both(links, atoms), 12), &expected)
    };
    vec![
        closes(&[0; 6], &[0, -1, 0, 0, 0, 0]),
        closes(&[0, 0, -1, 0, 0, 0], &[-1, -1, 0, 0, 0, -1]),
        closes(&[0, 0, 1, 1, 1, 1], &[1, -1, 0, 1, 1, 1]),
        closes(&[1, 1, 0, 0, 0, 0], &[0, -1, 1, 1, 1, 0]),
        closes(&[-1, 0, 0, 0, 0, 0], &[0, -1, -1, 0, 0, 0]),
        closes(&[-1, 0, 0, 0, 0, -1], &[-1, -1, -1, -1, -1, -1]),
        closes(&LAKE_LIT, &[-1, -1, 1, 1, 1, -1]),
        clash(&[0; 6], &[0, 1, 0, 0, 0, 0]),
        clash(&[0, 0, -1, 0, 0, 0], &[0, 0, 0, 0, 0, 1]),
        clash(&[0, 0, 1, 1, 1, 1], &[-1, 0, 0, 0, 0, 0]),
        clash(&[1, 1, 0, 0, 0, 0], &[0, 0, 0, 0, -1, 0]),
    ]
}

/// At most 400, and not within 2 hops: the longer way by hops is the plan. Off is
/// possible for 1 and 2, and at once a clash for each of 3 to 6.
fn lake_searches() -> Vec<Answered> {
    let wanted = &lake(&[&[7], &[-9]]);
    let dug_up = &lake(&[&[7], &[-4]]);
    let dug_up_too = &lake(&[&[11, 12], &[-12], &[-4]]);
    let kept = " 77".repeat(12);
    let found = "-1 -1 1 1 1 1 1 -1 -1 1 1 1";
    let round = "1 1 -1 -1 -1 -1 -1 -1 1 1 1 -1";
    vec![
        Answered::new(search(wanted, 6, 12), &format!("plan 6 : {found}")),
        Answered::new(search(wanted, 1_000_000, 12), &format!("plan 6 : {found}")),
        Answered::new(search(wanted, 5, 12), &format!("undecided 5 :{kept}")),
        Answered::new(search(wanted, 0, 12), &format!("undecided 0 :{kept}")),
        Answered::new(search(dug_up, 0, 12), &format!("impossible 0 :{kept}")),
        // 11 and not 12: round the lake. 1 and 2 clash at once where they are off, and 3, 5
        // and 6 stay off.
        Answered::new(search(dug_up_too, 5, 12), &format!("plan 5 : {round}")),
        Answered::new(search(dug_up_too, 4, 12), &format!("undecided 4 :{kept}")),
    ]
}

/// Four ways of length 6 to node 4, over 3, 2, 1 and directly, and one of length 7; the
/// span to 3 is there with tag 2 and with tag 6.
fn ties() -> Vec<u8> {
    let mut plan = PlanFile::with_nodes(5);
    plan.long_edge(3, 4, 5);
    plan.long_edge(2, 4, 4);
    plan.long_edge(1, 4, 3);
    plan.long_edge(0, 1, 3);
    plan.long_edge(0, 2, 2);
    plan.edge(0, 3);
    plan.long_edge(0, 3, 1);
    plan.long_edge(0, 4, 6);
    plan.long_edge(0, 4, 7);
    plan.length_at_most(0, 4, 6);
    to_bytes(&plan)
}

fn tie_cases() -> Vec<Answered> {
    let file = &ties();
    let of = |links: [i8; 9], expected: &str| {
        let values = both(&links, &[0]);
        Answered::new(reason(file, &values, 1, 6), expected)
    };
    vec![
        of([1, 1, 1, 1, 1, 1, 1, 1, 1], "holds 3 : 10 -1 -6 77"),
        of([1, 1, 1, 1, 1, -1, 1, 1, 1], "holds 3 : 10 -1 -7 77"),
        of([0, 1, 1, 1, 1, 1, 1, 1, 1], "holds 3 : 10 -2 -5 77"),
        of([1, 1, 1, 1, 1, -1, -1, 1, 1], "holds 3 : 10 -2 -5 77"),
        of([-1, -1, 1, 1, 1, 1, 1, 1, 1], "holds 3 : 10 -3 -4 77"),
        of([-1, -1, -1, 1, 1, 1, 1, 1, 1], "holds 2 : 10 -8 77"),
        of([-1, -1, -1, 1, 1, 1, 1, -1, 1], "fails 5 : -10 1 2 3 8 77"),
        of([1, 1, -1, 0, 0, 0, 0, -1, 1], "open : 77"),
    ]
}

/// From 0, with 1, 2 and 7 open: node 1 at 3, node 2 at 9, node 4 at 10, nodes 3 and 5
/// not reached. The dark links from 1 to 2 would bring it to 8 (3), to 9 (4), to 10 (5)
/// and, by tag 2, to 4 (11).
fn cut() -> Vec<u8> {
    let mut plan = PlanFile::with_nodes(6);
    plan.long_edge(0, 1, 3);
    plan.long_edge(0, 2, 9);
    plan.long_edge(1, 2, 5);
    plan.long_edge(1, 2, 6);
    plan.long_edge(1, 2, 7);
    plan.long_edge(2, 3, 40);
    plan.long_edge(0, 4, 10);
    plan.long_edge(4, 3, 1);
    plan.long_edge(5, 3, 1);
    plan.long_edge(1, 0, 1);
    plan.edge(1, 2);
    for bound in [10, 9, 11, 3, 4, 65_535] {
        plan.length_at_most(0, 3, bound);
    }
    plan.within(0, 3, 2);
    plan.reaches(0, 3);
    plan.length_at_most(0, 2, 8);
    to_bytes(&plan)
}

fn cut_cases() -> Vec<Answered> {
    let file = &cut();
    let expected = [
        (1, "fails 4 : -12 3 6 11 77 77"),
        (2, "fails 3 : -13 3 11 77 77 77"),
        (3, "fails 5 : -14 3 6 8 11 77"),
        (4, "fails 1 : -15 77 77 77 77 77"),
        (5, "fails 3 : -16 3 11 77 77 77"),
        (6, "fails 5 : -17 3 6 8 11 77"),
        (7, "fails 3 : -18 6 8 77 77 77"),
        (8, "fails 3 : -19 6 8 77 77 77"),
        (9, "fails 3 : -20 3 11 77 77 77"),
    ];
    let dark = [-1; 8];
    let open = both(&[0, 0], &both(&dark[..4], &both(&[0], &dark[..4])));
    let lit = both(&[1, 1], &both(&dark[..4], &both(&[1], &dark[..4])));
    let mut cases = reasons(file, &open, 9, &expected);
    // Open or lit, the over graph is the same.
    cases.extend(reasons(file, &lit, 9, &expected[..2]));
    cases
}

/// From a node to itself, and no path.
fn small_cases() -> Vec<Answered> {
    let mut alone = PlanFile::with_nodes(1);
    alone.length_at_most(0, 0, 0);
    let alone = &to_bytes(&alone);
    let mut round = PlanFile::with_nodes(2);
    round.long_edge(0, 0, 5);
    round.length_at_most(0, 0, 0);
    round.length_at_most(1, 1, 65_535);
    let round = &to_bytes(&round);
    let mut no_path = PlanFile::with_nodes(2);
    no_path.long_edge(1, 0, 5);
    no_path.length_at_most(0, 1, 65_535);
    no_path.length_at_most(0, 1, 0);
    let no_path = &to_bytes(&no_path);
    vec![
        Answered::new(judge(alone, &[1]), "plan"),
        Answered::new(judge(alone, &[-1]), "atom 1"),
        Answered::new(close(alone, &[0], 1), "closed : 1"),
        Answered::new(reason(alone, &[0], 1, 2), "holds 1 : 1 77"),
        Answered::new(search(alone, 0, 1), "plan 0 : 1"),
        Answered::new(reason(round, &[1, 0, 0], 1, 2), "holds 1 : 2 77"),
        Answered::new(reason(round, &[-1, 0, 0], 2, 2), "holds 1 : 3 77"),
        Answered::new(judge(no_path, &[1, -1, -1]), "plan"),
        Answered::new(judge(no_path, &[1, 1, -1]), "atom 1"),
        Answered::new(judge(no_path, &[-1, -1, 1]), "atom 2"),
        Answered::new(close(no_path, &[0, 0, 0], 3), "closed : 0 -1 -1"),
        Answered::new(reason(no_path, &[1, 0, 0], 1, 2), "fails 1 : -2 77"),
        Answered::new(reason(no_path, &[-1, 0, 0], 2, 2), "fails 1 : -3 77"),
        Answered::new(search(no_path, 1, 3), "plan 1 : -1 -1 -1"),
    ]
}

/// Sums of 65,535, of 65,537 and of 131,072, of which 16 bits would leave 65,535, 1 and 0.
fn far_cases() -> Vec<Answered> {
    let mut plan = PlanFile::with_nodes(4);
    plan.long_edge(0, 1, 65_535);
    plan.long_edge(1, 2, 2);
    plan.long_edge(2, 3, 65_535);
    for (to, bound) in [
        (1, 65_535),
        (1, 65_534),
        (2, 65_535),
        (2, 1),
        (3, 65_535),
        (3, 0),
    ] {
        plan.length_at_most(0, to, bound);
    }
    let file = &to_bytes(&plan);
    let truths = [1, -1, -1, -1, -1, -1];
    let lit = [1, 1, 1];
    let mut cases = judged(file, &lit, &truths);
    let closed = line(&both(&lit, &truths));
    let given = both(&lit, &[0; 6]);
    cases.push(Answered::new(close(file, &given, 9), &closed));
    cases.extend(reasons(
        file,
        &lit,
        6,
        &[
            (1, "holds 2 : 4 -1 77 77 77 77"),
            (3, "fails 1 : -6 77 77 77 77 77"),
            (4, "fails 1 : -7 77 77 77 77 77"),
            (6, "fails 1 : -9 77 77 77 77 77"),
        ],
    ));
    // 1 is dark: all is cut off, and the bound 0 leaves no edge to blame.
    cases.extend(reasons(
        file,
        &[-1, 1, 1],
        6,
        &[
            (3, "fails 2 : -6 1 77 77 77 77"),
            (6, "fails 1 : -9 77 77 77 77 77"),
        ],
    ));
    cases
}

/// 63 spans of 65,535: the longest is 4,128,705, of which 16 bits would leave 65,473.
fn longest_cases() -> Vec<Answered> {
    let mut plan = PlanFile::with_nodes(64);
    for k in 0..63 {
        plan.long_edge(k, k + 1, 65_535);
    }
    plan.length_at_most(0, 63, 65_535);
    plan.length_at_most(0, 63, 65_473);
    plan.length_at_most(62, 63, 65_535);
    plan.length_at_most(62, 63, 65_534);
    plan.within(0, 63, 63);
    plan.within(0, 63, 62);
    let file = &to_bytes(&plan);
    let lit = [1; 63];
    let mut cases = judged(file, &lit, &[-1, -1, 1, -1, 1, -1]);
    cases.extend(reasons(
        file,
        &lit,
        6,
        &[
            (1, "fails 1 : -64 77 77 77 77 77"),
            (2, "fails 1 : -65 77 77 77 77 77"),
            (3, "holds 2 : 66 -63 77 77 77 77"),
            (5, "refused 12 64 : 77 77 77 77 77 77"),
        ],
    ));
    cases
}

/// A row of 10, 20 and 30, a link back of tag 2; sources and kinds in turns, two atoms
/// with one variable.
fn interleaved_cases() -> Vec<Answered> {
    let mut plan = PlanFile::with_nodes(4);
    plan.long_edge(0, 1, 10);
    plan.long_edge(1, 2, 20);
    plan.long_edge(2, 3, 30);
    plan.edge(3, 0);
    plan.length_at_most(0, 2, 30);
    plan.length_at_most(1, 0, 50);
    plan.within(0, 2, 1);
    plan.length_at_most(1, 0, 51);
    plan.length_at_most(0, 3, 59);
    plan.reaches(1, 0);
    plan.length_at_most(0, 3, 60);
    plan.length_at_most(2, 1, 41);
    plan.within(1, 0, 3);
    plan.length_at_most(2, 1, 40);
    plan.length_at_most(0, 1, 255);
    plan.length_at_most(0, 3, 256);
    let file = &to_bytes(&plan);
    let lit = [1; 4];
    let truths = [1, -1, -1, 1, -1, 1, 1, 1, 1, -1, 1, 1];
    let mut cases = judged(file, &lit, &truths);
    let given = both(&lit, &[0; 12]);
    let closed = line(&both(&lit, &truths));
    cases.push(Answered::new(close(file, &given, 16), &closed));
    cases.extend(reasons(
        file,
        &lit,
        12,
        &[
            (4, "holds 4 : 8 -2 -3 -4 77 77"),
            (6, "holds 4 : 10 -2 -3 -4 77 77"),
            (8, "holds 4 : 12 -1 -3 -4 77 77"),
            (12, "holds 4 : 16 -1 -2 -3 77 77"),
        ],
    ));
    cases
}

/// 13 comes before 12, behind the reader's refusals, and has the first such atom's number.
fn unwritable_cases() -> Vec<Answered> {
    let file = &lake(&[&[], &[7]]);
    let cut_off = &file[..file.len() - 1];
    let mut third = PlanFile::with_nodes(2);
    third.edge(0, 1);
    third.reaches(0, 1);
    third.within(0, 1, 1);
    third.length_at_most(0, 1, 1);
    third.reaches(1, 0);
    third.length_at_most(1, 0, 1);
    let third = &to_bytes(&third);
    let mut alone = PlanFile::with_nodes(1);
    alone.length_at_most(0, 0, 0);
    let alone = &to_bytes(&alone);
    let mut cases = Vec::new();
    let rooms: [&[u16]; 3] = [&[0, 1, 2_000], &[0, 400], &[0, 7]];
    for ((file, atom), rooms) in [(&file[..], 1), (third, 3), (alone, 1)]
        .into_iter()
        .zip(rooms)
    {
        for &room in rooms {
            let kept = " 77".repeat(usize::from(room));
            let expected = format!("refused 13 {atom} :{kept}");
            cases.push(Answered::new(write_clauses(file, room), &expected));
            cases.push(Answered::new(write_dimacs(file, room), &expected));
        }
    }
    let expected = format!("refused 2 {} : 77", file.len() - 3);
    cases.push(Answered::new(write_clauses(cut_off, 1), &expected));
    cases.push(Answered::new(write_dimacs(cut_off, 1), &expected));
    cases
}

/// The sample with lengths at its edges: for kinds 1 and 2 each is one hop, and the list
/// is the sample's.
fn hop_cases() -> Vec<Answered> {
    let sample = sample::bytes();
    let edges = [
        long_edge(0, 1, 1, 2),
        long_edge(1, 2, 2, 65_535),
        long_edge(0, 2, 3, 9),
    ];
    let file = &[&sample[..7], &edges.concat(), &sample[34..]].concat();
    let text = places(sample::DIMACS);
    vec![
        Answered::new(read(file), "accepted 3 5 3 2 2 2"),
        Answered::new(judge(file, &[1, 1, -1, -1, 1]), "plan"),
        Answered::new(judge(file, &[1, 1, 1, -1, 1]), "atom 1"),
        Answered::new(close(file, &[0; 5], 5), "closed : 0 0 0 -1 1"),
        Answered::new(reason(file, &[1, 1, 0, 0, 0], 2, 4), "holds 3 : 5 -1 -2 77"),
        Answered::new(
            reason(file, &[0, 0, -1, 0, 0], 1, 4),
            "fails 2 : -4 3 77 77",
        ),
        Answered::new(reason(file, &[1, 1, 1, 0, 0], 1, 4), "holds 2 : 4 -3 77 77"),
        Answered::new(search(file, 7, 5), "plan 7 : 1 1 -1 -1 1"),
        Answered::new(search(file, 6, 5), "undecided 6 : 77 77 77 77 77"),
        Answered::new(write_clauses(file, 208), "written 29 66 208 : 5 0 -4 0 6 0"),
        Answered::new(write_clauses(file, 207), "refused 12 208 : 77"),
        Answered::new(write_dimacs(file, 616), &format!("printed 616 :{text}")),
        Answered::new(write_dimacs(file, 615), "refused 12 616 : 77"),
    ]
}

/// Edges of both tags share one numbering: among equal ones the first of the file is
/// taken, whichever its tag, and the list of a file with both is the sample's.
fn numbering_cases() -> Vec<Answered> {
    let mut twins = PlanFile::with_nodes(2);
    twins.long_edge(0, 1, 1);
    twins.edge(0, 1);
    twins.long_edge(0, 1, 1);
    twins.length_at_most(0, 1, 1);
    twins.within(0, 1, 1);
    twins.reaches(0, 1);
    let twins = &to_bytes(&twins);
    let mut cases = reasons(
        twins,
        &[1, 1, 1],
        3,
        &[
            (1, "holds 2 : 4 -1 77 77 77 77"),
            (2, "holds 2 : 5 -1 77 77 77 77"),
            (3, "holds 2 : 6 -1 77 77 77 77"),
        ],
    );
    cases.extend(reasons(
        twins,
        &[0, 1, 1],
        3,
        &[
            (1, "holds 2 : 4 -2 77 77 77 77"),
            (2, "holds 2 : 5 -2 77 77 77 77"),
        ],
    ));
    let sample = sample::bytes();
    let edges = [long_edge(0, 1, 1, 7), edge(1, 2, 2), long_edge(0, 2, 3, 7)];
    let file = &[&sample[..7], &edges.concat(), &sample[34..]].concat();
    let text = places(sample::DIMACS);
    cases.push(Answered::new(
        write_dimacs(file, 616),
        &format!("printed 616 :{text}"),
    ));
    cases
}

/// Rules are put into a file about lengths as into any other.
fn rule_cases() -> Vec<Answered> {
    let file = &lake(&[&[7]]);
    let full = [
        head(2, 2),
        long_edge(0, 1, 1, 9),
        clause(&[1]).repeat(1_023),
        end(),
    ]
    .concat();
    vec![
        case(file, b"p cnf 12 1\n-9 0", 5, "rules 1 1 : 4 0 2 255 247"),
        case(file, b"p cnf 12 1\n-9 0", 4, "refused 12 5 : 77 77 77 77"),
        case(file, b"p cnf 13 1\n-9 0", 5, "refused 22 0 : 77"),
        case(file, b"p cnf 12 0", 0, "rules 0 0 :"),
        case(&full, b"p cnf 2 1\n2 0", 5, "rules 1 1 : 4 0 2 0 2"),
        case(&full, b"p cnf 2 2\n2 0 0", 5, "refused 7 14 : 77"),
    ]
}
