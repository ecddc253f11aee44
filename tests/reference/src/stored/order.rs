//! Files with two things wrong, for the order in which they are met.

use super::{Cases, SECOND};
use crate::file::{CLAUSE, EDGE, END, HEAD, LONG_EDGE};
use crate::write::{atom, clause, edge, end, head, long_edge, record, record_of_length};

pub fn add(cases: &mut Cases) {
    add_within_a_record(cases);
    add_within_a_long_edge(cases);
    add_limits_before_sharing(cases);
    add_record_by_record(cases);
}

fn add_within_a_record(cases: &mut Cases) {
    let second = |record: Vec<u8>| [head(3, 5), record].concat();
    let file = record_of_length(9, 4, &[0]);
    cases.refused(2, 0, "before-3-first", "an unknown first tag, cut", file);
    let file = second(record_of_length(HEAD, 4, &[0, 3]));
    cases.refused(2, SECOND, "before-3-second", "a second head, cut", file);
    let file = second(record_of_length(7, 4, &[0]));
    cases.refused(2, SECOND, "before-4", "an unknown tag, cut", file);
    let file = second(record_of_length(EDGE, 7, &[0; 6]));
    cases.refused(
        2,
        SECOND,
        "before-5",
        "an edge of length 7 with 6 bytes",
        file,
    );
    let file = second(record_of_length(CLAUSE, 4, &[0, 9]));
    cases.refused(
        2,
        SECOND,
        "before-6",
        "a literal out of range in a cut clause",
        file,
    );
    let file = second([record(HEAD, &[0, 3]), end()].concat());
    cases.refused(
        3,
        SECOND,
        "before-5-second",
        "a second head of length 2",
        file,
    );
    let file = [record(EDGE, &[0; 5]), end()].concat();
    cases.refused(3, 0, "before-5-first", "an edge of length 5 first", file);
    let file = second([head(0, 0), end()].concat());
    cases.refused(3, SECOND, "before-6", "a second head out of range", file);
    let file = second([record(7, &[0; 5]), end()].concat());
    cases.refused(
        4,
        SECOND,
        "before-5",
        "an unknown tag of an odd length",
        file,
    );
    let file = [record(HEAD, &[0, 0, 0, 0, 0]), end()].concat();
    cases.refused(
        5,
        0,
        "before-6-head",
        "a head of length 5, out of range",
        file,
    );
    let file = second([record(EDGE, &[255; 8]), end()].concat());
    cases.refused(
        5,
        SECOND,
        "before-6-edge",
        "an edge of length 8, out of range",
        file,
    );
    let file = second([record(CLAUSE, &[0, 0, 0]), end()].concat());
    cases.refused(
        5,
        SECOND,
        "before-6-clause",
        "a clause of three zeros",
        file,
    );
    let file = second(record(END, &[1, 2]));
    cases.refused(
        5,
        SECOND,
        "end-last",
        "an end record of length 2, the file's last bytes",
        file,
    );
}

fn add_within_a_long_edge(cases: &mut Cases) {
    let second = |record: Vec<u8>| [head(3, 5), record].concat();
    let file = second(record_of_length(LONG_EDGE, 4, &[0]));
    cases.refused(
        2,
        SECOND,
        "before-5-long-edge",
        "tag 6 of length 4 with one byte",
        file,
    );
    let file = second([record(LONG_EDGE, &[0; 5]), end()].concat());
    cases.refused(5, SECOND, "before-6-tag-6", "tag 6 with five zeros", file);
    let file = second([record(LONG_EDGE, &[255; 6]), end()].concat());
    cases.refused(
        5,
        SECOND,
        "before-6-long-edge",
        "tag 6 with the length of tag 2, out of range",
        file,
    );
    let shared = [atom(3, 0, 1, 9, 1), long_edge(0, 1, 1, 0)].concat();
    cases.refused(
        6,
        SECOND + 12,
        "before-8-long-edge",
        "an edge of length 0 with an atom's variable",
        second([shared, end()].concat()),
    );
    let before = [long_edge(0, 1, 1, 9).repeat(256), atom(3, 0, 1, 9, 2)].concat();
    let offset = SECOND + before.len();
    let with = |last: Vec<u8>| [head(2, 2), before.clone(), last, end()].concat();
    cases.refused(
        5,
        offset,
        "before-7-long-edge",
        "a 257th edge, of tag 6 and seven bytes",
        with(record(LONG_EDGE, &[0; 7])),
    );
    cases.refused(
        6,
        offset,
        "before-7-long-edge",
        "a 257th edge of length 0",
        with(long_edge(0, 1, 1, 0)),
    );
    cases.refused(
        7,
        offset,
        "before-8-long-edge",
        "a 257th edge, with a length and an atom's variable",
        with(long_edge(0, 1, 2, 9)),
    );
}

fn add_limits_before_sharing(cases: &mut Cases) {
    let edges = edge(0, 1, 1).repeat(256);
    let one_atom = atom(1, 0, 1, 0, 2);
    let before = [edges.clone(), one_atom].concat();
    let offset = SECOND + before.len();
    let with = |last: Vec<u8>| [head(2, 2), before.clone(), last, end()].concat();
    cases.refused(
        6,
        offset,
        "before-7-edge",
        "a 257th edge to node 2 of 2",
        with(edge(0, 2, 1)),
    );
    cases.refused(
        7,
        offset,
        "before-8-edge",
        "a 257th edge with an atom's variable",
        with(edge(0, 1, 2)),
    );
    let atoms = atom(1, 0, 1, 0, 1).repeat(64);
    let before = [edge(0, 1, 2), atoms].concat();
    let offset = SECOND + before.len();
    let with = |last: Vec<u8>| [head(2, 2), before.clone(), last, end()].concat();
    cases.refused(
        6,
        offset,
        "before-7-atom",
        "a 65th atom of kind 4",
        with(atom(4, 0, 1, 0, 1)),
    );
    cases.refused(
        7,
        offset,
        "before-8-atom",
        "a 65th atom with an edge's variable",
        with(atom(1, 0, 1, 0, 2)),
    );
    let before = clause(&[1]).repeat(1_024);
    let file = [head(1, 1), before.clone(), clause(&[2]), end()].concat();
    cases.refused(
        6,
        SECOND + before.len(),
        "before-7-clause",
        "a 1,025th clause out of range",
        file,
    );
    let file = [head(1, 1), before.clone(), record(CLAUSE, &[1]), end()].concat();
    cases.refused(
        5,
        SECOND + before.len(),
        "before-7-clause",
        "a 1,025th clause of one byte",
        file,
    );
    let literals = [vec![1; 4_096], vec![2]].concat();
    let file = [head(1, 1), clause(&literals), end()].concat();
    cases.refused(
        6,
        SECOND,
        "before-7-literals",
        "4,097 literals, the last out of range",
        file,
    );
    let file = [head(2, 2), atom(1, 0, 1, 0, 2), edge(0, 2, 2), end()].concat();
    cases.refused(
        6,
        19,
        "before-8",
        "an edge out of range with an atom's variable",
        file,
    );
}

/// An earlier record's fault comes before a later one's, whatever the numbers.
fn add_record_by_record(cases: &mut Cases) {
    let shared = [head(2, 2), edge(0, 1, 1), atom(1, 0, 1, 0, 1)].concat();
    let file = [shared.clone(), vec![END]].concat();
    cases.refused(
        8,
        16,
        "before-a-later-2",
        "a shared variable, then a cut record",
        file,
    );
    let file = [shared, end(), vec![0]].concat();
    cases.refused(
        8,
        16,
        "before-a-later-3",
        "a shared variable, then a byte behind the end",
        file,
    );
    let file = [head(2, 2), edge(0, 1, 3), record(7, &[]), end()].concat();
    cases.refused(
        6,
        SECOND,
        "before-a-later-4",
        "a variable out of range, then an unknown tag",
        file,
    );
    let file = [head(2, 2), edge(0, 1, 3), record(LONG_EDGE, &[]), end()].concat();
    cases.refused(
        6,
        SECOND,
        "before-a-later-5",
        "a variable out of range, then tag 6 without a value",
        file,
    );
    let file = [head(2, 2), end(), vec![HEAD; 3]].concat();
    cases.refused(
        3,
        10,
        "no-record-behind",
        "bytes behind the end that are no record",
        file,
    );
    let file = [head(65, 513), record(6, &[]), vec![0]].concat();
    cases.refused(
        6,
        0,
        "head-before-the-rest",
        "a head out of range, then nothing good",
        file,
    );
}
