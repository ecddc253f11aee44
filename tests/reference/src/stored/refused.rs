//! Files for refusals 1 to 5, with one thing wrong: length, place and shape of records.

use super::{around, Cases, SECOND};
use crate::file::{CLAUSE, EDGE, END, HEAD, LONG_EDGE};
use crate::sample;
use crate::write::{atom, clause, edge, end, head, long_edge, record, record_of_length};

pub fn add(cases: &mut Cases) {
    add_too_long(cases);
    add_no_room(cases);
    add_wrong_place(cases);
    add_unknown_tag(cases);
    add_wrong_length(cases);
    add_behind_empty_clause(cases);
}

fn add_too_long(cases: &mut Cases) {
    let mut file = sample::bytes();
    file.resize(16_385, 0);
    cases.refused(
        1,
        0,
        "16385-bytes",
        "the sample and zeros up to 16,385 bytes",
        file.clone(),
    );
    file.pop();
    cases.refused(
        3,
        71,
        "16384-bytes",
        "the same with 16,384 bytes: not too long, 3 behind the end",
        file,
    );
    cases.refused(1, 0, "16385-zeros", "16,385 zeros", vec![0; 16_385]);
    let long = [head(3, 5), edge(0, 1, 1), clause(&[1; 8_181]), end()].concat();
    assert_eq!(long.len(), 16_384);
    cases.refused(
        7,
        16,
        "16384-bytes-records",
        "16,384 bytes of records: too many literals",
        long,
    );
}

fn add_no_room(cases: &mut Cases) {
    cases.refused(2, 0, "empty", "no bytes", Vec::new());
    cases.refused(2, 0, "one-byte", "only a tag", vec![HEAD]);
    cases.refused(2, 0, "two-bytes", "a tag and half a length", vec![HEAD, 0]);
    cases.refused(
        2,
        0,
        "head-no-value",
        "a head record without its value",
        vec![HEAD, 0, 4],
    );
    cases.refused(
        2,
        0,
        "head-cut",
        "a head record cut by one byte",
        head(3, 5)[..6].into(),
    );
    cases.refused(
        2,
        SECOND,
        "head-only",
        "a head and no more: no end record",
        head(3, 5),
    );
    let tag = [head(3, 5), vec![END]].concat();
    cases.refused(
        2,
        SECOND,
        "end-one-byte",
        "an end record cut to one byte",
        tag,
    );
    let tag = [head(3, 5), vec![END, 0]].concat();
    cases.refused(
        2,
        SECOND,
        "end-two-bytes",
        "an end record cut to two bytes",
        tag,
    );
    let cut = [head(3, 5), edge(0, 1, 1)[..8].to_vec()].concat();
    cases.refused(2, SECOND, "edge-cut", "an edge cut by one byte", cut);
    let cut = [head(3, 5), long_edge(0, 1, 1, 9)[..10].to_vec()].concat();
    cases.refused(
        2,
        SECOND,
        "long-edge-cut",
        "an edge with a length cut by one byte",
        cut,
    );
    let cut = [head(3, 5), atom(1, 0, 1, 0, 4)[..4].to_vec()].concat();
    cases.refused(2, SECOND, "atom-cut", "an atom cut behind its kind", cut);
    let cut = [head(3, 5), clause(&[1, 2])[..6].to_vec()].concat();
    cases.refused(
        2,
        SECOND,
        "clause-cut",
        "a clause cut in its second literal",
        cut,
    );
    let long = [head(3, 5), record_of_length(CLAUSE, 65_535, &[0, 1])].concat();
    cases.refused(
        2,
        SECOND,
        "length-65535",
        "a length of 65,535 near the file's end",
        long,
    );
    let long = [head(3, 5), record_of_length(END, 1, &[])].concat();
    cases.refused(
        2,
        SECOND,
        "end-runs-past",
        "an end record of length 1 with no value",
        long,
    );
    let sample = sample::bytes();
    let without_end = sample[..68].to_vec();
    cases.refused(
        2,
        68,
        "sample-without-end",
        "the sample without its end record",
        without_end,
    );
    cases.refused(
        2,
        68,
        "sample-cut",
        "the sample cut by one byte",
        sample[..70].to_vec(),
    );
}

fn add_wrong_place(cases: &mut Cases) {
    let behind = [edge(0, 1, 1), end()].concat();
    cases.refused(3, 0, "first-edge", "an edge first", behind.clone());
    cases.refused(
        3,
        0,
        "first-atom",
        "an atom first",
        [atom(1, 0, 1, 0, 4), end()].concat(),
    );
    cases.refused(
        3,
        0,
        "first-clause",
        "a clause first",
        [clause(&[1]), end()].concat(),
    );
    cases.refused(
        3,
        0,
        "first-empty-clause",
        "an empty clause first",
        [clause(&[]), head(3, 5), end()].concat(),
    );
    cases.refused(3, 0, "first-end", "an end record and nothing else", end());
    cases.refused(
        3,
        0,
        "first-unknown",
        "an unknown tag first",
        [record(7, &[]), behind.clone()].concat(),
    );
    cases.refused(
        3,
        0,
        "first-tag-6",
        "tag 6 without a value first",
        [record(LONG_EDGE, &[]), behind].concat(),
    );
    cases.refused(
        3,
        0,
        "first-long-edge",
        "an edge with a length first",
        [long_edge(0, 1, 1, 9), head(3, 5), end()].concat(),
    );
    cases.refused(3, 0, "first-zeros", "three zeros", vec![0, 0, 0]);
    cases.refused(3, 0, "first-255", "tag 255 first", vec![255, 0, 0]);
    cases.refused(
        3,
        SECOND,
        "second-head",
        "a second head behind the first",
        around(head(3, 5)),
    );
    let late = [head(3, 5), edge(0, 1, 1), head(3, 5), end()].concat();
    cases.refused(3, 16, "late-head", "a second head behind an edge", late);
    let sample = sample::bytes();
    let behind = |bytes: &[u8]| [&sample, bytes].concat();
    cases.refused(
        3,
        71,
        "one-byte-behind",
        "one byte behind the end record",
        behind(&[5]),
    );
    cases.refused(
        3,
        71,
        "two-bytes-behind",
        "two bytes behind the end record",
        behind(&[5, 0]),
    );
    cases.refused(3, 71, "end-behind", "a second end record", behind(&end()));
    cases.refused(
        3,
        71,
        "edge-behind",
        "an edge behind the end record",
        behind(&edge(0, 1, 1)),
    );
    cases.refused(
        3,
        71,
        "long-edge-behind",
        "an edge with a length behind the end record",
        behind(&long_edge(0, 1, 1, 9)),
    );
    cases.refused(
        3,
        71,
        "empty-clause-behind",
        "an empty clause behind the end record",
        behind(&clause(&[])),
    );
    cases.refused(3, 71, "file-behind", "the sample twice", behind(&sample));
    cases.refused(
        3,
        10,
        "zero-behind",
        "a zero behind the smallest file",
        [head(1, 1), end(), vec![0]].concat(),
    );
}

fn add_unknown_tag(cases: &mut Cases) {
    for tag in [0, 7, 128, 255] {
        let file = around(record(tag, &[0; 4]));
        cases.refused(
            4,
            SECOND,
            &format!("tag-{tag}"),
            "an unknown tag behind the head",
            file,
        );
    }
    cases.refused(
        4,
        SECOND,
        "tag-7-empty",
        "an unknown tag without a value",
        around(record(7, &[])),
    );
    cases.refused(
        4,
        SECOND,
        "tag-7-8",
        "tag 7 with the fields of an edge with a length",
        around(record(7, &long_edge(0, 1, 1, 9)[3..])),
    );
    let late = [
        head(3, 5),
        edge(0, 1, 1),
        clause(&[1]),
        record(9, &[1]),
        end(),
    ]
    .concat();
    cases.refused(
        4,
        21,
        "tag-9-late",
        "an unknown tag behind other records",
        late,
    );
}

fn add_wrong_length(cases: &mut Cases) {
    for length in [0, 2, 3, 5, 6] {
        let file = [record(HEAD, &[0, 3, 0, 5, 0, 1][..length]), end()].concat();
        cases.refused(
            5,
            0,
            &format!("head-{length}"),
            "a head of a wrong length",
            file,
        );
    }
    for length in [0, 5, 7, 9] {
        let value = [0, 0, 0, 1, 0, 1, 0, 1, 0];
        let file = around(record(EDGE, &value[..length]));
        cases.refused(
            5,
            SECOND,
            &format!("edge-{length}"),
            "an edge of a wrong length",
            file,
        );
    }
    for length in [0, 4, 6, 7, 9, 10] {
        let value = [0, 0, 0, 1, 0, 1, 0, 9, 0, 0];
        let file = around(record(LONG_EDGE, &value[..length]));
        cases.refused(
            5,
            SECOND,
            &format!("long-edge-{length}"),
            "an edge with a length, of a wrong length",
            file,
        );
    }
    // These two were unknown tags before request C-13.
    cases.refused(
        5,
        SECOND,
        "tag-6",
        "tag 6 with four zeros",
        around(record(LONG_EDGE, &[0; 4])),
    );
    let late = [long_edge(0, 1, 1, 9), record(LONG_EDGE, &[0; 7])].concat();
    cases.refused(
        5,
        SECOND + 11,
        "long-edge-late",
        "a second edge with a length, of seven bytes",
        around(late),
    );
    for length in [0, 1, 8, 10] {
        let value = [1, 0, 0, 0, 1, 0, 0, 0, 4, 0];
        let file = around(record(3, &value[..length]));
        cases.refused(
            5,
            SECOND,
            &format!("atom-{length}"),
            "an atom of a wrong length",
            file,
        );
    }
    for value in [&[1][..], &[0, 1, 0], &[0, 1, 0, 2, 0]] {
        cases.refused(
            5,
            SECOND,
            &format!("clause-{}", value.len()),
            "a clause of an odd length",
            around(record(CLAUSE, value)),
        );
    }
    for length in [1, 3] {
        let file = [head(3, 5), record(END, &[0, 0, 0][..length])].concat();
        cases.refused(
            5,
            SECOND,
            &format!("end-{length}"),
            "an end record with a value",
            file,
        );
    }
}

/// An empty clause is three bytes, and what is wrong stands next to it.
fn add_behind_empty_clause(cases: &mut Cases) {
    let third = SECOND + clause(&[]).len();
    let behind = |bytes: &[u8]| [&head(3, 5), &clause(&[]), bytes].concat();
    let cut = [head(3, 5), clause(&[])[..2].to_vec()].concat();
    cases.refused(
        2,
        SECOND,
        "empty-clause-cut",
        "an empty clause cut to two bytes",
        cut,
    );
    let wrongs: [(u32, &str, &str, Vec<u8>); 7] = [
        (2, "nothing", "no end record", Vec::new()),
        (
            2,
            "cut",
            "an edge cut by one byte",
            edge(0, 1, 1)[..8].into(),
        ),
        (2, "value", "a literal's two bytes", vec![0, 1, END, 0, 0]),
        (3, "head", "a second head", head(3, 5)),
        (4, "tag-7", "an unknown tag", record(7, &[])),
        (5, "tag-6", "tag 6 without a value", record(LONG_EDGE, &[])),
        (5, "odd", "a clause of one byte", record(CLAUSE, &[1])),
    ];
    for (number, name, what, bytes) in wrongs {
        cases.refused(
            number,
            third,
            &format!("empty-clause-then-{name}"),
            &format!("an empty clause, then {what}"),
            behind(&bytes),
        );
    }
}
