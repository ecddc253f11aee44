//! Files that are accepted, among them one at each limit.

use super::{around, Cases};
use crate::sample;
use crate::write::{atom, clause, edge, end, head, long_edge};

pub fn add(cases: &mut Cases) {
    add_small(cases);
    add_limits(cases);
    add_freedoms(cases);
    add_empty_clauses(cases);
    add_lengths(cases);
}

fn add_small(cases: &mut Cases) {
    cases.accepted(
        [3, 5, 3, 2, 2, 2],
        "sample",
        "the sample of document 01",
        sample::bytes(),
    );
    let file = [head(1, 1), end()].concat();
    cases.accepted(
        [1, 1, 0, 0, 0, 0],
        "smallest",
        "head and end, 1 node, 1 variable",
        file,
    );
    let file = [head(2, 1), edge(0, 1, 1), end()].concat();
    cases.accepted([2, 1, 1, 0, 0, 0], "one-edge", "one edge", file);
    let file = [head(2, 1), atom(1, 0, 1, 0, 1), end()].concat();
    cases.accepted([2, 1, 0, 1, 0, 0], "one-atom", "one atom", file);
    let file = [head(2, 1), clause(&[-1]), end()].concat();
    cases.accepted([2, 1, 0, 0, 1, 1], "one-clause", "one clause", file);
}

fn add_limits(cases: &mut Cases) {
    let file = [head(64, 1), edge(63, 0, 1), edge(0, 63, 1), end()].concat();
    cases.accepted(
        [64, 1, 2, 0, 0, 0],
        "64-nodes",
        "64 nodes, an edge from and to node 63",
        file,
    );
    let file = [
        head(2, 512),
        edge(0, 1, 512),
        clause(&[512, -512, 1]),
        end(),
    ]
    .concat();
    cases.accepted(
        [2, 512, 1, 0, 1, 3],
        "512-variables",
        "512 variables, literals 512 and -512",
        file,
    );
    let file = [head(2, 1), edge(0, 1, 1).repeat(256), end()].concat();
    cases.accepted(
        [2, 1, 256, 0, 0, 0],
        "256-edges",
        "256 edges, all the same",
        file,
    );
    let file = [head(2, 1), atom(2, 0, 1, 3, 1).repeat(64), end()].concat();
    cases.accepted(
        [2, 1, 0, 64, 0, 0],
        "64-atoms",
        "64 atoms, all the same",
        file,
    );
    let file = [head(1, 1), clause(&[1]).repeat(1_024), end()].concat();
    cases.accepted(
        [1, 1, 0, 0, 1_024, 1_024],
        "1024-clauses",
        "1,024 clauses of one literal",
        file,
    );
    let file = [head(1, 2), clause(&[1, -2].repeat(2_048)), end()].concat();
    cases.accepted(
        [1, 2, 0, 0, 1, 4_096],
        "4096-literals-in-one",
        "one clause of 4,096 literals",
        file,
    );
    let file = [head(1, 4), clause(&[1, 2, -3, -4]).repeat(1_024), end()].concat();
    cases.accepted(
        [1, 4, 0, 0, 1_024, 4_096],
        "4096-literals-in-1024",
        "1,024 clauses of four literals",
        file,
    );
    let bounds = [
        atom(2, 0, 1, 0, 1),
        atom(2, 0, 1, 255, 2),
        atom(1, 1, 0, 0, 3),
    ]
    .concat();
    let file = [head(2, 3), bounds, end()].concat();
    cases.accepted(
        [2, 3, 0, 3, 0, 0],
        "bounds-0-and-255",
        "within 0, within 255, reaches",
        file,
    );
    cases.accepted(
        [64, 512, 256, 64, 1_024, 4_096],
        "all-limits",
        "every limit reached at once, 14,346 bytes",
        all_limits(),
    );
}

fn all_limits() -> Vec<u8> {
    let mut file = head(64, 512);
    (0..256).for_each(|k| file.extend(edge(k % 64, (k + 1 + k / 64) % 64, k + 1)));
    (0..64).for_each(|k| file.extend(atom(2, k, (k + 32) % 64, k, 257 + k)));
    (0..1_024).for_each(|k: i16| {
        file.extend(clause(&[
            1 + k % 512,
            -1 - (k + 1) % 512,
            1 + (k + 2) % 512,
            -512,
        ]));
    });
    file.extend(end());
    assert_eq!(file.len(), 14_346);
    file
}

/// What document 01 allows where a reader might be too strict.
fn add_freedoms(cases: &mut Cases) {
    let records = [
        clause(&[2]),
        atom(1, 0, 1, 0, 2),
        edge(0, 1, 1),
        clause(&[1]),
        edge(1, 0, 1),
    ];
    let file = [head(2, 2), records.concat(), end()].concat();
    cases.accepted(
        [2, 2, 2, 1, 2, 2],
        "any-order",
        "clauses, atoms and edges mixed",
        file,
    );
    let file = [
        head(2, 1),
        edge(0, 1, 1),
        edge(1, 0, 1),
        edge(0, 0, 1),
        end(),
    ]
    .concat();
    cases.accepted(
        [2, 1, 3, 0, 0, 0],
        "edges-share",
        "a two-way link and a self edge, one variable",
        file,
    );
    let file = [head(2, 1), atom(1, 0, 1, 0, 1), atom(2, 1, 1, 9, 1), end()].concat();
    cases.accepted(
        [2, 1, 0, 2, 0, 0],
        "atoms-share",
        "two atoms with one variable",
        file,
    );
    let file = [head(1, 2), clause(&[1, 1, -1, 2, 1]), end()].concat();
    cases.accepted(
        [1, 2, 0, 0, 1, 5],
        "both-signs",
        "a clause with both signs and a repeat",
        file,
    );
    let file = [head(1, 512), clause(&[-512, 512, 256, -256]), end()].concat();
    cases.accepted(
        [1, 512, 0, 0, 1, 4],
        "two-byte-literals",
        "literals with a high byte",
        file,
    );
}

/// A clause may be empty (request C-12), wherever it stands.
fn add_empty_clauses(cases: &mut Cases) {
    let (empty, one) = (clause(&[]), clause(&[1]));
    cases.accepted(
        [3, 5, 0, 0, 1, 0],
        "empty-clause",
        "an empty clause and no other",
        around(empty.clone()),
    );
    let (other, edge) = (clause(&[-5, 2]), edge(0, 1, 1));
    let places = [
        ([&empty, &one, &other], "empty-clause-first", "first"),
        (
            [&one, &empty, &other],
            "empty-clause-middle",
            "in the middle",
        ),
        ([&one, &other, &empty], "empty-clause-last", "last"),
    ];
    for (records, name, place) in places {
        let what = format!("three clauses, the empty one {place}");
        let file = around(records.map(Vec::as_slice).concat());
        cases.accepted([3, 5, 0, 0, 3, 3], name, &what, file);
    }
    let records = [&empty, &empty, &edge, &empty, &one, &empty, &empty];
    cases.accepted(
        [3, 5, 1, 0, 6, 1],
        "empty-clauses",
        "five empty clauses around an edge and a clause",
        around(records.map(Vec::as_slice).concat()),
    );
    add_empty_clauses_at_limits(cases);
}

/// Edges with a length and atoms of kind 3 (request C-13).
fn add_lengths(cases: &mut Cases) {
    for (length, name) in [
        (1, "length-1"),
        (256, "length-256"),
        (65_535, "length-65535"),
    ] {
        cases.accepted(
            [3, 5, 1, 0, 0, 0],
            name,
            &format!("an edge of length {length}"),
            around(long_edge(0, 1, 1, length)),
        );
    }
    for (bound, name) in [
        (0, "kind-3-bound-0"),
        (256, "kind-3-bound-256"),
        (65_535, "kind-3-bound-65535"),
    ] {
        cases.accepted(
            [3, 5, 0, 1, 0, 0],
            name,
            &format!("length at most {bound}"),
            around(atom(3, 0, 1, bound, 4)),
        );
    }
    let records = [
        long_edge(0, 1, 1, 7),
        atom(3, 0, 2, 9, 4),
        edge(1, 2, 2),
        clause(&[4]),
        long_edge(1, 2, 2, 3),
        atom(2, 0, 2, 2, 5),
    ];
    cases.accepted(
        [3, 5, 3, 2, 1, 1],
        "both-tags-any-order",
        "edges of both tags, atoms of kinds 2 and 3 and a clause mixed",
        around(records.concat()),
    );
    let links = [
        long_edge(0, 1, 1, 5),
        long_edge(1, 0, 1, 6),
        long_edge(1, 1, 1, 7),
    ];
    cases.accepted(
        [3, 5, 3, 0, 0, 0],
        "long-edges-share",
        "a link of two lengths and a self edge, one variable",
        around(links.concat()),
    );
    add_lengths_at_limits(cases);
}

fn add_lengths_at_limits(cases: &mut Cases) {
    let with = |records: Vec<u8>| [head(2, 1), records, end()].concat();
    let both = [edge(0, 1, 1), long_edge(0, 1, 1, 9)].concat();
    cases.accepted(
        [2, 1, 256, 0, 0, 0],
        "256-edges-both-tags",
        "256 edges, half of them with a length",
        with(both.repeat(128)),
    );
    cases.accepted(
        [2, 1, 256, 0, 0, 0],
        "256-long-edges",
        "256 edges with a length",
        with(long_edge(0, 1, 1, 65_535).repeat(256)),
    );
    cases.accepted(
        [2, 1, 0, 64, 0, 0],
        "64-length-atoms",
        "64 atoms of kind 3",
        with(atom(3, 0, 1, 65_535, 1).repeat(64)),
    );
    cases.accepted(
        [64, 512, 256, 64, 1_024, 4_096],
        "all-limits-with-lengths",
        "every limit reached at once, with lengths, 14,858 bytes",
        all_limits_with_lengths(),
    );
}

/// As `all_limits`, but every edge has a length and every atom asks for one.
fn all_limits_with_lengths() -> Vec<u8> {
    let mut file = head(64, 512);
    (0..256).for_each(|k| {
        file.extend(long_edge(k % 64, (k + 1 + k / 64) % 64, k + 1, 65_535 - k));
    });
    (0..64).for_each(|k| file.extend(atom(3, k, (k + 32) % 64, 1_000 * k, 257 + k)));
    (0..1_024).for_each(|k: i16| {
        file.extend(clause(&[1 + k % 512, -1 - (k + 1) % 512, -512, 512]));
    });
    file.extend(end());
    assert_eq!(file.len(), 14_858);
    file
}

fn add_empty_clauses_at_limits(cases: &mut Cases) {
    let long = clause(&[1; 4_096]);
    let with = |records: &[Vec<u8>]| [head(1, 1), records.concat(), end()].concat();
    cases.accepted(
        [1, 1, 0, 0, 1_024, 0],
        "1024-empty-clauses",
        "1,024 empty clauses",
        with(&[clause(&[]).repeat(1_024)]),
    );
    cases.accepted(
        [1, 1, 0, 0, 1_024, 1_023],
        "1024-clauses-last-empty",
        "1,023 clauses of one literal and an empty one",
        with(&[clause(&[1]).repeat(1_023), clause(&[])]),
    );
    cases.accepted(
        [1, 1, 0, 0, 1_024, 4_096],
        "4096-literals-then-empty",
        "4,096 literals in one clause, then 1,023 empty ones",
        with(&[long.clone(), clause(&[]).repeat(1_023)]),
    );
    cases.accepted(
        [1, 1, 0, 0, 1_024, 4_096],
        "4096-literals-behind-empty",
        "1,023 empty clauses, then 4,096 literals in one",
        with(&[clause(&[]).repeat(1_023), long]),
    );
}
