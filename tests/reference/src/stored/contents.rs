//! Files for refusals 6 to 8, with one thing wrong: what a record says.

use super::{around, Cases, SECOND};
use crate::write::{atom, clause, edge, end, head, long_edge};

pub fn add(cases: &mut Cases) {
    add_head_out_of_range(cases);
    add_edge_out_of_range(cases);
    add_long_edge_out_of_range(cases);
    add_atom_out_of_range(cases);
    add_literal_out_of_range(cases);
    add_too_many(cases);
    add_too_many_with_lengths(cases);
    add_edge_and_atom(cases);
    add_long_edge_and_atom(cases);
}

fn add_head_out_of_range(cases: &mut Cases) {
    let heads = [
        (0, 5, "0-nodes", "no nodes"),
        (65, 5, "65-nodes", "65 nodes"),
        (65_535, 5, "65535-nodes", "65,535 nodes"),
        (
            256,
            5,
            "256-nodes",
            "256 nodes: the low byte alone would say 0",
        ),
        (3, 0, "0-variables", "no variables"),
        (3, 513, "513-variables", "513 variables"),
        (3, 65_535, "65535-variables", "65,535 variables"),
    ];
    for (nodes, variables, name, what) in heads {
        cases.refused(6, 0, name, what, [head(nodes, variables), end()].concat());
    }
}

fn add_edge_out_of_range(cases: &mut Cases) {
    let edges = [
        (3, 0, 1, "edge-from-3", "an edge from node 3 of 3"),
        (0, 3, 1, "edge-to-3", "an edge to node 3 of 3"),
        (256, 0, 1, "edge-from-256", "an edge from node 256"),
        (0, 1, 0, "edge-variable-0", "an edge with variable 0"),
        (0, 1, 6, "edge-variable-6", "an edge with variable 6 of 5"),
        (
            0,
            1,
            65_535,
            "edge-variable-65535",
            "an edge with variable 65,535",
        ),
    ];
    for (from, to, variable, name, what) in edges {
        cases.refused(6, SECOND, name, what, around(edge(from, to, variable)));
    }
    let file = [head(64, 1), edge(0, 64, 1), end()].concat();
    cases.refused(6, SECOND, "edge-to-64", "an edge to node 64 of 64", file);
    let file = [head(1, 512), edge(0, 0, 513), end()].concat();
    cases.refused(
        6,
        SECOND,
        "edge-variable-513",
        "an edge with variable 513 of 512",
        file,
    );
}

fn add_long_edge_out_of_range(cases: &mut Cases) {
    let edges = [
        (3, 0, 1, 9, "long-edge-from-3", "from node 3 of 3"),
        (0, 3, 1, 9, "long-edge-to-3", "to node 3 of 3"),
        (0, 1, 0, 9, "long-edge-variable-0", "variable 0"),
        (0, 1, 6, 9, "long-edge-variable-6", "variable 6 of 5"),
        (0, 1, 1, 0, "length-0", "length 0"),
        (
            2,
            2,
            5,
            0,
            "length-0-self",
            "length 0, from a node to itself",
        ),
    ];
    for (from, to, variable, length, name, what) in edges {
        cases.refused(
            6,
            SECOND,
            name,
            &format!("an edge with a length: {what}"),
            around(long_edge(from, to, variable, length)),
        );
    }
    let late = [edge(0, 1, 1), long_edge(0, 1, 1, 1), long_edge(0, 1, 1, 0)].concat();
    cases.refused(
        6,
        SECOND + 9 + 11,
        "length-0-third",
        "the third edge has length 0",
        around(late),
    );
}

fn add_atom_out_of_range(cases: &mut Cases) {
    let atoms = [
        (0, 0, 1, 0, 4, "atom-kind-0", "an atom of kind 0"),
        (4, 0, 1, 0, 4, "atom-kind-4", "an atom of kind 4"),
        (255, 0, 1, 0, 4, "atom-kind-255", "an atom of kind 255"),
        (1, 3, 1, 0, 4, "atom-from-3", "an atom from node 3 of 3"),
        (2, 0, 3, 1, 4, "atom-to-3", "an atom to node 3 of 3"),
        (1, 0, 1, 1, 4, "reaches-bound-1", "reaches with bound 1"),
        (
            1,
            0,
            1,
            256,
            4,
            "reaches-bound-256",
            "reaches with bound 256",
        ),
        (2, 0, 1, 256, 4, "within-bound-256", "within 256"),
        (2, 0, 1, 65_535, 4, "within-bound-65535", "within 65,535"),
        (
            1,
            0,
            1,
            65_535,
            4,
            "reaches-bound-65535",
            "reaches with bound 65,535",
        ),
        (
            4,
            0,
            1,
            65_535,
            4,
            "atom-kind-4-65535",
            "an atom of kind 4 with bound 65,535",
        ),
        (
            3,
            3,
            1,
            9,
            4,
            "length-from-3",
            "length at most, from node 3 of 3",
        ),
        (
            3,
            0,
            3,
            9,
            4,
            "length-to-3",
            "length at most, to node 3 of 3",
        ),
        (
            3,
            0,
            1,
            9,
            0,
            "length-variable-0",
            "length at most, variable 0",
        ),
        (
            3,
            0,
            1,
            65_535,
            6,
            "length-variable-6",
            "length at most, variable 6 of 5",
        ),
        (1, 0, 1, 0, 0, "atom-variable-0", "an atom with variable 0"),
        (
            2,
            0,
            1,
            1,
            6,
            "atom-variable-6",
            "an atom with variable 6 of 5",
        ),
    ];
    for (kind, from, to, bound, variable, name, what) in atoms {
        cases.refused(
            6,
            SECOND,
            name,
            what,
            around(atom(kind, from, to, bound, variable)),
        );
    }
}

fn add_literal_out_of_range(cases: &mut Cases) {
    for literal in [0, 6, -6, 256, 32_767, -32_767, -32_768] {
        let name = format!("literal-{}", named(literal));
        cases.refused(
            6,
            SECOND,
            &name,
            "a literal of 5 variables",
            around(clause(&[literal])),
        );
    }
    for literal in [513, -513, -32_768] {
        let file = [head(1, 512), clause(&[1, literal]), end()].concat();
        let name = format!("literal-{}-of-512", named(literal));
        cases.refused(6, SECOND, &name, "a second literal of 512 variables", file);
    }
    let last = around(clause(&[1, -2, 3, -4, 5, -5, 0]));
    cases.refused(
        6,
        SECOND,
        "literal-0-last",
        "the last of seven literals is 0",
        last,
    );
    let behind = around([clause(&[]), clause(&[6])].concat());
    cases.refused(
        6,
        SECOND + clause(&[]).len(),
        "literal-6-behind-empty",
        "an empty clause, then a literal out of range",
        behind,
    );
}

fn named(literal: i16) -> String {
    literal.to_string().replace('-', "minus-")
}

fn add_too_many(cases: &mut Cases) {
    let before = edge(0, 1, 1).repeat(256);
    let file = [head(2, 1), before.clone(), edge(1, 0, 1), end()].concat();
    cases.refused(7, SECOND + before.len(), "257-edges", "257 edges", file);
    let before = atom(1, 0, 1, 0, 1).repeat(64);
    let file = [head(2, 1), before.clone(), atom(2, 1, 0, 1, 1), end()].concat();
    cases.refused(7, SECOND + before.len(), "65-atoms", "65 atoms", file);
    let before = clause(&[1]).repeat(1_024);
    let file = [head(1, 1), before.clone(), clause(&[-1]), end()].concat();
    cases.refused(
        7,
        SECOND + before.len(),
        "1025-clauses",
        "1,025 clauses",
        file,
    );
    add_too_many_with_empty(cases);
    let file = [head(1, 1), clause(&[1; 4_097]), end()].concat();
    cases.refused(
        7,
        SECOND,
        "4097-literals-in-one",
        "one clause of 4,097 literals, all the same",
        file,
    );
    let before = clause(&[1; 4_096]);
    let file = [head(1, 1), before.clone(), clause(&[1]), end()].concat();
    cases.refused(
        7,
        SECOND + before.len(),
        "4097-literals-in-two",
        "4,096 literals and one more",
        file,
    );
    let before = clause(&[1, 2, 3, 4]).repeat(1_023);
    let file = [head(1, 4), before.clone(), clause(&[1, 2, 3, 4, -1]), end()].concat();
    cases.refused(
        7,
        SECOND + before.len(),
        "4097-literals-in-1024",
        "1,024 clauses with 4,097 literals",
        file,
    );
}

/// Empty clauses count as clauses, and hold no literals.
fn add_too_many_with_empty(cases: &mut Cases) {
    let (empty, one, long) = (clause(&[]), clause(&[1]), clause(&[1; 4_096]));
    let mut refused = |before: Vec<u8>, last: &[u8], name: &str, what: &str| {
        let file = [&head(1, 1), &before, last, &end()].concat();
        cases.refused(7, SECOND + before.len(), name, what, file);
    };
    refused(
        one.repeat(1_024),
        &empty,
        "1025-clauses-last-empty",
        "1,024 clauses of one literal and an empty one",
    );
    refused(
        empty.repeat(1_024),
        &empty,
        "1025-empty-clauses",
        "1,025 empty clauses",
    );
    refused(
        empty.repeat(1_024),
        &one,
        "1025-clauses-but-one-empty",
        "1,024 empty clauses and one of one literal",
    );
    refused(
        [long.clone(), empty.repeat(1_023)].concat(),
        &empty,
        "1025-clauses-4096-literals",
        "4,096 literals in one clause, then 1,024 empty ones",
    );
    refused(
        [long, empty].concat(),
        &one,
        "4097-literals-around-empty",
        "4,096 literals, an empty clause and one more literal",
    );
}

/// Edges of both tags share one limit, whichever the last one is.
fn add_too_many_with_lengths(cases: &mut Cases) {
    let (short, long) = (edge(0, 1, 1), long_edge(0, 1, 1, 9));
    let both = [short.clone(), long.clone()].concat().repeat(128);
    let mut refused = |before: Vec<u8>, last: &[u8], name: &str, what: &str| {
        let file = [&head(2, 1), &before, last, &end()].concat();
        cases.refused(7, SECOND + before.len(), name, what, file);
    };
    refused(
        both.clone(),
        &long,
        "257-edges-long-last",
        "256 edges of both tags and one of tag 6",
    );
    refused(
        both,
        &short,
        "257-edges-short-last",
        "256 edges of both tags and one of tag 2",
    );
    refused(
        long.repeat(256),
        &long,
        "257-long-edges",
        "257 edges with a length",
    );
    refused(
        long.repeat(256),
        &short,
        "257-edges-but-one-long",
        "256 edges with a length and one without",
    );
    refused(
        short.repeat(256),
        &long,
        "257-edges-one-long",
        "256 edges without a length and one with",
    );
    let atoms = atom(3, 0, 1, 65_535, 1).repeat(64);
    refused(
        atoms,
        &atom(3, 0, 1, 0, 1),
        "65-length-atoms",
        "65 atoms of kind 3",
    );
}

fn add_long_edge_and_atom(cases: &mut Cases) {
    let (long, about) = (long_edge(0, 1, 1, 9), atom(3, 0, 1, 9, 1));
    let file = |records: &[&[u8]]| [&head(2, 9), &records.concat()[..], &end()].concat();
    cases.refused(
        8,
        SECOND + 11,
        "long-edge-then-atom",
        "an atom with the variable of an edge with a length",
        file(&[&long, &atom(1, 0, 1, 0, 1)]),
    );
    cases.refused(
        8,
        SECOND + 12,
        "atom-then-long-edge",
        "an edge with a length and an atom's variable",
        file(&[&atom(1, 0, 1, 0, 1), &long]),
    );
    cases.refused(
        8,
        SECOND + 9,
        "edge-then-length-atom",
        "an atom of kind 3 with an edge's variable",
        file(&[&edge(0, 1, 1), &about]),
    );
    cases.refused(
        8,
        SECOND + 12,
        "length-atom-then-long-edge",
        "an edge with a length and the variable of an atom of kind 3",
        file(&[&about, &long]),
    );
    // Its length is the atom's variable, and its variable is not.
    cases.accepted(
        [2, 9, 1, 1, 0, 0],
        "length-as-a-variable",
        "an edge's length is an atom's variable",
        file(&[&long_edge(0, 1, 1, 9), &atom(3, 0, 1, 1, 9)]),
    );
}

fn add_edge_and_atom(cases: &mut Cases) {
    let file = [head(2, 1), edge(0, 1, 1), atom(1, 0, 1, 0, 1), end()].concat();
    cases.refused(
        8,
        16,
        "edge-then-atom",
        "an atom with an edge's variable",
        file,
    );
    let file = [head(2, 1), atom(1, 0, 1, 0, 1), edge(0, 1, 1), end()].concat();
    cases.refused(
        8,
        19,
        "atom-then-edge",
        "an edge with an atom's variable",
        file,
    );
    let between = [
        edge(0, 1, 1),
        edge(1, 0, 2),
        atom(1, 0, 1, 0, 3),
        clause(&[1]),
    ]
    .concat();
    let file = [head(2, 3), between.clone(), atom(2, 0, 1, 9, 2), end()].concat();
    cases.refused(
        8,
        SECOND + between.len(),
        "far-apart",
        "the second edge's variable, records between",
        file,
    );
    let file = [head(2, 512), edge(0, 1, 512), atom(1, 0, 1, 0, 512), end()].concat();
    cases.refused(8, 16, "variable-512", "variable 512 for both", file);
}
