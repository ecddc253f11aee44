//! Stored requests of `write_dimacs` and `read_dimacs`.

use super::answered::Answered;
use super::ask::{read_dimacs, write_dimacs};
use super::{around, SECOND};
use crate::file::PlanFile;
use crate::sample;
use crate::write::{clause, end, head, to_bytes};

/// For the sample, with its 5 variables, 2 clauses and 2 literals.
const GOOD: [(&[u8], &str); 21] = [
    (b"p cnf 5 0", "rules 0 0"),
    (b"p cnf 0 0\n", "rules 0 0"),
    (b"p cnf -0 -0\n", "rules 0 0"),
    (b"p cnf 005 0000000000000000000000", "rules 0 0"),
    (b"p cnf 5 1\n1 -2 0\n", "rules 1 2 : 4 0 4 0 1 255 254 77"),
    (
        b"p cnf 5 2\n1 0 -5 0",
        "rules 2 2 : 4 0 2 0 1 4 0 2 255 251 77",
    ),
    (
        b"p cnf 5 1\n1\n-2\n\n3\n0\n",
        "rules 1 3 : 4 0 6 0 1 255 254 0 3 77",
    ),
    (b"p cnf 5 2\n1\n2 0 3\n4 0", "rules 2 4"),
    (b"p cnf 5 1\r\n1 -2 0\r\n", "rules 1 2"),
    (b"\t p\tcnf\r5  1 \n\t1\t-2\r0", "rules 1 2"),
    (
        b"p cnf 5 1\n-0001 000000000000000000002 00\n",
        "rules 1 2 : 4 0 4 255 255 0 2 77",
    ),
    (
        b"p cnf 5 1\n0000000000000000000000000000000000000005 -0",
        "rules 1 1",
    ),
    (b"p cnf 5 1\n5 -5 5 5 0", "rules 1 4"),
    (b"p cnf 2 1\n-2 0", "rules 1 1"),
    (
        b"c\ncnf\ncomment 7\np cnf 5 1\n1\nc 9 9 9\n-2 0\nc last",
        "rules 1 2",
    ),
    (b"  c x\np cnf 5 1\n \tc x\n1 0\n", "rules 1 1"),
    (b"c a CR ends no line\r1 0\np cnf 1 1\n1 0\n", "rules 1 1"),
    (b"\rc behind a CR\np cnf 1 1\n\r\n1 0\n", "rules 1 1"),
    (b"c p cnf 9 9\np cnf 1 1\nc p\n1 0\nc 1 0\n", "rules 1 1"),
    (b"c\xff\x00%\np cnf 1 1\n1 0\n", "rules 1 1"),
    (b"p cnf 5 1\n1 0\nc 2 0", "rules 1 1"),
];

/// No `p` line, or not such a one.
const BAD_P_LINES: [(&[u8], &str); 39] = [
    (b"", "refused 20 0"),
    (b"\n", "refused 20 1"),
    (b" \t\r\n", "refused 20 4"),
    (b"c", "refused 20 1"),
    (b"c\n", "refused 20 2"),
    (b"c only\nc comments", "refused 20 17"),
    (b"1 0", "refused 20 0"),
    (b"c x\n 1 0", "refused 20 5"),
    (b"q cnf 5 0", "refused 20 0"),
    (b"P cnf 5 0", "refused 20 0"),
    (b"pcnf 5 0", "refused 20 0"),
    (b"%\np cnf 5 0", "refused 20 0"),
    (b"p", "refused 20 1"),
    (b"p\n", "refused 20 2"),
    (b"p cnf", "refused 20 5"),
    (b"p cnf 5", "refused 20 7"),
    (b"p cnf 5 \n", "refused 20 9"),
    (b"p cnf 5\n1\n1 0\n", "refused 20 8"),
    (b"p cnf 5\nc x\n1\n1 0\n", "refused 20 12"),
    (b"p cnf 5\nc x\n", "refused 20 12"),
    (b"p cnf\n5 1\n", "refused 20 6"),
    (b"p\ncnf 5 1\n1 0\n", "refused 20 10"),
    (b"p\n\tp cnf 5 1\n", "refused 20 3"),
    (b"p dnf 5 1", "refused 20 2"),
    (b"p CNF 5 1", "refused 20 2"),
    (b"p cnf5 1", "refused 20 2"),
    (b"p cnf x 1", "refused 20 6"),
    (b"p cnf -1 1", "refused 20 6"),
    (b"p cnf +5 0", "refused 20 6"),
    (b"p cnf 2147483648 0", "refused 20 6"),
    (b"p cnf 4294967296 0", "refused 20 6"),
    (b"p cnf 5 -1", "refused 20 8"),
    (b"p cnf 5 1x", "refused 20 8"),
    (b"p cnf 5 2147483648", "refused 20 8"),
    (b"p cnf 5 4294967296", "refused 20 8"),
    (b"p cnf 5 1 1 0", "refused 20 10"),
    (b"p cnf 5 0 c", "refused 20 10"),
    (b"p cnf 5 0\r0\n", "refused 20 10"),
    (b"p cnf 5 0 \t c comment\n", "refused 20 12"),
];

/// Something wrong behind the `p` line; `p cnf 5 1` and its line's end are 10 bytes.
const BAD_CLAUSES: [(&[u8], &str); 38] = [
    (b"p cnf 5 1\n6 0\n", "refused 20 10"),
    (b"p cnf 5 1\n1 -6 0", "refused 20 12"),
    (b"p cnf 4 1\n5 0", "refused 20 10"),
    (b"p cnf 0 1\n1 0\n", "refused 20 10"),
    (b"p cnf 5 1\n65537 0", "refused 20 10"),
    (b"p cnf 5 1\n2147483647 0", "refused 20 10"),
    (b"p cnf 5 1\n2147483648 0", "refused 20 10"),
    (b"p cnf 5 1\n-2147483648 0", "refused 20 10"),
    (b"p cnf 5 1\n-2147483649 0", "refused 20 10"),
    (b"p cnf 5 1\n4294967297 0", "refused 20 10"),
    (b"p cnf 5 1\n-4294967295 0", "refused 20 10"),
    (b"p cnf 5 1\n18446744073709551617 0", "refused 20 10"),
    (
        b"p cnf 5 1\n1111111111111111111111111111111111111111 0",
        "refused 20 10",
    ),
    (b"p cnf 5 1\n1 4294967296", "refused 20 12"),
    (b"p cnf 2147483647 1\n-2147483648 0", "refused 20 19"),
    (b"p cnf 2147483647 1\n2147483648 0", "refused 20 19"),
    (b"p cnf 2147483647 1\n-2147483649 0", "refused 20 19"),
    (b"p cnf 5 1\n+1 0", "refused 20 10"),
    (b"p cnf 5 1\n- 1 0", "refused 20 10"),
    (b"p cnf 5 1\n--1 0", "refused 20 10"),
    (b"p cnf 5 1\n1x 0", "refused 20 10"),
    (b"p cnf 5 1\n1-2 0", "refused 20 10"),
    (b"p cnf 5 1\n1 / 0", "refused 20 12"),
    (b"p cnf 5 1\n1 : 0", "refused 20 12"),
    (b"p cnf 5 1\n1\x0b0", "refused 20 10"),
    (b"p cnf 5 1\n1 0\x00", "refused 20 12"),
    (b"p cnf 5 1\n1\xc2\xa00", "refused 20 10"),
    (b"p cnf 5 1\n1 0\n%\n0\n", "refused 20 14"),
    (b"p cnf 5 1\n1 c 0", "refused 20 12"),
    (b"p cnf 5 1\n1 0 c behind\n", "refused 20 14"),
    (b"p cnf 5 1\n1 p 0", "refused 20 12"),
    (b"p cnf 5 1\np cnf 5 1\n1 0", "refused 20 10"),
    (b"p cnf 5 1\n1 0\np cnf 5 1\n", "refused 20 14"),
    (b"p cnf 5 1\n1 2", "refused 20 13"),
    (b"p cnf 5 1\n1 2\n", "refused 20 14"),
    (b"p cnf 5 1\n1 2\nc 0", "refused 20 17"),
    (b"p cnf 5 1\n1 10", "refused 20 12"),
    (b"p cnf 5 2\n1 0 -", "refused 20 14"),
];

/// 20 over all of the text, then 21, then 22, each with what would come after it.
const ORDER: [(&[u8], &str); 16] = [
    (b"p cnf 5 9\n1 0\n2 x 0\n", "refused 20 16"),
    (b"p cnf 5 9\n1 0\n2\n", "refused 20 16"),
    (b"p cnf 9 9\n1 0\n10 0\n", "refused 20 14"),
    (b"p cnf 6 1\n7 0", "refused 20 10"),
    (b"p cnf 2147483648 x", "refused 20 6"),
    (b"p cnf 5 0\n1 0", "refused 21 0"),
    (b"p cnf 5 2\n1 0", "refused 21 0"),
    (b"p cnf 5 2147483647", "refused 21 0"),
    (b"c\n\tp cnf 5 1\n", "refused 21 3"),
    (b"c x\n p cnf 9 2\n1 0", "refused 21 5"),
    (b"p cnf 6 0\n1 0\n", "refused 21 0"),
    (b"p cnf 6 1\n1 0\n", "refused 22 0"),
    (b"\n\np cnf 6 1\n6 0\n", "refused 22 2"),
    (b"p cnf 2147483647 0", "refused 22 0"),
    (b"p cnf 2147483647 1\n2147483647 0", "refused 22 0"),
    (b"p cnf 2147483647 1\n-2147483647 0", "refused 22 0"),
];

pub fn case(file: &[u8], text: &[u8], room: u16, expected: &str) -> Answered {
    Answered::new(read_dimacs(file, text, room), expected)
}

pub fn answered() -> Vec<Answered> {
    let sample = &sample::bytes();
    let tables = [&GOOD[..], &BAD_P_LINES, &BAD_CLAUSES, &ORDER];
    let mut cases: Vec<Answered> = tables
        .concat()
        .into_iter()
        .map(|(text, expected)| case(sample, text, 16, expected))
        .collect();
    cases.extend(room_cases(sample));
    cases.extend(limit_cases(sample));
    cases.extend(full_file_cases());
    cases.extend(file_cases(sample));
    cases.extend(print_cases(sample));
    cases
}

/// Exactly enough room, one more, and too little.
fn room_cases(sample: &[u8]) -> Vec<Answered> {
    let text = b"p cnf 5 2\n1 -2 0 5 0\n";
    let read = |room: u16, expected: &str| case(sample, text, room, expected);
    vec![
        read(12, "rules 2 3 : 4 0 4 0 1 255 254 4 0 2 0 5"),
        read(13, "rules 2 3 : 4 0 4 0 1 255 254 4 0 2 0 5 77"),
        read(11, "refused 12 12 : 77 77 77 77 77 77 77 77 77 77 77"),
        read(1, "refused 12 12 : 77"),
        read(0, "refused 12 12 :"),
        case(sample, b"p cnf 5 0", 0, "rules 0 0 :"),
        case(sample, b"p cnf 5 0", 1, "rules 0 0 : 77"),
    ]
}

/// `p cnf 5 COUNT`, clauses of so many literals, each on a line of its own.
pub fn clauses_of(lengths: &[usize]) -> Vec<u8> {
    let mut text = format!("p cnf 5 {}\n", lengths.len()).into_bytes();
    for &length in lengths {
        text.extend(b"1 ".repeat(length));
        text.extend(b"0\n");
    }
    text
}

/// The limits count the sample's own 2 clauses and 2 literals.
fn limit_cases(sample: &[u8]) -> Vec<Answered> {
    let read = |text: &[u8], room: u16, expected: &str| case(sample, text, room, expected);
    // A `p` line of four digits is 13 bytes, one of one digit 10; a clause of one is 4.
    let ones = |count: usize| clauses_of(&vec![1; count]);
    let commented = [b"p cnf 5 1023\n", &ones(1_022)[13..], b"c x\n \t2 0"].concat();
    let count_wrong = [b"p cnf 5 1024\n", &ones(1_023)[13..]].concat();
    let variables_wrong = [b"p cnf 6 1023\n", &ones(1_023)[13..]].concat();
    let bad_word = [&ones(1_030)[..], b"x"].concat();
    vec![
        read(&ones(1_022), 5_110, "rules 1022 1022 : 4 0 2 0 1 4"),
        read(&ones(1_022), 5_109, "refused 12 5110 : 77"),
        read(&ones(1_023), 0, "refused 7 4101 :"),
        read(&ones(1_023), 5_115, "refused 7 4101 : 77"),
        read(&ones(1_030), 3, "refused 7 4101 : 77 77 77"),
        read(&commented, 0, "refused 7 4107 :"),
        read(&count_wrong, 0, "refused 21 0 :"),
        read(&variables_wrong, 0, "refused 22 0 :"),
        read(&bad_word, 0, "refused 20 4133 :"),
        read(
            &clauses_of(&[4_094]),
            8_191,
            "rules 1 4094 : 4 31 252 0 1 0 1",
        ),
        read(&clauses_of(&[4_094]), 8_190, "refused 12 8191 : 77"),
        read(&clauses_of(&[4_095]), 0, "refused 7 10 :"),
        read(&clauses_of(&[5_000]), 0, "refused 7 10 :"),
        read(&clauses_of(&[1, 4_093]), 0, "refused 12 8194 :"),
        read(&clauses_of(&[1, 4_093, 1, 1]), 0, "refused 7 8202 :"),
        read(&clauses_of(&[1, 4_094, 1]), 0, "refused 7 14 :"),
    ]
}

/// Files whose own clauses leave no room, or room for one.
fn full_file_cases() -> Vec<Answered> {
    let with = |clauses: Vec<u8>| [head(1, 5), clauses, end()].concat();
    let read = |file: &[u8], text: &[u8], expected: &str| case(file, text, 7, expected);
    let full = &with(clause(&[1]).repeat(1_024));
    let nearly = &with(clause(&[1]).repeat(1_023));
    let long = &with(clause(&[1; 4_096]));
    let nearly_long = &with(clause(&[1; 4_095]));
    let both = &with([clause(&[1; 3_073]), clause(&[1]).repeat(1_022)].concat());
    vec![
        read(full, b"p cnf 5 0", "rules 0 0 : 77"),
        read(full, b"p cnf 5 1\n1 0", "refused 7 10 : 77"),
        read(nearly, b"p cnf 5 1\n1 0", "rules 1 1 : 4 0 2 0 1 77"),
        read(nearly, b"p cnf 5 2\n1 0 2 0", "refused 7 14 : 77"),
        read(long, b"p cnf 5 0", "rules 0 0 : 77"),
        read(long, b"p cnf 5 1\n\n1 0", "refused 7 11 : 77"),
        read(nearly_long, b"p cnf 5 1\n1 0", "rules 1 1 : 4 0 2 0 1 77"),
        read(nearly_long, b"p cnf 5 1\n1 2 0", "refused 7 10 : 77"),
        read(both, b"p cnf 5 1\n1 0", "rules 1 1 : 4 0 2 0 1 77"),
        read(both, b"p cnf 5 1\n1 2 0", "refused 7 10 : 77"),
        read(both, b"p cnf 5 2\n1 0 2 0", "refused 7 14 : 77"),
    ]
}

/// The file's refusals come before the text's, and a text may fit a file without clauses.
fn file_cases(sample: &[u8]) -> Vec<Answered> {
    let read = |file: &[u8], text: &[u8], expected: &str| case(file, text, 5, expected);
    let too_long = [sample, &[0; 16_384]].concat();
    let odd = around(vec![4, 0, 1, 1]);
    vec![
        read(&[], b"p cnf 5 0", "refused 2 0 : 77"),
        read(&sample[..70], b"x", "refused 2 68 : 77"),
        read(&too_long, b"x", "refused 1 0 : 77"),
        read(&odd, b"p cnf 9 9", &format!("refused 5 {SECOND} : 77")),
        read(
            &[head(1, 1), end()].concat(),
            b"p cnf 1 1\n-1 0",
            "rules 1 1 : 4 0 2 255 255",
        ),
        read(
            &[head(1, 1), end()].concat(),
            b"p cnf 1 1\n-1 -1 0",
            "refused 12 7 : 77",
        ),
        read(
            &[head(1, 512), end()].concat(),
            b"p cnf 512 1\n-512 0",
            "rules 1 1 : 4 0 2 254 0",
        ),
        read(
            &[head(1, 512), end()].concat(),
            b"p cnf 513 1\n512 0",
            "refused 22 0 : 77",
        ),
    ]
}

fn printed(file: &[u8], room: u16, expected: &str) -> Answered {
    Answered::new(write_dimacs(file, room), expected)
}

/// The places of a text.
pub fn places(text: &str) -> String {
    text.bytes().map(|byte| format!(" {byte}")).collect()
}

fn print_cases(sample: &[u8]) -> Vec<Answered> {
    let text = places(sample::DIMACS);
    let smallest = &[head(1, 1), end()].concat();
    let mut row = PlanFile::with_nodes(1);
    row.variables = 512;
    row.clauses = vec![vec![512, -512], vec![-1; 9], vec![100, -10, 9, 99]];
    let row_text = "p cnf 512 3\n512 -512 0\n-1 -1 -1 -1 -1 -1 -1 -1 -1 0\n100 -10 9 99 0\n";
    let mut alone = PlanFile::with_nodes(1);
    alone.reaches(0, 0);
    let alone_text = "p cnf 2 3\nc atom 1\n2 0\n-1 2 0\n1 -2 0\n";
    vec![
        printed(sample, 616, &format!("printed 616 :{text}")),
        printed(sample, 617, &format!("printed 616 :{text} 77")),
        printed(sample, 615, "refused 12 616 : 77"),
        printed(sample, 0, "refused 12 616 :"),
        printed(
            smallest,
            10,
            &format!("printed 10 :{}", places("p cnf 1 0\n")),
        ),
        printed(smallest, 9, "refused 12 10 : 77"),
        printed(
            &to_bytes(&row),
            67,
            &format!("printed 67 :{}", places(row_text)),
        ),
        printed(
            &to_bytes(&alone),
            37,
            &format!("printed 37 :{}", places(alone_text)),
        ),
        printed(&sample[..70], 3, "refused 2 68 : 77 77 77"),
        printed(&[], 0, "refused 2 0 :"),
    ]
}
