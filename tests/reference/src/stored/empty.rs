//! Stored requests of every call about empty clauses (request C-12), in files and in
//! texts.

use super::answered::Answered;
use super::ask::{close, judge, read, reason, search, write_clauses, write_dimacs};
use super::texts::{case, clauses_of, places};
use crate::sample;
use crate::write::{clause, end, head};

pub fn answered() -> Vec<Answered> {
    let mut cases: Vec<Answered> = IN_SAMPLE.iter().flat_map(sample_cases).collect();
    cases.extend(small_cases());
    cases.extend(limit_cases());
    cases.extend(text_cases());
    cases.extend(text_room_cases());
    cases.extend(text_limit_cases());
    cases.extend(full_file_cases());
    cases
}

/// The sample with empty clauses among its two.
struct InSample {
    clauses: &'static [&'static [i16]],
    /// The lines of these clauses in the text.
    lines: &'static str,
    /// The first clause without a true literal in each of `JUDGED`.
    judged: [usize; 5],
    /// Of the written-out list.
    written: usize,
    numbers: u16,
    bytes: u16,
}

/// A plan but for empty clauses; clause (5) false; clause (-4) false; atom 1 wrong;
/// atom 2 wrong.
const JUDGED: [[i8; 5]; 5] = [
    [1, 1, -1, -1, 1],
    [1, 1, -1, -1, -1],
    [1, 1, -1, 1, 1],
    [1, 1, 1, -1, 1],
    [1, -1, -1, -1, 1],
];

const IN_SAMPLE: [InSample; 5] = [
    InSample {
        clauses: &[&[], &[5], &[-4]],
        lines: "0\n5 0\n-4 0\n",
        judged: [1, 1, 1, 1, 1],
        written: 67,
        numbers: 209,
        bytes: 618,
    },
    InSample {
        clauses: &[&[5], &[], &[-4]],
        lines: "5 0\n0\n-4 0\n",
        judged: [2, 1, 2, 2, 2],
        written: 67,
        numbers: 209,
        bytes: 618,
    },
    InSample {
        clauses: &[&[5], &[-4], &[]],
        lines: "5 0\n-4 0\n0\n",
        judged: [3, 1, 2, 3, 3],
        written: 67,
        numbers: 209,
        bytes: 618,
    },
    InSample {
        clauses: &[&[5], &[], &[], &[-4], &[]],
        lines: "5 0\n0\n0\n-4 0\n0\n",
        judged: [2, 1, 2, 2, 2],
        written: 69,
        numbers: 211,
        bytes: 622,
    },
    InSample {
        clauses: &[&[]],
        lines: "0\n",
        judged: [1, 1, 1, 1, 1],
        written: 65,
        numbers: 205,
        bytes: 609,
    },
];

impl InSample {
    /// The sample's own clause records stand before its end record.
    fn file(&self) -> Vec<u8> {
        let sample = sample::bytes();
        let records: Vec<u8> = self.clauses.iter().flat_map(|one| clause(one)).collect();
        [&sample[..58], &records, &sample[68..]].concat()
    }

    fn text(&self) -> String {
        let own = format!("p cnf 29 {}\n{}", self.written, self.lines);
        sample::DIMACS.replacen("p cnf 29 66\n5 0\n-4 0\n", &own, 1)
    }

    /// The numbers of the written-out list, each behind a blank.
    fn list(&self) -> String {
        let text = self.text();
        let lines = text.lines().filter(|line| !line.starts_with(['p', 'c']));
        lines
            .flat_map(|line| line.split(' '))
            .map(|number| format!(" {number}"))
            .collect()
    }
}

fn sample_cases(one: &InSample) -> Vec<Answered> {
    let file = &one.file();
    let literals: usize = one.clauses.iter().map(|clause| clause.len()).sum();
    let counts = format!("{} {literals}", one.clauses.len());
    let mut cases = vec![Answered::new(
        read(file),
        &format!("accepted 3 5 3 2 {counts}"),
    )];
    for (values, number) in JUDGED.iter().zip(one.judged) {
        let expected = format!("clause {number}");
        cases.push(Answered::new(judge(file, values), &expected));
    }
    cases.extend(never_closed(file));
    cases.extend(reason_cases(file));
    cases.extend(printed_cases(one));
    cases
}

/// Closing clashes and the search says impossible, whatever is given and whatever the
/// budget; the refusals come first.
fn never_closed(file: &[u8]) -> Vec<Answered> {
    let given = [
        [0; 5],
        [1, 1, -1, -1, 1],
        [-1, 0, -1, 0, 0],
        [0, 0, 0, 1, -1],
        [0, 0, 0, -1, 1],
    ];
    let mut cases: Vec<Answered> = given
        .iter()
        .map(|values| Answered::new(close(file, values, 5), "clash : 77 77 77 77 77"))
        .collect();
    for budget in [0, 1, 7, 1_000_000, u32::MAX] {
        let expected = "impossible 0 : 77 77 77 77 77";
        cases.push(Answered::new(search(file, budget, 5), expected));
    }
    cases.extend([
        Answered::new(judge(file, &[1; 4]), "refused 9 5"),
        Answered::new(judge(file, &[1, 1, 0, 2, 1]), "refused 10 2"),
        Answered::new(close(file, &[0; 5], 6), "refused 9 5 : 77 77 77 77 77 77"),
        Answered::new(close(file, &[0, 0, 0, 3, 0], 5), "refused 10 3 : 77"),
        Answered::new(search(file, 7, 4), "refused 9 5 : 77 77 77 77"),
    ]);
    cases
}

/// P9, P10, an open atom and the refusals: as in the sample itself, since a reason looks
/// at no clause.
fn reason_cases(file: &[u8]) -> Vec<Answered> {
    let (lit, dark) = ([1, 1, 0, 0, 0], [0, 0, -1, 0, 0]);
    let ask = |values: &[i8], atom: u16, room: u16, expected: &str| {
        Answered::new(reason(file, values, atom, room), expected)
    };
    vec![
        ask(&lit, 2, 4, "holds 3 : 5 -1 -2 77"),
        ask(&dark, 1, 4, "fails 2 : -4 3 77 77"),
        ask(&[0; 5], 1, 2, "open : 77 77"),
        ask(&lit, 2, 2, "refused 12 3 : 77 77"),
        ask(&lit, 3, 4, "refused 11 2 : 77 77 77 77"),
    ]
}

/// The list and the text in exactly enough room, one too few and one too many.
fn printed_cases(one: &InSample) -> Vec<Answered> {
    let file = &one.file();
    let (numbers, bytes) = (one.numbers, one.bytes);
    let list = format!("written 29 {} {numbers} :{}", one.written, one.list());
    let text = format!("printed {bytes} :{}", places(&one.text()));
    let short_list = format!("refused 12 {numbers} : 77");
    let short_text = format!("refused 12 {bytes} : 77");
    vec![
        Answered::new(write_clauses(file, numbers), &list),
        Answered::new(write_clauses(file, numbers + 1), &(list + " 77")),
        Answered::new(write_clauses(file, numbers - 1), &short_list),
        Answered::new(write_dimacs(file, bytes), &text),
        Answered::new(write_dimacs(file, bytes + 1), &(text + " 77")),
        Answered::new(write_dimacs(file, bytes - 1), &short_text),
    ]
}

const EMPTY: &[i16] = &[];

/// One node, so many variables, and these clauses.
fn with_clauses(variables: usize, clauses: &[&[i16]]) -> Vec<u8> {
    let records: Vec<u8> = clauses.iter().flat_map(|one| clause(one)).collect();
    [head(1, variables), records, end()].concat()
}

/// The smallest file with an empty clause; one whose closing would find the plan; one
/// that would be impossible after a branching.
fn small_cases() -> Vec<Answered> {
    let smallest = &with_clauses(1, &[&[]]);
    let closed = &with_clauses(2, &[&[1], &[-2], &[]]);
    let tried = &with_clauses(2, &[&[1, 2], &[1, -2], &[-1, 2], &[-1, -2], &[]]);
    let text = places("p cnf 1 1\n0\n");
    vec![
        Answered::new(read(smallest), "accepted 1 1 0 0 1 0"),
        Answered::new(judge(smallest, &[1]), "clause 1"),
        Answered::new(judge(smallest, &[-1]), "clause 1"),
        Answered::new(close(smallest, &[0], 1), "clash : 77"),
        Answered::new(reason(smallest, &[0], 1, 1), "refused 11 0 : 77"),
        Answered::new(search(smallest, 0, 1), "impossible 0 : 77"),
        Answered::new(write_clauses(smallest, 1), "written 1 1 1 : 0"),
        Answered::new(write_clauses(smallest, 2), "written 1 1 1 : 0 77"),
        Answered::new(write_clauses(smallest, 0), "refused 12 1 :"),
        Answered::new(write_dimacs(smallest, 12), &format!("printed 12 :{text}")),
        Answered::new(write_dimacs(smallest, 11), "refused 12 12 : 77"),
        Answered::new(judge(closed, &[1, -1]), "clause 3"),
        Answered::new(judge(closed, &[1, 1]), "clause 2"),
        Answered::new(close(closed, &[0, 0], 2), "clash : 77 77"),
        Answered::new(close(closed, &[1, -1], 2), "clash : 77 77"),
        Answered::new(search(closed, 0, 2), "impossible 0 : 77 77"),
        Answered::new(judge(tried, &[1, 1]), "clause 4"),
        Answered::new(search(tried, 0, 2), "impossible 0 : 77 77"),
        Answered::new(search(tried, 1, 2), "impossible 0 : 77 77"),
    ]
}

/// 1,024 clauses: all of them empty, only the last, and all but one of 4,096 literals.
fn limit_cases() -> Vec<Answered> {
    let all = &with_clauses(1, &[EMPTY; 1_024]);
    let last = &with_clauses(1, &[&[&[1][..]; 1_023][..], &[EMPTY]].concat());
    let long = &with_clauses(1, &[&[&[1; 4_096][..]], &[EMPTY; 1_023][..]].concat());
    vec![
        Answered::new(judge(all, &[1]), "clause 1"),
        Answered::new(close(all, &[0], 1), "clash : 77"),
        Answered::new(search(all, 0, 1), "impossible 0 : 77"),
        Answered::new(write_clauses(all, 1_024), "written 1 1024 1024 : 0 0 0 0"),
        Answered::new(write_clauses(all, 1_023), "refused 12 1024 : 77"),
        Answered::new(write_dimacs(all, 2_061), "printed 2061 : 112 32 99 110"),
        Answered::new(write_dimacs(all, 2_060), "refused 12 2061 : 77"),
        Answered::new(read(last), "accepted 1 1 0 0 1024 1023"),
        Answered::new(judge(last, &[1]), "clause 1024"),
        Answered::new(judge(last, &[-1]), "clause 1"),
        Answered::new(close(last, &[1], 1), "clash : 77"),
        Answered::new(search(last, 0, 1), "impossible 0 : 77"),
        Answered::new(judge(long, &[1]), "clause 2"),
        Answered::new(search(long, 0, 1), "impossible 0 : 77"),
        Answered::new(write_clauses(long, 5_120), "written 1 1024 5120 : 1 1 1"),
        Answered::new(write_clauses(long, 5_119), "refused 12 5120 : 77"),
    ]
}

/// For the sample, with its 5 variables, 2 clauses and 2 literals. `p cnf 5 1` and its
/// line's end are 10 bytes.
const TEXTS: [(&[u8], &str); 38] = [
    (b"p cnf 5 1\n0\n", "rules 1 0 : 4 0 0 77"),
    (b"p cnf 5 1\n0", "rules 1 0 : 4 0 0 77"),
    (b"p cnf 0 1\n0\n", "rules 1 0 : 4 0 0 77"),
    (b"p cnf 5 1\n-0\n", "rules 1 0 : 4 0 0 77"),
    (b"p cnf 5 1\n00", "rules 1 0 : 4 0 0 77"),
    (
        b"p cnf 5 1\n-0000000000000000000000\n",
        "rules 1 0 : 4 0 0 77",
    ),
    (b"p cnf 5 3\n0 0 0", "rules 3 0 : 4 0 0 4 0 0 4 0 0 77"),
    (
        b"p cnf 5 3\r\n0\r\n\t0\n 0 \n",
        "rules 3 0 : 4 0 0 4 0 0 4 0 0 77",
    ),
    (b"p cnf 5 2\n1 0 0", "rules 2 1 : 4 0 2 0 1 4 0 0 77"),
    (b"p cnf 5 2\n0 1 0", "rules 2 1 : 4 0 0 4 0 2 0 1 77"),
    (
        b"p cnf 5 3\n1 0 0 -1 0",
        "rules 3 2 : 4 0 2 0 1 4 0 0 4 0 2 255 255 77",
    ),
    (
        b"p cnf 5 2\n1 0\nc 1\n00\n",
        "rules 2 1 : 4 0 2 0 1 4 0 0 77",
    ),
    (b"p cnf 5 2\n1\nc 0\n0\n0", "rules 2 1 : 4 0 2 0 1 4 0 0 77"),
    (
        b"p cnf 5 2\nc 0\n0\nc 0\n 0\nc 0",
        "rules 2 0 : 4 0 0 4 0 0 77",
    ),
    (b"p cnf 5 0\nc 0\n", "rules 0 0 : 77"),
    // A clause behind a lone 0 needs its own.
    (b"p cnf 5 2\n0 1", "refused 20 13"),
    (b"p cnf 5 1\n0 1\n", "refused 20 14"),
    (b"p cnf 5 2\n0 1\nc 0", "refused 20 17"),
    // Words that are no 0.
    (b"p cnf 5 1\n-", "refused 20 10"),
    (b"p cnf 5 2\n0 -", "refused 20 12"),
    (b"p cnf 5 2\n0 - 0", "refused 20 12"),
    (b"p cnf 5 1\n+0", "refused 20 10"),
    (b"p cnf 5 1\n0x", "refused 20 10"),
    (b"p cnf 5 1\n0\x00", "refused 20 10"),
    (b"p cnf 5 1\n0 c", "refused 20 12"),
    (b"p cnf 5 1\n0\n%\n0\n", "refused 20 12"),
    (b"p cnf 0 2\n0 1 0", "refused 20 12"),
    // A 0 before the `p` line or on it.
    (b"0", "refused 20 0"),
    (b"0\np cnf 5 1\n", "refused 20 0"),
    (b"p cnf 5 1 0", "refused 20 10"),
    // 21 counts them, and comes before 22.
    (b"p cnf 1 0\n0", "refused 21 0"),
    (b"p cnf 5 2\n0", "refused 21 0"),
    (b"p cnf 5 1\n0 0 0", "refused 21 0"),
    (b"c\np cnf 5 1\n1 0 0", "refused 21 2"),
    (b"p cnf 6 0\n0", "refused 21 0"),
    (b"p cnf 6 1\n0", "refused 22 0"),
    (b"\np cnf 9 3\n0 9 0 0", "refused 22 1"),
    (b"p cnf 2147483647 1\n0", "refused 22 0"),
];

fn text_cases() -> Vec<Answered> {
    let sample = &sample::bytes();
    TEXTS
        .iter()
        .map(|(text, expected)| case(sample, text, 16, expected))
        .collect()
}

/// A record is 3 bytes, and 2 more for each literal.
fn text_room_cases() -> Vec<Answered> {
    let sample = &sample::bytes();
    let rules = |text: &[u8], room: u16, expected: &str| case(sample, text, room, expected);
    let lone = b"p cnf 5 1\n0";
    let two = b"p cnf 5 2\n0 5 0";
    vec![
        rules(lone, 3, "rules 1 0 : 4 0 0"),
        rules(lone, 2, "refused 12 3 : 77 77"),
        rules(lone, 0, "refused 12 3 :"),
        rules(two, 8, "rules 2 1 : 4 0 0 4 0 2 0 5"),
        rules(two, 7, "refused 12 8 : 77 77 77 77 77 77 77"),
    ]
}

/// With the sample's own 2 clauses and 2 literals. A lone 0 and its line's end are 2
/// bytes, a clause of one literal 4, a `p` line of four digits 13.
fn text_limit_cases() -> Vec<Answered> {
    let sample = &sample::bytes();
    let rules = |text: &[u8], room: u16, expected: &str| case(sample, text, room, expected);
    let lone = |count: usize| clauses_of(&vec![0; count]);
    let behind_ones = clauses_of(&[&[1; 1_022][..], &[0]].concat());
    let commented = [&behind_ones[..4_101], b"c 0\n \t0\n"].concat();
    let counted_wrong = [b"p cnf 5 1022\n", &lone(1_023)[13..]].concat();
    let then_one = clauses_of(&[&[0; 1_022][..], &[1]].concat());
    let bad_word = [&lone(1_023)[..], b"-"].concat();
    vec![
        rules(&lone(1_022), 3_066, "rules 1022 0 : 4 0 0 4 0 0 4 0 0"),
        rules(&lone(1_022), 3_065, "refused 12 3066 : 77"),
        rules(&lone(1_023), 3_069, "refused 7 2057 : 77"),
        rules(&lone(1_030), 0, "refused 7 2057 :"),
        rules(&behind_ones, 0, "refused 7 4101 :"),
        rules(&commented, 0, "refused 7 4107 :"),
        rules(&then_one, 0, "refused 7 2057 :"),
        rules(&counted_wrong, 0, "refused 21 0 :"),
        rules(&bad_word, 0, "refused 20 2059 :"),
        rules(&clauses_of(&[4_094, 0]), 0, "refused 12 8194 :"),
        rules(&clauses_of(&[0, 4_094, 0]), 0, "refused 12 8197 :"),
        rules(&clauses_of(&[4_094, 0, 1]), 0, "refused 7 8202 :"),
        rules(&clauses_of(&[0, 4_095]), 0, "refused 7 12 :"),
    ]
}

/// Files with empty clauses of their own, which leave no room or room for one.
fn full_file_cases() -> Vec<Answered> {
    let full = &with_clauses(5, &[EMPTY; 1_024]);
    let nearly = &with_clauses(5, &[EMPTY; 1_023]);
    let long = &with_clauses(5, &[&[1; 4_096], &[]]);
    let rules = |file: &[u8], text: &[u8], expected: &str| case(file, text, 5, expected);
    vec![
        rules(full, b"p cnf 5 0", "rules 0 0 : 77"),
        rules(full, b"p cnf 5 1\n0", "refused 7 10 : 77"),
        rules(full, b"p cnf 5 1\n1 0", "refused 7 10 : 77"),
        rules(nearly, b"p cnf 5 1\n0", "rules 1 0 : 4 0 0 77 77"),
        rules(nearly, b"p cnf 5 1\n1 0", "rules 1 1 : 4 0 2 0 1"),
        rules(nearly, b"p cnf 5 2\n0 0", "refused 7 12 : 77"),
        rules(nearly, b"p cnf 5 2\n1 2 0 0", "refused 7 16 : 77"),
        rules(nearly, b"p cnf 5 2\n0\nc 0\n\t00", "refused 7 17 : 77"),
        rules(long, b"p cnf 5 1\n0", "rules 1 0 : 4 0 0 77 77"),
        rules(long, b"p cnf 5 2\n0 1 0", "refused 7 12 : 77"),
    ]
}
