//! Reading rules by another road: comments are painted over with blanks, every
//! fault of the text is noted with its place, then the first place is picked.

use crate::file::Refusal;
use std::ops::Range;

/// The plan's variables, clauses and literals.
pub type Given = [usize; 3];

/// Blanks in place of every comment, so that all else stays where it is.
fn without_comments(text: &[u8]) -> Vec<u8> {
    let mut left = text.to_vec();
    for line in left.split_mut(|&byte| byte == b'\n') {
        let first = line.iter().find(|byte| !is_blank(**byte));
        if first == Some(&b'c') {
            line.fill(b' ');
        }
    }
    left
}

fn is_blank(byte: u8) -> bool {
    matches!(byte, 9 | 10 | 13 | 32)
}

/// Where each word of some bytes begins and ends.
fn spans(bytes: &[u8]) -> Vec<Range<usize>> {
    let blank = |place: usize| bytes.get(place).is_none_or(|&byte| is_blank(byte));
    let begins = (0..bytes.len()).filter(|&k| !blank(k) && (k == 0 || blank(k - 1)));
    let ends = (0..bytes.len()).filter(|&k| !blank(k) && blank(k + 1));
    begins
        .zip(ends)
        .map(|(begin, end)| begin..end + 1)
        .collect()
}

/// Rust's own reading of numbers takes a `+` as well; forty digits are too many for it.
fn number(word: &[u8]) -> Option<i32> {
    let text = std::str::from_utf8(word).ok()?;
    let value: i128 = text.parse().ok().filter(|_| !text.starts_with('+'))?;
    i32::try_from(value).ok()
}

/// A text cut up: words with their places, and how many stand on the first one's line.
struct Cut {
    spans: Vec<Range<usize>>,
    numbers: Vec<Option<i32>>,
    on_first_line: usize,
    length: usize,
}

impl Cut {
    fn of(text: &[u8]) -> Cut {
        let left = without_comments(text);
        let spans = spans(&left);
        let first = spans.first().map_or(0, |span| span.start);
        let line = left[first..].iter().position(|&byte| byte == b'\n');
        let line_end = line.map_or(left.len(), |length| first + length);
        Cut {
            numbers: spans
                .iter()
                .map(|span| number(&left[span.clone()]))
                .collect(),
            on_first_line: spans.iter().filter(|span| span.end <= line_end).count(),
            length: text.len(),
            spans,
        }
    }

    /// The place of a word, or the text's end.
    fn place(&self, word: usize) -> usize {
        self.spans.get(word).map_or(self.length, |span| span.start)
    }

    /// The two counts of the first line, where they are such.
    fn count(&self, word: usize) -> Option<usize> {
        let value = self.numbers.get(word).copied().flatten()?;
        usize::try_from(value).ok()
    }

    fn faults_of_the_first_line(&self, text: &[u8]) -> Vec<usize> {
        let is = |word: usize, wanted: &[u8]| {
            let span = self.spans.get(word).cloned();
            span.is_some_and(|span| &text[span] == wanted)
        };
        let good = [
            is(0, b"p"),
            is(1, b"cnf"),
            self.count(2).is_some(),
            self.count(3).is_some(),
        ];
        let mut faults: Vec<usize> = (0..4).filter(|&word| !good[word]).collect();
        if self.on_first_line != 4 {
            faults.push(self.on_first_line.min(4));
        }
        faults.iter().map(|&word| self.place(word)).collect()
    }

    /// Each clause as the numbers of its words, its 0 among them where there is one.
    fn clauses(&self) -> Vec<Range<usize>> {
        let mut clauses = Vec::new();
        let mut begin = 4;
        while begin < self.spans.len() {
            let zero = (begin..self.spans.len()).find(|&k| self.numbers[k] == Some(0));
            let end = zero.map_or(self.spans.len(), |zero| zero + 1);
            clauses.push(begin..end);
            begin = end;
        }
        clauses
    }

    fn faults_of_a_clause(&self, clause: &Range<usize>, variables: usize) -> Vec<usize> {
        let too_large = |k: &usize| {
            self.numbers[*k].is_none_or(|number| number.unsigned_abs() as usize > variables)
        };
        let mut faults: Vec<usize> = clause.clone().filter(too_large).collect();
        if self.numbers[clause.end - 1] != Some(0) {
            faults.push(clause.end);
        }
        faults.iter().map(|&word| self.place(word)).collect()
    }
}

pub fn read(given: Given, text: &[u8]) -> Result<Vec<Vec<i32>>, Refusal> {
    let cut = Cut::of(text);
    let mut faults = cut.faults_of_the_first_line(text);
    if faults.is_empty() {
        let variables = cut.count(2).unwrap_or(0);
        for clause in cut.clauses() {
            faults.extend(cut.faults_of_a_clause(&clause, variables));
        }
    }
    if let Some(&value) = faults.iter().min() {
        return Err(Refusal { number: 20, value });
    }
    match wrong_sum(given, &cut) {
        Some((number, value)) => Err(Refusal { number, value }),
        None => Ok(literals(&cut)),
    }
}

/// 21, 22 and 7, for a text in which every word is good.
fn wrong_sum([variables, clauses, literals]: Given, cut: &Cut) -> Option<(u32, usize)> {
    let rules = cut.clauses();
    if cut.count(3) != Some(rules.len()) {
        return Some((21, cut.place(0)));
    }
    if cut.count(2) > Some(variables) {
        return Some((22, cut.place(0)));
    }
    let too_many = |k: &usize| {
        // All words up to this clause's 0, less one 0 for each clause, less the first line.
        let more = rules[*k].end - 4 - (k + 1);
        clauses + k + 1 > 1_024 || literals + more > 4_096
    };
    let first = (0..rules.len()).find(too_many)?;
    Some((7, cut.place(rules[first].start)))
}

fn literals(cut: &Cut) -> Vec<Vec<i32>> {
    let of = |clause: Range<usize>| cut.numbers[clause.start..clause.end - 1].to_vec();
    cut.clauses()
        .into_iter()
        .map(|clause| of(clause).into_iter().flatten().collect())
        .collect()
}
