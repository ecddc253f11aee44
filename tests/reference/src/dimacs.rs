//! Request C-11: house rules read from DIMACS text, and the written-out clauses
//! printed as such a text. A clause may be empty (request C-12): a lone 0.

use crate::clauses;
use crate::file::{refuse, PlanFile, Refusal, CLAUSES, LITERALS, RECORD_HEAD};
use crate::write;
use std::iter;

/// What a text says: its `p` line, and the clauses behind it.
#[derive(Clone, Debug, PartialEq, Eq)]
pub struct Rules {
    /// The offset of the word `p`.
    pub p: usize,
    pub variables: usize,
    /// How many clauses the `p` line promises.
    pub count: usize,
    pub clauses: Vec<Clause>,
}

#[derive(Clone, Debug, PartialEq, Eq)]
pub struct Clause {
    /// The offset of the clause's first word, which is its 0 where it is empty.
    pub offset: usize,
    pub literals: Vec<i32>,
}

#[derive(Clone, Copy, Debug)]
struct Word<'a> {
    offset: usize,
    line: usize,
    bytes: &'a [u8],
}

/// The words of a text in order. A comment's are none of them, wherever it stands.
fn words(text: &[u8]) -> Vec<Word<'_>> {
    let mut words = Vec::new();
    let mut start = 0;
    for (number, line) in text.split(|&byte| byte == b'\n').enumerate() {
        let of_line = words_of_line(line, number, start);
        let comment = of_line.first().is_some_and(|word| word.bytes[0] == b'c');
        if !comment {
            words.extend(of_line);
        }
        start += line.len() + 1;
    }
    words
}

fn words_of_line(line: &[u8], number: usize, start: usize) -> Vec<Word<'_>> {
    let mut words = Vec::new();
    let mut offset = start;
    for bytes in line.split(|byte| b" \t\r".contains(byte)) {
        if !bytes.is_empty() {
            words.push(Word {
                offset,
                line: number,
                bytes,
            });
        }
        offset += bytes.len() + 1;
    }
    words
}

/// An optional `-` and one or more digits, within 32 bits.
fn number(word: &[u8]) -> Option<i32> {
    let (sign, digits) = match word {
        [b'-', digits @ ..] => (-1, digits),
        digits => (1, digits),
    };
    if digits.is_empty() || !digits.iter().all(u8::is_ascii_digit) {
        return None;
    }
    let value = digits.iter().try_fold(0, |value: i64, digit| {
        let value = 10 * value + i64::from(digit - b'0');
        // Zeros may lead without end, so it is the value that must not run away.
        (value <= 1 << 31).then_some(value)
    })?;
    i32::try_from(sign * value).ok()
}

/// A bad word, as its number among the words; the number behind the last word
/// stands for the text's end.
type Bad = usize;

/// Refusal 20, at the first bad word or at the text's end.
pub fn parse(text: &[u8]) -> Result<Rules, Refusal> {
    let words = words(text);
    let refused = |bad: Bad| Refusal {
        number: 20,
        value: words.get(bad).map_or(text.len(), |word| word.offset),
    };
    let (variables, count) = p_line(&words).map_err(refused)?;
    Ok(Rules {
        p: words[0].offset,
        variables,
        count,
        clauses: clauses_behind(&words, variables).map_err(refused)?,
    })
}

const P_WORDS: usize = 4;

/// Variables and clauses of `p cnf V C`. Where a word is missing on the line, the
/// text's next word stands at its place among the words, or nothing does.
fn p_line(words: &[Word]) -> Result<(usize, usize), Bad> {
    let on_line = |k: usize| words.get(k).filter(|word| word.line == words[0].line);
    let literally = |k: usize, wanted: &[u8]| {
        let there = on_line(k).filter(|word| word.bytes == wanted);
        there.map(|_| ()).ok_or(k)
    };
    let count = |k: usize| {
        let value = on_line(k).and_then(|word| number(word.bytes));
        value.and_then(|value| usize::try_from(value).ok()).ok_or(k)
    };
    literally(0, b"p")?;
    literally(1, b"cnf")?;
    let counts = (count(2)?, count(3)?);
    match on_line(P_WORDS) {
        None => Ok(counts),
        Some(_) => Err(P_WORDS),
    }
}

fn clauses_behind(words: &[Word], variables: usize) -> Result<Vec<Clause>, Bad> {
    let mut clauses = Vec::new();
    let mut literals: Vec<i32> = Vec::new();
    for (k, word) in words.iter().enumerate().skip(P_WORDS) {
        match number(word.bytes) {
            Some(0) => clauses.push(Clause {
                offset: words[k - literals.len()].offset,
                literals: std::mem::take(&mut literals),
            }),
            Some(literal) if literal.unsigned_abs() as usize <= variables => {
                literals.push(literal);
            }
            _ => return Err(k),
        }
    }
    if literals.is_empty() {
        Ok(clauses)
    } else {
        Err(words.len())
    }
}

/// The text's clauses for a plan file: refusal 20, then 21, 22 and 7.
pub fn read(plan: &PlanFile, text: &[u8]) -> Result<Vec<Vec<i16>>, Refusal> {
    let rules = parse(text)?;
    if rules.clauses.len() != rules.count {
        return refuse(21, rules.p);
    }
    if rules.variables > plan.variables {
        return refuse(22, rules.p);
    }
    let mut clauses = plan.clauses.len();
    let mut literals = plan.literals();
    for clause in &rules.clauses {
        clauses += 1;
        literals += clause.literals.len();
        if clauses > CLAUSES || literals > LITERALS {
            return refuse(7, clause.offset);
        }
    }
    // No literal is above the plan's variable count now, so each fits 16 bits.
    let narrow = |clause: &Clause| {
        clause
            .literals
            .iter()
            .map(|&literal| literal as i16)
            .collect()
    };
    Ok(rules.clauses.iter().map(narrow).collect())
}

pub fn records(clauses: &[Vec<i16>]) -> Vec<u8> {
    clauses
        .iter()
        .flat_map(|literals| write::clause(literals))
        .collect()
}

/// The bytes of so many records with so many literals in all.
pub fn record_bytes(clauses: usize, literals: usize) -> usize {
    RECORD_HEAD * clauses + 2 * literals
}

/// The written-out list as a text, each atom's block behind a comment.
pub fn print(plan: &PlanFile) -> String {
    let written = clauses::write(plan);
    let head = format!("p cnf {} {}\n", written.variables, written.clauses);
    let before = iter::once(head).chain((1..).map(|number| format!("c atom {number}\n")));
    let mut text = String::new();
    for (line, part) in before.zip(written.parts()) {
        text += &line;
        text += &clauses::lines(part);
    }
    text
}
