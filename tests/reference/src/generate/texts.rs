//! DIMACS texts for a plan file: good ones in any layout, and damaged ones.

use super::empty;
use super::layout::lay_out;
use super::scattered::literal;
use crate::file::{PlanFile, CLAUSES, LITERALS};
use crate::protocol::MOST_TEXT_BYTES;
use crate::random::Random;

/// The words of a text before it is laid out: `p cnf V C` and the clauses'.
pub type Words = Vec<Vec<u8>>;

/// The places of V and C among the words.
const V: usize = 2;
const C: usize = 3;
const BEHIND_P: usize = 4;

pub fn text(plan: &PlanFile, random: &mut Random) -> Vec<u8> {
    let mut text = match random.below(16) {
        0 => noise(random),
        1 => scribbled(plan, random),
        _ => {
            let mut words = words(plan, random);
            // Two faults show which of them comes first.
            let faults = random.pick(&[0, 0, 1, 1, 1, 2, 2]);
            for _ in 0..faults {
                spoil(&mut words, plan, random);
            }
            lay_out(&words, random)
        }
    };
    if random.chance(5) {
        text.truncate(random.below(text.len() + 1));
    }
    if random.chance(1) {
        text = [long_comment(random), text].concat();
    }
    text.truncate(MOST_TEXT_BYTES);
    text
}

/// Brings what stands behind it to offsets that have no room in 15 or 16 bits.
fn long_comment(random: &mut Random) -> Vec<u8> {
    let length = random.pick(&[32_767, 65_500, MOST_TEXT_BYTES]) - random.below(30);
    let mut comment = vec![b'c'; length];
    comment.push(b'\n');
    comment
}

/// A good text, before a layout is drawn for it.
fn words(plan: &PlanFile, random: &mut Random) -> Words {
    let variables = match random.below(16) {
        0 => 0,
        1..=7 => random.between(1, plan.variables),
        _ => plan.variables,
    };
    // Whether the file's own empty clauses count shows only at a limit.
    let seldom = if plan.has_empty_clause() { 2 } else { 8 };
    let clauses = match random.below(seldom) {
        0 => at_a_limit(plan, variables, random),
        _ => few(variables, random),
    };
    words_of(variables, &clauses)
}

fn words_of(variables: usize, clauses: &[Vec<i16>]) -> Words {
    let mut words = vec![
        "p".into(),
        "cnf".into(),
        variables.to_string(),
        clauses.len().to_string(),
    ];
    for clause in clauses {
        words.extend(clause.iter().map(i16::to_string));
        words.push("0".into());
    }
    words.into_iter().map(String::into_bytes).collect()
}

fn few(variables: usize, random: &mut Random) -> Vec<Vec<i16>> {
    let most = random.pick(&[2, 3, 12]);
    let count = random.between(0, most);
    let mut clauses = (0..count)
        .map(|_| drawn(variables, random.pick(&[1, 2, 2, 3, 5]), random))
        .collect();
    if random.chance(25) {
        empty::put_in(&mut clauses, random);
    }
    clauses
}

/// The highest variable comes more often than the others. Without variables there
/// are no literals, and the clause is empty.
fn drawn(variables: usize, length: usize, random: &mut Random) -> Vec<i16> {
    if variables == 0 {
        return Vec::new();
    }
    let highest = variables as i16;
    (0..length)
        .map(|_| match random.below(8) {
            0 => random.pick(&[highest, -highest]),
            _ => literal(variables, random),
        })
        .collect()
}

/// Clauses that bring the file's own to a limit, one past it, or well past it, so
/// that the first one too many is the last of the text or stands inside it.
fn at_a_limit(plan: &PlanFile, variables: usize, random: &mut Random) -> Vec<Vec<i16>> {
    let furthest = random.pick(&[0, 1, 40]);
    let past = random.between(furthest.min(1), furthest);
    let (mut clauses, mut literals) = (CLAUSES - plan.clauses.len(), LITERALS - plan.literals());
    match random.below(4) {
        0 => {
            clauses += past;
            literals = random.between(clauses.min(literals), literals);
        }
        1 => {
            literals += past;
            clauses = random.between(1, clauses.max(1));
        }
        2 => {
            clauses += past;
            literals += past;
        }
        // Fewer literals than clauses, so that the one too many may be empty.
        _ => {
            clauses += past;
            literals = random.below(clauses.min(literals) + 1);
        }
    }
    lengths(clauses, literals, random)
        .into_iter()
        .map(|length| drawn(variables, length, random))
        .collect()
}

/// The lengths of so many clauses with so many literals in all; some are empty where
/// there are not enough literals for them, and now and then where there are.
fn lengths(clauses: usize, literals: usize, random: &mut Random) -> Vec<usize> {
    let shortest = usize::from(clauses <= literals && random.chance(80));
    let mut lengths = vec![shortest; clauses];
    let mut left = literals - shortest * clauses;
    while left > 0 && clauses > 0 {
        let some = random.between(1, left.min(9));
        lengths[random.below(clauses)] += some;
        left -= some;
    }
    lengths
}

/// Words that are neither numbers nor comments where they stand inside a line.
const NO_NUMBERS: [&[u8]; 21] = [
    b"p",
    b"c",
    b"cnf",
    b"%",
    b"+5",
    b"+0",
    b"-",
    b"--1",
    b"1x",
    b"x1",
    b"-1-",
    b"1.0",
    b"0x1",
    b"1,",
    b"/",
    b":",
    b"\x000",
    b"\x0b",
    b"1\x0c2",
    b"\xc2\xa01",
    b"\xff",
];

/// Numbers at the ends of 32 bits, past them, and such that a sum gone round would be small.
const FAR_NUMBERS: [&[u8]; 18] = [
    b"2147483647",
    b"-2147483647",
    b"2147483648",
    b"-2147483648",
    b"-2147483649",
    b"4294967295",
    b"4294967296",
    b"4294967297",
    b"-4294967295",
    b"65536",
    b"65537",
    b"-65535",
    b"18446744073709551616",
    b"18446744073709551617",
    b"000000000000000000001",
    b"-00000000000000000000",
    b"1111111111111111111111111111111111111111",
    b"-0000000000000000000000000000000000000002147483648",
];

/// One thing wrong with the words, or at an end of what is right.
fn spoil(words: &mut Words, plan: &PlanFile, random: &mut Random) {
    let at = random.between(BEHIND_P.min(words.len()), words.len());
    match random.below(19) {
        0 | 1 => change(words, C, |count| {
            count + random.pick(&[1, -1, 1, -1, 1_000])
        }),
        2 => set(words, C, random.pick(&FAR_NUMBERS)),
        3..=5 => set(words, V, (plan.variables + 1).to_string().as_bytes()),
        6 => set(words, V, random.pick(&FAR_NUMBERS)),
        7 => change(words, V, |variables| variables - 1),
        8 | 9 => set(words, at, &one_above(words, random)),
        10 => set(words, at, random.pick(&NO_NUMBERS)),
        11 => set(words, random.below(BEHIND_P), random.pick(&NO_NUMBERS)),
        12 => set(words, at, random.pick(&FAR_NUMBERS)),
        13 => {
            words.pop();
        }
        14 if at < words.len() => {
            words.remove(at);
        }
        // One clause more than the `p` line says.
        15 => words.insert(at, b"0".to_vec()),
        16 => leave_unended(words, random),
        17 => set(words, zero(words, random), b"-"),
        _ => words.insert(
            random.below(words.len() + 1),
            random.pick(&NO_NUMBERS).to_vec(),
        ),
    }
}

/// A lone 0, and a clause without one behind it, which the `p` line counts or not.
fn leave_unended(words: &mut Words, random: &mut Random) {
    let literal = number_at(words, V).unwrap_or(0).max(1);
    let last = random.pick(&[literal, -literal]).to_string();
    words.extend([b"0".to_vec(), last.into_bytes()]);
    change(words, C, |count| count + random.pick(&[1, 2]));
}

/// The place of some clause's 0, or the one behind the words.
fn zero(words: &Words, random: &mut Random) -> usize {
    let zeros: Vec<usize> = (BEHIND_P..words.len())
        .filter(|&place| words[place] == b"0")
        .collect();
    match zeros.is_empty() {
        true => words.len(),
        false => random.pick(&zeros),
    }
}

fn set(words: &mut Words, place: usize, word: &[u8]) {
    if let Some(there) = words.get_mut(place) {
        *there = word.to_vec();
    }
}

/// Changes a number of the `p` line, unless it was spoiled before.
fn change(words: &mut Words, place: usize, to: impl FnOnce(i64) -> i64) {
    if let Some(number) = number_at(words, place) {
        set(words, place, to(number).to_string().as_bytes());
    }
}

fn number_at(words: &Words, place: usize) -> Option<i64> {
    let word = std::str::from_utf8(words.get(place)?).ok()?;
    word.parse().ok()
}

/// A literal one above the `p` line's V.
fn one_above(words: &Words, random: &mut Random) -> Vec<u8> {
    let above = number_at(words, V).unwrap_or(0) + 1;
    random.pick(&[above, -above]).to_string().into_bytes()
}

fn of_alphabet(alphabet: &[u8], most: usize, random: &mut Random) -> Vec<u8> {
    let length = random.below(most + 1);
    (0..length).map(|_| random.pick(alphabet)).collect()
}

fn noise(random: &mut Random) -> Vec<u8> {
    let every: Vec<u8> = (0..=255).collect();
    match random.below(3) {
        0 => of_alphabet(&every, 30, random),
        1 => of_alphabet(b"ppccnf 012-\n\n\r\t%", 30, random),
        _ => of_alphabet(b"\n\n\r\t  cc1 0", 12, random),
    }
}

/// A `p` line, and then digits, signs, blanks and comments as they come.
fn scribbled(plan: &PlanFile, random: &mut Random) -> Vec<u8> {
    let count = random.below(4);
    let mut text = format!("p cnf {} {count}\n", plan.variables).into_bytes();
    text.extend(of_alphabet(b"1122  0 0 0-\n\n\tc", 20, random));
    text.extend(random.pick(&[&b""[..], b" 0", b"\n0\n", b"\n1 0"]));
    text
}
