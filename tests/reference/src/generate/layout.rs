//! Laying the words of a DIMACS text out: blanks, lines, comments, spelling.

use super::texts::Words;
use crate::random::Random;

/// Where lines end behind the `p` line.
#[derive(Clone, Copy)]
enum Lines {
    /// Behind each 0, as solvers like it.
    Clauses,
    Words,
    Anywhere,
    /// Only behind the `p` line.
    None,
}

struct Style {
    lines: Lines,
    line_end: &'static [u8],
    blanks: &'static [&'static [u8]],
    /// In percent: a comment or empty line behind a line's end, zeros before a number.
    comments: usize,
    zeros: usize,
}

const COMMENTS: [&[u8]; 14] = [
    b"c",
    b"c house rules",
    b"cnf 3 2",
    b"comment 1 2 0",
    b"c p cnf 1 1",
    b"c 0",
    b"  c indented",
    b"\tc 1 -2 0",
    b"\r c behind a CR",
    b"c\r1 0",
    b"c%\x00\xff\x0b",
    b"",
    b" \t",
    b"\r",
];

impl Style {
    fn draw(words: usize, random: &mut Random) -> Style {
        let blanks: [&[&[u8]]; 3] = [
            &[b" "],
            &[b"\t"],
            &[b" ", b" ", b"  ", b"\t", b" \r", b"\t "],
        ];
        let plain = random.chance(20);
        Style {
            lines: match random.below(8) {
                0 => Lines::Words,
                1 => Lines::None,
                2 | 3 => Lines::Anywhere,
                _ => Lines::Clauses,
            },
            line_end: random.pick(&[b"\n", b"\n", b"\r\n", b" \n"]),
            blanks: if plain { &[b" "] } else { random.pick(&blanks) },
            comments: if plain {
                0
            } else {
                rarer(words, random.pick(&[5, 20, 40]))
            },
            zeros: if plain {
                0
            } else {
                rarer(words, random.pick(&[0, 0, 10]))
            },
        }
    }

    /// Whether a line ends behind word number `k`.
    fn ends_line(&self, k: usize, word: &[u8], random: &mut Random) -> bool {
        match (k, self.lines) {
            // A `p` line that is broken, or that goes on, is a fault: seldom drawn.
            (0..=2, _) => random.chance(1),
            (3, _) => !random.chance(2),
            (_, Lines::Clauses) => word == b"0",
            (_, Lines::Words) => true,
            (_, Lines::Anywhere) => random.chance(25),
            (_, Lines::None) => false,
        }
    }

    /// Comments and empty lines, each of which begins where a line does.
    fn between_lines(&self, text: &mut Vec<u8>, random: &mut Random) {
        while random.chance(self.comments) {
            text.extend(random.pick(&COMMENTS));
            text.extend(self.line_end);
        }
    }
}

/// A long text is to stay short enough for a request.
fn rarer(words: usize, percent: usize) -> usize {
    if words > 500 {
        percent / 5
    } else {
        percent
    }
}

pub fn lay_out(words: &Words, random: &mut Random) -> Vec<u8> {
    let style = Style::draw(words.len(), random);
    let mut text = Vec::new();
    style.between_lines(&mut text, random);
    for (k, word) in words.iter().enumerate() {
        if random.chance(style.zeros) {
            text.extend(with_zeros(word, random));
        } else {
            text.extend(word);
        }
        if k + 1 == words.len() {
            break;
        }
        if style.ends_line(k, word, random) {
            text.extend(style.line_end);
            style.between_lines(&mut text, random);
            text.extend(random.pick(&[&b""[..], b"", b"", b" "]));
        } else {
            text.extend(random.pick(style.blanks));
        }
    }
    end(&style, &mut text, random);
    text
}

/// The last line may end or not, and the last comment too.
fn end(style: &Style, text: &mut Vec<u8>, random: &mut Random) {
    match random.below(6) {
        0 => (),
        1 => text.extend(random.pick(style.blanks)),
        2 => {
            text.extend(style.line_end);
            text.extend(random.pick(&COMMENTS));
        }
        _ => {
            text.extend(style.line_end);
            style.between_lines(text, random);
        }
    }
}

/// The same number spelled longer; other words stay.
fn with_zeros(word: &[u8], random: &mut Random) -> Vec<u8> {
    let zeros = vec![b'0'; random.pick(&[1, 2, 20])];
    match word {
        [b'0'] if random.chance(50) => b"-0".to_vec(),
        [b'-', digits @ ..] => [b"-", &zeros[..], digits].concat(),
        [b'0'..=b'9', ..] => [&zeros[..], word].concat(),
        _ => word.to_vec(),
    }
}
