//! Reading by another road: cut the bytes into records first, note everything
//! that is wrong with each record, then pick the first record's lowest number.

use crate::file::Refusal;

/// Nodes, variables, edges, atoms, clauses, literals.
pub type Counts = [usize; 6];

#[derive(Clone, Copy)]
enum Piece<'a> {
    Record(u8, &'a [u8]),
    /// What is left does not hold a record.
    Broken,
    /// There are bytes behind the first end record.
    Behind,
}

fn pieces(bytes: &[u8]) -> Vec<(usize, Piece<'_>)> {
    let mut pieces = Vec::new();
    let mut offset = 0;
    loop {
        let piece = piece(&bytes[offset..]);
        pieces.push((offset, piece));
        match piece {
            Piece::Record(tag, value) => {
                offset += 3 + value.len();
                if tag == 5 && offset == bytes.len() {
                    return pieces;
                }
                if tag == 5 {
                    pieces.push((offset, Piece::Behind));
                    return pieces;
                }
            }
            _ => return pieces,
        }
    }
}

fn piece(rest: &[u8]) -> Piece<'_> {
    let &[tag, high, low, ref behind @ ..] = rest else {
        return Piece::Broken;
    };
    let length = usize::from(high) * 256 + usize::from(low);
    if behind.len() < length {
        Piece::Broken
    } else {
        Piece::Record(tag, &behind[..length])
    }
}

/// The two-byte numbers of a value, without its kind byte if it has one.
fn numbers(tag: u8, value: &[u8]) -> Vec<usize> {
    let value = if tag == 3 { &value[1..] } else { value };
    value
        .chunks(2)
        .map(|two| usize::from(two[0]) * 256 + usize::from(two[1]))
        .collect()
}

fn length_allowed(tag: u8, length: usize) -> bool {
    match tag {
        1 => length == 4,
        2 => length == 6,
        3 => length == 9,
        6 => length == 8,
        4 => length & 1 == 0,
        5 => length == 0,
        _ => true,
    }
}

/// Whether every field lies in its range, for a record of an allowed length.
fn in_range(tag: u8, value: &[u8], nodes: usize, variables: usize) -> bool {
    let numbers = numbers(tag, value);
    match tag {
        1 => 0 < numbers[0] && numbers[0] <= 64 && 0 < numbers[1] && numbers[1] <= 512,
        2 | 6 => {
            numbers[0] < nodes
                && numbers[1] < nodes
                && 0 < numbers[2]
                && numbers[2] <= variables
                && numbers.get(3) != Some(&0)
        }
        3 => {
            let bounds = [None, Some(0), Some(255), Some(65_535)];
            let bound = bounds.get(usize::from(value[0])).copied().flatten();
            bound.is_some_and(|most| numbers[2] <= most)
                && numbers[0] < nodes
                && numbers[1] < nodes
                && 0 < numbers[3]
                && numbers[3] <= variables
        }
        4 => numbers.iter().all(|&number| {
            let signed = number as i64 - if number >= 32_768 { 65_536 } else { 0 };
            signed != 0 && signed.abs() <= variables as i64
        }),
        _ => true,
    }
}

/// Everything that is wrong with the last of `pieces`, the others being good.
fn wrongs(pieces: &[(usize, Piece)]) -> Vec<u32> {
    let Some(((_, last), before)) = pieces.split_last() else {
        return Vec::new();
    };
    let (tag, value) = match *last {
        Piece::Broken => return vec![2],
        Piece::Behind => return vec![3],
        Piece::Record(tag, value) => (tag, value),
    };
    let mut wrongs = Vec::new();
    if before.is_empty() != (tag == 1) {
        wrongs.push(3);
    }
    if tag == 0 || tag > 6 {
        wrongs.push(4);
    }
    if !length_allowed(tag, value.len()) {
        wrongs.push(5);
    }
    if wrongs.is_empty() {
        wrongs.extend(wrong_contents(tag, value, before));
    }
    wrongs
}

/// 6, 7 and 8, for a record whose tag and length are good.
fn wrong_contents(tag: u8, value: &[u8], before: &[(usize, Piece)]) -> Vec<u32> {
    let of_tags = |wanted: &'static [u8]| {
        before.iter().filter_map(move |(_, piece)| match *piece {
            Piece::Record(tag, value) if wanted.contains(&tag) => Some(numbers(tag, value)),
            _ => None,
        })
    };
    let head = of_tags(&[1]).next().unwrap_or(vec![0, 0]);
    let mut wrongs = Vec::new();
    if !in_range(tag, value, head[0], head[1]) {
        wrongs.push(6);
    }
    let (alike, most): (&[u8], usize) = match tag {
        1 => (&[1], 1),
        2 | 6 => (EDGE_TAGS, 256),
        3 => (&[3], 64),
        4 => (&[4], 1_024),
        _ => (&[5], 1),
    };
    let literals: usize = of_tags(&[4]).map(|literals| literals.len()).sum();
    if of_tags(alike).count() >= most || tag == 4 && literals + value.len() / 2 > 4_096 {
        wrongs.push(7);
    }
    let shares = |other: Vec<usize>, place: usize, mine: usize| other[place] == mine;
    let numbers = numbers(tag, value);
    if EDGE_TAGS.contains(&tag) && of_tags(&[3]).any(|atom| shares(atom, 3, numbers[2]))
        || tag == 3 && of_tags(EDGE_TAGS).any(|edge| shares(edge, 2, numbers[3]))
    {
        wrongs.push(8);
    }
    wrongs
}

/// Edges of both tags count together.
const EDGE_TAGS: &[u8] = &[2, 6];

pub fn read(bytes: &[u8]) -> Result<Counts, Refusal> {
    if bytes.len() >= 16_385 {
        return Err(Refusal {
            number: 1,
            value: 0,
        });
    }
    let pieces = pieces(bytes);
    for count in 1..=pieces.len() {
        let upto = &pieces[..count];
        if let Some(&number) = wrongs(upto).iter().min() {
            return Err(Refusal {
                number,
                value: upto[count - 1].0,
            });
        }
    }
    Ok(counts(&pieces))
}

fn counts(pieces: &[(usize, Piece)]) -> Counts {
    let mut counts = [0; 6];
    for (_, piece) in pieces {
        match *piece {
            Piece::Record(1, value) => {
                counts[0] = numbers(1, value)[0];
                counts[1] = numbers(1, value)[1];
            }
            Piece::Record(4, value) => {
                counts[4] += 1;
                counts[5] += value.len() / 2;
            }
            Piece::Record(2 | 6, _) => counts[2] += 1,
            Piece::Record(3, _) => counts[3] += 1,
            _ => (),
        }
    }
    counts
}
