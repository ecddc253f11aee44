//! Damaged files: a good file with one to three things done to it.

use super::{delays, lengths, metro, scattered};
use crate::file::{ATOM, CLAUSE, EDGE, LONG_EDGE};
use crate::random::Random;
use crate::write;

pub fn damaged(random: &mut Random) -> Vec<u8> {
    let plan = match random.below(8) {
        0 => metro::metro(random),
        1 => scattered::medium(random),
        2 => scattered::shared(random),
        _ => scattered::small(random),
    };
    let mut records = write::mixed_records(&plan, random);
    if random.chance(50) {
        let times = random.between(1, 2);
        for _ in 0..times {
            damage_records(&mut records, random);
        }
        return records.concat();
    }
    let mut bytes = records.concat();
    let times = random.between(1, 3);
    for _ in 0..times {
        damage_bytes(&mut bytes, random);
    }
    bytes
}

/// A file with lengths, something done to them, and at times something else too.
pub fn with_lengths(random: &mut Random) -> Vec<u8> {
    let plan = match random.below(3) {
        0 => delays::delays(random),
        _ => {
            let mut plan = scattered::small(random);
            lengths::put_in(&mut plan, random);
            plan
        }
    };
    let mut records = write::mixed_records(&plan, random);
    let times = random.between(1, 2);
    for _ in 0..times {
        damage_lengths(&mut records, random);
    }
    if random.chance(25) {
        damage_records(&mut records, random);
    }
    records.concat()
}

/// Damage to a record of tag 6, or to an atom's kind and bound.
fn damage_lengths(records: &mut [Vec<u8>], random: &mut Random) {
    let edges = of_tag(records, LONG_EDGE, 11);
    let atoms = of_tag(records, ATOM, 12);
    if !edges.is_empty() && random.chance(70) {
        damage_long_edge(records, random.pick(&edges), random);
    } else if !atoms.is_empty() {
        let atom = &mut records[random.pick(&atoms)];
        match random.below(3) {
            0 => atom[3] = random.pick(&[0, 1, 2, 3, 4, 255]),
            // A bound that only kind 3 may have, or no longer.
            1 => set_field(atom, 8, random.pick(&[0, 1, 255, 256, 65_535])),
            _ => {
                atom[3] = random.pick(&[1, 2, 3]);
                set_field(atom, 8, random.pick(&[0, 255, 256, 65_535]));
            }
        }
    }
}

/// The fields of a record of tag 6 stand at 3, 5, 7 and 9.
fn damage_long_edge(records: &mut [Vec<u8>], at: usize, random: &mut Random) {
    let variable_of_an_atom = of_tag(records, ATOM, 12)
        .first()
        .map(|&atom| [records[atom][10], records[atom][11]]);
    let edge = &mut records[at];
    match random.below(12) {
        0 | 1 => set_field(edge, 9, 0),
        2 => set_field(edge, 9, random.pick(&[1, 255, 256, 65_535])),
        // Another length of the value, which goes with it or not.
        3..=5 => {
            let length: u16 = random.pick(&[6, 7, 9, 10]);
            edge[1..3].copy_from_slice(&length.to_be_bytes());
            if random.chance(70) {
                edge.resize(3 + usize::from(length), 0);
            }
        }
        6 => edge[0] = random.pick(&[EDGE, EDGE, 5, 7]),
        // What tag 2 would be.
        7 => {
            edge[..3].copy_from_slice(&[EDGE, 0, 6]);
            edge.truncate(9);
        }
        8 => set_field(edge, 7, random.pick(&[0, 512, 513])),
        9 => set_field(edge, random.pick(&[3, 5]), random.pick(&[63, 64, 256])),
        _ => {
            if let Some(variable) = variable_of_an_atom {
                edge[7..9].copy_from_slice(&variable);
            }
        }
    }
}

fn set_field(record: &mut [u8], place: usize, field: u16) {
    if let Some(there) = record.get_mut(place..place + 2) {
        there.copy_from_slice(&field.to_be_bytes());
    }
}

/// Damage that knows where the bytes of a file stand, but not what they mean.
fn damage_bytes(bytes: &mut Vec<u8>, random: &mut Random) {
    let any = random.number() as u8;
    match random.below(6) {
        0 => bytes.truncate(random.below(bytes.len() + 1)),
        1 => {
            let behind = random.between(1, 4);
            bytes.extend((0..behind).map(|_| random.pick(&[0, 1, 4, 5, 255])));
        }
        2 => bytes.insert(random.below(bytes.len() + 1), any),
        _ if bytes.is_empty() => (),
        3 => {
            let place = random.below(bytes.len());
            bytes[place] ^= 1 << random.below(8);
        }
        4 => {
            let place = random.below(bytes.len());
            bytes[place] = any;
        }
        _ => {
            bytes.remove(random.below(bytes.len()));
        }
    }
}

/// Damage that knows the records: tags, lengths, fields, order.
fn damage_records(records: &mut Vec<Vec<u8>>, random: &mut Random) {
    if records.is_empty() {
        return;
    }
    let at = random.below(records.len());
    match random.below(13) {
        0 => records[at][0] = random.pick(&[0, 1, 2, 3, 4, 5, 6, 7, 128, 255]),
        1 => {
            let off_by = random.pick(&[1, 2, 255, 254]);
            records[at][2] = records[at][2].wrapping_add(off_by);
        }
        2 if records[at].len() > 3 => {
            records[at][2] = records[at][2].wrapping_sub(1);
            records[at].pop();
        }
        3 => {
            records[at][2] = records[at][2].wrapping_add(1);
            records[at].push(random.pick(&[0, 1, 255]));
        }
        4 => {
            records.remove(at);
        }
        5 => {
            let again = records[at].clone();
            records.insert(random.below(records.len() + 1), again);
        }
        6 => {
            let other = random.below(records.len());
            records.swap(at, other);
        }
        7 | 8 => share_variable(records, random),
        9 | 10 => resize_clause(records, random),
        _ => damage_field(&mut records[at], random),
    }
}

/// The places of a tag's records that have so many bytes or more.
fn of_tag(records: &[Vec<u8>], tag: u8, least: usize) -> Vec<usize> {
    (0..records.len())
        .filter(|&k| records[k][0] == tag && records[k].len() >= least)
        .collect()
}

/// Makes a clause empty, which is no damage, or gives it an odd length. Where its
/// value stays as it was, its bytes stand where the next record should.
fn resize_clause(records: &mut [Vec<u8>], random: &mut Random) {
    let clauses = of_tag(records, CLAUSE, 3);
    if clauses.is_empty() {
        return;
    }
    let clause = &mut records[random.pick(&clauses)];
    let length: u16 = random.pick(&[0, 0, 1, 1, 3, 5, 257]);
    clause[1..3].copy_from_slice(&length.to_be_bytes());
    if random.chance(60) {
        clause.resize(3 + usize::from(length), 0);
    }
}

/// Gives an atom an edge's variable or an edge an atom's, where there are both.
fn share_variable(records: &mut [Vec<u8>], random: &mut Random) {
    let (edges, atoms) = (of_tag(records, EDGE, 6), of_tag(records, ATOM, 6));
    if edges.is_empty() || atoms.is_empty() {
        return;
    }
    let (edge, atom) = (random.pick(&edges), random.pick(&atoms));
    let (giver, taker) = random.pick(&[(edge, atom), (atom, edge)]);
    let variable = records[giver].split_off(records[giver].len() - 2);
    records[giver].extend(&variable);
    let place = records[taker].len() - 2;
    records[taker][place..].copy_from_slice(&variable);
}

/// Sets a two-byte field of a value to something at or past the end of a range.
fn damage_field(record: &mut [u8], random: &mut Random) {
    let value = record.len().saturating_sub(3);
    if value < 2 {
        return;
    }
    // An atom's fields stand behind its kind, which is one byte.
    let start = 3 + value % 2;
    if value % 2 == 1 && random.chance(30) {
        record[3] = random.pick(&[0, 1, 2, 3, 255]);
        return;
    }
    let place = start + 2 * random.below(value / 2);
    let ends = [
        0, 1, 63, 64, 255, 256, 512, 513, 32_767, 32_768, 65_535, 65_023,
    ];
    let field: u16 = random.pick(&ends);
    record[place..place + 2].copy_from_slice(&field.to_be_bytes());
}
