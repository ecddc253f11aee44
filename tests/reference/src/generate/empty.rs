//! Empty clauses among drawn ones. No assignment satisfies such a clause, so only a
//! part of the files holds any: the others keep their plans and deep searches.

use crate::random::Random;

type Clauses = Vec<Vec<i16>>;

/// Puts some into one file in twelve.
pub fn at_times(clauses: &mut Clauses, random: &mut Random) {
    if random.below(12) == 0 {
        put_in(clauses, random);
    }
}

/// One or several: alone, first, last, in a row or here and there.
pub fn put_in(clauses: &mut Clauses, random: &mut Random) {
    let anywhere = random.below(clauses.len() + 1);
    match random.below(8) {
        0 => *clauses = vec![Vec::new(); random.pick(&[1, 1, 3])],
        1 => put(clauses, 0, 1),
        2 => put(clauses, clauses.len(), 1),
        3 | 4 => put(clauses, anywhere, 1),
        5 => put(clauses, anywhere, random.between(2, 4)),
        _ => scatter(clauses, random.between(2, 4), random),
    }
}

/// So many of them, each at a place of its own drawing.
pub fn scatter(clauses: &mut Clauses, count: usize, random: &mut Random) {
    for _ in 0..count {
        put(clauses, random.below(clauses.len() + 1), 1);
    }
}

fn put(clauses: &mut Clauses, place: usize, count: usize) {
    clauses.splice(place..place, vec![Vec::new(); count]);
}
