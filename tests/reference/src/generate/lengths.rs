//! Lengths (request C-13) in drawn files: records of tag 6 in place of tag 2, and
//! atoms of kind 3 in place of the others. Only a part of the files has any.

use crate::file::{Kind, PlanFile, LENGTH};
use crate::meaning::{distances_over, Edges, Measure};
use crate::random::Random;

/// What the lengths of a file are like.
#[derive(Clone, Copy)]
enum Style {
    /// As long as tag 2 says.
    Ones,
    /// Many sums are equal.
    Few,
    Microseconds,
    Any,
    /// Two of them are too long for 16 bits.
    Longest,
}

fn style(random: &mut Random) -> Style {
    match random.below(12) {
        0 => Style::Ones,
        1..=4 => Style::Few,
        5..=8 => Style::Microseconds,
        9 => Style::Any,
        _ => Style::Longest,
    }
}

fn length(style: Style, random: &mut Random) -> usize {
    match style {
        Style::Ones => 1,
        Style::Few => random.between(1, 4),
        Style::Microseconds => random.between(5, 900),
        Style::Any => random.between(1, LENGTH),
        Style::Longest => random.pick(&[1, 2, LENGTH / 2, LENGTH - 1, LENGTH, LENGTH]),
    }
}

/// Lengths for all edges or for some, and kind 3 for all atoms, some or none.
pub fn put_in(plan: &mut PlanFile, random: &mut Random) {
    if random.chance(95) {
        put_into_edges(plan, random);
    }
    if random.chance(65) {
        put_into_atoms(plan, random);
    }
}

/// The two tags mixed, or tag 6 alone.
pub fn put_into_edges(plan: &mut PlanFile, random: &mut Random) {
    let style = style(random);
    let percent = random.pick(&[100, 100, 50, 20]);
    for edge in &mut plan.edges {
        if random.chance(percent) {
            edge.stated_length = Some(length(style, random));
        }
    }
}

fn put_into_atoms(plan: &mut PlanFile, random: &mut Random) {
    let percent = random.pick(&[100, 60, 30]);
    for k in 0..plan.atoms.len() {
        if random.chance(percent) {
            let (from, to) = (plan.atoms[k].from, plan.atoms[k].to);
            plan.atoms[k].kind = kind(plan, from, to, random);
        }
    }
}

/// "Length at most", with a bound that matters: mostly a sum that there is, one less
/// or one more; now and then an end of the range.
pub fn kind(plan: &PlanFile, from: usize, to: usize, random: &mut Random) -> Kind {
    let any = random.between(0, LENGTH);
    let sum = some_sum(plan, from, to, random).unwrap_or(any);
    let bound = match random.below(12) {
        0..=4 => sum,
        5..=7 => sum.saturating_sub(1),
        8 => sum + 1,
        // What would be left of a sum in 16 bits.
        9 => sum & LENGTH,
        10 => random.pick(&[0, 1, 255, 256, LENGTH - 1, LENGTH]),
        _ => any,
    };
    Kind::LengthAtMost(bound.min(LENGTH))
}

/// The smallest sum over all edges, or over some of them.
fn some_sum(plan: &PlanFile, from: usize, to: usize, random: &mut Random) -> Option<usize> {
    let percent = random.pick(&[100, 80, 60]);
    let dark: Vec<bool> = (0..=plan.variables)
        .map(|_| !random.chance(percent))
        .collect();
    let lit: Edges = plan
        .edges
        .iter()
        .filter(|edge| !dark[edge.variable])
        .copied()
        .collect();
    distances_over(Measure::Lengths, plan.nodes, &lit, from)[to]
}
