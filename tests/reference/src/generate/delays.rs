//! Files made for lengths (request C-13): nets with delays in microseconds, detours
//! that beat short hops, bundles, ties, sums too long for 16 bits, many sources.

use super::lengths::kind;
use super::{empty, metro};
use crate::file::{Kind, PlanFile, ATOMS, LENGTH};
use crate::random::Random;

pub fn delays(random: &mut Random) -> PlanFile {
    let mut plan = match random.below(7) {
        0 | 1 => lake(random),
        2 => bundles(random),
        3 => grid(random),
        4 => far(random),
        5 => metro_net(random),
        _ => many_sources(random),
    };
    empty::at_times(&mut plan.clauses, random);
    if random.chance(50) {
        plan.renumbered(random)
    } else {
        plan
    }
}

/// A way from one node to another over new nodes, its spans as long as `length` draws
/// them; hands back its variables.
fn way(
    plan: &mut PlanFile,
    (from, to): (usize, usize),
    spans: usize,
    random: &mut Random,
    length: impl Fn(&mut Random) -> usize,
) -> Vec<usize> {
    let mut node = from;
    let mut variables = Vec::new();
    for k in 1..=spans {
        let next = if k == spans { to } else { plan.nodes };
        plan.nodes = plan.nodes.max(next + 1);
        let length = length(random);
        variables.push(match random.chance(70) {
            true => plan.long_link(node, next, length),
            false => plan.long_edge(node, next, length),
        });
        node = next;
    }
    variables
}

/// Two hops round the lake outlast four downtown: whoever counts hops goes the wrong
/// way. A third way, of tag 2 alone, is there now and then.
fn lake(random: &mut Random) -> PlanFile {
    let mut plan = PlanFile::with_nodes(2);
    let ends = (0, 1);
    let (few, many) = (random.between(1, 2), random.between(3, 5));
    let mut ways = vec![
        way(&mut plan, ends, few, random, |random| {
            random.between(300, 900)
        }),
        way(&mut plan, ends, many, random, |random| {
            random.between(10, 90)
        }),
    ];
    if random.chance(30) {
        let middle = plan.nodes;
        plan.nodes += 1;
        ways.push(vec![plan.link(0, middle), plan.edge(middle, 1)]);
    }
    random.shuffle(&mut ways);
    ask(&mut plan, &[0], random.between(1, 4), random);
    if random.chance(60) {
        let spans: Vec<usize> = ways.iter().map(|way| random.pick(way)).collect();
        plan.not_all(&spans);
    }
    plan
}

/// Between neighbours of a row several fibres of several lengths, some alike, of both
/// tags, and some of them back.
fn bundles(random: &mut Random) -> PlanFile {
    let mut plan = PlanFile::with_nodes(random.between(2, 4));
    let lengths = [1, 2, 10, 10, 20, 30, 300];
    for k in 1..plan.nodes {
        let fibres = random.between(2, 4);
        let mut bundle = Vec::new();
        for _ in 0..fibres {
            let (from, to) = random.pick(&[(k - 1, k), (k - 1, k), (k - 1, k), (k, k - 1)]);
            bundle.push(match random.chance(25) {
                true => plan.edge(from, to),
                false => plan.long_edge(from, to, random.pick(&lengths)),
            });
        }
        // Here and there two fibres are lit by one switch.
        if random.chance(30) {
            let (from, to) = (k - 1, k);
            plan.long_edge_of(from, to, bundle[0], random.pick(&lengths));
        }
        if random.chance(60) {
            plan.at_most(random.between(1, 2), &bundle);
        }
    }
    ask(&mut plan, &[0], random.between(1, 4), random);
    plan
}

/// Streets between blocks, of length 1 and 2: many shortest paths of the same sum, with
/// different hops.
fn grid(random: &mut Random) -> PlanFile {
    let (across, down) = (random.between(2, 4), random.between(2, 3));
    let mut plan = PlanFile::with_nodes(across * down);
    for node in 0..plan.nodes {
        let right = (node % across + 1 < across).then_some(node + 1);
        let below = (node + across < plan.nodes).then_some(node + across);
        let corner = right.and(below).map(|below| below + 1);
        for next in [right, below, corner].into_iter().flatten() {
            match random.below(4) {
                0 => plan.edge(node, next),
                1 => plan.long_edge(node, next, 1),
                _ => plan.long_edge(node, next, 2),
            };
        }
    }
    // Among equal ones the smallest number decides, which the order on the map is not.
    random.shuffle(&mut plan.edges);
    ask(&mut plan, &[0], random.between(1, 4), random);
    plan
}

/// A row whose sums are too long for 16 bits, and whose remainders are short. The
/// bounds are near either.
fn far(random: &mut Random) -> PlanFile {
    let mut plan = PlanFile::with_nodes(random.between(3, 8));
    for k in 1..plan.nodes {
        let length = random.pick(&[LENGTH, LENGTH, LENGTH - 1, LENGTH / 2 + 1, 2, 1]);
        plan.long_edge(k - 1, k, length);
        if random.chance(30) {
            plan.long_edge(k - 1, k, random.pick(&[LENGTH, 40_000]));
        }
    }
    ask(&mut plan, &[0], random.between(1, 5), random);
    plan
}

/// A metro file of the other sort, with delays in microseconds in place of most hops.
fn metro_net(random: &mut Random) -> PlanFile {
    let mut plan = metro::metro(random);
    for variable in 1..=plan.variables {
        let length = random.between(20, 600);
        let both_ways = plan.edges.iter_mut();
        for edge in both_ways.filter(|edge| edge.variable == variable) {
            edge.stated_length = Some(length);
        }
    }
    for k in 0..plan.atoms.len() {
        if random.chance(70) {
            let (from, to) = (plan.atoms[k].from, plan.atoms[k].to);
            plan.atoms[k].kind = kind(&plan, from, to, random);
        }
    }
    plan
}

/// A mesh with one source of many atoms, or with many sources in turns, their kinds
/// mixed over the same nodes.
fn many_sources(random: &mut Random) -> PlanFile {
    let mut plan = PlanFile::with_nodes(random.between(4, 9));
    let links = random.between(plan.nodes, 14);
    for _ in 0..links {
        let (a, b) = (random.below(plan.nodes), random.below(plan.nodes));
        match random.below(4) {
            0 => plan.link(a, b),
            1 => plan.long_edge(a, b, random.between(1, 60)),
            _ => plan.long_link(a, b, random.between(1, 60)),
        };
    }
    let sources: Vec<usize> = match random.chance(40) {
        true => vec![random.below(plan.nodes)],
        false => (0..plan.nodes).collect(),
    };
    ask(&mut plan, &sources, random.between(4, 16), random);
    plan
}

/// So many atoms, mostly of kind 3, the sources taking turns. A part of them is wanted
/// or forbidden, so that the search has something to look for.
fn ask(plan: &mut PlanFile, sources: &[usize], count: usize, random: &mut Random) {
    let fixed = random.pick(&[20, 50, 80]);
    for k in 0..count.min(ATOMS) {
        let from = sources[k % sources.len()];
        // The far end of what was built is the most telling.
        let to = match random.chance(40) {
            true => plan.nodes.min(from + 2) - 1,
            false => random.below(plan.nodes),
        };
        let kind = match random.below(10) {
            0 => Kind::Reaches,
            1 | 2 => Kind::Within(random.between(1, plan.nodes)),
            _ => kind(plan, from, to, random),
        };
        let variable = plan.variable();
        plan.atom_of(kind, from, to, variable);
        if random.chance(fixed) {
            match random.chance(60) {
                true => plan.must(variable),
                false => plan.must_not(variable),
            }
        }
    }
}
