//! Realistic metro files: rings, dual-homed sites, protection pairs that stay
//! apart, hop limits.

use super::empty;
use crate::file::{PlanFile, ATOMS, EDGES, NODES};
use crate::random::Random;

pub fn metro(random: &mut Random) -> PlanFile {
    let mut plan = match random.below(5) {
        0 => ring(random.between(3, 12), random),
        1 => dual_homed(random.between(1, 10), random),
        2 => protected(random.between(3, 7), random),
        3 => apart(random.between(4, 10), random),
        _ => city(random.between(2, 3), random.between(3, 6), random),
    };
    empty::at_times(&mut plan.clauses, random);
    if random.chance(40) {
        plan.renumbered(random)
    } else {
        plan
    }
}

/// The links of a ring over some nodes.
fn ring_links(plan: &mut PlanFile, nodes: &[usize]) -> Vec<usize> {
    let next = |k: usize| nodes[(k + 1) % nodes.len()];
    (0..nodes.len())
        .map(|k| plan.link(nodes[k], next(k)))
        .collect()
}

/// A ring with a hub: each site has to be near the hub, one link stays dark,
/// and here and there two links share a duct and may not both be lit.
pub fn ring(sites: usize, random: &mut Random) -> PlanFile {
    let mut plan = PlanFile::with_nodes(sites);
    let nodes: Vec<usize> = (0..sites).collect();
    let links = ring_links(&mut plan, &nodes);
    plan.not_all(&links);
    for site in 1..sites {
        let near = if random.chance(70) {
            plan.within(0, site, random.between(1, sites))
        } else {
            plan.reaches(0, site)
        };
        if random.chance(70) {
            plan.must(near);
        }
    }
    if random.chance(40) {
        let (a, b) = (random.pick(&links), random.pick(&links));
        plan.not_all(&[a, b]);
    }
    plan
}

/// Two hubs on a trunk, each site homed on both, with room for some sites at each.
pub fn dual_homed(sites: usize, random: &mut Random) -> PlanFile {
    let mut plan = PlanFile::with_nodes(sites + 2);
    let trunk = plan.link(0, 1);
    let (mut first, mut second) = (Vec::new(), Vec::new());
    for site in 2..sites + 2 {
        first.push(plan.link(0, site));
        second.push(plan.link(1, site));
    }
    for k in 0..sites {
        plan.one_of(&[first[k], second[k]]);
        if random.chance(30) {
            plan.not_all(&[first[k], second[k]]);
        }
        let near = plan.within(0, k + 2, random.between(1, 3));
        if random.chance(60) {
            plan.must(near);
        }
    }
    if sites <= 6 {
        plan.at_most(random.between(1, sites), &first);
    }
    if random.chance(50) {
        plan.must(trunk);
    }
    plan
}

/// A working and a protection path over the same ducts: each duct carries one of
/// the two, so the pair stays apart.
pub fn protected(sites: usize, random: &mut Random) -> PlanFile {
    let mut plan = PlanFile::with_nodes(2 * sites);
    let ducts = ducts(sites, random);
    for (a, b) in ducts {
        let working = plan.link(a, b);
        let protection = plan.link(sites + a, sites + b);
        plan.not_all(&[working, protection]);
    }
    let target = sites / 2;
    let bound = random.between(1, sites);
    let working = plan.within(0, target, bound);
    let protection = plan.reaches(sites, sites + target);
    plan.must(working);
    plan.must(protection);
    plan
}

/// A ring with some chords.
fn ducts(sites: usize, random: &mut Random) -> Vec<(usize, usize)> {
    let mut ducts: Vec<(usize, usize)> = (0..sites).map(|k| (k, (k + 1) % sites)).collect();
    let chords = random.between(0, 3);
    for _ in 0..chords {
        ducts.push((random.below(sites), random.below(sites)));
    }
    ducts
}

/// Two customers in one mesh: each reaches its own sites, none the other's.
pub fn apart(sites: usize, random: &mut Random) -> PlanFile {
    let mut plan = PlanFile::with_nodes(sites);
    let ducts = ducts(sites, random);
    for (a, b) in ducts {
        plan.link(a, b);
    }
    let (mine, theirs) = (0, 1);
    let split = random.between(2, sites - 1);
    for site in 2..sites {
        let (home, away) = if site < split {
            (mine, theirs)
        } else {
            (theirs, mine)
        };
        if random.chance(60) {
            let home = plan.reaches(home, site);
            plan.must(home);
        }
        if random.chance(40) {
            let away = plan.reaches(away, site);
            plan.must_not(away);
        }
    }
    let met = plan.reaches(mine, theirs);
    plan.must_not(met);
    plan
}

/// A core ring of hubs; behind each hub an access ring whose sites stay within
/// a hop limit of the core; neighbouring access rings are dual-homed.
pub fn city(hubs: usize, sites: usize, random: &mut Random) -> PlanFile {
    let nodes = hubs + hubs * sites;
    assert!(nodes <= NODES, "a city has to fit");
    let mut plan = PlanFile::with_nodes(nodes);
    let core: Vec<usize> = (0..hubs).collect();
    if hubs > 1 {
        ring_links(&mut plan, &core);
    }
    for hub in 0..hubs {
        let mut access = vec![hub];
        access.extend((0..sites).map(|k| hubs + hub * sites + k));
        let links = ring_links(&mut plan, &access);
        plan.not_all(&links);
        let last = access[sites];
        plan.link(last, (hub + 1) % hubs);
    }
    for site in hubs..nodes {
        if plan.atoms.len() < ATOMS - 1 && random.chance(60) {
            let near = plan.within(0, site, random.between(2, sites + 2));
            plan.must(near);
        }
    }
    assert!(plan.edges.len() <= EDGES, "a city has to fit");
    plan
}
