//! Six heavy files. Each has more branchings than the default budget, so that
//! time per branching is measured deep in the tree, where searches spend it.

use crate::print::print;
use reference::clauses::counts;
use reference::file::{read, PlanFile, ATOMS, EDGES, NODES};
use reference::generate::limits::with_longest_list;
use reference::meaning::{distances_over, Measure};
use reference::random::Random;
use reference::write::to_bytes;
use std::fs;
use std::path::Path;

pub struct Heavy {
    pub name: &'static str,
    pub what: &'static str,
    pub plan: PlanFile,
}

pub fn files() -> Vec<Heavy> {
    vec![
        Heavy {
            name: "clauses",
            what: "645 clauses of three literals, no edges",
            plan: clauses(1, 150),
        },
        Heavy {
            name: "ring",
            what: "64 sites, two fibres a span, hop limits",
            plan: ring(NODES),
        },
        Heavy {
            name: "hub",
            what: "60 sites homed on two hubs with few ports",
            plan: hub(60),
        },
        Heavy {
            name: "metro",
            what: "64 nodes, 256 edges, 61 atoms",
            plan: metro(4, 420),
        },
        Heavy {
            name: "chain",
            what: "64 nodes in a row, four fibres a span",
            plan: chain(NODES),
        },
        Heavy {
            name: "delays",
            what: "64 nodes, 256 edges with lengths, 30 delay budgets",
            plan: delays(7, 300),
        },
    ]
}

pub fn write_files(folder: &Path) -> Result<(), String> {
    let said = |error: std::io::Error| format!("{}: {error}\n", folder.display());
    fs::create_dir_all(folder).map_err(said)?;
    let mut plans: Vec<_> = files()
        .into_iter()
        .map(|heavy| (heavy.name, heavy.plan))
        .collect();
    plans.push(("longest", with_longest_list(&mut Random::new(1))));
    for (name, plan) in plans {
        let bytes = to_bytes(&plan);
        assert_eq!(read(&bytes).as_ref(), Ok(&plan), "{name} is accepted");
        fs::write(folder.join(format!("{name}.plan")), bytes).map_err(said)?;
    }
    Ok(())
}

/// Whether there is a list of a file to be written or printed, and so to be timed.
pub fn has_list(plan: &PlanFile) -> bool {
    plan.first_about_lengths().is_none()
}

/// How many numbers a list may have that is written or printed to be timed, as in
/// `linkbench`.
pub const ROOM: usize = 500_000;

/// The file without its last atoms, so that its list has room.
pub fn shortened(plan: &PlanFile, room: usize) -> PlanFile {
    let mut plan = plan.clone();
    while counts(&plan).numbers > room {
        plan.atoms.pop();
    }
    plan
}

/// The file without its clauses, and their text.
pub fn own_rules(plan: &PlanFile) -> (PlanFile, Vec<u8>) {
    let mut bare = plan.clone();
    bare.atoms.clear();
    let mut text = Vec::new();
    print(&bare, &mut text);
    bare.clauses.clear();
    (bare, text)
}

/// Random three-literal clauses, 4.3 for each variable, where plans run out.
pub fn clauses(seed: u64, variables: usize) -> PlanFile {
    let mut random = Random::new(seed);
    let mut plan = PlanFile::with_nodes(1);
    plan.variables = variables;
    while plan.clauses.len() < variables * 43 / 10 {
        let mut clause: Vec<i16> = Vec::new();
        while clause.len() < 3 {
            let variable = random.between(1, plan.variables) as i16;
            if clause.iter().all(|literal| literal.abs() != variable) {
                clause.push(random.pick(&[variable, -variable]));
            }
        }
        plan.clauses.push(clause);
    }
    plan
}

/// Each span has two fibres and may light one. Every site stays within half the sites'
/// hops of site 0, so only the span across may be dark; but the crews want another one dark.
pub fn ring(sites: usize) -> PlanFile {
    let mut plan = PlanFile::with_nodes(sites);
    let spans: Vec<[usize; 2]> = (0..sites)
        .map(|k| [(); 2].map(|()| plan.link(k, (k + 1) % sites)))
        .collect();
    for span in &spans {
        plan.not_all(span);
    }
    for site in (1..sites).filter(|site| site % 2 == 1) {
        let near = plan.within(0, site, sites / 2);
        plan.must(near);
    }
    let dark: Vec<usize> = (sites - sites / 8..sites)
        .map(|k| dark_span(&mut plan, &spans[k]))
        .collect();
    plan.one_of(&dark);
    plan
}

/// A variable that is on only if all fibres of a span are dark.
fn dark_span(plan: &mut PlanFile, span: &[usize]) -> usize {
    let dark = plan.variable();
    span.iter().for_each(|&fibre| plan.not_all(&[dark, fibre]));
    dark
}

/// Five sites share five ports at each hub, of which three work; in the last
/// group two, which is one too few.
pub fn hub(sites: usize) -> PlanFile {
    let (hubs, group) = (2, 5);
    let mut plan = PlanFile::with_nodes(hubs + sites);
    let trunk = plan.link(0, 1);
    plan.must(trunk);
    let homes: Vec<[usize; 2]> = (0..sites)
        .map(|site| [0, 1].map(|hub| plan.link(hub, hubs + site)))
        .collect();
    for site in 0..sites {
        let near = plan.within(0, hubs + site, 2);
        plan.must(near);
    }
    for (number, group) in homes.chunks(group).enumerate() {
        let last = (number + 1) * group.len() == sites;
        for hub in [0, 1] {
            let ports: Vec<usize> = group.iter().map(|home| home[hub]).collect();
            plan.at_most(if last { 2 } else { 3 }, &ports);
        }
    }
    plan
}

/// A core ring of four hubs, an access ring of fifteen sites at each, chords up to
/// 256 edges, hop limits from hub 0, and house rules over the links.
pub fn metro(seed: u64, rules: usize) -> PlanFile {
    let mut random = Random::new(seed);
    let (hubs, sites) = (4, 15);
    let mut plan = PlanFile::with_nodes(NODES);
    for hub in 0..hubs {
        plan.link(hub, (hub + 1) % hubs);
        let site = |k: usize| hubs + hub * sites + k;
        plan.link(hub, site(0));
        (1..sites).for_each(|k| {
            plan.link(site(k - 1), site(k));
        });
        plan.link(site(sites - 1), hub);
        plan.link(site(sites / 2), (hub + 1) % hubs);
    }
    while plan.edges.len() < EDGES {
        let a = random.between(hubs, NODES - 1);
        let b = (a + random.between(2, 20)) % NODES;
        plan.link(a, b);
    }
    let links = plan.variables;
    for site in hubs..NODES {
        let near = plan.within(0, site, random.between(5, 8));
        plan.must(near);
    }
    let home = plan.reaches(NODES - 1, 0);
    plan.must(home);
    assert_eq!(plan.atoms.len(), ATOMS - 3);
    for _ in 0..rules {
        let rule = [(); 3].map(|()| random.between(1, links) as i16);
        plan.clauses.push(
            rule.map(|x| if random.chance(60) { -x } else { x })
                .to_vec(),
        );
    }
    plan
}

/// The same hubs and access rings with delays in microseconds: the core is quick, an
/// access ring is slow, and a chord may be either. Each hub has delay budgets to sites
/// of every ring, in turns with the other hubs; a few sites have hop limits too.
pub fn delays(seed: u64, rules: usize) -> PlanFile {
    let mut random = Random::new(seed);
    let (hubs, sites) = (4, 15);
    let mut plan = PlanFile::with_nodes(NODES);
    for hub in 0..hubs {
        plan.long_link(hub, (hub + 1) % hubs, random.between(20, 60));
        let site = |k: usize| hubs + hub * sites + k;
        // The first site stands beside its hub.
        plan.link(hub, site(0));
        (1..sites).for_each(|k| {
            plan.long_link(site(k - 1), site(k), random.between(40, 200));
        });
        plan.long_link(site(sites - 1), hub, random.between(40, 200));
        plan.long_link(site(sites / 2), (hub + 1) % hubs, random.between(100, 400));
    }
    while plan.edges.len() < EDGES {
        let a = random.between(hubs, NODES - 1);
        let b = (a + random.between(2, 20)) % NODES;
        plan.long_link(a, b, random.between(60, 900));
    }
    let links = plan.variables;
    for k in 0..30 {
        let (hub, site) = (k % hubs, hubs + 2 * k);
        let least = distances_over(Measure::Lengths, NODES, &plan.edges, hub)[site];
        let least = least.expect("a ring leads to every site");
        let budget = least * random.between(140, 220) / 100;
        let near = plan.length_at_most(hub, site, budget);
        plan.must(near);
        if k % 6 == 0 {
            let near = plan.within(hub, site, random.between(6, 8));
            plan.must(near);
        }
    }
    for _ in 0..rules {
        let rule = [(); 3].map(|()| random.between(1, links) as i16);
        plan.clauses.push(
            rule.map(|x| if random.chance(60) { -x } else { x })
                .to_vec(),
        );
    }
    plan
}

/// A row of nodes, four one-way fibres a span, of which one may be lit, and
/// two house rules' variables for which there are no good values.
pub fn chain(nodes: usize) -> PlanFile {
    let mut plan = PlanFile::with_nodes(nodes);
    let spans: Vec<[usize; 4]> = (1..nodes)
        .map(|k| [(); 4].map(|()| plan.edge(k - 1, k)))
        .collect();
    for span in &spans {
        plan.at_most(1, span);
    }
    for node in (3..nodes).step_by(4) {
        let near = plan.within(0, node, node);
        plan.must(near);
        let far = plan.within(0, node, node - 1);
        plan.must_not(far);
    }
    let (p, q) = (plan.variable() as i16, plan.variable() as i16);
    plan.clauses
        .extend([vec![p, q], vec![p, -q], vec![-p, q], vec![-p, -q]]);
    plan
}
