//! The yardstick's search against the reference's: outcome, plan and count. And its
//! texts: every byte that it prints, and every clause or refusal that it reads.

use crate::engine::Engine;
use crate::print::print;
use crate::{engine, heavy, lengths, rules};
use reference::dimacs;
use reference::file::{read, PlanFile, NODES};
use reference::generate::requests::affordable;
use reference::generate::{draw, texts};
use reference::meaning::{distances_over, Measure};
use reference::random::Random;
use reference::search::{search, Outcome};

/// The reference is slow on heavy files, so it gets few branchings there.
const HEAVY_BRANCHINGS: u32 = 1_500;

/// And it is slow at printing, so a drawn file keeps the atoms that have room here.
const DRAWN_NUMBERS: usize = 20_000;

pub fn run(seed: u32, files: u32) -> Result<(), String> {
    let (mut accepted, mut about_lengths) = (0, 0);
    for number in 0..files {
        let mut random = Random::part(seed.into(), number.into());
        let (_, file) = draw(&mut random);
        if let Ok(plan) = read(&file) {
            accepted += 1;
            let budget = affordable(&plan);
            let name = format!("file {number} of seed {seed}");
            compare(&name, &plan, budget)?;
            compare(&name, &plan, random.below(9) as u32)?;
            compare_lengths(&name, &plan)?;
            if heavy::has_list(&plan) {
                compare_text(&name, &heavy::shortened(&plan, DRAWN_NUMBERS))?;
            }
            about_lengths += u32::from(plan.first_about_lengths().is_some());
            compare_rules(&name, &plan, &texts::text(&plan, &mut random))?;
        }
    }
    let heavies = heavy::files();
    for heavy in &heavies {
        compare(heavy.name, &heavy.plan, HEAVY_BRANCHINGS)?;
        compare_lengths(heavy.name, &heavy.plan)?;
        if heavy::has_list(&heavy.plan) {
            compare_text(heavy.name, &heavy::shortened(&heavy.plan, heavy::ROOM))?;
        }
        let (bare, text) = heavy::own_rules(&heavy.plan);
        compare_rules(heavy.name, &bare, &text)?;
    }
    println!(
        "check: seed {seed}, {accepted} drawn files ({about_lengths} with kind 3) and {} heavy ones, no difference",
        heavies.len()
    );
    Ok(())
}

fn compare(name: &str, plan: &PlanFile, budget: u32) -> Result<(), String> {
    let (mine, theirs) = (engine::search(plan, budget), search(plan, budget));
    if mine == theirs {
        return Ok(());
    }
    let said = |outcome: &Outcome| match outcome {
        Outcome::Plan(values) => format!("plan {values:?}"),
        other => format!("{other:?}"),
    };
    Err(format!(
        "{name}, budget {budget}: yardstick {} after {}, reference {} after {}\n",
        said(&mine.outcome),
        mine.branchings,
        said(&theirs.outcome),
        theirs.branchings
    ))
}

/// The sums of lengths from each node, with all open, where an atom asks for any.
fn compare_lengths(name: &str, plan: &PlanFile) -> Result<(), String> {
    let engine = Engine::of(plan);
    let Some(shortest) = engine.graph().over_shortest() else {
        return Ok(());
    };
    let mut sums = [lengths::NONE; NODES];
    for source in 0..plan.nodes {
        lengths::walk(
            engine.graph().over_neighbours(),
            shortest,
            source,
            &mut sums,
        );
        let there = |&sum: &u32| (sum != lengths::NONE).then_some(sum as usize);
        let mine: Vec<Option<usize>> = sums[..plan.nodes].iter().map(there).collect();
        let theirs = distances_over(Measure::Lengths, plan.nodes, &plan.edges, source);
        if mine != theirs {
            return Err(format!(
                "{name}, lengths from {source}: yardstick {mine:?}, reference {theirs:?}\n"
            ));
        }
    }
    Ok(())
}

fn compare_text(name: &str, plan: &PlanFile) -> Result<(), String> {
    let mut mine = Vec::new();
    print(plan, &mut mine);
    let theirs = dimacs::print(plan).into_bytes();
    if mine == theirs {
        return Ok(());
    }
    let at = mine.iter().zip(&theirs).take_while(|(a, b)| a == b).count();
    Err(format!("{name}: the text differs from byte {at} on\n"))
}

fn compare_rules(name: &str, plan: &PlanFile, text: &[u8]) -> Result<(), String> {
    let mut table = Vec::new();
    let mine = rules::read(plan, text, &mut table).map(|count| (count, table));
    let theirs = dimacs::read(plan, text).map(|clauses| (clauses.len(), flat(&clauses)));
    if mine == theirs {
        return Ok(());
    }
    Err(format!(
        "{name}, a text of {} bytes: yardstick {mine:?}, reference {theirs:?}\n",
        text.len()
    ))
}

/// Each clause ended by 0.
fn flat(clauses: &[Vec<i16>]) -> Vec<i16> {
    clauses
        .iter()
        .flat_map(|clause| clause.iter().copied().chain([0]))
        .collect()
}
