//! Times on the heavy files.
//!
//! To time another engine in Rust, add it to `ENGINES`: it takes a file's bytes and
//! a budget and gives back the branchings it counted. The compiled library is timed
//! by `bench/run`.

use crate::clock::time;
use crate::engine::{self, Engine};
use crate::graph::{walk, NONE};
use crate::heavy::{self, has_list, own_rules, shortened, ROOM};
use crate::lengths;
use crate::print::print;
use crate::rules;
use reference::clauses;
use reference::file::{read, PlanFile, NODES};
use reference::write::to_bytes;
use std::hint::black_box;
use std::time::Duration;

struct Timed {
    name: &'static str,
    search: fn(&[u8], u32) -> u32,
    /// A slow engine gets this part of the branchings.
    share: u32,
}

/// The first is what the others are measured by.
const ENGINES: [Timed; 2] = [
    Timed {
        name: "yardstick",
        search: yardstick,
        share: 1,
    },
    Timed {
        name: "reference",
        search: reference_search,
        share: 100,
    },
];

const ROUNDS: usize = 5;

fn yardstick(file: &[u8], budget: u32) -> u32 {
    read(file).map_or(0, |plan| engine::search(&plan, budget).branchings)
}

fn reference_search(file: &[u8], budget: u32) -> u32 {
    read(file).map_or(0, |plan| {
        reference::search::search(&plan, budget).branchings
    })
}

pub fn run(branchings: u32) -> Result<(), String> {
    println!(
        "processor time per branching in nanoseconds, {branchings} branchings, best of {ROUNDS}"
    );
    let names: Vec<String> = ENGINES
        .iter()
        .map(|engine| format!("{:>12}", engine.name))
        .collect();
    println!("{:<10}{}{:>10}", "file", names.concat(), "ratio");
    for heavy in heavy::files() {
        let bytes = to_bytes(&heavy.plan);
        let times = per_branching(&bytes, branchings);
        let shown: Vec<String> = times.iter().map(|time| format!("{time:>12.0}")).collect();
        let ratio = times[times.len() - 1] / times[0];
        println!(
            "{:<10}{}{ratio:>10.1}  {}",
            heavy.name,
            shown.concat(),
            heavy.what
        );
    }
    time_steps();
    Ok(())
}

fn best(mut work: impl FnMut()) -> Duration {
    (0..ROUNDS)
        .map(|_| time(&mut work))
        .min()
        .unwrap_or_default()
}

/// The engines take turns, so that a busy moment of the machine hits them alike.
fn per_branching(file: &[u8], branchings: u32) -> [f64; ENGINES.len()] {
    let mut best = [f64::INFINITY; ENGINES.len()];
    for _ in 0..ROUNDS {
        for (engine, best) in ENGINES.iter().zip(&mut best) {
            *best = best.min(once(engine, file, branchings));
        }
    }
    best
}

fn once(engine: &Timed, file: &[u8], branchings: u32) -> f64 {
    let budget = (branchings / engine.share).max(1);
    let mut counted = 0;
    let time = time(|| counted = (engine.search)(black_box(file), budget));
    assert_eq!(
        counted, budget,
        "a heavy file has more branchings than that"
    );
    time.as_nanos() as f64 / f64::from(counted)
}

/// The steps by themselves, done by hand: a walk with everything lit, a closing
/// from all open, a number of the written clauses and a reading, which are the
/// reference's, a number printed, a byte of rules read, and a length walk.
fn time_steps() {
    println!("\nsteps by hand, in nanoseconds; - where a file has no such step");
    println!(
        "{:<10}{:>12}{:>12}{:>12}{:>12}{:>12}{:>12}{:>12}",
        "file", "walk", "closing", "number", "reading", "printed", "byte", "length-walk"
    );
    for heavy in heavy::files() {
        let plan = &heavy.plan;
        let list = has_list(plan).then_some(plan);
        let walk = time_walk(plan);
        let closing = time_closing(plan);
        let number = shown(list.map(time_number), 2);
        let reading = time_reading(&to_bytes(plan));
        let printed = shown(list.map(time_printed), 2);
        let byte = time_byte(plan);
        let length_walk = shown(time_length_walk(plan), 0);
        println!(
            "{:<10}{walk:>12.0}{closing:>12.0}{number:>12}{reading:>12.0}{printed:>12}{byte:>12.2}{length_walk:>12}",
            heavy.name
        );
    }
}

fn shown(time: Option<f64>, digits: usize) -> String {
    time.map_or("-".into(), |time| format!("{time:.digits$}"))
}

fn time_walk(plan: &PlanFile) -> f64 {
    const TIMES: usize = 20_000;
    let engine = Engine::of(plan);
    let next = engine.graph().over_neighbours();
    let mut hops = [NONE; NODES];
    let time = best(|| {
        for k in 0..TIMES {
            walk(black_box(next), k % plan.nodes, &mut hops);
            black_box(&hops);
        }
    });
    time.as_nanos() as f64 / TIMES as f64
}

/// From each node in turn, in the over graph of all open, its table made beforehand.
fn time_length_walk(plan: &PlanFile) -> Option<f64> {
    const TIMES: usize = 20_000;
    let engine = Engine::of(plan);
    let next = engine.graph().over_neighbours();
    let shortest = engine.graph().over_shortest()?;
    let mut sums = [lengths::NONE; NODES];
    let time = best(|| {
        for k in 0..TIMES {
            lengths::walk(black_box(next), shortest, k % plan.nodes, &mut sums);
            black_box(&sums);
        }
    });
    Some(time.as_nanos() as f64 / TIMES as f64)
}

/// With the tables made beforehand, as they are in the middle of a search.
fn time_closing(plan: &PlanFile) -> f64 {
    const TIMES: usize = 300;
    let times = (0..ROUNDS).map(|_| {
        let mut engines: Vec<Engine> = (0..TIMES).map(|_| Engine::of(plan)).collect();
        let time = time(|| {
            engines.iter_mut().for_each(|engine| {
                black_box(engine.first_closing().is_ok());
            });
        });
        time.as_nanos() as f64 / TIMES as f64
    });
    times.fold(f64::INFINITY, f64::min)
}

fn time_reading(bytes: &[u8]) -> f64 {
    const TIMES: usize = 2_000;
    let time = best(|| {
        for _ in 0..TIMES {
            black_box(read(black_box(bytes)).is_ok());
        }
    });
    time.as_nanos() as f64 / TIMES as f64
}

/// The list of the first atoms, as far as there is room.
fn time_number(plan: &PlanFile) -> f64 {
    let plan = shortened(plan, ROOM);
    let numbers = clauses::counts(&plan).numbers;
    let time = best(|| {
        black_box(clauses::write(black_box(&plan)));
    });
    time.as_nanos() as f64 / numbers as f64
}

/// The same list as text.
fn time_printed(plan: &PlanFile) -> f64 {
    let plan = shortened(plan, ROOM);
    let numbers = clauses::counts(&plan).numbers;
    let mut text = Vec::new();
    let time = best(|| {
        print(black_box(&plan), &mut text);
        black_box(&text);
    });
    time.as_nanos() as f64 / numbers as f64
}

/// The file's own clauses, from their text.
fn time_byte(plan: &PlanFile) -> f64 {
    const TIMES: usize = 200;
    let (bare, text) = own_rules(plan);
    let mut table = Vec::new();
    let time = best(|| {
        for _ in 0..TIMES {
            black_box(rules::read(&bare, black_box(&text), &mut table).is_ok());
            black_box(&table);
        }
    });
    time.as_nanos() as f64 / (TIMES * text.len()) as f64
}
