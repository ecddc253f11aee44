//! The compiled programs against the reference, byte for byte, in batches.

mod batches;
mod lists;
mod process;
mod rules;
mod single;
mod solved;
mod stock;

use process::Programs;
use std::collections::BTreeMap;
use std::path::PathBuf;

pub struct Settings {
    /// Where the programs are.
    pub programs: PathBuf,
    /// What stands before a program to run it, such as an emulator and its options.
    pub prefix: Vec<String>,
    pub seed: u64,
    /// Files drawn for `linkcalls`, and calls about them in all.
    pub files: usize,
    pub calls: usize,
    /// Files for the programs that take one file a process.
    pub single: usize,
    /// Files whose written clauses are given to SAT solvers.
    pub sat: usize,
    /// Files whose printed text is given to stock solvers.
    pub solved: usize,
    /// Where a difference is shown.
    pub out: PathBuf,
}

/// How often each thing came up.
pub type Tally = BTreeMap<String, usize>;

fn count(tally: &mut Tally, name: &str) {
    *tally.entry(name.to_string()).or_default() += 1;
}

fn listed(tally: &Tally) -> String {
    let entries: Vec<String> = tally
        .iter()
        .map(|(name, count)| format!("{name} {count}"))
        .collect();
    entries.join(", ")
}

/// Prints a summary; an error is the first difference met.
pub fn run(settings: &Settings) -> Result<(), String> {
    println!("compare: seed {}", settings.seed);
    let programs = &Programs::find(settings)?;
    compare_calls(settings, programs)?;
    compare_programs(settings, programs)?;
    ask_solvers(settings, programs)
}

fn compare_calls(settings: &Settings, programs: &Programs) -> Result<(), String> {
    let calls = batches::compare(settings, programs)?;
    println!(
        "linkcalls: {} calls about {} files, no difference",
        calls.calls, calls.files
    );
    println!(
        "  files: {}; {} with an empty clause, {} with tag 6, {} with kind 3",
        listed(&calls.sorts),
        calls.with_empty_clause,
        calls.with_long_edge,
        calls.about_lengths
    );
    println!("  calls: {}", listed(&calls.by_call));
    println!("  answers: {}", listed(&calls.answers));
    println!("  answers of read_dimacs: {}", listed(&calls.texts));
    println!("  answers of reason: {}", listed(&calls.reasons));
    Ok(())
}

fn compare_programs(settings: &Settings, programs: &Programs) -> Result<(), String> {
    let single = settings.single;
    let printed = single::compare(settings, programs)?;
    println!("linkplan, linkcnf and linkdimacs: {single} files each, no difference");
    println!("  answers: {}", listed(&printed));
    let longest = single::compare_longest(settings, programs)?;
    println!("linkdimacs on the longest list: {longest} bytes, no difference");
    let ruled = rules::compare(settings, programs)?;
    println!("linkrules: {single} files, no difference; {single} from linkdimacs and back");
    println!("  answers: {}", listed(&ruled));
    Ok(())
}

fn ask_solvers(settings: &Settings, programs: &Programs) -> Result<(), String> {
    let lists = lists::check(settings, programs)?;
    println!(
        "written clauses: {} files with a plan, {} without ({} with an empty clause, {} with tag 6); search and own solver agree; {} with kind 3 refused",
        lists.plans, lists.impossible, lists.with_empty_clause, lists.with_long_edge, lists.refused
    );
    match lists.stock {
        Some(name) => println!("stock solver: {name}, agrees on all of them"),
        None => println!("stock solver: left out (neither minisat nor cadical was found)"),
    }
    let solved = solved::check(settings, programs)?;
    match solved.stock.join(" and ").as_str() {
        "" => println!("linkdimacs into stock solvers: left out (none was found)"),
        names => println!(
            "linkdimacs into {names}: {} files with a plan, {} without ({} with an empty clause, {} with tag 6); agrees with linkplan; {} with kind 3 refused",
            solved.plans, solved.impossible, solved.with_empty_clause, solved.with_long_edge, solved.refused
        ),
    }
    Ok(())
}
