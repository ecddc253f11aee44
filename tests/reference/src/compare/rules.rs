//! `linkrules`, a plan file and a text a process; and `linkdimacs` into `linkrules`.

use super::process::Programs;
use super::{count, Settings, Tally};
use crate::file::{read, PlanFile, FILE_BYTES};
use crate::generate::{self, lengths, scattered, texts};
use crate::programs::linkrules;
use crate::random::Random;
use crate::sample;
use crate::write;

/// Keeps these files apart from those of the other comparisons.
const PARTS: u64 = 3 << 40;

/// Where the plan file of a run stands, also for one that shows a difference.
const PLAN: &str = "linkrules.plan";

pub fn compare(settings: &Settings, programs: &Programs) -> Result<Tally, String> {
    let mut answers = Tally::new();
    compare_chosen(programs)?;
    for number in 0..settings.single as u64 {
        let mut random = Random::part(settings.seed, PARTS + number);
        let (file, text) = draw(&mut random);
        let expected = compare_one(programs, &file, &text)?;
        count(&mut answers, &sort_of(&expected));
        let mut plan = scattered::small(&mut random);
        if random.chance(30) {
            lengths::put_into_edges(&mut plan, &mut random);
        }
        compare_round_trip(programs, &plan)?;
    }
    Ok(answers)
}

/// A refused file gets a text too, for some other file.
fn draw(random: &mut Random) -> (Vec<u8>, Vec<u8>) {
    let (_, file) = generate::draw(random);
    let plan = read(&file).unwrap_or_else(|_| scattered::small(random));
    let text = texts::text(&plan, random);
    (file, text)
}

/// The sample, a file far too long, and one that is not there.
fn compare_chosen(programs: &Programs) -> Result<(), String> {
    let rules = b"c house rules\np cnf 5 1\n-1\n-2 0";
    compare_one(programs, &sample::bytes(), rules)?;
    compare_one(programs, &sample::bytes(), b"")?;
    compare_one(programs, &vec![0; 5 * FILE_BYTES], rules)?;
    let missing = programs.keep(PLAN, b"")? + ".missing";
    let output = programs.output("linkrules", &[&missing], rules)?;
    if output.stdout.is_empty() && !output.stderr.is_empty() {
        return Ok(());
    }
    Err("linkrules, on a file that is not there, has to complain on standard error alone\n".into())
}

fn compare_one(programs: &Programs, file: &[u8], text: &[u8]) -> Result<Vec<u8>, String> {
    let path = programs.keep(PLAN, file)?;
    let expected = linkrules(file, text);
    programs
        .expect("linkrules", &[&path], text, &expected)
        .map_err(|message| message + &format!("  plan     {path}\n"))?;
    Ok(expected)
}

fn sort_of(printed: &[u8]) -> String {
    match printed {
        [b'r', ..] => {
            let line = String::from_utf8_lossy(printed);
            line.split(' ').take(2).collect::<Vec<_>>().join(" ")
        }
        _ => "a plan file".into(),
    }
}

/// The clauses of a file, printed by `linkdimacs` and put by `linkrules` into the
/// file without them, make the file again.
fn compare_round_trip(programs: &Programs, plan: &PlanFile) -> Result<(), String> {
    let file = write::to_bytes(plan);
    let bare = PlanFile {
        clauses: Vec::new(),
        ..plan.clone()
    };
    let printed = programs.run("linkdimacs", &file)?;
    let rules = own_clauses(plan, &String::from_utf8_lossy(&printed));
    let path = programs.keep(PLAN, &write::to_bytes(&bare))?;
    programs.expect("linkrules", &[&path], rules.as_bytes(), &file)
}

/// The part of a printed text before the first atom's comment, with a `p` line of its own.
fn own_clauses(plan: &PlanFile, printed: &str) -> String {
    let own: Vec<&str> = printed
        .lines()
        .skip(1)
        .take_while(|line| !line.starts_with('c'))
        .collect();
    format!("p cnf {} {}\n{}", plan.variables, own.len(), own.join("\n"))
}
