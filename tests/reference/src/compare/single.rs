//! `linkplan`, `linkcnf` and `linkdimacs`, one file a process.

use super::process::Programs;
use super::{count, Settings, Tally};
use crate::generate::limits;
use crate::generate::requests::Subject;
use crate::programs::{linkcnf, linkdimacs, linkplan};
use crate::random::Random;
use crate::sample;
use crate::write;

/// Keeps these files apart from those of the other comparisons.
const PARTS: u64 = 1 << 40;

pub fn compare(settings: &Settings, programs: &Programs) -> Result<Tally, String> {
    let mut answers = Tally::new();
    let mut number = 0;
    let mut done = 0;
    while done < settings.single {
        let file = match done {
            0 => Some(sample::bytes()),
            1 => Some(Vec::new()),
            _ => draw(settings.seed, number),
        };
        number += 1;
        if let Some(file) = file {
            let printed = [
                ("linkplan", linkplan(&file)),
                ("linkcnf", linkcnf(&file)),
                ("linkdimacs", linkdimacs(&file)),
            ];
            for (name, expected) in printed {
                programs.expect(name, &[], &file, expected.as_bytes())?;
                count(&mut answers, &format!("{name}: {}", sort_of(&expected)));
            }
            done += 1;
        }
    }
    Ok(answers)
}

/// `linkdimacs` prints a text of any length: that of the longest list there is, and
/// how many bytes it has.
pub fn compare_longest(settings: &Settings, programs: &Programs) -> Result<usize, String> {
    let plan = limits::with_longest_list(&mut Random::part(settings.seed, PARTS));
    let file = write::to_bytes(&plan);
    let expected = linkdimacs(&file);
    programs.expect("linkdimacs", &[], &file, expected.as_bytes())?;
    Ok(expected.len())
}

/// `linkplan` has a budget of its own, which the reference can afford only where
/// the search is short.
fn draw(seed: u64, number: u64) -> Option<Vec<u8>> {
    let mut random = Random::part(seed, PARTS + number);
    let subject = Subject::draw(&mut random);
    let short = subject.decided().is_some() || subject.is_refused();
    short.then_some(subject.file)
}

/// What sort of answer a program printed.
fn sort_of(printed: &str) -> String {
    let first = printed.lines().next().unwrap_or("");
    let words: Vec<&str> = first.split(' ').take(2).collect();
    match words.first() {
        Some(&("s" | "r" | "p")) => words.join(" "),
        _ => "a list".into(),
    }
}
