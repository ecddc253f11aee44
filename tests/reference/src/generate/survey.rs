//! What the generators draw: for each sort of file how many are refused, how many have
//! an empty clause, an edge of tag 6 or an atom of kind 3, the answers of the search
//! and how many branchings they took, so that a change of a generator can be judged.

use super::requests::affordable;
use super::{file, Sort, SORTS};
use crate::file::read;
use crate::random::Random;
use crate::search::{search, Outcome};
use std::fmt::Write;

pub fn survey(seed: u64, files: usize) -> String {
    let mut text = format!("seed {seed}, {files} files of each sort\n");
    text += "sort       refused   empty   tag 6  kind 3 | plan: 0     1-9   10-99    100+ | impossible: 0     1-9   10-99    100+ | undecided\n";
    for sort in SORTS {
        text += &row(sort, seed, files);
    }
    text
}

fn row(sort: Sort, seed: u64, files: usize) -> String {
    let mut refused = 0;
    let mut undecided = 0;
    let mut with = [0; 3];
    let (mut plans, mut impossibles) = ([0; 4], [0; 4]);
    for number in 0..files as u64 {
        let bytes = file(sort, &mut Random::part(seed, number));
        let Ok(plan) = read(&bytes) else {
            refused += 1;
            continue;
        };
        let about_lengths = plan.first_about_lengths().is_some();
        let held = [plan.has_empty_clause(), plan.has_long_edge(), about_lengths];
        for (count, held) in with.iter_mut().zip(held) {
            *count += usize::from(held);
        }
        let searched = search(&plan, affordable(&plan));
        let size = (searched
            .branchings
            .checked_ilog10()
            .map_or(0, |log| log + 1) as usize)
            .min(3);
        match searched.outcome {
            Outcome::Plan(_) => plans[size] += 1,
            Outcome::Impossible => impossibles[size] += 1,
            Outcome::Undecided => undecided += 1,
        }
    }
    let [empty, tag_6, kind_3] = with;
    let mut text = format!(
        "{:<10} {refused:>7} {empty:>7} {tag_6:>7} {kind_3:>7} |",
        format!("{sort:?}")
    );
    for counts in [plans, impossibles] {
        counts
            .iter()
            .for_each(|count| write!(text, " {count:>7}").expect("a string takes it"));
        text += " |   ";
    }
    text + &format!(" {undecided:>6}\n")
}
