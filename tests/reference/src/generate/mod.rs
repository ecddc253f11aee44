//! Seeded generators of plan files, texts of rules and requests.

pub mod build;
pub mod damaged;
pub mod delays;
pub mod empty;
pub mod layout;
pub mod lengths;
pub mod limits;
pub mod metro;
pub mod requests;
pub mod scattered;
pub mod survey;
pub mod texts;

use crate::file::PlanFile;
use crate::random::Random;
use crate::write;

/// What a drawn file is like.
#[derive(Clone, Copy, Debug, PartialEq, Eq)]
pub enum Sort {
    Small,
    Tight,
    Medium,
    NoPath,
    Shared,
    Metro,
    Delays,
    Limit,
    Damaged,
}

pub const SORTS: [Sort; 9] = [
    Sort::Small,
    Sort::Tight,
    Sort::Medium,
    Sort::NoPath,
    Sort::Shared,
    Sort::Metro,
    Sort::Delays,
    Sort::Limit,
    Sort::Damaged,
];

/// How a file is drawn, and what sort it is of.
pub type Draw = fn(&mut Random) -> (Sort, Vec<u8>);

/// A file with or without lengths.
pub fn draw(random: &mut Random) -> (Sort, Vec<u8>) {
    let sort = sort(random);
    (sort, file(sort, random))
}

/// A file as before there were lengths (request C-13): the stored requests that were
/// drawn then stay what they are.
pub fn draw_without_lengths(random: &mut Random) -> (Sort, Vec<u8>) {
    let sort = sort_without_lengths(random);
    (sort, file_without_lengths(sort, random))
}

/// A file with lengths, more often than not of the sort that is made for them.
pub fn draw_with_lengths(random: &mut Random) -> (Sort, Vec<u8>) {
    let sort = match random.chance(60) {
        true => Sort::Delays,
        false => sort(random),
    };
    (sort, file_with_lengths(sort, random))
}

/// One file in ten is made for lengths.
pub fn sort(random: &mut Random) -> Sort {
    match random.aside().below(10) {
        0 => Sort::Delays,
        _ => sort_without_lengths(random),
    }
}

/// Mostly small files, since they try the most cases in a second.
fn sort_without_lengths(random: &mut Random) -> Sort {
    match random.below(100) {
        0..=19 => Sort::Small,
        20..=36 => Sort::Tight,
        37..=44 => Sort::Medium,
        45..=51 => Sort::NoPath,
        52..=61 => Sort::Shared,
        62..=78 => Sort::Metro,
        79..=82 => Sort::Limit,
        _ => Sort::Damaged,
    }
}

/// The bytes of a drawn file; only a damaged or limit-sized one may be refused. Beside
/// the sort that is made for them, one file in five has lengths, and of those at a
/// limit, which are few, one in two.
pub fn file(sort: Sort, random: &mut Random) -> Vec<u8> {
    let mut aside = random.aside();
    let seldom = if sort == Sort::Limit { 2 } else { 5 };
    if aside.below(seldom) == 0 {
        file_with_lengths(sort, &mut aside)
    } else {
        file_without_lengths(sort, random)
    }
}

fn file_without_lengths(sort: Sort, random: &mut Random) -> Vec<u8> {
    match sort {
        Sort::Limit => limits::limit(random),
        Sort::Damaged => damaged::damaged(random),
        _ => mixed(&plan(sort, random), random),
    }
}

fn file_with_lengths(sort: Sort, random: &mut Random) -> Vec<u8> {
    match sort {
        Sort::Limit => limits::with_lengths(random),
        Sort::Damaged => damaged::with_lengths(random),
        Sort::Delays => mixed(&plan(sort, random), random),
        _ => {
            let mut plan = plan(sort, random);
            lengths::put_in(&mut plan, random);
            mixed(&plan, random)
        }
    }
}

/// A good file of a sort that is neither damaged nor at a limit.
fn plan(sort: Sort, random: &mut Random) -> PlanFile {
    match sort {
        Sort::Tight => scattered::tight(random),
        Sort::Medium => scattered::medium(random),
        Sort::NoPath => scattered::no_path(random),
        Sort::Shared => scattered::shared(random),
        Sort::Metro => metro::metro(random),
        Sort::Delays => delays::delays(random),
        _ => scattered::small(random),
    }
}

/// Edges, atoms and clauses come in any order, so they are mixed more often than not.
fn mixed(plan: &PlanFile, random: &mut Random) -> Vec<u8> {
    if random.chance(70) {
        write::mixed_records(plan, random).concat()
    } else {
        write::to_bytes(plan)
    }
}
