//! The yardstick: see `USAGE`.

mod check;
mod clauses;
mod clock;
mod deep;
mod engine;
mod graph;
mod heavy;
mod lengths;
mod literals;
mod print;
mod rules;
mod time;

use std::path::Path;
use std::process::ExitCode;

const USAGE: &str = "\
usage: yardstick COMMAND
  files DIR            the six heavy plan files into DIR, and the one with the longest list
  deep DIR             files whose search ends deep in its tree into DIR, and what linkplan prints
  check [SEED [FILES]] the yardstick's search and texts against the reference's, on drawn and heavy files
  time [BRANCHINGS]    time per branching on the heavy files, and per walk, closing, number, byte and length walk
";

fn main() -> ExitCode {
    let arguments: Vec<String> = std::env::args().skip(1).collect();
    let words: Vec<&str> = arguments.iter().map(String::as_str).collect();
    let number = |word: &str| {
        word.parse::<u32>()
            .map_err(|error| format!("{word}: {error}\n"))
    };
    let done = match words.as_slice() {
        ["files", folder] => heavy::write_files(Path::new(folder)),
        ["deep", folder] => deep::run(Path::new(folder)),
        ["check"] => check::run(1, 3_000),
        ["check", seed] => number(seed).and_then(|seed| check::run(seed, 3_000)),
        ["check", seed, files] => number(seed).and_then(|seed| check::run(seed, number(files)?)),
        ["time"] => time::run(300_000),
        ["time", branchings] => number(branchings).and_then(time::run),
        _ => Err(USAGE.into()),
    };
    reference::ended(done)
}
