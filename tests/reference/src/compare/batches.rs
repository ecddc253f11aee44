//! `linkcalls` on streams of drawn requests.

use super::process::Programs;
use super::{count, Settings, Tally};
use crate::file::{read, Kind};
use crate::generate::requests::Subject;
use crate::protocol::{
    line, stream, Request, BAD_REQUEST, MOST_FILE_BYTES, MOST_ROOM, READ_DIMACS, REASON,
};
use crate::random::Random;

const BATCH: usize = 500;

#[derive(Default)]
pub struct Compared {
    pub files: usize,
    pub with_empty_clause: usize,
    pub with_long_edge: usize,
    pub about_lengths: usize,
    pub calls: usize,
    pub sorts: Tally,
    pub by_call: Tally,
    pub answers: Tally,
    /// The answers of `read_dimacs` alone.
    pub texts: Tally,
    /// The answers of `reason`, by the atom's kind.
    pub reasons: Tally,
}

/// Every file has its own part of the seed and its share of the calls.
pub fn compare(settings: &Settings, programs: &Programs) -> Result<Compared, String> {
    let mut compared = Compared::default();
    let mut batch = Vec::new();
    for number in 0..settings.files {
        let mut random = Random::part(settings.seed, number as u64);
        let subject = Subject::draw(&mut random);
        count(
            &mut compared.sorts,
            &format!("{:?}", subject.sort).to_lowercase(),
        );
        compared.files += 1;
        compared.with_empty_clause += usize::from(subject.has_empty_clause());
        compared.with_long_edge += usize::from(subject.has_long_edge());
        compared.about_lengths += usize::from(subject.first_about_lengths().is_some());
        batch.extend(subject.requests(share(settings, number), &mut random));
        if batch.len() >= BATCH || number + 1 == settings.files {
            // Every batch ends in a bad request, of one sort or another.
            let bad = bad_request(&mut random);
            let lines = run(programs, &batch, &bad)?;
            tally(&mut compared, &batch, &lines);
            batch.clear();
        }
    }
    Ok(compared)
}

/// The calls about file `number`, so that all files together have `calls`.
fn share(settings: &Settings, number: usize) -> usize {
    let upto = |files: usize| settings.calls * files / settings.files;
    upto(number + 1) - upto(number)
}

const NAMES: [&str; 9] = [
    "",
    "read",
    "judge",
    "close",
    "reason",
    "search",
    "write_clauses",
    "write_dimacs",
    "read_dimacs",
];

fn tally(compared: &mut Compared, batch: &[Request], lines: &[String]) {
    compared.calls += batch.len();
    for (request, line) in batch.iter().zip(lines) {
        count(&mut compared.by_call, NAMES[usize::from(request.call)]);
        let name = answer_name(line);
        count(&mut compared.answers, &name);
        if request.call == READ_DIMACS {
            count(&mut compared.texts, &name);
        }
        if request.call == REASON && !name.starts_with("refused") {
            let name = format!("kind {} {name}", kind_asked_for(request));
            count(&mut compared.reasons, &name);
        }
    }
}

/// The number of the kind of a reason's atom, for a request that is not refused.
fn kind_asked_for(request: &Request) -> usize {
    let atoms = read(&request.file).map_or(Vec::new(), |plan| plan.atoms);
    match atoms[usize::from(request.atom) - 1].kind {
        Kind::Reaches => 1,
        Kind::Within(_) => 2,
        Kind::LengthAtMost(_) => 3,
    }
}

fn answer_name(line: &str) -> String {
    let mut words = line.split(' ');
    match words.next() {
        Some("refused") => format!("refused {}", words.next().unwrap_or("")),
        name => name.unwrap_or("").to_string(),
    }
}

/// Cut off, more than a request may ask for, or no call's number.
fn bad_request(random: &mut Random) -> Vec<u8> {
    let good = Request::read(crate::sample::bytes()).to_bytes();
    let too_long = (MOST_FILE_BYTES as u16 + 1).to_be_bytes();
    let too_large = (MOST_ROOM as u16 + 1).to_be_bytes();
    match random.below(5) {
        0 => good[..random.between(1, good.len() - 1)].to_vec(),
        1 => [&good[..1], &too_long, &vec![0; MOST_FILE_BYTES + 20]].concat(),
        2 => [&good[..good.len() - 2], &too_large].concat(),
        3 => [&[random.pick(&[0, 9, 255])], &good[1..]].concat(),
        _ => Vec::new(),
    }
}

/// The lines of `linkcalls` for a batch, once they are what the reference expects.
pub fn run(programs: &Programs, batch: &[Request], bad: &[u8]) -> Result<Vec<String>, String> {
    let mut expected: Vec<String> = batch.iter().map(line).collect();
    if !bad.is_empty() {
        expected.push(BAD_REQUEST.into());
    }
    let input = [stream(batch), bad.to_vec()].concat();
    let printed = programs.run("linkcalls", &input)?;
    let printed = String::from_utf8_lossy(&printed);
    if printed == expected.join("\n") + "\n" || printed.is_empty() && expected.is_empty() {
        return Ok(expected);
    }
    Err(first_difference(programs, batch, bad, &expected, &printed)?)
}

/// Shows the one request whose line differs, not the whole batch.
fn first_difference(
    programs: &Programs,
    batch: &[Request],
    bad: &[u8],
    expected: &[String],
    printed: &str,
) -> Result<String, String> {
    let lines: Vec<&str> = printed.lines().collect();
    let same = |k: &usize| expected.get(*k).map(String::as_str) == lines.get(*k).copied();
    let place = (0..=expected.len()).find(|k| !same(k)).unwrap_or(0);
    let input = batch.get(place).map_or(bad.to_vec(), Request::to_bytes);
    let said = expected.get(place).map_or("", String::as_str);
    let got = lines.get(place).copied().unwrap_or("");
    programs.difference(
        "linkcalls",
        &input,
        format!("{said}\n").as_bytes(),
        format!("{got}\n").as_bytes(),
    )
}
