//! The reference as a program: see `USAGE`.

use reference::protocol::Request;
use reference::{compare, generate, programs, protocol, selftest, stored};
use std::collections::HashMap;
use std::fs;
use std::io::{self, Read, Write};
use std::process::ExitCode;

const USAGE: &str = "\
usage: reference COMMAND
  answers                      requests on standard input, the expected lines on standard output
  linkplan                     a plan file on standard input, what linkplan prints on standard output
  linkcnf                      a plan file on standard input, what linkcnf prints on standard output
  linkdimacs                   a plan file on standard input, what linkdimacs prints on standard output
  linkrules FILE               house rules on standard input, what linkrules prints on standard output
  requests [--seed S] [--count N] [--largest BYTES]
                               a drawn request stream on standard output
  survey [--seed S] [--files N]
                               what the generators draw, sort by sort
  selftest [--seed S] [--files N]
                               the reference against brute force and the SAT solver
  stored DIR                   the stored plan files and their index.txt into DIR
  read-requests DIR            the files named in DIR/index.txt as one request stream
  call-requests                the stored request stream over all eight calls
  compare --programs DIR [--run PREFIX] [--seed S] [--files N] [--calls N]
          [--single N] [--sat N] [--solved N] [--out DIR]
                               the programs in DIR against the reference
";

fn main() -> ExitCode {
    let arguments: Vec<String> = std::env::args().skip(1).collect();
    let words: Vec<&str> = arguments.iter().map(String::as_str).collect();
    let done = match words.as_slice() {
        ["answers"] => print(protocol::answers(&input()).as_bytes()),
        ["linkplan"] => print(programs::linkplan(&input()).as_bytes()),
        ["linkcnf"] => print(programs::linkcnf(&input()).as_bytes()),
        ["linkdimacs"] => print(programs::linkdimacs(&input()).as_bytes()),
        ["linkrules", file] => fs::read(file)
            .map_err(said)
            .and_then(|file| print(&programs::linkrules(&file, &input()))),
        ["requests", options @ ..] => Options::of(options).and_then(requests),
        ["survey", options @ ..] => Options::of(options).and_then(survey),
        ["selftest", options @ ..] => Options::of(options).and_then(self_test),
        ["stored", folder] => stored::write_files(folder.as_ref()).map_err(said),
        ["read-requests", folder] => stream(stored::requests(folder.as_ref())),
        ["call-requests"] => stream(stored::calls::requests()),
        ["compare", options @ ..] => Options::of(options).and_then(compare_programs),
        _ => Err(USAGE.into()),
    };
    reference::ended(done)
}

fn said(error: io::Error) -> String {
    format!("{error}\n")
}

fn input() -> Vec<u8> {
    let mut bytes = Vec::new();
    io::stdin()
        .lock()
        .read_to_end(&mut bytes)
        .expect("standard input can be read");
    bytes
}

fn print(bytes: &[u8]) -> Result<(), String> {
    io::stdout().lock().write_all(bytes).map_err(said)
}

fn stream(requests: io::Result<Vec<Request>>) -> Result<(), String> {
    print(&protocol::stream(&requests.map_err(said)?))
}

/// `--name value` pairs.
struct Options(HashMap<String, String>);

impl Options {
    fn of(words: &[&str]) -> Result<Options, String> {
        let mut options = HashMap::new();
        for pair in words.chunks(2) {
            match pair {
                [name, value] if name.starts_with("--") => {
                    options.insert(name[2..].to_string(), value.to_string());
                }
                _ => return Err(USAGE.into()),
            }
        }
        Ok(Options(options))
    }

    fn number(&self, name: &str, default: u64) -> Result<u64, String> {
        match self.0.get(name) {
            None => Ok(default),
            Some(text) => text
                .parse()
                .map_err(|_| format!("--{name} {text} is no number\n")),
        }
    }

    fn count(&self, name: &str, default: usize) -> Result<usize, String> {
        self.number(name, default as u64)
            .map(|number| number as usize)
    }

    fn text(&self, name: &str, default: &str) -> String {
        self.0.get(name).map_or(default, String::as_str).to_string()
    }
}

fn requests(options: Options) -> Result<(), String> {
    let seed = options.number("seed", 1)?;
    let count = options.count("count", 300)?;
    let largest = options.count("largest", protocol::MOST_FILE_BYTES)?;
    print(&protocol::stream(&generate::requests::requests(
        generate::draw,
        seed,
        count,
        largest,
    )))
}

fn survey(options: Options) -> Result<(), String> {
    let seed = options.number("seed", 1)?;
    print(generate::survey::survey(seed, options.count("files", 300)?).as_bytes())
}

fn self_test(options: Options) -> Result<(), String> {
    let seed = options.number("seed", 1)?;
    print(selftest::run(seed, options.count("files", 2_000)?).as_bytes())
}

fn compare_programs(options: Options) -> Result<(), String> {
    let programs = options.text("programs", "");
    if programs.is_empty() {
        return Err(USAGE.into());
    }
    compare::run(&compare::Settings {
        programs: programs.into(),
        prefix: options
            .text("run", "")
            .split_whitespace()
            .map(String::from)
            .collect(),
        seed: options.number("seed", 1)?,
        files: options.count("files", 5_000)?,
        calls: options.count("calls", 28_000)?,
        single: options.count("single", 300)?,
        sat: options.count("sat", 500)?,
        solved: options.count("solved", 200)?,
        out: options.text("out", "target/compare").into(),
    })
}
