//! Stock solvers, where there are any: DIMACS in, their own form of answer out.

use super::process::write_below;
use super::Settings;
use std::env;
use std::fs;
use std::path::PathBuf;
use std::process::Command;

pub struct Stock {
    pub name: String,
    folder: PathBuf,
}

impl Stock {
    /// Those that are on the path.
    pub fn all(settings: &Settings) -> Vec<Stock> {
        let path = env::var_os("PATH").unwrap_or_default();
        let there = |name: &&str| env::split_paths(&path).any(|folder| folder.join(name).is_file());
        let stock = |name: &str| Stock {
            name: name.into(),
            folder: settings.out.clone(),
        };
        ["minisat", "cadical"]
            .into_iter()
            .filter(there)
            .map(stock)
            .collect()
    }

    pub fn solve(
        &self,
        variables: usize,
        clauses: &[Vec<i32>],
    ) -> Result<Option<Vec<bool>>, String> {
        let answer = self.ask(dimacs(variables, clauses).as_bytes())?;
        Ok(answer.map(|answer| model(variables, &answer)))
    }

    /// What the solver prints where it finds a model of a text; an error where it
    /// cannot read the text, or finds other counts in it than its `p` line's.
    pub fn ask(&self, text: &[u8]) -> Result<Option<String>, String> {
        let question = self.folder.join("stock.cnf");
        let answer = self.folder.join("stock.answer");
        write_below(&self.folder, &question, text)?;
        let mut command = Command::new(&self.name);
        match self.name.as_str() {
            "minisat" => command.arg("-verb=0").arg(&question).arg(&answer),
            _ => command.arg("-q").arg(&question),
        };
        let output = command.output().map_err(|error| error.to_string())?;
        let complaint = String::from_utf8_lossy(&output.stderr);
        if complaint.contains("header mismatch") {
            return Err(format!("{}: {complaint}", self.name));
        }
        // Both solvers end with 10 for a model and with 20 for none.
        match (output.status.code(), self.name.as_str()) {
            (Some(10), "minisat") => fs::read_to_string(&answer)
                .map(Some)
                .map_err(|error| error.to_string()),
            (Some(10), _) => Ok(Some(String::from_utf8_lossy(&output.stdout).into_owned())),
            (Some(20), _) => Ok(None),
            _ => Err(format!(
                "{} ended with {}: {complaint}",
                self.name, output.status
            )),
        }
    }
}

fn dimacs(variables: usize, clauses: &[Vec<i32>]) -> String {
    let mut text = format!("p cnf {variables} {}\n", clauses.len());
    for clause in clauses {
        clause
            .iter()
            .for_each(|literal| text += &format!("{literal} "));
        text += "0\n";
    }
    text
}

/// The positive numbers of an answer; a variable it does not name is off.
fn model(variables: usize, text: &str) -> Vec<bool> {
    let mut model = vec![false; variables];
    for number in text
        .split_whitespace()
        .filter_map(|word| word.parse::<usize>().ok())
    {
        if number > 0 {
            model[number - 1] = true;
        }
    }
    model
}
