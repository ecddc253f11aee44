//! Running a program on some bytes.

use super::Settings;
use std::fs;
use std::io::Write;
use std::path::{Path, PathBuf};
use std::process::{Command, Output, Stdio};
use std::thread;

/// The programs that are compared.
const NAMES: [&str; 5] = [
    "linkplan",
    "linkcnf",
    "linkcalls",
    "linkdimacs",
    "linkrules",
];

pub struct Programs {
    folder: PathBuf,
    prefix: Vec<String>,
    out: PathBuf,
}

impl Programs {
    pub fn find(settings: &Settings) -> Result<Programs, String> {
        for name in NAMES {
            let path = settings.programs.join(name);
            if !path.is_file() {
                return Err(format!("there is no program {}\n", path.display()));
            }
        }
        Ok(Programs {
            folder: settings.programs.clone(),
            prefix: settings.prefix.clone(),
            out: settings.out.clone(),
        })
    }

    /// What a program prints for some bytes on standard input.
    pub fn run(&self, name: &str, input: &[u8]) -> Result<Vec<u8>, String> {
        let output = self.output(name, &[], input)?;
        eprint!("{}", String::from_utf8_lossy(&output.stderr));
        Ok(output.stdout)
    }

    /// Both outputs of a program.
    pub fn output(&self, name: &str, arguments: &[&str], input: &[u8]) -> Result<Output, String> {
        let mut words = self.prefix.clone();
        words.push(self.folder.join(name).display().to_string());
        let mut command = Command::new(&words[0]);
        let output = feed(command.args(&words[1..]).args(arguments), input)
            .map_err(|error| format!("{name} does not run: {error}\n"))?;
        if output.status.code().is_none() {
            let shown = self.show("input", input)?;
            return Err(format!(
                "{name} was killed ({}), input in {shown}\n",
                output.status
            ));
        }
        Ok(output)
    }

    /// A program has to print this and to say nothing on standard error.
    pub fn expect(
        &self,
        name: &str,
        arguments: &[&str],
        input: &[u8],
        expected: &[u8],
    ) -> Result<(), String> {
        let output = self.output(name, arguments, input)?;
        let printed = [output.stdout, output.stderr].concat();
        if printed == expected {
            return Ok(());
        }
        Err(self.difference(name, input, expected, &printed)?)
    }

    /// Keeps a file where a program finds it by its name, which is returned.
    pub fn keep(&self, name: &str, bytes: &[u8]) -> Result<String, String> {
        let path = self.out.join(name);
        write_below(&self.out, &path, bytes)?;
        Ok(path.display().to_string())
    }

    /// Keeps the first difference where it can be looked at, and says where.
    pub fn difference(
        &self,
        name: &str,
        input: &[u8],
        expected: &[u8],
        printed: &[u8],
    ) -> Result<String, String> {
        let input = self.show("input", input)?;
        let expected = self.show("expected", expected)?;
        let printed = self.show("printed", printed)?;
        Ok(format!(
            "{name} differs from the reference\n  input    {input}\n  expected {expected}\n  printed  {printed}\n"
        ))
    }

    fn show(&self, what: &str, bytes: &[u8]) -> Result<String, String> {
        self.keep(&format!("difference.{what}"), bytes)
    }
}

pub fn write_below(folder: &Path, path: &Path, bytes: &[u8]) -> Result<(), String> {
    fs::create_dir_all(folder)
        .and_then(|()| fs::write(path, bytes))
        .map_err(|error| format!("{}: {error}\n", path.display()))
}

/// Input is written beside the reading, since either pipe may fill up.
fn feed(command: &mut Command, input: &[u8]) -> std::io::Result<Output> {
    let mut child = command
        .stdin(Stdio::piped())
        .stdout(Stdio::piped())
        .stderr(Stdio::piped())
        .spawn()?;
    let mut pipe = child.stdin.take().expect("standard input is a pipe");
    thread::scope(|scope| {
        // A program may stop reading early, as it does at a bad request.
        scope.spawn(move || pipe.write_all(input).ok());
        child.wait_with_output()
    })
}
