//! What the comparison is asked to do. Uses the names of the groups.

use super::groups::GROUPS;
use std::path::PathBuf;
use std::time::Duration;

/// How much of each random group is done.
#[derive(Clone, Copy, PartialEq, Eq, Debug)]
pub enum Amount {
    /// All groups together take about so long.
    Seconds(u64),
    /// So many cases of each.
    Cases(u64),
}

#[derive(Clone, PartialEq, Eq, Debug)]
pub struct Options {
    pub seed: u64,
    pub amount: Amount,
    pub only: Vec<String>,
    pub skip: Vec<String>,
    pub case: Option<u64>,
    pub first: bool,
    pub program: PathBuf,
    pub selftest: bool,
    pub list: bool,
}

pub const USAGE: &str = "\
compare [--seconds N | --cases N] [--seed N] [--group NAME].. [--skip NAME].. [--case N] [--first] [--program PATH]
        --first stops at the first group that fails
compare --selftest    the second implementation against the documents' numbers; needs no archive
compare --list        the groups
The last line is 'N passed, M failed', counting groups that ran; the exit status is 0 only if M is 0.";

impl Default for Options {
    fn default() -> Options {
        Options {
            seed: 1,
            amount: Amount::Seconds(60),
            only: Vec::new(),
            skip: Vec::new(),
            case: None,
            first: false,
            program: PathBuf::from("target/bin/hop_program"),
            selftest: false,
            list: false,
        }
    }
}

impl Options {
    pub fn read(mut words: impl Iterator<Item = String>) -> Result<Options, String> {
        let mut options = Options::default();
        while let Some(word) = words.next() {
            let mut value = || words.next().ok_or(format!("{word} needs a value"));
            match word.as_str() {
                "--seed" => options.seed = number(&value()?)?,
                "--seconds" => options.amount = Amount::Seconds(number(&value()?)?),
                "--cases" => options.amount = Amount::Cases(number(&value()?)?),
                "--case" => options.case = Some(number(&value()?)?),
                "--group" => options.only.push(named(value()?)?),
                "--skip" => options.skip.push(named(value()?)?),
                "--program" => options.program = PathBuf::from(value()?),
                "--first" => options.first = true,
                "--selftest" => options.selftest = true,
                "--list" => options.list = true,
                _ => return Err(format!("{word} is not known")),
            }
        }
        Ok(options)
    }

    pub fn takes(&self, group: &str) -> bool {
        let in_list = |list: &[String]| list.iter().any(|name| name == group);
        (self.only.is_empty() || in_list(&self.only)) && !in_list(&self.skip)
    }

    pub fn time(&self) -> Duration {
        match self.amount {
            Amount::Seconds(seconds) => Duration::from_secs(seconds),
            Amount::Cases(_) => Duration::ZERO,
        }
    }

    /// The command that does a part again.
    pub fn command(&self, part: &str) -> String {
        let program = match *self == (Options { program: Options::default().program, ..self.clone() }) {
            true => String::new(),
            false => format!(" --program {}", self.program.display()),
        };
        format!("make compare COMPARE='--seed {} {part}{program}'", self.seed)
    }
}

fn number(word: &str) -> Result<u64, String> {
    word.parse().map_err(|_| format!("{word} is not a number"))
}

fn named(name: String) -> Result<String, String> {
    if GROUPS.iter().any(|group| group.name == name) { Ok(name) } else { Err(format!("there is no group {name}")) }
}
