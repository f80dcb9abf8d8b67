//! A case: a name, and what is done and judged under it.
use super::bench::Bench;
use super::judge::Expected;
use super::run::run;
use super::setup::Setup;

/// What a case gave.
#[derive(Clone, Debug, PartialEq, Eq)]
pub enum Outcome {
    /// All was as it must be: what it was, in short.
    Right(String),
    /// Something was not: what was expected and what was seen.
    Wrong(String),
    /// This machine cannot run it, and why.
    Skipped(String),
}

/// A case: its name, and the check.
pub struct Case {
    pub name: String,
    check: Box<dyn Fn(&Bench) -> Outcome>,
}

impl Case {
    /// A case with a check of its own.
    pub fn new(name: impl Into<String>, check: impl Fn(&Bench) -> Outcome + 'static) -> Case {
        Case { name: name.into(), check: Box::new(check) }
    }

    /// A case of one run.
    pub fn one(name: impl Into<String>, setup: Setup, expected: Expected) -> Case {
        Case::new(name, move |bench| match tried(bench, &setup, &expected) {
            Ok(short) => Outcome::Right(short),
            Err(account) => Outcome::Wrong(account),
        })
    }

    /// A case of several runs, each of which has a name; `short` says what they give if all are right.
    pub fn several(name: impl Into<String>, short: &'static str, runs: Vec<(String, Setup, Expected)>) -> Case {
        Case::new(name, move |bench| {
            for (each, setup, expected) in &runs {
                if let Err(account) = tried(bench, setup, expected) {
                    return Outcome::Wrong(format!("{each}: {account}"));
                }
            }
            Outcome::Right(format!("{} runs, {short}", runs.len()))
        })
    }

    /// A case of one run on a log, whose text must come.
    pub fn text(name: impl Into<String>, setup: Setup, bytes: &[u8]) -> Case {
        Case::one(name, setup, Expected::text(bytes))
    }

    /// Tries the case.
    pub fn outcome(&self, bench: &Bench) -> Outcome {
        (self.check)(bench)
    }
}

/// Runs the program and judges the run; a run that could not be made is wrong too.
pub fn tried(bench: &Bench, setup: &Setup, expected: &Expected) -> Result<String, String> {
    let seen = run(bench, setup).map_err(|error| format!("the run could not be made: {error}"))?;
    expected.judge(setup, &seen)
}
