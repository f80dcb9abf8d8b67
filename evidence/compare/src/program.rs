//! The program `tally` run as a program: on logs, files, arguments and failures of the system, each run with a limit of
//! time.
pub mod arguments;
pub mod bench;
pub mod case;
pub mod failing;
pub mod files;
pub mod judge;
pub mod logs;
pub mod reading;
pub mod report;
pub mod run;
pub mod setup;
#[cfg(test)]
mod tests;
pub mod writing;
pub mod wrong;

use bench::Bench;
use case::{Case, Outcome};

/// All cases.
pub fn cases() -> Vec<Case> {
    let kinds =
        [reading::cases(), failing::cases(), writing::cases(), files::cases(), arguments::cases(), report::cases()];
    kinds.into_iter().flatten().collect()
}

/// How many cases were run and how many of them were wrong; those that this machine cannot run are in neither.
#[derive(Clone, Copy, Debug, Default, PartialEq, Eq)]
pub struct Counts {
    pub run: usize,
    pub wrong: usize,
    pub skipped: usize,
}

/// Runs all cases, says a line for each, and counts them.
pub fn run_all(bench: &Bench, cases: &[Case], say: &mut dyn FnMut(String)) -> Counts {
    let mut counts = Counts::default();
    for case in cases {
        let outcome = case.outcome(bench);
        match &outcome {
            Outcome::Skipped(_) => counts.skipped += 1,
            Outcome::Wrong(_) => counts.wrong += 1,
            Outcome::Right(_) => {}
        }
        say(match outcome {
            Outcome::Right(short) => format!("{}: {short}", case.name),
            Outcome::Wrong(account) => format!("WRONG: {}: {account}", case.name),
            Outcome::Skipped(why) => format!("skipped: {}: {why}", case.name),
        });
    }
    counts.run = cases.len() - counts.skipped;
    counts
}

/// The first case that finds something wrong, with what it says.
pub fn first_wrong<'a>(bench: &Bench, cases: &'a [Case]) -> Option<(&'a Case, String)> {
    cases.iter().find_map(|case| match case.outcome(bench) {
        Outcome::Wrong(account) => Some((case, account)),
        Outcome::Right(_) | Outcome::Skipped(_) => None,
    })
}
