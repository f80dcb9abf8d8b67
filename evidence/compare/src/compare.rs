//! The comparison: all classes in turn, a share of each at a time, until the budget is used or a difference is found.
use crate::cases::{cases, run_case, Run};
use crate::counts::{Class, Counts};
use crate::difference::{Account, Difference};
use crate::pair::{Checked, Pair};
use crate::states::Pool;
use interface::Implementation;
use std::ops::Range;
use std::panic::{catch_unwind, AssertUnwindSafe};
use std::time::Instant;

/// The shares into which the cases of each class are divided, so that each class has its turn early.
const SHARES: u64 = 200;

/// The order in which the classes have their turn: those whose cases take long come last.
const TURNS: [Class; 20] = [
    Class::Numbers,
    Class::Strings,
    Class::Records,
    Class::Broken,
    Class::BrokenTwice,
    Class::Short,
    Class::Random,
    Class::Valid,
    Class::Made,
    Class::Sequences,
    Class::Logs,
    Class::Cuts,
    Class::Filled,
    Class::Wide,
    Class::Overlong,
    Class::LongLogs,
    Class::LongReplays,
    Class::ManyEvents,
    Class::DemandDrawn,
    Class::Demand,
];

/// The cases of a class that stand in this share; the short lists come to their end early, and those whose cases take long begin later.
fn cases_of(class: Class, inputs: u64, share: u64) -> Range<u64> {
    let (first, shares) = match class {
        Class::Numbers => (0, SHARES / 10),
        Class::Filled => (4, SHARES / 5),
        Class::LongLogs | Class::Overlong => (6, SHARES / 5),
        Class::Wide | Class::LongReplays => (8, SHARES / 5),
        Class::ManyEvents => (20, SHARES / 5),
        Class::DemandDrawn => (0, SHARES / 4),
        Class::Strings | Class::Broken => (0, SHARES / 2),
        _ => (0, SHARES),
    };
    let all = cases(class, inputs);
    let up_to = |share: u64| (all * share.saturating_sub(first).min(shares)).div_ceil(shares);
    up_to(share)..up_to(share + 1)
}

/// Gives both implementations the same inputs, and answers what was seen, or the first difference; not to have seen an answer that must be seen is one too.
pub fn compare(a: &dyn Implementation, b: &dyn Implementation, inputs: u64, seed: u64) -> Result<Counts, Difference> {
    let counts = compare_on(&Pool::new(a, seed), a, b, inputs, seed)?;
    let unreached = counts.missing();
    if unreached.is_empty() {
        return Ok(counts);
    }
    Err(Box::new(Account { seed, unreached, ..Account::default() }))
}

/// The same on a pool of valid states that may be used again, whatever was seen.
pub fn compare_on<'a>(pool: &'a Pool<'a>, a: &'a dyn Implementation, b: &'a dyn Implementation, inputs: u64, seed: u64) -> Result<Counts, Difference> {
    compare_classes(&TURNS, pool, [a, b], inputs, seed)
}

/// The same with these classes alone.
pub fn compare_classes<'a>(classes: &[Class], pool: &'a Pool<'a>, [a, b]: [&'a dyn Implementation; 2], inputs: u64, seed: u64) -> Result<Counts, Difference> {
    let mut run = Run::new(Pair::new(a, b, seed), pool);
    for share in 0..SHARES {
        for class in classes.iter().copied() {
            let begin = Instant::now();
            for case in cases_of(class, inputs, share) {
                guarded(&mut run, class, case, seed)?;
            }
            run.pair.counts.time[class as usize] += begin.elapsed().as_nanos() as u64;
        }
    }
    Ok(run.pair.counts)
}

/// Runs one case again.
pub fn compare_case(a: &dyn Implementation, b: &dyn Implementation, class: Class, case: u64, seed: u64) -> Result<Counts, Difference> {
    let pool = Pool::new(a, seed);
    let mut run = Run::new(Pair::new(a, b, seed), &pool);
    guarded(&mut run, class, case, seed)?;
    Ok(run.pair.counts)
}

/// Runs one case; an implementation that gives up in it is a difference too.
fn guarded(run: &mut Run, class: Class, case: u64, seed: u64) -> Checked<()> {
    match catch_unwind(AssertUnwindSafe(|| run_case(run, class, case, seed))) {
        Ok(result) => result,
        Err(_) => Err(run.pair.stopped()),
    }
}

#[cfg(test)]
mod tests {
    use super::*;
    use crate::counts::{case_of, CLASSES};
    use crate::faults::faults;
    use crate::wrapper::Faulty;
    use reference::Reference;

    /// An implementation agrees with itself, and the inputs of a small run reach every answer that must be seen; those of a tiny one do not.
    #[test]
    #[cfg_attr(debug_assertions, ignore = "takes long without optimisation: cargo test --release")]
    fn agrees_with_itself_and_reaches_all() {
        let counts = compare(&Reference, &Reference, 6_000, 1).unwrap_or_else(|difference| panic!("{difference}"));
        assert!(counts.all() > 300_000);
        let tiny = compare(&Reference, &Reference, 1, 1).expect_err("a run that is too small");
        assert!(!tiny.unreached.is_empty());
    }

    /// The case that a difference names shows the same difference when it is run again by itself.
    #[test]
    fn a_case_can_be_run_again() {
        for fault in faults().iter().step_by(37) {
            let pool = Pool::new(&Reference, 9);
            let wrong = Faulty::new(&Reference, fault.hooks, fault.scope, fault.aim);
            let found = compare_on(&pool, &Reference, &wrong, 6_000, 9).expect_err(&fault.name);
            let (class, case) = case_of(&found.case).expect("the name of a case");
            let wrong = Faulty::new(&Reference, fault.hooks, fault.scope, fault.aim);
            let again = compare_case(&Reference, &wrong, class, case, 9).expect_err(&fault.name);
            assert_eq!(again.to_string(), found.to_string());
        }
    }

    /// Every class has its turn.
    #[test]
    fn every_class_has_its_turn() {
        assert!(CLASSES.iter().all(|class| TURNS.contains(class)));
    }

    /// The shares of a class together are all its cases, each once and in order.
    #[test]
    fn shares_are_the_whole() {
        for (class, inputs) in CLASSES.into_iter().flat_map(|class| [1, 150, 7_777].map(|inputs| (class, inputs))) {
            let all: Vec<u64> = (0..SHARES).flat_map(|share| cases_of(class, inputs, share)).collect();
            assert_eq!(all, (0..cases(class, inputs)).collect::<Vec<u64>>());
        }
    }
}
