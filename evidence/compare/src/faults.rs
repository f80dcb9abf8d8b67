//! Wrong implementations, each wrong in one way, and the check that the comparison finds every one of them.
use crate::compare::compare_on;
use crate::states::Pool;
use crate::wrapper::{Aim, Faulty, Hooks, Scope};
use interface::Implementation;

mod bytes;
mod clauses;
mod demand;
mod events;
mod overruns;
pub mod programs;
mod questions;
mod strict;
mod texts;
mod widths;

/// A way to be wrong: its name, the calls that are wrong, and where they are used.
#[derive(Clone)]
pub struct Fault {
    pub name: String,
    pub hooks: Hooks,
    pub scope: Scope,
    pub aim: Aim,
}

/// Faults as they are written down: name, where used, the wrong calls.
type Written = (&'static str, &'static [Scope], Hooks);

/// Used as a call of its own.
const CALLS: &[Scope] = &[Scope::Calls];
/// Used as a call of its own, within a replay and within `tally`.
const ALL: &[Scope] = &[Scope::Calls, Scope::Replay, Scope::Tally];
/// Used within a replay and within `tally`.
const RUNS: &[Scope] = &[Scope::Replay, Scope::Tally];
/// Used as a call of its own and within a replay, where the storage is the caller's.
const REPLAY: &[Scope] = &[Scope::Calls, Scope::Replay];
/// Used within a replay alone.
const REPLAY_ALONE: &[Scope] = &[Scope::Replay];
/// Used within `tally`.
const TALLY: &[Scope] = &[Scope::Tally];

/// The faults that a written one stands for, one for each place of use.
fn of_written((name, scopes, hooks): Written) -> Vec<Fault> {
    let named = |scope: &Scope| match scope {
        Scope::Calls => name.to_string(),
        Scope::Replay => format!("{name}, in replay"),
        Scope::Tally => format!("{name}, in tally"),
    };
    scopes.iter().map(|scope| Fault { name: named(scope), hooks, scope: *scope, aim: Aim::default() }).collect()
}

/// All faults.
pub fn faults() -> Vec<Fault> {
    let written = [events::written(), questions::written(), bytes::written(), widths::written(), texts::written()].concat();
    let mut list: Vec<Fault> = written.into_iter().flat_map(of_written).collect();
    list.extend(clauses::aimed());
    list.extend(strict::aimed());
    list.extend(overruns::aimed());
    list
}

/// The faults that are given to both sides alike, so that only the paper's own sentence, its rules and demand 3 can find
/// them.
pub fn shared() -> Vec<Fault> {
    let about_sets = events::about_sets().into_iter().flat_map(of_written).filter(|fault| fault.scope != Scope::Tally);
    about_sets.chain(about_joining()).collect()
}

/// Those of them that only demand 3 can find.
fn about_joining() -> impl Iterator<Item = Fault> {
    demand::written().into_iter().flat_map(of_written)
}

/// What the search for faults is given: the right implementation, the inputs that are drawn, the seed, and whether both sides get the fault.
#[derive(Clone, Copy)]
pub struct Search<'a> {
    pub right: &'a (dyn Implementation + Sync),
    pub inputs: u64,
    pub seed: u64,
    pub both: bool,
}

/// Looks for one fault: the line that tells what found it, and whether it was found.
fn look_for(search: &Search, pool: &Pool, fault: &Fault) -> (String, bool) {
    let wrong = || Faulty::new(search.right, fault.hooks, fault.scope, fault.aim);
    let (first, second) = (wrong(), wrong());
    let first: &dyn Implementation = if search.both { &first } else { search.right };
    match compare_on(pool, first, &second, search.inputs, search.seed) {
        Err(difference) if !difference.stopped => {
            let arguments: String = difference.arguments.chars().take(100).collect();
            (format!("found: {} by {}, {}: {arguments}", fault.name, difference.case, difference.call), true)
        }
        Err(difference) => (format!("NOT FOUND: {} stopped at case {}", fault.name, difference.case), false),
        Ok(_) => (format!("NOT FOUND: {}", fault.name), false),
    }
}

/// Compares with each fault, in two threads, says for each which input found it, and answers how many were found.
pub fn find_all(search: Search, list: &[Fault], say: &mut dyn FnMut(String)) -> usize {
    let half = |begin: usize| {
        let pool = Pool::new(search.right, search.seed);
        list.iter().skip(begin).step_by(2).map(|fault| look_for(&search, &pool, fault)).collect::<Vec<_>>()
    };
    let halves = std::thread::scope(|scope| {
        let other = scope.spawn(|| half(1));
        [half(0), other.join().unwrap_or_default()]
    });
    let mut halves = halves.map(Vec::into_iter);
    let mut found = 0;
    for place in 0..list.len() {
        let (line, was) = halves[place % 2].next().unwrap_or_else(|| (format!("NOT FOUND: {}, the search broke off", list[place].name), false));
        found += usize::from(was);
        say(line);
    }
    found
}

#[cfg(test)]
mod tests {
    use super::*;
    use crate::compare::compare_classes;
    use crate::counts::Class;
    use crate::wrapper::RIGHT;
    use fast::Fast;
    use reference::Reference;
    use std::collections::HashSet;

    /// The inputs with which the tests look for a difference.
    const INPUTS: u64 = 6_000;

    /// A wrapper that is wrong nowhere is not found, wherever its calls are used.
    #[test]
    #[cfg_attr(debug_assertions, ignore = "takes minutes without optimisation: cargo test --release")]
    fn nothing_wrong_is_not_found() {
        for scope in ALL {
            let right = Faulty::new(&Fast, RIGHT, *scope, Aim::default());
            let pool = Pool::new(&Fast, 1);
            if let Err(difference) = compare_on(&pool, &Fast, &right, INPUTS, 1) {
                panic!("{scope:?}: {difference}");
            }
        }
    }

    /// Every fault is found.
    #[test]
    #[cfg_attr(debug_assertions, ignore = "takes minutes without optimisation: cargo test --release")]
    fn every_fault_is_found() {
        let list = faults();
        let mut lines = Vec::new();
        let search = Search { right: &Fast, inputs: INPUTS, seed: 1, both: false };
        let found = find_all(search, &list, &mut |line| lines.push(line));
        lines.retain(|line| line.starts_with("NOT FOUND"));
        assert!(lines.is_empty(), "{}", lines.join("\n"));
        assert_eq!(found, list.len());
    }

    /// With the same fault on both sides the comparison still ends with a difference, and for one of propagation it is the paper's sentence that tells it.
    #[test]
    #[cfg_attr(debug_assertions, ignore = "takes minutes without optimisation: cargo test --release")]
    fn a_fault_on_both_sides_is_found() {
        let list = shared();
        let search = Search { right: &Fast, inputs: INPUTS, seed: 1, both: true };
        let mut lines = Vec::new();
        assert_eq!(find_all(search, &list, &mut |line| lines.push(line)), list.len(), "{}", lines.join("\n"));
        for fault in list.iter().filter(|fault| fault.name.contains("200 passes") || fault.name.contains("copied again") || fault.name.contains("refreshed")) {
            let sides = [0, 1].map(|_| Faulty::new(&Fast, fault.hooks, fault.scope, fault.aim));
            let found = compare_on(&Pool::new(&Fast, 1), &sides[0], &sides[1], INPUTS, 1).expect_err(&fault.name);
            assert!(found.first == found.second && found.place.contains("the paper's sentence"), "{}: {found}", fault.name);
        }
    }

    /// The classes that make calls one by one on valid trackers, without those of demand 3.
    const ONE_BY_ONE: [Class; 5] = [Class::Valid, Class::Sequences, Class::Filled, Class::Wide, Class::Made];

    /// A call that is wrong about which events join is missed on both sides by the classes before, and found by demand 3.
    #[test]
    #[cfg_attr(debug_assertions, ignore = "takes minutes without optimisation: cargo test --release")]
    fn only_demand_3_finds_what_joins() {
        let pool = Pool::new(&Fast, 1);
        for fault in about_joining().filter(|fault| fault.scope == Scope::Calls) {
            let sides = [0, 1].map(|_| Faulty::new(&Fast, fault.hooks, fault.scope, fault.aim));
            let compared = |classes: &[Class]| compare_classes(classes, &pool, [&sides[0], &sides[1]], 2_000, 1);
            if let Err(difference) = compared(&ONE_BY_ONE) {
                panic!("{} is found without demand 3: {difference}", fault.name);
            }
            assert!(compared(&[Class::Demand]).is_err(), "{} is not found", fault.name);
        }
    }

    /// A text that is wrong only from 4,096 events on is missed by the other classes of logs, and found by that of many
    /// events.
    #[test]
    #[cfg_attr(debug_assertions, ignore = "takes minutes without optimisation: cargo test --release")]
    fn only_many_events_find_what_shows_late() {
        let logs = [Class::Logs, Class::Cuts, Class::LongLogs, Class::Wide, Class::Overlong, Class::LongReplays, Class::DemandDrawn];
        let pool = Pool::new(&Fast, 1);
        for fault in texts::many_events().into_iter().flat_map(of_written) {
            let wrong = Faulty::new(&Fast, fault.hooks, fault.scope, fault.aim);
            let compared = |classes: &[Class]| compare_classes(classes, &pool, [&Fast, &wrong], 2_000, 1);
            if let Err(difference) = compared(&logs) {
                panic!("{} is found without many events: {difference}", fault.name);
            }
            assert!(compared(&[Class::ManyEvents]).is_err(), "{} is not found", fault.name);
        }
    }

    /// A ranking that two implementations have wrong alike, as two of one algorithm may, is missed between them and found
    /// beside the plain reference, which has another.
    #[test]
    fn wrong_alike_is_found_beside_the_reference() {
        let pool = Pool::new(&Fast, 1);
        let rankings = faults().into_iter().filter(|fault| fault.name.starts_with("ranking ") && fault.scope == Scope::Calls);
        let met = rankings.map(|fault| {
            let alike = [0, 1].map(|_| Faulty::new(&Fast, fault.hooks, fault.scope, fault.aim));
            let compared = |first| compare_classes(&[Class::Valid], &pool, [first, &alike[1]], 500, 1);
            assert!(compared(&alike[0]).is_ok(), "{} is found where both have it", fault.name);
            assert!(compared(&Reference).is_err(), "{} is not found beside the reference", fault.name);
        });
        assert_eq!(met.count(), 3);
    }

    /// No two faults have the same name.
    #[test]
    fn names_differ() {
        let list = faults();
        let names: HashSet<&str> = list.iter().map(|fault| fault.name.as_str()).collect();
        assert_eq!(names.len(), list.len());
    }
}
