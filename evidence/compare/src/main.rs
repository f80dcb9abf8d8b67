//! The program `compare`: the two implementations on many inputs, or one implementation against wrong ones made from it.
#![forbid(unsafe_code)]

use compare::compare::{compare, compare_case, compare_on};
use compare::counts::{case_of, Class};
use compare::faults::{faults, find_all, shared, Fault, Search};
use compare::states::Pool;
use fast::Fast;
use product::Product;
use reference::Reference;
use std::process::ExitCode;

/// What the words after the program's name ask for.
struct Asked {
    inputs: u64,
    seed: u64,
    faults: bool,
    case: Option<(Class, u64)>,
}

/// The inputs that are drawn if no number is given: with the lists that are always run and the search for faults, a run of some
/// forty seconds.
const INPUTS: u64 = 30_000;
/// The inputs that are drawn in the search for each fault if no number is given.
const FAULT_INPUTS: u64 = 6_000;
/// The inputs that are drawn when the two Rust implementations are compared with each other.
const FAST_INPUTS: u64 = 1_000;
/// The seed if none is given.
const SEED: u64 = 1;

/// How the program is used.
const USAGE: &str = "compare [--inputs N] [--seed S] [--faults] | compare --case SEED CLASS/NUMBER";

/// Reads the words after the program's name; nothing where they are not those of the usage.
fn asked(words: &[String]) -> Option<Asked> {
    let mut asked = Asked { inputs: 0, seed: SEED, faults: false, case: None };
    let mut words = words.iter();
    while let Some(word) = words.next() {
        match word.as_str() {
            "--inputs" => asked.inputs = words.next()?.parse().ok().filter(|inputs| *inputs > 0)?,
            "--seed" => asked.seed = words.next()?.parse().ok()?,
            "--faults" => asked.faults = true,
            "--case" => {
                asked.seed = words.next()?.parse().ok()?;
                asked.case = Some(case_of(words.next()?)?);
            }
            _ => return None,
        }
    }
    if asked.inputs == 0 {
        asked.inputs = if asked.faults { FAULT_INPUTS } else { INPUTS };
    }
    Some(asked)
}

/// Compares with the inputs asked for, then the quick implementation with the plain one, and looks for all faults with fewer,
/// so that a run shows that it could have failed.
fn whole_run(asked: &Asked) -> ExitCode {
    let counts = match compare(&Reference, &Product, asked.inputs, asked.seed) {
        Ok(counts) => counts,
        Err(difference) => {
            println!("{difference}");
            return ExitCode::FAILURE;
        }
    };
    println!("{}", counts.tables());
    if let Err(difference) = compare_on(&Pool::new(&Fast, asked.seed), &Reference, &Fast, FAST_INPUTS, asked.seed) {
        println!("first is reference, second is fast\n{difference}");
        return ExitCode::FAILURE;
    }
    println!("no difference between reference and fast");
    let all_found = look_for_faults(FAULT_INPUTS, asked.seed, false);
    if !all_found {
        return ExitCode::FAILURE;
    }
    println!("compared {} inputs, no difference", counts.all());
    ExitCode::SUCCESS
}

/// Runs one case again.
fn one_case(class: Class, case: u64, seed: u64) -> ExitCode {
    match compare_case(&Reference, &Product, class, case, seed) {
        Ok(counts) => {
            println!("compared {} inputs, no difference", counts.all());
            ExitCode::SUCCESS
        }
        Err(difference) => {
            println!("{difference}");
            ExitCode::FAILURE
        }
    }
}

/// Looks for each fault over the quick implementation, then for those that both sides have alike, and answers whether all were found.
fn look_for_faults(inputs: u64, seed: u64, each: bool) -> bool {
    let search = Search { right: &Fast, inputs, seed, both: false };
    let one_side = look_for(search, &faults(), "faults", each);
    let both_sides = look_for(Search { both: true, ..search }, &shared(), "faults that both sides have alike", each);
    one_side && both_sides
}

/// Looks for each fault of a list, prints what found it or only those not found, and answers whether all were found.
fn look_for(search: Search, list: &[Fault], what: &str, each: bool) -> bool {
    let mut say = |line: String| {
        if each || !line.starts_with("found") {
            println!("{line}");
        }
    };
    let found = find_all(search, list, &mut say);
    println!("found {found} of {} {what}", list.len());
    found == list.len()
}

/// Does what is asked.
fn main() -> ExitCode {
    let words: Vec<String> = std::env::args().skip(1).collect();
    let Some(asked) = asked(&words) else {
        eprintln!("usage: {USAGE}");
        return ExitCode::from(2);
    };
    println!("seed {}", asked.seed);
    if asked.faults {
        let all_found = look_for_faults(asked.inputs, asked.seed, true);
        return if all_found { ExitCode::SUCCESS } else { ExitCode::FAILURE };
    }
    println!("first is reference, second is product");
    match asked.case {
        Some((class, case)) => one_case(class, case, asked.seed),
        None => whole_run(&asked),
    }
}
