//! The program `program`: runs `tally` as a program on every case, and with `--faults` wrong programs made from it as
//! well, all of them or so many.
#![forbid(unsafe_code)]

use compare::faults::programs::edits;
use compare::program::bench::Bench;
use compare::program::case::Case;
use compare::program::wrong::{Search, BUILDER};
use compare::program::{cases, run_all};
use std::ffi::OsString;
use std::io;
use std::path::{Path, PathBuf};
use std::process::ExitCode;

/// How the program is used.
const USAGE: &str = "program TALLY [--faults [N]]";

/// The library for LD_PRELOAD, which is built beside this program.
fn interposer() -> io::Result<PathBuf> {
    let beside = std::env::current_exe()?.with_file_name("libinterpose.so");
    if beside.exists() {
        Ok(beside)
    } else {
        Err(io::Error::other(format!("{} is not built", beside.display())))
    }
}

/// Prints a line.
fn say(line: String) {
    println!("{line}");
}

/// Runs all cases, and answers whether all were right.
fn all_right(bench: &Bench, cases: &[Case]) -> bool {
    let counts = run_all(bench, cases, &mut say);
    if counts.skipped > 0 {
        println!("skipped {} cases of tally", counts.skipped);
    }
    match counts.wrong {
        0 => println!("ran {} cases of tally, each as it must be", counts.run),
        wrong => println!("ran {} cases of tally, {wrong} NOT as they must be", counts.run),
    }
    counts.wrong == 0
}

/// Looks for the first wrong programs, so many at most, and answers whether all of these were found.
fn all_found(bench: &Bench, most: usize) -> io::Result<bool> {
    let edits: Vec<_> = edits().into_iter().take(most).collect();
    let search = Search { bench, builder: &BUILDER, cases };
    let found = search.find_all(&edits, &mut say)?;
    println!("found {found} of {} wrong programs", edits.len());
    Ok(found == edits.len())
}

/// Does what is asked: the cases on this executable, then as many wrong programs as are asked for.
fn tried(program: &Path, faults: usize) -> io::Result<bool> {
    let bench = Bench::new(program, &interposer()?)?;
    let right = all_right(&bench, &cases());
    let found = faults == 0 || all_found(&bench, faults)?;
    Ok(right && found)
}

/// Reads the words after the program's name: where `tally` is, and how many wrong programs are tried.
fn asked(words: &[OsString]) -> Option<(&Path, usize)> {
    let (program, words) = words.split_first()?;
    let faults = match words {
        [] => 0,
        [word] if word == "--faults" => usize::MAX,
        [word, number] if word == "--faults" => number.to_str()?.parse().ok()?,
        _ => return None,
    };
    Some((Path::new(program), faults))
}

/// Reads the arguments and does what they ask.
fn main() -> ExitCode {
    let words: Vec<OsString> = std::env::args_os().skip(1).collect();
    let Some((program, faults)) = asked(&words) else {
        eprintln!("usage: {USAGE}");
        return ExitCode::from(2);
    };
    match tried(program, faults) {
        Ok(true) => ExitCode::SUCCESS,
        Ok(false) => ExitCode::FAILURE,
        Err(error) => {
            eprintln!("program: {error}");
            ExitCode::from(2)
        }
    }
}
