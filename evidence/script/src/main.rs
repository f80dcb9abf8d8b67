//! The program `script`: runs a script of calls over the product and over the independent implementation.
#![forbid(unsafe_code)]

use product::Product;
use reference::Reference;
use script::compare::compare;
use script::help::{help, USAGE};
use script::typed;
use std::ffi::{OsStr, OsString};
use std::fs::File;
use std::io::{self, BufReader};
use std::process::ExitCode;

/// What a failure to open or read a file is called.
fn named(name: &OsStr) -> impl Fn(io::Error) -> io::Error + '_ {
    move |error| io::Error::other(format!("{}: {error}", name.display()))
}

/// Compares both implementations with the stored output, and answers whether all is as stored.
fn as_stored(script: &OsStr, output: &OsStr) -> io::Result<bool> {
    let stored = std::fs::read(output).map_err(named(output))?;
    let mut lines = BufReader::new(File::open(script).map_err(named(script))?);
    let compared = compare(&mut lines, &stored, [("product", &Product), ("reference", &Reference)]);
    let compared = compared.map_err(named(script))?;
    if compared.wrong.is_empty() {
        println!("{} lines of the script: product and reference answer as stored", compared.lines);
    }
    compared.wrong.iter().for_each(|wrong| eprintln!("{wrong}"));
    Ok(compared.wrong.is_empty())
}

/// Runs the script that is read from standard input.
fn typed_in() -> io::Result<bool> {
    typed::run(&mut io::stdin().lock(), &mut io::stdout().lock(), &mut io::stderr(), [&Product, &Reference])
}

/// Does what the words after the program's name ask for; nothing where they are not those of the usage.
fn done(words: &[OsString]) -> Option<io::Result<bool>> {
    match words {
        [] => Some(typed_in()),
        [word, script, output] if word == "--compare" => Some(as_stored(script, output)),
        [word] if word == "--help" => {
            print!("{}", help());
            Some(Ok(true))
        }
        _ => None,
    }
}

/// Reads the arguments and does what they ask.
fn main() -> ExitCode {
    let words: Vec<OsString> = std::env::args_os().skip(1).collect();
    match done(&words) {
        Some(Ok(true)) => ExitCode::SUCCESS,
        Some(Ok(false)) => ExitCode::FAILURE,
        Some(Err(error)) => {
            eprintln!("script: {error}");
            ExitCode::from(2)
        }
        None => {
            eprintln!("usage:\n{USAGE}");
            ExitCode::from(2)
        }
    }
}
