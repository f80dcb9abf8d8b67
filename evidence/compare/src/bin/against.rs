//! The program `against`: the texts of two libraries, each behind a program `texts`, on the same logs.
#![forbid(unsafe_code)]

use compare::against::{first_line, framed, logs, unframed, Log};
use fast::Fast;
use std::io::Write;
use std::path::Path;
use std::process::{Command, ExitCode, Stdio};

/// The inputs from which the logs are drawn, and the seed.
const INPUTS: u64 = 3_000;
const SEED: u64 = 1;
/// The differences that are told one by one; the others are only counted.
const TOLD: usize = 20;

/// How the program is used.
const USAGE: &str = "against TEXTS-BEFORE TEXTS-NOW FOLDER: logs whose texts differ are written to the folder";

/// The texts that a program gives for the logs.
fn texts(program: &str, logs: &[Log]) -> Result<Vec<Vec<u8>>, String> {
    let told = |error: std::io::Error| format!("{program}: {error}");
    let mut child = Command::new(program).stdin(Stdio::piped()).stdout(Stdio::piped()).spawn().map_err(told)?;
    let input = framed(logs.iter().map(|log| log.bytes.as_slice()));
    // The program reads all before it writes, and the pipe is closed with the end of this line.
    child.stdin.take().map_or(Ok(()), |mut pipe| pipe.write_all(&input)).map_err(told)?;
    let output = child.wait_with_output().map_err(told)?;
    let texts = unframed(&output.stdout).filter(|texts| output.status.success() && texts.len() == logs.len());
    texts.ok_or(format!("{program} did not come to its end: {}", output.status))
}

/// Compares the texts of both programs, tells the differences, and answers how many there are.
fn differences(before: &str, now: &str, folder: &Path) -> Result<usize, String> {
    let logs = logs(&Fast, INPUTS, SEED);
    let [first, second] = [texts(before, &logs)?, texts(now, &logs)?];
    let mut count = 0;
    for (log, place) in logs.iter().zip(first.iter().zip(&second)).filter_map(|(log, (a, b))| Some((log, first_line(a, b)?))) {
        count += 1;
        if count <= TOLD {
            tell(log, place, &folder.join(format!("log-{count}")))?;
        }
    }
    println!("compared {} texts, {count} differ", logs.len());
    Ok(count)
}

/// Tells one difference, and writes its log to a file.
fn tell(log: &Log, (line, [before, now]): (usize, [String; 2]), file: &Path) -> Result<(), String> {
    std::fs::write(file, &log.bytes).map_err(|error| format!("{}: {error}", file.display()))?;
    println!("difference in the log {} ({}), line {line}", file.display(), log.name);
    println!("  before: {before}\n  now:    {now}");
    Ok(())
}

fn main() -> ExitCode {
    let words: Vec<String> = std::env::args().skip(1).collect();
    let [before, now, folder] = words.as_slice() else {
        eprintln!("usage: {USAGE}");
        return ExitCode::from(2);
    };
    match differences(before, now, Path::new(folder)) {
        Ok(0) => ExitCode::SUCCESS,
        Ok(_) => ExitCode::FAILURE,
        Err(why) => {
            eprintln!("against: {why}");
            ExitCode::from(2)
        }
    }
}
