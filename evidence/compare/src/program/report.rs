//! Cases of the shell's line that says whether a text is whole, where `report` is the file with the text.
use super::bench::{Bench, Room};
use super::case::{Case, Outcome};
use super::judge::Text;
use super::logs::{longest, ring, CUT, EXAMPLE, EXAMPLE_TEXT, REFUSED};
use super::run::{run, Ending};
use super::setup::{Input, Output, Setup};
use std::io;
use std::process::{Command, Stdio};

/// The line, as README gives it.
pub const LINE: &str =
    "tail -n 1 report | { read -r line && expr \"$line\" : 'events [0-9]* gain [0-9]*$' > /dev/null; }";

/// All cases of this kind.
pub fn cases() -> Vec<Case> {
    let two_short = Setup::piped(&EXAMPLE).output(Output::Limited(EXAMPLE_TEXT.len() - 2));
    let beginnings: Vec<_> = (0..EXAMPLE_TEXT.len()).map(|length| EXAMPLE_TEXT.as_bytes()[..length].to_vec()).collect();
    let told = |text: &Vec<u8>| [text, b"tally: standard output: No space left on device\n".as_slice()].concat();
    let merged = beginnings.iter().map(told).collect();
    vec![
        on_texts("the shell's line, whole texts", true, whole_texts()),
        on_texts("the shell's line, texts with refused", false, refused_texts()),
        on_texts("the shell's line, every beginning of the example's text", false, beginnings),
        on_texts("the shell's line, these with the line of standard error after them", false, merged),
        on_texts("the shell's line, an empty file", false, vec![vec![]]),
        on_run("the shell's line, what tally prints for the example", true, Setup::piped(&EXAMPLE)),
        on_run("the shell's line, what tally prints for the ring of 256", true, Setup::piped(&ring().bytes)),
        on_run("the shell's line, what tally prints for a refused log", false, Setup::piped(&REFUSED)),
        on_run("the shell's line, a directory as standard input", false, Setup::on(Input::Path("/"))),
        on_run("the shell's line, a read error after a record", false, Setup::from_file(&EXAMPLE).reads("11 EIO")),
        on_run("the shell's line, a file that ends two bytes before the text does", false, two_short),
        on_run("the shell's line, tally with two arguments", false, Setup::given(&[b"one", b"two"])),
        on_run("the shell's line, tally --help", false, Setup::given(&[b"--help"])),
    ]
}

/// Texts of logs that are done to their end.
fn whole_texts() -> Vec<Vec<u8>> {
    [EXAMPLE.to_vec(), vec![1], longest(), ring().bytes].iter().map(|bytes| Text::of(bytes).product).collect()
}

/// Texts of logs that are refused.
fn refused_texts() -> Vec<Vec<u8>> {
    [vec![], REFUSED.to_vec(), CUT.to_vec(), vec![0; 16_385]].iter().map(|bytes| Text::of(bytes).product).collect()
}

/// Whether the shell's line takes this file for a whole text.
fn is_whole(report: &[u8]) -> io::Result<bool> {
    let room = Room::new()?;
    std::fs::write(room.at("report"), report)?;
    let mut shell = Command::new("sh");
    shell.args(["-c", LINE]).current_dir(&room.path).stdin(Stdio::null());
    Ok(shell.status()?.success())
}

/// Whether the line says of this file what it must: that it is whole, or that it is not.
fn judged(report: &[u8], whole: bool) -> Result<(), String> {
    match is_whole(report) {
        Err(error) => Err(format!("the shell could not be run: {error}")),
        Ok(said) if said == whole => Ok(()),
        Ok(said) => {
            let shown = super::judge::shown(report);
            Err(format!(
                "the file is not judged as it must be\n  expected: whole {whole}\n  seen:     whole {said}, of {shown}"
            ))
        }
    }
}

/// The words for what the line must say.
fn words(whole: bool) -> &'static str {
    if whole {
        "it says yes"
    } else {
        "it says no"
    }
}

/// A case of some texts.
fn on_texts(name: &str, whole: bool, texts: Vec<Vec<u8>>) -> Case {
    Case::new(name, move |_| match texts.iter().find_map(|text| judged(text, whole).err()) {
        None => Outcome::Right(format!("{} files, {}", texts.len(), words(whole))),
        Some(account) => Outcome::Wrong(account),
    })
}

/// A case of what the program prints.
fn on_run(name: &str, whole: bool, setup: Setup) -> Case {
    Case::new(name, move |bench| match printed(bench, &setup).and_then(|report| judged(&report, whole)) {
        Ok(()) => Outcome::Right(words(whole).to_string()),
        Err(account) => Outcome::Wrong(account),
    })
}

/// What the program prints, where it ends as it must.
fn printed(bench: &Bench, setup: &Setup) -> Result<Vec<u8>, String> {
    match run(bench, setup) {
        Ok(seen) if seen.ending == Ending::Status(0) => Ok(seen.output),
        Ok(seen) => Err(format!("the program did not end as it must: {:?}", seen.ending)),
        Err(error) => Err(format!("the run could not be made: {error}")),
    }
}

#[cfg(test)]
mod tests {
    use super::LINE;

    /// The line that is tried is the one that README gives.
    #[test]
    fn readme_has_the_line() {
        assert!(include_str!("../../../../README.md").lines().any(|line| line.trim() == LINE));
    }
}
