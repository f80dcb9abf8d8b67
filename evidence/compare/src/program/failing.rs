//! Cases of standard input that cannot be read: no byte on standard output, and one line on standard error.
use super::case::Case;
use super::judge::{Expected, Printed, Said};
use super::logs::{longest, one_more, BORDERS, EXAMPLE};
use super::setup::{Input, Output, Setup};

/// The name of standard input in the program's lines.
const INPUT: &[u8] = b"standard input";

/// All cases of this kind.
pub fn cases() -> Vec<Case> {
    [unreadable(), dry(), broken_off(), with_other_ends(), vec![every_errno()]].into_iter().flatten().collect()
}

/// A case in which standard input fails with this reason.
fn fails(name: impl Into<String>, setup: Setup, reason: &str) -> Case {
    Case::one(name, setup, Expected::line(INPUT, reason))
}

/// Standard input of which nothing can be read.
fn unreadable() -> Vec<Case> {
    let write_only = Setup::on(Input::WriteOnly(EXAMPLE.to_vec()));
    vec![
        fails("tally, a directory", Setup::on(Input::Path("/")), "Is a directory"),
        fails("tally, closed standard input", Setup::on(Input::Closed), "Bad file descriptor"),
        fails("tally, standard input open for writing alone", write_only, "Bad file descriptor"),
    ]
}

/// Pipes that do not block and have no more bytes for now.
fn dry() -> Vec<Case> {
    let reason = "Resource temporarily unavailable";
    let dry = |name: &str, length: usize| {
        fails(
            format!("tally, a pipe that does not block, dry {name}"),
            Setup::on(Input::Dry(EXAMPLE[..length].to_vec())),
            reason,
        )
    };
    let mut cases = vec![dry("from the start", 0), dry("after n", 1), dry("after n and two records", 9)];
    cases.extend([dry("within a record", 13), dry("after the whole example", 25)]);
    let full = Setup::on(Input::Dry(longest()));
    cases.push(fails("tally, a pipe that does not block, dry after 16,384 bytes", full, reason));
    cases
}

/// Reads that fail before, within and after a log.
fn broken_off() -> Vec<Case> {
    let on_example = |words: &str| Setup::from_file(&EXAMPLE).reads(words);
    let named = [
        ("before the first byte", on_example("EIO")),
        ("after n", on_example("1 EIO")),
        ("between two records", on_example("11 EIO")),
        ("within a record", on_example("13 EIO")),
        ("at the very end", on_example("25 EIO")),
        ("after an interrupted read", on_example("2 EINTR 1 EINTR EINTR 5 EIO")),
        ("in the place of the end, after short reads", on_example("5 5 5 5 5 EIO")),
        ("after 16,384 bytes and at the end", Setup::from_file(&longest()).reads("16384 EIO")),
        ("after 16,384 bytes of 16,385", Setup::from_file(&one_more()).reads("16384 EIO")),
    ];
    let mut cases: Vec<Case> = named
        .into_iter()
        .map(|(name, setup)| fails(format!("tally, a read error {name}"), setup, "Input/output error"))
        .collect();
    let at = |length: usize| {
        let expected = Expected::line(INPUT, "Input/output error");
        (format!("after {length} bytes"), on_example(&format!("{length} EIO")), expected)
    };
    cases.push(Case::several(
        "tally, a read error after n and after each record",
        "each the one line",
        BORDERS.map(at).to_vec(),
    ));
    cases
}

/// Standard input that fails where the outputs cannot take anything either.
fn with_other_ends() -> Vec<Case> {
    let folder = || Setup::on(Input::Path("/"));
    let closed = || Setup::on(Input::Closed);
    let unseen = || Expected { printed: Printed::Nothing, said: Said::Unseen };
    vec![
        fails("tally, a directory, with standard output closed", folder().output(Output::Closed), "Is a directory"),
        fails("tally, a directory, with standard output full", folder().output(Output::Full), "Is a directory"),
        fails("tally, standard input and output closed", closed().output(Output::Closed), "Bad file descriptor"),
        Case::one("tally, a directory, with standard error closed", folder().errors_closed(), unseen()),
        Case::one("tally, standard input and error closed", closed().errors_closed(), unseen()),
        Case::one("tally, all three closed", closed().output(Output::Closed).errors_closed(), unseen()),
    ]
}

/// The errnos that the system has a text for, with it; but for that of an interrupted call.
pub fn errnos() -> Vec<(i32, String)> {
    let text =
        |errno: i32| std::io::Error::from_raw_os_error(errno).to_string().replace(&format!(" (os error {errno})"), "");
    let all = (1..=133).filter(|errno| *errno != 4).map(|errno| (errno, text(errno)));
    all.filter(|(_, text)| !text.starts_with("Unknown error")).collect()
}

/// A read that fails with each errno: the line has the system's text for it.
fn every_errno() -> Case {
    let run = |(errno, text): (i32, String)| {
        let setup = Setup::from_file(&EXAMPLE).reads(&format!("5 E{errno}"));
        (format!("errno {errno}"), setup, Expected::line(INPUT, &text))
    };
    let runs = errnos().into_iter().map(run).collect();
    Case::several("tally, a read that fails, with each errno", "each the one line with the system's text", runs)
}
