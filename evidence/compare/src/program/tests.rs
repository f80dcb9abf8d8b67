//! That the runner and the judge notice what is wrong, tried with lines of the shell in the place of the program.
use super::bench::{Bench, LIMIT};
use super::case::{tried, Case, Outcome};
use super::judge::{Expected, Printed, Said, Text};
use super::logs::{EXAMPLE, EXAMPLE_TEXT};
use super::run::{run, Ending, Seen};
use super::setup::{Argument, Input, Output, Setup};
use super::{cases, first_wrong, run_all, Counts};
use std::path::{Path, PathBuf};
use std::time::{Duration, Instant};

/// A bench on which a program that is found on the path of commands is under test.
fn bench(program: &str) -> Bench {
    Bench { program: PathBuf::from(program), interposer: PathBuf::from("none"), limit: LIMIT }
}

/// The setup with a line for the shell, which is the program then.
fn doing(setup: Setup, line: &str) -> Setup {
    Setup { arguments: [b"-c", line.as_bytes()].map(|word| Argument::Given(word.to_vec())).to_vec(), ..setup }
}

/// What is said of a shell that does this on the example, where the example's text is due.
fn text_by(line: &str) -> Result<String, String> {
    tried(&bench("/bin/sh"), &doing(Setup::piped(&EXAMPLE), line), &Expected::text(&EXAMPLE))
}

/// What is said of a shell that does this, where nothing but the line `tally: x: y` is due.
fn line_by(line: &str) -> Result<String, String> {
    tried(&bench("/bin/sh"), &doing(Setup::piped(&EXAMPLE), line), &Expected::line(b"x", "y"))
}

/// The shell's line that prints the example's text and does more after that.
fn printing(more: &str) -> String {
    format!("cat > /dev/null; printf '{EXAMPLE_TEXT}'; {more}")
}

/// Whether it is said that something is wrong, in these words.
fn is_wrong(judged: Result<String, String>, words: &str) -> bool {
    judged
        .is_err_and(|account| account.starts_with(words) && account.contains("expected:") && account.contains("seen:"))
}

/// The right text is right, and one with another byte, a byte more or a byte less is not.
#[test]
fn texts_are_compared() {
    let output = "standard output is not as it must be";
    assert_eq!(text_by(&printing("")).unwrap(), "the library's text, 67 bytes");
    assert!(is_wrong(text_by("printf wrong"), output));
    assert!(is_wrong(text_by(&printing("printf x")), output));
    assert!(is_wrong(text_by(&printing("echo")), output));
    assert!(is_wrong(text_by(&format!("printf '{}'", &EXAMPLE_TEXT[..66])), output));
    assert!(is_wrong(text_by("true"), output));
}

/// Where a text is due, nothing may come on standard error; where a line is due, it must be that line alone.
#[test]
fn standard_error_is_compared() {
    let errors = "standard error is not as it must be";
    assert!(is_wrong(text_by(&printing("echo oh >&2")), errors));
    assert_eq!(line_by("echo 'tally: x: y' >&2").unwrap(), "nothing, and \"tally: x: y\"");
    assert!(is_wrong(line_by("true"), errors));
    assert!(is_wrong(line_by("printf 'tally: x: y' >&2"), errors));
    assert!(is_wrong(line_by("echo 'tally: x: z' >&2"), errors));
    assert!(is_wrong(line_by("echo 'tally: x: y' >&2; echo 'tally: x: y' >&2"), errors));
    assert!(is_wrong(line_by("echo 'tally: x: y'"), "standard output is not as it must be"));
    assert!(is_wrong(line_by("echo 'tally: x: y' >&2; printf x"), "standard output is not as it must be"));
}

/// A program that does not end is killed at the limit, also where it has printed all; and the test goes on at once.
#[test]
fn a_program_that_waits_is_found() {
    let begin = Instant::now();
    let short = Bench { limit: Duration::from_millis(200), ..bench("/bin/sh") };
    for line in ["exec sleep 60".to_string(), printing("exec sleep 60"), "while true; do true; done".to_string()] {
        let judged = tried(&short, &doing(Setup::piped(&EXAMPLE), &line), &Expected::text(&EXAMPLE));
        assert!(is_wrong(judged, "the program did not end within the limit"));
    }
    let waiting = tried(&short, &doing(Setup::on(Input::Held(vec![])), "exec cat"), &Expected::text(&[]));
    assert!(is_wrong(waiting, "the program did not end within the limit"));
    assert!(begin.elapsed() < Duration::from_secs(20));
}

/// An exit status other than 0 and an end by a signal are found.
#[test]
fn how_it_ends_is_compared() {
    assert!(is_wrong(text_by(&printing("exit 1")), "the exit status is 1"));
    assert!(is_wrong(text_by(&printing("kill -9 $$")), "signal 9 ended the program"));
}

/// Standard input that may not be read and is read is found.
#[test]
fn input_that_may_not_be_read() {
    let untouched = || Setup::on(Input::Untouched(EXAMPLE.to_vec()));
    let expected = Expected::line(b"x", "y");
    let reads = doing(untouched(), "echo 'tally: x: y' >&2; read -r word; true");
    assert!(is_wrong(tried(&bench("/bin/sh"), &reads, &expected), "standard input was read"));
    let does_not = doing(untouched(), "echo 'tally: x: y' >&2");
    assert!(tried(&bench("/bin/sh"), &does_not, &expected).is_ok());
}

/// What a run left that was as it must be, but for what the test changes.
fn seen(output: &[u8], errors: &[u8], taken: &[&str]) -> Seen {
    let taken = taken.iter().map(|word| word.to_string()).collect();
    Seen { output: output.to_vec(), errors: errors.to_vec(), ending: Ending::Status(0), taken, touched: false }
}

/// A run that did not take all words of its script is found: its case was not met.
#[test]
fn words_that_are_left() {
    let setup = Setup::from_file(&EXAMPLE).reads("2 EINTR").closes("EIO");
    let judged = |taken: &[&str]| Expected::text(&EXAMPLE).judge(&setup, &seen(EXAMPLE_TEXT.as_bytes(), b"", taken));
    assert!(judged(&["read 2", "read EINTR", "close EIO"]).is_ok());
    assert!(is_wrong(judged(&["read 2", "close EIO"]), "of 2 words for read the program took 1"));
    assert!(is_wrong(judged(&["read 2", "read EINTR"]), "of 1 words for close the program took 0"));
    assert!(is_wrong(judged(&[]), "of 2 words for read the program took 0"));
}

/// A part of a text is a beginning of it, and neither the whole nor other bytes.
#[test]
fn parts_are_beginnings() {
    let line = b"tally: standard output: z\n";
    let judged = |output: &[u8]| Expected::part(&EXAMPLE, "z").judge(&Setup::piped(&[]), &seen(output, line, &[]));
    assert!(judged(b"").is_ok() && judged(b"4 5 0").is_ok() && judged(&EXAMPLE_TEXT.as_bytes()[..66]).is_ok());
    assert!(judged(b"4 5 1").is_err() && judged(EXAMPLE_TEXT.as_bytes()).is_err());
}

/// Where the two libraries differ no text is right.
#[test]
fn both_libraries_are_compared() {
    let text = Text { product: b"a".to_vec(), reference: b"b".to_vec() };
    let expected = Expected { printed: Printed::Whole(text), said: Said::Nothing };
    let judged = |output: &[u8]| expected.judge(&Setup::piped(&[]), &seen(output, b"", &[]));
    assert!(judged(b"a").is_err() && judged(b"b").is_err());
}

/// The usage needs its beginning, its words and its newline; a line that is like another needs all its parts and is one
/// line.
#[test]
fn usage_and_lines_alike() {
    let usage = Expected { printed: Printed::Usage, said: Said::Nothing };
    let judged = |output: &[u8]| usage.judge(&Setup::piped(&[]), &seen(output, b"", &[])).is_ok();
    assert!(judged(b"usage: tally [FILE]\n --help\n"));
    assert!(
        !judged(b"usage: tally [FILE]\n --help")
            && !judged(b"usage: tally [FILE]\n")
            && !judged(b"usage: tally --help\n")
    );
    assert!(!judged(b"\nusage: tally [FILE] --help\n") && !judged(b""));
    let like = Expected { printed: Printed::Nothing, said: Said::LineLike("tally: ", "--help", ".") };
    let judged = |errors: &[u8]| like.judge(&Setup::piped(&[]), &seen(b"", errors, &[])).is_ok();
    assert!(judged(b"tally: try --help.\n"));
    assert!(
        !judged(b"tally: try --help.")
            && !judged(b"tally: try\n--help.\n")
            && !judged(b"try --help.\n")
            && !judged(b"\n")
    );
    assert!(!judged(b"tally: try help.\n") && !judged(b"tally: try --help\n") && !judged(b""));
}

/// What `cat` prints and whether it complains in these words, with this input and output.
fn cat(setup: Setup, complaint: &str) -> Vec<u8> {
    let seen = run(&bench("/bin/cat"), &setup).unwrap();
    let errors = String::from_utf8_lossy(&seen.errors).to_string();
    assert_eq!(errors.is_empty(), complaint.is_empty(), "{setup:?}: {errors}");
    assert!(errors.contains(complaint), "{setup:?}: {errors}");
    seen.output
}

/// Each input is what it is said to be.
#[test]
fn inputs_are_what_they_are_said_to_be() {
    let bytes = EXAMPLE.to_vec();
    assert_eq!(cat(Setup::piped(&bytes), ""), bytes);
    assert_eq!(cat(Setup::from_file(&bytes), ""), bytes);
    assert_eq!(cat(Setup::on(Input::Pieces(vec![vec![1], vec![2, 3]], 5)), ""), [1, 2, 3]);
    assert_eq!(cat(Setup::on(Input::Ended(bytes.clone())), ""), bytes);
    assert_eq!(cat(Setup::on(Input::Dry(bytes.clone())), "Resource temporarily unavailable"), bytes);
    assert_eq!(cat(Setup::on(Input::WriteOnly(bytes)), "Bad file descriptor"), []);
    assert_eq!(cat(Setup::on(Input::Closed), "Bad file descriptor"), []);
    assert_eq!(cat(Setup::on(Input::Path("/")), "Is a directory"), []);
}

/// Each output is what it is said to be.
#[test]
fn outputs_are_what_they_are_said_to_be() {
    let bytes = vec![b'x'; 200_000];
    let into = |output: Output| Setup::from_file(&bytes).output(output);
    assert_eq!(cat(into(Output::Pipe), ""), bytes);
    assert_eq!(cat(into(Output::Full), "No space left on device"), []);
    assert_eq!(cat(into(Output::ReadOnly), "Bad file descriptor"), []);
    assert_eq!(cat(into(Output::Closed), "Bad file descriptor"), []);
    assert_eq!(cat(into(Output::Broken), "Broken pipe"), []);
    assert_eq!(cat(into(Output::Limited(65)), "File too large"), bytes[..65]);
    let stuck = cat(into(Output::Stuck), "Resource temporarily unavailable");
    assert!(!stuck.is_empty() && stuck.len() < bytes.len());
}

/// All cases are run, those that are wrong and those that are skipped are counted, and the first that is wrong is
/// found.
#[test]
fn cases_are_counted() {
    let outcome = |name: &str, outcome: Outcome| Case::new(name, move |_| outcome.clone());
    let list = [
        outcome("a", Outcome::Right("fine".to_string())),
        outcome("b", Outcome::Skipped("no".to_string())),
        outcome("c", Outcome::Wrong("bad".to_string())),
        outcome("d", Outcome::Wrong("worse".to_string())),
    ];
    let mut lines = Vec::new();
    let counts = run_all(&bench("none"), &list, &mut |line| lines.push(line));
    assert_eq!(counts, Counts { run: 3, wrong: 2, skipped: 1 });
    assert_eq!(lines, ["a: fine", "skipped: b: no", "WRONG: c: bad", "WRONG: d: worse"]);
    assert_eq!(first_wrong(&bench("none"), &list).map(|(case, _)| case.name.as_str()), Some("c"));
    assert!(first_wrong(&bench("none"), &list[..2]).is_none());
}

/// A program that cannot be started is wrong, and so is one of several runs.
#[test]
fn runs_that_cannot_be_made() {
    assert!(tried(&bench("/nowhere/at/all"), &Setup::piped(&[]), &Expected::text(&[])).is_err());
    assert!(Bench::new(Path::new("/nowhere/at/all"), Path::new("none")).is_err());
    let run = |line: &str| ("x".to_string(), doing(Setup::piped(&EXAMPLE), line), Expected::text(&EXAMPLE));
    let several =
        |second: &str| Case::several("both", "right", vec![run(&printing("")), run(second)]).outcome(&bench("/bin/sh"));
    assert_eq!(several(&printing("")), Outcome::Right("2 runs, right".to_string()));
    assert!(matches!(several("true"), Outcome::Wrong(_)));
}

/// No two cases have the same name.
#[test]
fn names_differ() {
    let mut names: Vec<String> = cases().into_iter().map(|case| case.name).collect();
    let all = names.len();
    names.sort();
    names.dedup();
    assert_eq!(names.len(), all);
}
