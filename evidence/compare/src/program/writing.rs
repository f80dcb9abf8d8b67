//! Cases of standard output that cannot take the text, or takes it in many pieces.
use super::case::Case;
use super::failing::errnos;
use super::judge::{Expected, Printed, Said, Text};
use super::logs::{longest_text, ring, EXAMPLE, EXAMPLE_TEXT, REFUSED};
use super::setup::{Output, Setup};

/// The name of standard output in the program's lines.
const OUTPUT: &[u8] = b"standard output";
/// The reason where the device is full.
const FULL: &str = "No space left on device";
/// The reason where the file may not grow.
const LARGE: &str = "File too large";

/// All cases of this kind.
pub fn cases() -> Vec<Case> {
    [unwritable(), short_writes(), broken_off(), failed_closes(), vec![every_errno()]].into_iter().flatten().collect()
}

/// A run on the example with this standard output.
fn into(output: Output) -> Setup {
    Setup::piped(&EXAMPLE).output(output)
}

/// A case in which nothing can be written, for this reason.
fn fails(name: impl Into<String>, setup: Setup, reason: &str) -> Case {
    Case::one(name, setup, Expected::line(OUTPUT, reason))
}

/// Standard output that takes nothing.
fn unwritable() -> Vec<Case> {
    let ring_full = Setup::piped(&ring().bytes).output(Output::Full);
    let refused_full = Setup::piped(&REFUSED).output(Output::Full);
    let empty_full = Setup::piped(&[]).output(Output::Full);
    let unseen = Expected { printed: Printed::Nothing, said: Said::Unseen };
    vec![
        fails("tally, /dev/full as standard output", into(Output::Full), FULL),
        fails("tally, the ring of 256 to /dev/full", ring_full, FULL),
        fails("tally, a refused log to /dev/full", refused_full, FULL),
        fails("tally, no input and /dev/full", empty_full, FULL),
        fails("tally, closed standard output", into(Output::Closed), "Bad file descriptor"),
        fails("tally, standard output open for reading alone", into(Output::ReadOnly), "Bad file descriptor"),
        fails("tally, a pipe that nobody reads any more", into(Output::Broken), "Broken pipe"),
        fails("tally, such a pipe with SIGPIPE as it is by default", into(Output::BrokenBySignal), "Broken pipe"),
        Case::one("tally, standard output and error closed", into(Output::Closed).errors_closed(), unseen),
    ]
}

/// Writes that take few bytes at a time: the whole text arrives.
fn short_writes() -> Vec<Case> {
    let by_ones = Setup::from_file(&EXAMPLE).writes(&vec!["1"; EXAMPLE_TEXT.len()].join(" "));
    let thousands =
        |bytes: &[u8]| Setup::from_file(bytes).writes(&vec!["1000"; Text::of(bytes).product.len() / 1000].join(" "));
    vec![
        Case::text("tally, the example in writes of one byte", by_ones, &EXAMPLE),
        Case::text("tally, the ring of 256 in writes of 1,000", thousands(&ring().bytes), &ring().bytes),
        Case::text("tally, the longest text in writes of 1,000", thousands(&longest_text()), &longest_text()),
        Case::text(
            "tally, the example, all but its last byte in one write",
            Setup::from_file(&EXAMPLE).writes("66 1"),
            &EXAMPLE,
        ),
    ]
}

/// Standard output that takes a part of the text and then fails.
fn broken_off() -> Vec<Case> {
    let limited = |left: usize| into(Output::Limited(EXAMPLE_TEXT.len() - left));
    let part = |name: &str, setup: Setup, reason: &str| {
        Case::one(format!("tally, {name}"), setup, Expected::part(&EXAMPLE, reason))
    };
    let words = |words: &str| Setup::from_file(&EXAMPLE).writes(words);
    let stuck = Setup::from_file(&ring().bytes).output(Output::Stuck);
    let dry = "Resource temporarily unavailable";
    vec![
        part("a file that ends two bytes before the text does", limited(2), LARGE),
        part("a file that ends one byte before the text does", limited(1), LARGE),
        Case::text("tally, a file that ends with the text", limited(0), &EXAMPLE),
        part("no space at the first write", words("ENOSPC"), FULL),
        part("no space after 10 bytes", words("10 ENOSPC"), FULL),
        part("no space after all bytes but one", words("66 ENOSPC"), FULL),
        part("a write error after 14 bytes, a whole line", words("14 EIO"), "Input/output error"),
        part("a write that would have to wait, after 30 bytes", words("30 EAGAIN"), dry),
        Case::one("tally, a pipe that does not block and is not read", stuck, Expected::part(&ring().bytes, dry)),
    ]
}

/// A close of standard output would fail after the text was written, or after it was not. The program leaves the close
/// to the system, which tells nobody.
fn failed_closes() -> Vec<Case> {
    let setup = |bytes: &[u8], words: &str| {
        let mut setup = Setup::from_file(bytes).closes(words);
        setup.script.closes_may_be_left = true;
        setup
    };
    let both = setup(&EXAMPLE, "EIO").writes("10 ENOSPC");
    vec![
        Case::text("tally, a close of standard output that would fail", setup(&EXAMPLE, "EIO"), &EXAMPLE),
        Case::text("tally, a close that would find no space left", setup(&EXAMPLE, "ENOSPC"), &EXAMPLE),
        Case::text("tally, a refused log and a close that would fail", setup(&REFUSED, "EIO"), &REFUSED),
        Case::text("tally, the ring of 256 and a close that would fail", setup(&ring().bytes, "EIO"), &ring().bytes),
        Case::one("tally, a failed write before a close that would fail", both, Expected::part(&EXAMPLE, FULL)),
    ]
}

/// A write that fails with each errno: the line has the system's text for it.
fn every_errno() -> Case {
    let run = |(errno, text): (i32, String)| {
        let setup = Setup::from_file(&EXAMPLE).writes(&format!("20 E{errno}"));
        (format!("errno {errno}"), setup, Expected::part(&EXAMPLE, &text))
    };
    let runs = errnos().into_iter().map(run).collect();
    Case::several(
        "tally, a write that fails, with each errno",
        "each a part and the one line with the system's text",
        runs,
    )
}
