//! Cases of `tally FILE`.
use super::bench::Bench;
use super::case::{tried, Case, Outcome};
use super::judge::{Expected, Printed, Said};
use super::logs::{going_on, longest, one_more, ring, CUT, EXAMPLE, REFUSED};
use super::setup::{Argument, Input, Made, Output, Setup};
use std::os::unix::fs::MetadataExt;
use std::process::{Command, Stdio};

/// All cases of this kind.
pub fn cases() -> Vec<Case> {
    [whole(), names(), missing(), unreadable(), with_other_ends(), reads(), lengths()].into_iter().flatten().collect()
}

/// A run on a file of this name with these bytes.
fn on_file(name: &'static [u8], bytes: &[u8]) -> Setup {
    Setup::given(&[name]).with(Made::File(name, bytes.to_vec()))
}

/// A case in which the file cannot be opened or read, for this reason.
fn fails(name: impl Into<String>, file: &[u8], setup: Setup, reason: &str) -> Case {
    Case::one(name, setup, Expected::line(file, reason))
}

/// Files with whole logs, with logs that are refused and with too many bytes.
fn whole() -> Vec<Case> {
    let named = [
        ("the example", EXAMPLE.to_vec()),
        ("no byte", vec![]),
        ("a log whose last record is refused", REFUSED.to_vec()),
        ("a log whose last record is cut", CUT.to_vec()),
        ("a log of 16,384 bytes", longest()),
        ("a log of 16,384 bytes and one more", one_more()),
        ("100,000 bytes", going_on(100_000)),
        ("the ring of 256", ring().bytes),
    ];
    named.iter().map(|(name, bytes)| Case::text(format!("tally FILE, {name}"), on_file(b"log", bytes), bytes)).collect()
}

/// Files with many kinds of names.
fn names() -> Vec<Case> {
    let file = |name: &'static [u8]| Made::File(name, EXAMPLE.to_vec());
    let text = |name: &str, setup: Setup| Case::text(format!("tally FILE, {name}"), setup, &EXAMPLE);
    let absolute = Setup { arguments: vec![Argument::Absolute("log")], ..Setup::given(&[]) };
    let fifo = Setup::given(&[b"fifo"]).with(Made::Fifo("fifo", EXAMPLE.to_vec()));
    let long_fifo = Setup::given(&[b"fifo"]).with(Made::Fifo("fifo", longest()));
    vec![
        text("given as ./log", Setup::given(&[b"./log"]).with(file(b"log"))),
        text("an absolute path", absolute.with(file(b"log"))),
        text("in a folder", Setup::given(&[b"folder/../log"]).with(Made::Folder("folder")).with(file(b"log"))),
        text("a name with a space", on_file(b"a log", &EXAMPLE)),
        text("a name with a newline", on_file(b"a\nlog", &EXAMPLE)),
        text("a name of letters above 127", on_file(LETTERS, &EXAMPLE)),
        fails("tally FILE, a name that is not UTF-8", NO_TEXT, on_file(NO_TEXT, &EXAMPLE), NOT_UTF_8),
        text("a name of 255 bytes", on_file(&[b'x'; 255], &EXAMPLE)),
        text("a name of one byte", on_file(b"x", &EXAMPLE)),
        text("-x given as ./-x", Setup::given(&[b"./-x"]).with(file(b"-x"))),
        text("--help given as ./--help", Setup::given(&[b"./--help"]).with(file(b"--help"))),
        text("a symbolic link", Setup::given(&[b"link"]).with(file(b"log")).with(Made::Link("link", "log"))),
        text("a FIFO", fifo),
        Case::text("tally FILE, a FIFO with 16,384 bytes", long_fifo, &longest()),
        Case::text("tally FILE, /dev/null", Setup::given(&[b"/dev/null"]), &[]),
        text("standard input a pipe that does not end", on_file(b"log", &EXAMPLE).input(Input::Held(vec![]))),
    ]
}

/// A name of letters whose bytes are all above 127, one that is no text, and the reason with which that is refused.
const LETTERS: &[u8] = "æøå\u{7ff}\u{ffff}\u{10ffff}".as_bytes();
const NO_TEXT: &[u8] = b"\xff\xfe\x80";
const NOT_UTF_8: &str = "The name is not UTF-8";

/// Every byte that a name can have, up to this one.
fn every_byte(last: u8) -> Vec<u8> {
    (1..=last).collect()
}

/// Names of nothing.
fn missing() -> Vec<Case> {
    let reason = "No such file or directory";
    let not_there = |name: &str, file: &[u8]| fails(format!("tally FILE, {name}"), file, Setup::given(&[file]), reason);
    let loops = Setup::given(&[b"link"]).with(Made::Link("link", "link"));
    vec![
        not_there("not there", b"nothing"),
        not_there("an absolute path, not there", b"/nowhere/at/all"),
        not_there("not there, with a space", b"not a log"),
        not_there("not there, with a newline", b"not\nthere"),
        not_there("not there, with a newline at the end", b"nothing\n"),
        not_there("not there, a newline alone", b"\n"),
        not_there("not there, with every byte but 0 up to 127", &every_byte(127)),
        not_there("not there, with letters above 127", LETTERS),
        fails(
            "tally FILE, not there, with every byte but 0",
            &every_byte(255),
            Setup::given(&[&every_byte(255)]),
            NOT_UTF_8,
        ),
        not_there("-x given as ./-x, not there", b"./-x"),
        fails(
            "tally FILE, a file as a folder",
            b"log/x",
            Setup::given(&[b"log/x"]).with(Made::File(b"log", vec![5])),
            "Not a directory",
        ),
        fails(
            "tally FILE, a file's name and a slash",
            b"log/",
            Setup::given(&[b"log/"]).with(Made::File(b"log", vec![5])),
            "Not a directory",
        ),
        fails("tally FILE, a link to itself", b"link", loops, "Too many levels of symbolic links"),
    ]
}

/// Files that are there and cannot be read.
fn unreadable() -> Vec<Case> {
    let folder = |file: &'static [u8]| Setup::given(&[file]).with(Made::Folder("folder"));
    vec![
        fails("tally FILE, a directory", b"folder", folder(b"folder"), "Is a directory"),
        fails("tally FILE, a directory and a slash", b"folder/", folder(b"folder/"), "Is a directory"),
        fails("tally FILE, the directory .", b".", folder(b"."), "Is a directory"),
        Case::new("tally FILE, a file that may not be read", locked),
    ]
}

/// The user for whom this program runs: 0 is root.
fn user() -> Option<u32> {
    std::fs::metadata("/proc/self").ok().map(|about| about.uid())
}

/// Whether the program can be run as the user `nobody`.
fn can_be_nobody() -> bool {
    let mut probe = Command::new("setpriv");
    probe.args(["--reuid=65534", "--clear-groups", "true"]).stdout(Stdio::null()).stderr(Stdio::null());
    probe.status().is_ok_and(|status| status.success())
}

/// A file that the user may not read; root may read all, so the program is then run as another user.
fn locked(bench: &Bench) -> Outcome {
    let nobody = user() == Some(0);
    if nobody && !can_be_nobody() {
        return Outcome::Skipped("run by root, and setpriv cannot change the user".to_string());
    }
    let setup = Setup { nobody, ..Setup::given(&[b"locked"]) }.with(Made::Locked("locked"));
    match tried(bench, &setup, &Expected::line(b"locked", "Permission denied")) {
        Ok(short) => Outcome::Right(short),
        Err(account) => Outcome::Wrong(account),
    }
}

/// A file while standard input, output or error is closed: it is then opened in that place.
fn with_other_ends() -> Vec<Case> {
    let log = || on_file(b"log", &EXAMPLE);
    let folder = || Setup::given(&[b"folder"]).with(Made::Folder("folder"));
    let nothing = || Setup::given(&[b"nothing"]);
    let unseen = || Expected { printed: Printed::Nothing, said: Said::Unseen };
    let whole = |setup: Setup| (setup, Expected { said: Said::Unseen, ..Expected::text(&EXAMPLE) });
    let (errors_closed, its_text) = whole(log().errors_closed());
    let (output, bad) = (b"standard output", "Bad file descriptor");
    vec![
        Case::text("tally FILE, standard input closed", log().input(Input::Closed), &EXAMPLE),
        Case::one("tally FILE, standard error closed", errors_closed, its_text),
        fails("tally FILE, standard output closed", output, log().output(Output::Closed), bad),
        fails(
            "tally FILE, standard input and output closed",
            output,
            log().input(Input::Closed).output(Output::Closed),
            bad,
        ),
        fails(
            "tally FILE, /dev/full as standard output",
            output,
            log().output(Output::Full),
            "No space left on device",
        ),
        fails(
            "tally FILE, a directory, standard input closed",
            b"folder",
            folder().input(Input::Closed),
            "Is a directory",
        ),
        fails(
            "tally FILE, a directory, standard output closed",
            b"folder",
            folder().output(Output::Closed),
            "Is a directory",
        ),
        fails(
            "tally FILE, not there, standard output closed",
            b"nothing",
            nothing().output(Output::Closed),
            "No such file or directory",
        ),
        Case::one("tally FILE, a directory, standard error closed", folder().errors_closed(), unseen()),
        Case::one("tally FILE, not there, standard error closed", nothing().errors_closed(), unseen()),
    ]
}

/// Reads of a file that are short, interrupted or fail.
fn reads() -> Vec<Case> {
    let log = |words: &str| on_file(b"a log", &EXAMPLE).reads(words);
    let fails = |name: &str, words: &str| {
        fails(format!("tally FILE, a read error {name}"), b"a log", log(words), "Input/output error")
    };
    let newline = on_file(b"a\nlog", &EXAMPLE).reads("9 EIO");
    vec![
        Case::text("tally FILE, reads interrupted and short", log("EINTR 2 EINTR 1 EINTR EINTR 22 EINTR"), &EXAMPLE),
        fails("before the first byte", "EIO"),
        fails("between two records", "11 EIO"),
        fails("at the very end", "25 EIO"),
        Case::one(
            "tally FILE, a read error, with a newline in the name",
            newline,
            Expected::line(b"a\nlog", "Input/output error"),
        ),
        Case::one(
            "tally FILE, a read error after 16,384 bytes",
            on_file(b"log", &longest()).reads("16384 EIO"),
            Expected::line(b"log", "Input/output error"),
        ),
    ]
}

/// A path of exactly so many bytes, of which the last is `x`, that names the file `x` or `//x`.
fn path_of(length: usize) -> Vec<u8> {
    let rest = if length % 2 == 1 { "x" } else { "/x" };
    let mut path = "./".repeat((length - rest.len()) / 2).into_bytes();
    path.extend(rest.bytes());
    path
}

/// Arguments that are as long as a path may be, and longer ones.
fn lengths() -> Vec<Case> {
    let too_long =
        || Expected { printed: Printed::Nothing, said: Said::LineLike("tally: ", "", ": File name too long") };
    let given = |path: &[u8]| Setup::given(&[path]).with(Made::File(b"x", EXAMPLE.to_vec()));
    let mut cases = Vec::new();
    for (words, length) in [("256", 256), ("4,094", 4_094), ("4,095", 4_095)] {
        let name = format!("tally FILE, a path of {words} bytes");
        cases.push(Case::text(name, given(&path_of(length)), &EXAMPLE));
        let name = format!("tally FILE, a path of {words} bytes, not there");
        cases.push(fails(name, &path_of(length), Setup::given(&[&path_of(length)]), "No such file or directory"));
        let name = format!("tally FILE, a name of {words} bytes");
        cases.push(fails(name, &vec![b'a'; length], Setup::given(&[&vec![b'a'; length]]), "File name too long"));
    }
    for (words, length) in [("4,096", 4_096), ("4,097", 4_097), ("10,000", 10_000), ("100,000", 100_000)] {
        cases.push(Case::one(format!("tally FILE, a path of {words} bytes"), given(&path_of(length)), too_long()));
        let name = format!("tally FILE, a name of {words} bytes");
        cases.push(Case::one(name, Setup::given(&[&vec![b'a'; length]]), too_long()));
    }
    let newlines = vec![b'\n'; 5_000];
    cases.push(Case::one("tally FILE, 5,000 newlines", Setup::given(&[&newlines]), too_long()));
    cases
}
