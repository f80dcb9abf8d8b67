//! Cases of `--help` and of arguments that the program does not take.
use super::case::Case;
use super::judge::{Expected, Printed, Said};
use super::logs::EXAMPLE;
use super::setup::{Input, Made, Output, Setup};

/// All cases of this kind.
pub fn cases() -> Vec<Case> {
    [help(), refused()].into_iter().flatten().collect()
}

/// `--help`.
fn help() -> Vec<Case> {
    let usage = || Expected { printed: Printed::Usage, said: Said::Nothing };
    let given = || Setup::given(&[b"--help"]);
    let full = Expected::line(b"standard output", "No space left on device");
    let closed = Expected::line(b"standard output", "Bad file descriptor");
    vec![
        Case::one("tally --help", given(), usage()),
        Case::one("tally --help, standard input a pipe that does not end", given().input(Input::Held(vec![])), usage()),
        Case::one("tally --help, standard input closed", given().input(Input::Closed), usage()),
        Case::one("tally --help, a file of that name", given().with(Made::File(b"--help", EXAMPLE.to_vec())), usage()),
        Case::one("tally --help, in writes of one byte", given().writes("1 1 1 1 1 1 1 1 1 1"), usage()),
        Case::one("tally --help, to /dev/full", given().output(Output::Full), full),
        Case::one("tally --help, standard output closed", given().output(Output::Closed), closed),
    ]
}

/// Arguments that are refused: one line that names `--help`, and standard input is not read.
fn refused() -> Vec<Case> {
    let line = || Expected { printed: Printed::Nothing, said: Said::LineLike("tally: ", "--help", "") };
    let files = |setup: Setup| {
        ["one", "two", "-x", "-"]
            .into_iter()
            .fold(setup, |setup, name| setup.with(Made::File(name.as_bytes(), EXAMPLE.to_vec())))
    };
    let refused =
        |name: &str, arguments: &[&[u8]]| Case::one(format!("tally {name}"), files(Setup::given(arguments)), line());
    let waits = |name: &str, arguments: &[&[u8]]| {
        let setup = files(Setup::given(arguments)).input(Input::Held(vec![]));
        Case::one(format!("tally {name}, standard input a pipe that does not end"), setup, line())
    };
    let long = [b"-".as_slice(), &[b'x'; 10_000]].concat();
    let either = Expected { printed: Printed::Nothing, said: Said::LineLike("tally: ", "", "") };
    let unseen = Expected { printed: Printed::Nothing, said: Said::Unseen };
    vec![
        refused("-h", &[b"-h"]),
        refused("-", &[b"-"]),
        refused("--", &[b"--"]),
        refused("-x, a file of that name", &[b"-x"]),
        refused("--helpx", &[b"--helpx"]),
        refused("--hel", &[b"--hel"]),
        refused("--HELP", &[b"--HELP"]),
        refused("-help", &[b"-help"]),
        refused("with an argument --help and a newline", &[b"--help\n"]),
        refused("with an argument - and a newline in it", &[b"-x\ny"]),
        // Of this one two things are said, that it begins with a hyphen and that it is too long: either line will do.
        Case::one("tally with an argument - and 10,000 bytes", files(Setup::given(&[&long])), either),
        refused("with an empty argument", &[b""]),
        refused("with two files", &[b"one", b"two"]),
        refused("with a file and an empty argument", &[b"one", b""]),
        refused("with an empty argument and a file", &[b"", b"one"]),
        refused("--help and a file", &[b"--help", b"one"]),
        refused("with a file and --help", &[b"one", b"--help"]),
        refused("--help --help", &[b"--help", b"--help"]),
        refused("-- and a file", &[b"--", b"one"]),
        refused("with three files", &[b"one", b"two", b"one"]),
        waits("-h", &[b"-h"]),
        waits("-", &[b"-"]),
        waits("with an empty argument", &[b""]),
        waits("with two files", &[b"one", b"two"]),
        Case::one("tally -h, standard output closed", Setup::given(&[b"-h"]).output(Output::Closed), line()),
        Case::one("tally -h, standard output full", Setup::given(&[b"-h"]).output(Output::Full), line()),
        Case::one("tally -h, standard error closed", Setup::given(&[b"-h"]).errors_closed(), unseen),
    ]
}
