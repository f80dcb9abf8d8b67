//! The program `script` itself: what it prints where, and how it ends.

use std::io::Write;
use std::path::{Path, PathBuf};
use std::process::{Command, Output, Stdio};

/// What is printed, what is said, and the exit status.
type Ended = (String, String, Option<i32>);

/// What a program that ended printed and said, and its exit status.
fn ended(output: Output) -> Ended {
    let text = |bytes| String::from_utf8(bytes).unwrap();
    (text(output.stdout), text(output.stderr), output.status.code())
}

/// The program with these words after its name and this standard input.
fn script(words: &[&Path], input: &str) -> Ended {
    let mut program = Command::new(env!("CARGO_BIN_EXE_script"));
    program.args(words).stdin(Stdio::piped()).stdout(Stdio::piped()).stderr(Stdio::piped());
    let mut running = program.spawn().unwrap();
    // A program that needs no input may have ended already.
    let _ = running.stdin.take().unwrap().write_all(input.as_bytes());
    ended(running.wait_with_output().unwrap())
}

/// A file of this content that is there for one test.
fn file(name: &str, content: &str) -> PathBuf {
    let path = Path::new(env!("CARGO_TARGET_TMPDIR")).join(name);
    std::fs::write(&path, content).unwrap();
    path
}

/// What it says when a script is compared with this output.
fn compared(name: &str, script_text: &str, output_text: &str) -> Ended {
    let lines = file(&format!("{name}.script"), script_text);
    let output = file(&format!("{name}.output"), output_text);
    script(&[Path::new("--compare"), &lines, &output], "")
}

/// The stored script is answered as stored, on one line.
#[test]
fn the_stored_script() {
    let samples = Path::new(env!("CARGO_MANIFEST_DIR")).join("samples");
    let (out, err, status) = script(&[Path::new("--compare"), &samples.join("script"), &samples.join("output")], "");
    assert!(out.ends_with(" lines of the script: product and reference answer as stored\n"), "{out}");
    assert_eq!((out.lines().count(), err.as_str(), status), (1, "", Some(0)));
}

/// An output that is not what comes is said for each side, and the status is 1.
#[test]
fn another_output() {
    let (out, err, status) = compared("another", "number 5\nnumber 6\n", "number 5: 5\nnumber 6: 7\n");
    let said = "at line 2: number 6\n  stored: number 6: 7\n  came:   number 6: 6\n";
    assert_eq!((out.as_str(), err, status), ("", format!("product {said}reference {said}"), Some(1)));
}

/// A line that is not understood is said once, and the status is 1.
#[test]
fn a_line_that_is_not_understood() {
    let (out, err, status) = compared("wrong", "number 5\nnumber x\n", "number 5: 5\n");
    assert!(
        out.is_empty() && err.starts_with("line 2: number x: not a number: x") && err.lines().count() == 1,
        "{err}"
    );
    assert_eq!(status, Some(1));
    let (out, err, status) = script(&[], "number 5\nnumber x\nnumber 6\n");
    assert!(err.starts_with("line 2: number x: not a number: x") && err.lines().count() == 1, "{err}");
    assert_eq!((out.as_str(), status), ("number 5: 5\n", Some(1)));
}

/// A script that is typed in is answered by the product.
#[test]
fn what_is_typed_in() {
    let (out, err, status) = script(&[], "# a note\nstart 2\n\nenable 1 0 1\n");
    let answers = "# a note\nstart 2: accepted, gain 0, n 2, flows 0, greatest 0\n\nenable 1 0 1: accepted, gain 1\n";
    assert_eq!((out.as_str(), err.as_str(), status), (answers, "", Some(0)));
}

/// Other words after the program's name, and files that are not there, are said; the status is 2. The help is printed.
#[test]
fn other_words() {
    let (out, err, status) = script(&[Path::new("--compare")], "");
    assert!(out.is_empty() && err.starts_with("usage:"));
    assert_eq!(status, Some(2));
    let nowhere = Path::new("/there/is/no/such/file");
    let (out, err, status) = script(&[Path::new("--compare"), nowhere, nowhere], "");
    assert!(out.is_empty() && err.starts_with("script: /there/is/no/such/file: "), "{err}");
    assert_eq!(status, Some(2));
    let (out, err, status) = script(&[Path::new("--help")], "");
    assert!(out.starts_with("script < SCRIPT") && out.contains("\nenable K F T "));
    assert_eq!((err.as_str(), status), ("", Some(0)));
}
