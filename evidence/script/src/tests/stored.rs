//! The comparison with a stored output: the first line that differs is said for each side.

use super::compared;

/// A script of three lines.
const SCRIPT: &[u8] = b"start 2\ntally 2 0 5 0 1\nnow\n";
/// What is printed for it, by document 01.
const OUTPUT: &str = "start 2: accepted, gain 0, n 2, flows 0, greatest 0\n\
    tally 2 0 5 0 1:\n1 2 0 1\n0 1 0\nevents 1 gain 1\nnow: n 2, flows 0, greatest 0\n";

/// What is said for both sides.
fn both(said: &str) -> Vec<String> {
    vec![format!("first at {said}"), format!("second at {said}")]
}

/// The right output is right.
#[test]
fn the_right_output() {
    let compared = compared(SCRIPT, OUTPUT.as_bytes());
    assert_eq!((compared.lines, compared.wrong), (3, Vec::new()));
}

/// Another word in the first line of an answer, and in a line of a text.
#[test]
fn another_line() {
    let stored = OUTPUT.replace("start 2: accepted, gain 0", "start 2: accepted, gain 1");
    let said = "line 1: start 2\n  stored: start 2: accepted, gain 1, n 2, flows 0, greatest 0\n  \
        came:   start 2: accepted, gain 0, n 2, flows 0, greatest 0";
    assert_eq!(compared(SCRIPT, stored.as_bytes()).wrong, both(said));
    let stored = OUTPUT.replace("\n0 1 0\n", "\n0 1 1\n");
    let said = "line 2: tally 2 0 5 0 1\n  stored: 0 1 1\n  came:   0 1 0";
    assert_eq!(compared(SCRIPT, stored.as_bytes()).wrong, both(said));
}

/// A line too few and one too many, within and at the end.
#[test]
fn a_line_too_few_or_too_many() {
    let stored = OUTPUT.replace("\n0 1 0\n", "\n");
    let said = "line 2: tally 2 0 5 0 1\n  stored: events 1 gain 1\n  came:   0 1 0";
    assert_eq!(compared(SCRIPT, stored.as_bytes()).wrong, both(said));
    let stored = OUTPUT.replace("now: n 2, flows 0, greatest 0\n", "");
    let said = "line 3: now\n  stored: (nothing)\n  came:   now: n 2, flows 0, greatest 0";
    assert_eq!(compared(SCRIPT, stored.as_bytes()).wrong, both(said));
    let stored = format!("{OUTPUT}\n");
    assert_eq!(
        compared(SCRIPT, stored.as_bytes()).wrong,
        both("the end of the script\n  stored: \n  came:   (nothing)")
    );
}

/// A newline, a space or a letter that cannot be seen.
#[test]
fn what_is_hard_to_see() {
    let said = |stored: &str| format!("line 3: now\n  stored: {stored}\n  came:   now: n 2, flows 0, greatest 0");
    let cut = OUTPUT.strip_suffix('\n').unwrap();
    assert_eq!(compared(SCRIPT, cut.as_bytes()).wrong, both(&said("now: n 2, flows 0, greatest 0 (and no newline)")));
    assert_eq!(
        compared(SCRIPT, format!("{cut}\r\n").as_bytes()).wrong,
        both(&said("now: n 2, flows 0, greatest 0\\r"))
    );
    assert_eq!(compared(SCRIPT, format!("{cut} \n").as_bytes()).wrong, both(&said("now: n 2, flows 0, greatest 0 ")));
}

/// A script without a line shows nothing.
#[test]
fn a_script_without_a_line() {
    assert_eq!(compared(b"", b"").wrong, ["the script has no line"]);
}
