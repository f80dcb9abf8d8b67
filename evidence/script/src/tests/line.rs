//! Lines that are not understood: each reason, with the line's number; nothing of the line and nothing after it is run.

use super::{compared, typed};
use crate::line::{parse, shown, Line};
use crate::words::WORDS;

/// Lines, each with the reason why it is not understood.
const WRONG: &[(&str, &str)] = &[
    ("open 1 0 2", "no such word: open"),
    ("enabled 1 0 2", "no such word: enabled"),
    ("en", "no such word: en"),
    ("Start 1", "no such word: Start"),
    ("7", "no such word: 7"),
    ("now\t", "no such word: now\\t"),
    ("now\r", "no such word: now\\r"),
    ("start", "too few numbers: start N"),
    ("enable 1 0", "too few numbers: enable K F T"),
    ("add", "too few numbers: add C T.."),
    ("decode 1", "too few numbers: decode W P B.."),
    ("write 0 1 2", "too few numbers: write P K [F T]"),
    ("lent 1 0", "too few numbers: lent K F T B.."),
    ("now 1", "too many numbers: now"),
    ("enable 1 0 1 2", "too many numbers: enable K F T"),
    ("bytes 1 2 3 4", "too many numbers: bytes K [F T]"),
    ("enable x 0 1", "not a number: x (only digits, no sign, no 0 at the start but 0 itself)"),
    ("enable 1 0 1x", "not a number: 1x (only digits, no sign, no 0 at the start but 0 itself)"),
    ("enable -1 0 1", "not a number: -1 (only digits, no sign, no 0 at the start but 0 itself)"),
    ("enable +1 0 1", "not a number: +1 (only digits, no sign, no 0 at the start but 0 itself)"),
    ("enable 01 0 1", "not a number: 01 (only digits, no sign, no 0 at the start but 0 itself)"),
    ("enable 1 00 1", "not a number: 00 (only digits, no sign, no 0 at the start but 0 itself)"),
    ("enable 1 \u{661} 1", "not a number: \u{661} (only digits, no sign, no 0 at the start but 0 itself)"),
    ("enable 4294967298 0 1", "a number too large for its place: K is 4294967298, and the largest is 4294967295"),
    ("log 2 256", "a number too large for its place: B is 256, and the largest is 255"),
    ("count 0 256", "a number too large for its place: V is 256, and the largest is 255"),
    ("record 600", "a number too large for its place: I is 600, and the largest is 599"),
    ("large 5", "a number too large for its place: K is 5, and the largest is 4"),
    ("rank 1000001", "a number too large for its place: N is 1000001, and the largest is 1000000"),
    (
        "number 18446744073709551616",
        "a number too large for its place: V is 18446744073709551616, and the largest is 18446744073709551615",
    ),
    (
        "put 1180591620717411303424 1",
        "a number too large for its place: P is 1180591620717411303424, and the largest is 18446744073709551615",
    ),
    ("add 0 256", "a set's tag above 255: T is 256, and the largest is 255"),
    ("add 0 1 4294967296", "a set's tag above 255: T is 4294967296, and the largest is 255"),
    ("enable  1 0 1", "two spaces"),
    ("enable 1 0  1", "two spaces"),
    ("now ", "a space at the end"),
    ("enable 1 0 1 ", "a space at the end"),
    (" now", "a space at the start"),
    (" ", "a space at the start"),
    ("room 1029 1 1 512", "more room than there is: T is 1029, and the largest is 1028"),
    ("room 1 4113 1 512", "more room than there is: P is 4113, and the largest is 4112"),
    ("room 1 1 258 512", "more room than there is: C is 258, and the largest is 257"),
    ("room 1 1 1 601", "more room than there is: F is 601, and the largest is 600"),
];

/// What is wrong only with the tracker as it is: the line before, the line, the reason.
const NOT_NOW: &[(&str, &str, &str)] = &[
    ("room 1028 4112 257 512", "word 1028 0", "place 1028 is not lent: there are 1028"),
    ("room 8 32 2 512", "word 8 0", "place 8 is not lent: there are 8"),
    ("room 8 32 2 512", "policy 32 0", "place 32 is not lent: there are 32"),
    ("room 8 32 2 512", "count 2 0", "place 2 is not lent: there are 2"),
    ("room 8 32 2 512", "flow 512 1 0 1", "place 512 is not lent: there are 512"),
    ("room 8 32 2 512", "exec 0 2", "the set of container 2 is not lent"),
    ("room 11 32 2 512", "exec 2 0", "the set of container 2 is not lent"),
    ("header 0 0 0", "fill 1", "flow 1 cannot be enabled: refused 9"),
    ("header 1 0 4294967295", "fill 1", "there is no number after 4294967295"),
    ("header 258 0 0", "view", "the header says 258 containers, and there are words for fewer"),
    ("header 1 601 0", "list", "the header counts 601 records, and the table has fewer"),
];

/// What is printed for the line before a wrong one.
const STARTED: &str = "start 1: accepted, gain 0, n 1, flows 0, greatest 0\n";

/// Each reason is said with the line and its number; only what is before it is run.
#[test]
fn each_reason_is_said() {
    for (line, reason) in WRONG {
        let script = format!("start 1\n{line}\nnow\n");
        let said = format!("line 2: {}: {reason}", shown(line.as_bytes()));
        assert_eq!(typed(script.as_bytes()), (String::from(STARTED), format!("{said}\n"), false));
        let compared = compared(script.as_bytes(), STARTED.as_bytes());
        assert_eq!((compared.lines, compared.wrong), (2, vec![said]));
    }
}

/// So is what is wrong only with the tracker as it is.
#[test]
fn what_is_not_lent_is_an_error() {
    for (before, line, reason) in NOT_NOW {
        let script = format!("{before}\n{line}\nnow\n");
        let said = format!("line 2: {line}: {reason}");
        assert_eq!(typed(script.as_bytes()), (format!("{before}\n"), format!("{said}\n"), false));
        let compared = compared(script.as_bytes(), format!("{before}\n").as_bytes());
        assert_eq!((compared.lines, compared.wrong), (2, vec![said]));
    }
}

/// Bytes that are no text are not understood, but may stand in a note.
#[test]
fn bytes_that_are_no_text() {
    assert_eq!(parse(b"now\xff").unwrap_err(), "not text: its bytes are not UTF-8");
    assert!(matches!(parse(b"#\xff"), Ok(Line::Note)));
    assert_eq!(compared(b"#\xff\n", b"#\xff\n").wrong, Vec::<String>::new());
}

/// Notes are printed as they are, and the last line needs no newline.
#[test]
fn notes_are_printed() {
    let (out, err, right) = typed(b"# a  note \n\n#\nnumber 1");
    assert_eq!((out.as_str(), err.as_str(), right), ("# a  note \n\n#\nnumber 1: 1\n", "", true));
}

/// A line may have any number of bytes: 100,000 records of two bytes.
#[test]
fn a_line_may_be_long() {
    let line = format!("log 2{}", " 1 5".repeat(100_000));
    let (out, err, right) = typed(format!("{line}\n").as_bytes());
    assert_eq!((out, err.as_str(), right), (format!("{line}: n 2{}, end\n", ", disable 5".repeat(100_000)), "", true));
}

/// The largest numbers that each word takes are run, and are no fault of this program.
#[test]
fn the_largest_numbers_are_run() {
    for word in WORDS {
        for more in [0, 2] {
            let fields: Vec<_> = (0..word.takes.len() + more).map_while(|place| word.field(place)).collect();
            if word.is_enough(fields.len()) {
                let numbers: String = fields.iter().map(|field| format!(" {}", field.most)).collect();
                let (_, err, _) = typed(format!("{}{numbers}\n", word.name).as_bytes());
                assert!(!err.contains("breaks off"), "{}{numbers}: {err}", word.name);
            }
        }
    }
}
