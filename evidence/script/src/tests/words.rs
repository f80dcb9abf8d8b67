//! Each word on the reference, with the answers worked out by hand from document 01.

use super::typed;
use crate::words::WORDS;

/// Lines with what is printed directly after each.
type Rows = &'static [(&'static str, &'static str)];

/// Calls that change the tracker, and looks at it.
const CALLS: &[Rows] = &[
    &[
        ("room 4 16 1 512", ""),
        ("start 2", ": refused 9, n 0, flows 0, greatest 0"),
        ("start 1", ": accepted, gain 0, n 1, flows 0, greatest 0"),
        ("room 8 32 2 511", ""),
        ("start 2", ": refused 9, n 0, flows 0, greatest 0"),
        ("room 8 32 2 512", ""),
        ("start 2", ": accepted, gain 0, n 2, flows 0, greatest 0"),
    ],
    &[
        ("start 3", ": accepted, gain 0, n 3, flows 0, greatest 0"),
        ("enable 4 0 1", ": accepted, gain 1"),
        ("enable 9 1 2", ": accepted, gain 2"),
        ("view", ": | 0 | 0 1 | 0 1 2"),
        ("list", ": | 4 0 1 | 9 1 2"),
        ("disable 4", ": accepted, gain 0"),
        ("disable 4", ": refused 8"),
        ("enable 9 0 1", ": refused 6"),
        ("enable 10 3 0", ": refused 4"),
        ("enable 10 2 2", ": refused 5"),
        ("list", ": | 9 1 2"),
        ("now", ": n 3, flows 1, greatest 9"),
    ],
    &[
        ("start 2", ": accepted, gain 0, n 2, flows 0, greatest 0"),
        ("fill 0", ""),
        ("fill 2", ""),
        ("fill 1", ""),
        ("list", ": | 1 0 1 | 2 0 1 | 3 0 1"),
        ("now", ": n 2, flows 3, greatest 3"),
    ],
    &[
        ("start 200", ": accepted, gain 0, n 200, flows 0, greatest 0"),
        ("add 7 0 63 64 191", ": accepted, gain 0"),
        ("legal 7", ": no"),
        ("add 7 7 7 199", ": accepted, gain 0"),
        ("legal 7", ": yes"),
        ("add 7", ": accepted, gain 0"),
        ("add 7 200", ": refused 4"),
        ("add 7", ": accepted, gain 0"),
        ("add 7", ": refused 11"),
        ("set 7", ": 7"),
        ("size 7", ": 1"),
        ("set 200", ": refused 4"),
        ("size 200", ": refused 4"),
        ("legal 200", ": refused 4"),
    ],
    &[
        ("start 3", ": accepted, gain 0, n 3, flows 0, greatest 0"),
        ("enable 1 0 2", ": accepted, gain 1"),
        ("rank 4", ": ranked 2 0 1 7"),
        ("rank 2", ": refused 10, leaves 7 7"),
        ("rank 0", ": refused 10, leaves"),
    ],
];

/// Writes past the calls.
const WRITES: &[Rows] = &[
    &[
        ("start 2", ": accepted, gain 0, n 2, flows 0, greatest 0"),
        ("word 4 3", ""),
        ("word 7 9223372036854775808", ""),
        ("view", ": | 0 | 0 1 255"),
        ("set 1", ": refused 12"),
        ("word 7 0", ""),
        ("set 1", ": 0 1"),
        ("room 4 16 1 0", ""),
        ("set 1", ": refused 9"),
        ("room 8 32 2 512", ""),
        ("set 1", ": 0 1"),
        ("word 4 0", ""),
        ("view", ": | 0 |"),
    ],
    &[
        ("start 2", ": accepted, gain 0, n 2, flows 0, greatest 0"),
        ("policy 16 2", ""),
        ("legal 1", ": refused 12"),
        ("count 1 1", ""),
        ("legal 1", ": yes"),
        ("count 1 5", ""),
        ("legal 1", ": refused 12"),
    ],
    &[
        ("start 2", ": accepted, gain 0, n 2, flows 0, greatest 0"),
        ("flow 0 5 1 0", ""),
        ("record 0", ": 5 1 0"),
        ("record 599", ": 0 0 0"),
        ("header 2 1 7", ""),
        ("now", ": n 2, flows 1, greatest 7"),
        ("list", ": | 5 1 0"),
        ("set 0", ": refused 12"),
        ("word 0 3", ""),
        ("set 0", ": 0 1"),
        ("enable 8 0 1", ": accepted, gain 1"),
        ("disable 5", ": accepted, gain 0"),
        ("list", ": | 8 0 1"),
    ],
    &[
        ("start 3", ": accepted, gain 0, n 3, flows 0, greatest 0"),
        ("exec 0 1", ""),
        ("exec 1 2", ""),
        ("exec 1 1", ""),
        ("view", ": | 0 | 0 1 | 0 1 2"),
        ("now", ": n 3, flows 0, greatest 0"),
    ],
];

/// Numbers, heads and records.
const LOGS: &[Rows] = &[
    &[("number 0", ": 0"), ("number 300", ": 172 2"), ("number 16384", ": 128 128 1")],
    &[
        ("decode 8 1 9 255 1", ": 255, next 3"),
        ("decode 7 0 128 1", ": refused 2"),
        ("decode 32 0", ": refused 1"),
        ("decode 32 18446744073709551615 5", ": refused 1"),
    ],
    &[("put 1 300", ": next 3, leaves 7 172 2"), ("put 2 300", ": refused 10, leaves 7 7 7")],
    &[
        ("log 3 0 1 0 2 1 1", ": n 3, enable 1 0 2, disable 1, end"),
        ("log 3 0 1 0 2 2", ": n 3, enable 1 0 2, refused 3 at 5"),
        ("log", ": refused 1 at 0"),
        ("log 7", ": n 7, end"),
    ],
    &[
        ("item 1 9 1 128 1", ": disable 128, next 4"),
        ("item 0 0 1 2 3", ": enable 1 2 3, next 4"),
        ("item 1 9 1 128", ": refused 1"),
    ],
    &[
        ("write 3 128", ": next 6, leaves 7 7 7 1 128 1 7 7"),
        ("write 0 1 2 3", ": next 4, leaves 0 1 2 3 7 7 7 7"),
        ("write 5 1 2 3", ": refused 10, leaves 7 7 7 7 7 7 7 7"),
    ],
    &[("begin 256", ": next 2, leaves 128 2 7 7"), ("begin 4294967295", ": refused 10, leaves 7 7 7 7")],
    &[("bytes 128", ": 3"), ("bytes 1 2 128", ": 5")],
];

/// Whole logs.
const RUNS: &[Rows] = &[
    &[
        ("judge 8 32 2 512 2", ": 2, next 1"),
        ("judge 8 32 2 512 2 0 1", ": 2, next 1"),
        ("judge 7 32 2 512 2", ": refused 9"),
        ("judge 8 32 2 512 128", ": refused 1"),
        ("judge 1024 4096 256 600 128 2", ": 256, next 2"),
        ("now", ": n 0, flows 0, greatest 0"),
    ],
    &[
        ("replay 2 0 5 0 1 1 5", ": complete, events 2, gain 1, n 2, flows 0, greatest 5"),
        ("replay 2 0 5 0 1 1 6", ": refused 8 at 5, events 1, gain 1, n 2, flows 1, greatest 5"),
        ("now", ": n 2, flows 1, greatest 5"),
        ("view", ": | 0 | 0 1"),
    ],
    &[
        ("start 1", ": accepted, gain 0, n 1, flows 0, greatest 0"),
        ("room 0 0 0 0", ""),
        ("tally 2 0 5 0 1", ":\n1 2 0 1\n0 1 0\nevents 1 gain 1"),
        ("tally", ":\nrefused 1 at 0"),
        ("tally 128 2", ": 2356 bytes of text"),
        ("short 16 0", ": next 15, leaves 114 101 102 117 115 101 100 32 57 32 97 116 32 48 10 7"),
        ("short 3 0", ": refused 10, leaves 7 7 7"),
        ("now", ": n 1, flows 0, greatest 0"),
    ],
    &[
        (
            "large 0",
            ": refused 7 at 2434, events 512, gain 1, n 2, flows 512, greatest 512, text:\n\
             1 2 0 1\n0 1 0\nrefused 7 at 2434",
        ),
        (
            "large 1",
            ": complete, events 4159, gain 1, n 2, flows 1, greatest 2080, text:\n1 2 0 1\n0 1 0\nevents 4159 gain 1",
        ),
        (
            "large 2",
            ": refused 1 at 16384, events 4159, gain 1, n 2, flows 1, greatest 2080, text:\nrefused 10 at 16384",
        ),
        ("large 3", ": complete, events 0, gain 0, n 256, flows 0, greatest 0, text: 2356 bytes of text"),
        ("large 4", ": complete, events 256, gain 65280, n 256, flows 256, greatest 256, text: 235944 bytes of text"),
        ("size 77", ": 256"),
    ],
    &[
        ("start 3", ": accepted, gain 0, n 3, flows 0, greatest 0"),
        ("lent 2 1 2 3 0 1 0 1", ": accepted, gain 2, n 3, flows 2, greatest 2"),
        ("lent 1 1 2 3 0 1 0 1", ": refused 6, n 3, flows 1, greatest 1"),
        ("now", ": n 3, flows 0, greatest 0"),
        ("list", ":"),
        ("record 0", ": 0 0 0"),
        ("view", ": | 0 | 0 1 | 2"),
    ],
];

/// All rows.
fn all() -> impl Iterator<Item = Rows> {
    [CALLS, WRITES, LOGS, RUNS].into_iter().flatten().copied()
}

/// Each of these scripts is answered as worked out.
#[test]
fn answers_worked_out_by_hand() {
    for rows in all() {
        let script: String = rows.iter().map(|(line, _)| format!("{line}\n")).collect();
        let printed: String = rows.iter().map(|(line, answer)| format!("{line}{answer}\n")).collect();
        assert_eq!(typed(script.as_bytes()), (printed, String::new(), true));
    }
}

/// There is such an answer for every word.
#[test]
fn every_word_is_tried() {
    for word in WORDS {
        let tried = |rows: Rows| rows.iter().any(|(line, _)| line.split(' ').next() == Some(word.name));
        assert!(all().any(tried), "{}", word.name);
    }
}
