//! The stored script and its stored output.

use super::{compared, typed};
use crate::line::{parse, Line};
use crate::words::WORDS;
use std::collections::HashSet;

/// The script.
const SCRIPT: &[u8] = include_bytes!("../../samples/script");
/// Its output.
const OUTPUT: &[u8] = include_bytes!("../../samples/output");

/// The reference answers as stored.
#[test]
fn the_reference_answers_as_stored() {
    let compared = compared(SCRIPT, OUTPUT);
    assert_eq!(compared.wrong, Vec::<String>::new());
    assert_eq!(compared.lines as usize, SCRIPT.split_inclusive(|byte| *byte == b'\n').count());
}

/// Run line by line, the script prints the stored output.
#[test]
fn it_prints_what_is_stored() {
    let (out, err, right) = typed(SCRIPT);
    assert!(out.as_bytes() == OUTPUT && err.is_empty() && right);
}

/// The script has every word.
#[test]
fn it_has_every_word() {
    let lines = SCRIPT.split(|byte| *byte == b'\n').map(|line| parse(line).unwrap());
    let used: HashSet<&str> =
        lines.filter_map(|line| if let Line::Call(word, _) = line { Some(word.name) } else { None }).collect();
    assert_eq!(used.len(), WORDS.len());
}
