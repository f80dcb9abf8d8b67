//! The text of `--help`.

use crate::help::help;
use crate::words::WORDS;

/// Each word is in the text once, at the start of a line with its numbers, and no line is too wide.
#[test]
fn each_word_has_one_row() {
    let text = help();
    for word in WORDS {
        let rows = text.lines().filter(|line| line.split(' ').next() == Some(word.name));
        assert_eq!(rows.filter(|row| row.starts_with(&word.form())).count(), 1, "{}", word.name);
    }
    assert!(text.lines().all(|line| line.len() <= 120));
}

/// No two words have the same name.
#[test]
fn names_differ() {
    for (place, word) in WORDS.iter().enumerate() {
        assert!(WORDS[..place].iter().all(|other| other.name != word.name), "{}", word.name);
    }
}

/// A row has the numbers, what the word does, and the largest number where it is another.
#[test]
fn a_row_has_the_numbers() {
    let row = "count C V            writes how many policy sets C has, past the calls (V at most 255)\n";
    assert!(help().contains(row));
}
