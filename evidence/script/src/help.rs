//! What `script --help` prints.

use crate::tracker::PLACES;
use crate::words::{Word, LARGEST, WORDS};

/// How the program is used.
pub const USAGE: &str = "\
script < SCRIPT                 each line, and directly after it what the product answers; says where the independent
                                implementation of document 01 answers otherwise
script --compare SCRIPT OUTPUT  runs the script over both, and compares what each prints with the stored output
script --help                   this text";

/// The width of a line.
const WIDTH: usize = 120;
/// Where the text beside the words begins.
const COLUMN: usize = 20;

/// What a line is, and what it works on.
fn lines() -> String {
    let [tags, policies, counts, flows] = PLACES;
    format!(
        "\
A line is a word and its numbers, with one space before each. An empty line and one that begins with # are notes.
B.. and T.. are any number of bytes and of tags, also none, each at most 255; [F T] may be left out. Where nothing else
is said a number is at most {LARGEST}. A line that is not understood ends the run.
The script has one tracker: {tags} words of tags, {policies} words of policy sets, {counts} counts and {flows} records
of flows, all zero at first. Calls get as much of each list as is lent, at first all but the records past the 512th;
past the calls only what is lent is written. `refused` is followed by the number in document 01's table of refusals."
    )
}

/// The letters of a word's numbers that have another largest number, with it.
fn limits(word: &Word) -> String {
    let others = word.takes.iter().filter(|field| field.most != LARGEST);
    let limits: Vec<String> = others.map(|field| format!("{} at most {}", field.letter, field.most)).collect();
    match limits.is_empty() {
        true => String::new(),
        false => format!(" ({})", limits.join(", ")),
    }
}

/// The row of a word: its form, and beside it what it does, on as many lines as that takes.
fn row(word: &Word) -> String {
    let mut row = format!("{:<COLUMN$}", word.form());
    let mut width = COLUMN;
    for part in format!("{}{}", word.does, limits(word)).split(' ') {
        if width + part.len() + 1 > WIDTH {
            row += &format!("\n{:COLUMN$}", "");
            width = COLUMN;
        }
        row += &format!(" {part}");
        width += part.len() + 1;
    }
    row + "\n"
}

/// The whole text.
pub fn help() -> String {
    let rows: String = WORDS.iter().map(row).collect();
    format!("{USAGE}\n\n{}\n\n{rows}", lines())
}
