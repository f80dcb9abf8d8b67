//! A line of a script: read, understood or refused with a reason, and shown.

use crate::numbers::Numbers;
use crate::words::{Field, Word, WORDS};
use std::fmt;
use std::io::{self, BufRead};

/// A line that was understood.
#[derive(Debug)]
pub enum Line {
    /// An empty line, or one that begins with `#`: nothing is run.
    Note,
    /// A word of the table and its numbers.
    Call(&'static Word, Numbers),
}

/// The next line, without its newline; nothing at the end.
pub fn next_line(input: &mut dyn BufRead) -> io::Result<Option<Vec<u8>>> {
    let mut line = Vec::new();
    if input.read_until(b'\n', &mut line)? == 0 {
        return Ok(None);
    }
    if line.last() == Some(&b'\n') {
        line.pop();
    }
    Ok(Some(line))
}

/// What a line asks for, or the reason why it is not understood.
pub fn parse(line: &[u8]) -> Result<Line, String> {
    if line.is_empty() || line.starts_with(b"#") {
        return Ok(Line::Note);
    }
    let line = std::str::from_utf8(line).map_err(|_| String::from("not text: its bytes are not UTF-8"))?;
    single_spaces(line)?;
    let mut parts = line.split(' ');
    let name = parts.next().unwrap_or_default();
    let word = WORDS.iter().find(|word| word.name == name);
    let word = word.ok_or_else(|| format!("no such word: {}", shown(name.as_bytes())))?;
    Ok(Line::Call(word, numbers(word, parts)?))
}

/// Refuses a line with a space that is not between two parts.
fn single_spaces(line: &str) -> Result<(), String> {
    let wrong = if line.starts_with(' ') {
        "a space at the start"
    } else if line.ends_with(' ') {
        "a space at the end"
    } else if line.contains("  ") {
        "two spaces"
    } else {
        return Ok(());
    };
    Err(String::from(wrong))
}

/// The numbers of a word, from left to right.
fn numbers<'a>(word: &Word, parts: impl Iterator<Item = &'a str>) -> Result<Numbers, String> {
    let mut numbers = Vec::new();
    for part in parts {
        let field = word.field(numbers.len()).ok_or_else(|| format!("too many numbers: {}", word.form()))?;
        numbers.push(number(part, field)?);
    }
    if word.is_enough(numbers.len()) {
        Ok(Numbers(numbers))
    } else {
        Err(format!("too few numbers: {}", word.form()))
    }
}

/// A number in its only form, no larger than its place allows.
fn number(text: &str, field: &Field) -> Result<u64, String> {
    let only_digits = text.bytes().all(|byte| byte.is_ascii_digit());
    if !only_digits || text.len() > 1 && text.starts_with('0') {
        let text = shown(text.as_bytes());
        return Err(format!("not a number: {text} (only digits, no sign, no 0 at the start but 0 itself)"));
    }
    match text.parse() {
        Ok(value) if value <= field.most => Ok(value),
        _ => Err(format!("{}: {} is {text}, and the largest is {}", field.above, field.letter, field.most)),
    }
}

/// A line and its number in the script, counted from 1.
#[derive(Clone, Copy)]
pub struct Place<'a> {
    pub number: u64,
    pub line: &'a [u8],
}

impl fmt::Display for Place<'_> {
    /// Shows the number and the line.
    fn fmt(&self, f: &mut fmt::Formatter<'_>) -> fmt::Result {
        write!(f, "line {}: {}", self.number, shown(self.line))
    }
}

/// Bytes as text in which everything is visible.
pub fn shown(bytes: &[u8]) -> String {
    let visible = |letter: char| match letter.is_control() {
        true => letter.escape_default().to_string(),
        false => letter.to_string(),
    };
    String::from_utf8_lossy(bytes).chars().map(visible).collect()
}
