//! The text of the program `tally`, put together without allocation.

use crate::ranking;
use crate::Fast;
use interface::{Flow, Replayed};
use reference::number;
use reference::refusal::Refusal;
use reference::replay;
use reference::storage::{Loan, CONTAINERS, FLOWS, POLICIES, WORDS};
use reference::tag_set::{self, TagSet};
use reference::tally::INPUT;
use std::io::Write;

/// Room for the last line, with two numbers of 64 bits.
const LAST: usize = 64;
/// Room for the line of a container that has all tags, and one word more.
const LINE: usize = 1024;

/// The storage of a tracker of any size.
struct Own {
    tags: [u64; WORDS * CONTAINERS],
    policies: [u64; WORDS * POLICIES * CONTAINERS],
    counts: [u8; CONTAINERS],
    flows: [Flow; FLOWS],
}

/// Writes the text for this input at the start of `out` if the whole of it fits, and answers its length.
pub fn tally(bytes: &[u8], out: &mut [u8]) -> Result<usize, Refusal> {
    if bytes.len() > INPUT {
        return text(&[], &refused(Refusal::ShortOutput.number(), INPUT as u64), out);
    }
    let mut own = Own {
        tags: [0; WORDS * CONTAINERS],
        policies: [0; WORDS * POLICIES * CONTAINERS],
        counts: [0; CONTAINERS],
        flows: [Flow { number: 0, from: 0, to: 0 }; FLOWS],
    };
    let loan =
        Loan { tags: &mut own.tags, policies: &mut own.policies, counts: &mut own.counts, flows: &mut own.flows };
    let replayed = replay::replay::<Fast>(bytes, loan);
    let tags = &own.tags.as_chunks().0[..replayed.header.containers as usize];
    text(tags, &last_line(&replayed), out)
}

/// Writes the lines of the containers and the last line if they fit, and answers their length.
fn text(tags: &[TagSet], last: &Short, out: &mut [u8]) -> Result<usize, Refusal> {
    let lines: usize = (0..).zip(tags).map(|(container, set)| line_length(container, set)).sum();
    if lines + last.length > out.len() {
        return Err(Refusal::ShortOutput);
    }
    let mut order = [0; CONTAINERS];
    let order = &mut order[..tags.len()];
    ranking::ranking(tags, order);
    let mut line = [0; LINE];
    let mut at = 0;
    for &container in &*order {
        let length = fill_line(usize::from(container), &tags[usize::from(container)], &mut line);
        at = place(&line[1..=length], out, at)?;
    }
    place(&last.bytes[..last.length], out, at)
}

/// Writes all these bytes at a position or, where they do not fit, none; answers the position after them.
#[inline]
fn place(bytes: &[u8], out: &mut [u8], at: usize) -> Result<usize, Refusal> {
    number::places(out, at, bytes.len())?.copy_from_slice(bytes);
    Ok(at + bytes.len())
}

/// A last line and its length.
struct Short {
    bytes: [u8; LAST],
    length: usize,
}

/// The last line: "`events` with the number done and `gain` with their sum", or the refusal instead.
fn last_line(replayed: &Replayed) -> Short {
    match replayed.refusal {
        0 => short(format_args!("events {} gain {}\n", replayed.events, replayed.gain)),
        number => refused(number, replayed.byte),
    }
}

/// The line of a refusal: "`refused`, the number, `at`, the byte where it begins".
fn refused(number: u32, byte: u64) -> Short {
    short(format_args!("refused {number} at {byte}\n"))
}

/// The line that these words make.
fn short(words: std::fmt::Arguments<'_>) -> Short {
    let mut bytes = [0; LAST];
    let mut rest = &mut bytes[..];
    rest.write_fmt(words).expect("two numbers of 64 bits and three words take less than 64 bytes");
    let length = LAST - rest.len();
    Short { bytes, length }
}

/// The length of a container's line: each number takes a byte for each digit and one for the space before it; the first
/// has a newline at the end instead.
fn line_length(container: usize, set: &TagSet) -> usize {
    let above = |least| tag_set::size(&tag_set::common(set, &tag_set::n_or_more(least))) as usize;
    let size = above(0);
    WORDINGS[container].1 + WORDINGS[size].1 + 2 * size + above(10) + above(100)
}

/// Fills a container's line, with a space before it, and answers the place of its newline.
fn fill_line(container: usize, set: &TagSet, line: &mut [u8; LINE]) -> usize {
    let mut length = put(line, 0, container);
    length = put(line, length, tag_set::size(set) as usize);
    for (word, &bits) in set.iter().enumerate() {
        let mut bits = bits;
        while bits != 0 {
            length = put(line, length, 64 * word + bits.trailing_zeros() as usize);
            bits &= bits - 1;
        }
    }
    line[length] = b'\n';
    length
}

/// Puts a space and a number up to 256 into the line and answers the length after them.
#[inline]
fn put(line: &mut [u8; LINE], length: usize, number: usize) -> usize {
    let (bytes, more) = WORDINGS[number];
    line[length..length + 4].copy_from_slice(&bytes);
    length + more
}

/// Each number up to 256 as a space and its digits, and how many bytes these are.
const WORDINGS: [([u8; 4], usize); CONTAINERS + 1] = wordings();

/// The table of the numbers up to 256 in decimal.
const fn wordings() -> [([u8; 4], usize); CONTAINERS + 1] {
    let mut all = [([b' '; 4], 0); CONTAINERS + 1];
    let mut number = 0;
    while number <= CONTAINERS {
        let (hundreds, tens) = (b'0' + (number / 100) as u8, b'0' + (number / 10 % 10) as u8);
        let ones = b'0' + (number % 10) as u8;
        all[number] = match number {
            0..=9 => ([b' ', ones, b' ', b' '], 2),
            10..=99 => ([b' ', tens, ones, b' '], 3),
            _ => ([b' ', hundreds, tens, ones], 4),
        };
        number += 1;
    }
    all
}
