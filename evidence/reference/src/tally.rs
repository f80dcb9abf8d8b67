//! The text of the program `tally`.

use crate::number;
use crate::ranking;
use crate::refusal::Refusal;
use crate::replay;
use crate::storage::{Loan, CONTAINERS, FLOWS, POLICIES, WORDS};
use crate::tag_set::{self, TagSet};
use crate::Reference;
use interface::{Flow, Replayed};

/// The most bytes of input: "up to 16,384 bytes".
pub const INPUT: usize = 16_384;

/// Writes the text for this input at the start of `out` if the whole of it fits, and answers its length.
pub fn tally(bytes: &[u8], out: &mut [u8]) -> Result<usize, Refusal> {
    let text = text(bytes);
    number::places(out, 0, text.len())?.copy_from_slice(text.as_bytes());
    Ok(text.len())
}

/// The text for this input: "Longer input gives only `refused 10 at 16384`."
fn text(bytes: &[u8]) -> String {
    if bytes.len() > INPUT {
        return refused(Refusal::ShortOutput.number(), INPUT as u64);
    }
    let mut tags = [0; WORDS * CONTAINERS];
    let replayed = replay::replay::<Reference>(
        bytes,
        Loan {
            tags: &mut tags,
            policies: &mut [0; WORDS * POLICIES * CONTAINERS],
            counts: &mut [0; CONTAINERS],
            flows: &mut [Flow::default(); FLOWS],
        },
    );
    let containers = replayed.header.containers as usize;
    lines(&tags.as_chunks().0[..containers]) + &last_line(&replayed)
}

/// The lines of all containers: "the holders in ranking order, a line each".
fn lines(tags: &[TagSet]) -> String {
    let mut order = vec![0; tags.len()];
    ranking::ranking(tags, &mut order);
    order.into_iter().map(|container| line(container, &tags[usize::from(container)])).collect()
}

/// The line of a container: "holder, size, tags rising, with single spaces".
fn line(container: u16, set: &TagSet) -> String {
    let tags: String = (0..CONTAINERS).filter(|&tag| tag_set::has(set, tag)).map(|tag| format!(" {tag}")).collect();
    format!("{container} {}{tags}\n", tag_set::size(set))
}

/// The last line: "`events` with the number done and `gain` with their sum", or the refusal instead.
fn last_line(replayed: &Replayed) -> String {
    match replayed.refusal {
        0 => format!("events {} gain {}\n", replayed.events, replayed.gain),
        number => refused(number, replayed.byte),
    }
}

/// The line of a refusal: "`refused`, the number, `at`, the byte where it begins".
fn refused(number: u32, byte: u64) -> String {
    format!("refused {number} at {byte}\n")
}
