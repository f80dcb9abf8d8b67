//! An implementation of document 01 that is quick: validity judged in blocks, full passes over the flows, a ranking by
//! counting and a text without allocation. All else is that of `reference`.
#![forbid(unsafe_code)]

mod passes;
mod ranking;
mod text;
mod validity;

#[cfg(test)]
mod agreement;
/// The tests of `reference`, run on this implementation.
#[cfg(test)]
#[path = "../../reference/src/tests/mod.rs"]
mod tests;

use interface::{Flow, Header};
use passes::Room;
use reference::refusal::Refusal;
use reference::storage::View;
use reference::tag_set::TagSet;
use reference::way::Way;
#[cfg(test)]
use Fast as Tested;

/// The implementation.
pub struct Fast;

reference::implementation!(Fast);

impl Way for Fast {
    type Room = Room;

    /// The same room for all events of a replay.
    fn room() -> Room {
        Room::new()
    }

    /// Without a branch at each word.
    fn is_valid(header: &Header, view: View<'_>) -> bool {
        validity::is_valid(header, view)
    }

    /// By full passes over the enabled flows.
    fn propagate(tags: &mut [TagSet], enabled: &[Flow], room: &mut Room) -> u32 {
        passes::propagate(tags, enabled, room)
    }

    /// By counting how many containers have each size.
    fn ranking(tags: &[TagSet], out: &mut [u16]) {
        ranking::ranking(tags, out);
    }

    /// Put together without allocation.
    fn tally(bytes: &[u8], out: &mut [u8]) -> Result<usize, Refusal> {
        text::tally(bytes, out)
    }
}
