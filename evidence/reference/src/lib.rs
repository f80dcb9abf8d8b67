//! An implementation of document 01 in plain Rust, as its sentences read. What another implementation can share is
//! public.
#![forbid(unsafe_code)]

pub mod event;
pub mod number;
pub mod question;
mod ranking;
pub mod record;
pub mod refusal;
pub mod replay;
mod search;
pub mod storage;
pub mod tag_set;
pub mod tally;
pub mod tracker;
pub mod validity;
pub mod way;

#[cfg(test)]
mod tests;

use interface::{Flow, Header};
use refusal::Refusal;
use storage::View;
use tag_set::TagSet;
use way::Way;
#[cfg(test)]
use Reference as Tested;

/// The implementation.
pub struct Reference;

implementation!(Reference);

impl Way for Reference {
    /// Nothing is kept from one event to the next.
    type Room = ();

    fn room() {}

    /// Clause by clause.
    fn is_valid(header: &Header, view: View<'_>) -> bool {
        validity::is_valid(header, view)
    }

    /// By a search from each container.
    fn propagate(tags: &mut [TagSet], enabled: &[Flow], (): &mut ()) -> u32 {
        search::propagate(tags, enabled)
    }

    /// By the standard library's sort.
    fn ranking(tags: &[TagSet], out: &mut [u16]) {
        ranking::ranking(tags, out);
    }

    /// Put together from strings.
    fn tally(bytes: &[u8], out: &mut [u8]) -> Result<usize, Refusal> {
        tally::tally(bytes, out)
    }
}
