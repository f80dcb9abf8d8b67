//! The public calls that only read a tracker: tag set, size, whether it is legal, ranking.

use crate::refusal::Refusal;
use crate::storage::View;
use crate::tag_set::{self, TagSet};
use crate::validity;
use crate::way::Way;
use interface::{Header, Lent};

/// The tag set of a container.
pub fn tags_of<W: Way>(header: Header, lent: &Lent, container: u32) -> Result<TagSet, Refusal> {
    let (view, container) = ask::<W>(header, lent, container)?;
    Ok(view.tags[container])
}

/// The size of a container's tag set.
pub fn size_of<W: Way>(header: Header, lent: &Lent, container: u32) -> Result<u32, Refusal> {
    tags_of::<W>(header, lent, container).map(|set| tag_set::size(&set))
}

/// Whether the container's "tag set is part of at least one of its permitted sets".
pub fn is_legal<W: Way>(header: Header, lent: &Lent, container: u32) -> Result<bool, Refusal> {
    let (view, container) = ask::<W>(header, lent, container)?;
    let in_use = &view.policies[container][..usize::from(view.counts[container])];
    Ok(in_use.iter().any(|policy| tag_set::is_subset(&view.tags[container], policy)))
}

/// Writes the ranking at the start of `out`. "Ranking: 9, 12, 10."
pub fn rank<W: Way>(header: Header, lent: &Lent, out: &mut [u16]) -> Result<(), Refusal> {
    let view = validity::look::<W>(&header, lent)?;
    let out = out.get_mut(..view.tags.len()).ok_or(Refusal::ShortOutput)?;
    W::ranking(view.tags, out);
    Ok(())
}

/// The places of a valid tracker and a container of it. "Set, size and permission questions: 9, 12, 4."
fn ask<W: Way>(header: Header, lent: &Lent, container: u32) -> Result<(View<'_>, usize), Refusal> {
    let view = validity::look::<W>(&header, lent)?;
    if container < header.containers {
        Ok((view, container as usize))
    } else {
        Err(Refusal::NoSuchContainer)
    }
}
