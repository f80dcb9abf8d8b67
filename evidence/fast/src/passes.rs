//! The propagation by full passes over the enabled flows until one adds nothing.

#[cfg(test)]
mod tests;

use interface::Flow;
use reference::storage::{CONTAINERS, FLOWS};
use reference::tag_set::{self, TagSet};

/// Room for passes: the sets as a pass found them, and the containers whose sets it changed.
pub struct Room {
    found: [TagSet; CONTAINERS],
    changed: [u32; FLOWS],
}

impl Room {
    /// Empty room.
    pub fn new() -> Self {
        Room { found: [[0; 4]; CONTAINERS], changed: [0; FLOWS] }
    }
}

/// The gain of all passes: "The spread stops at the first full pass over the open channels that adds no tag."
pub fn propagate(tags: &mut [TagSet], enabled: &[Flow], room: &mut Room) -> u32 {
    let found = &mut room.found[..tags.len()];
    found.copy_from_slice(tags);
    let mut gain = 0;
    loop {
        let (added, changes) = pass(tags, enabled, found, &mut room.changed);
        if added == 0 {
            return gain;
        }
        gain += added;
        // Only the sets that this pass changed differ from the copy: with them it is again what the next pass finds.
        for &container in &room.changed[..changes] {
            found[container as usize] = tags[container as usize];
        }
    }
}

/// The gain of one pass and how many changes it noted: "Within one pass each channel reads the sets as the pass found
/// them."
fn pass(tags: &mut [TagSet], enabled: &[Flow], found: &[TagSet], changed: &mut [u32; FLOWS]) -> (u32, usize) {
    let mut gain = 0;
    let mut changes = 0;
    for flow in enabled {
        let added = take_in(&mut tags[flow.to as usize], &found[flow.from as usize]);
        if added > 0 {
            gain += added;
            changed[changes] = flow.to;
            changes += 1;
        }
    }
    (gain, changes)
}

/// How many tags `to` gains when it takes in those of `from`.
#[inline]
fn take_in(to: &mut TagSet, from: &TagSet) -> u32 {
    let new = tag_set::missing(from, to);
    if tag_set::is_empty(&new) {
        return 0;
    }
    to.iter_mut().zip(&new).for_each(|(word, new)| *word |= new);
    tag_set::size(&new)
}
