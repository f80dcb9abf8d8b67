//! The tag sets after an event by a search from each container.

use crate::tag_set::{self, TagSet};
use interface::Flow;

/// Brings the tag sets to what they are after an event that leaves these flows enabled, and answers its gain.
pub fn propagate(tags: &mut [TagSet], enabled: &[Flow]) -> u32 {
    let after = after(tags, enabled);
    let gain = gain(tags, &after);
    tags.copy_from_slice(&after);
    gain
}

/// The tag sets after an event: "holder b has tag t exactly if some holder a had t before the event and b can be
/// reached from a by zero or more channels open after the event".
fn after(before: &[TagSet], enabled: &[Flow]) -> Vec<TagSet> {
    let next = next(before.len(), enabled);
    let mut after = vec![[0; 4]; before.len()];
    for (a, tags) in before.iter().enumerate() {
        for b in reached(a, &next) {
            after[b] = tag_set::union(&after[b], tags);
        }
    }
    after
}

/// The containers to which the flows of each container go.
fn next(containers: usize, enabled: &[Flow]) -> Vec<Vec<usize>> {
    let mut next = vec![Vec::new(); containers];
    for flow in enabled {
        next[flow.from as usize].push(flow.to as usize);
    }
    next
}

/// The containers that can be reached from one by zero or more flows, each once, in the order in which they are found.
fn reached(start: usize, next: &[Vec<usize>]) -> Vec<usize> {
    let mut seen = vec![false; next.len()];
    seen[start] = true;
    let mut reached = Vec::with_capacity(next.len());
    reached.push(start);
    let mut searched = 0;
    while searched < reached.len() {
        for &to in &next[reached[searched]] {
            if !seen[to] {
                seen[to] = true;
                reached.push(to);
            }
        }
        searched += 1;
    }
    reached
}

/// The gain: "the count of (tag, holder) pairs present after it and not before".
fn gain(before: &[TagSet], after: &[TagSet]) -> u32 {
    before.iter().zip(after).map(|(before, after)| tag_set::size(&tag_set::missing(after, before))).sum()
}
