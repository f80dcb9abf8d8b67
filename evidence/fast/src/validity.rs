//! Whether a tracker is valid, judged in full and without a branch at each word.

use interface::{Flow, Header};
use reference::storage::{Policies, View, FLOWS};
use reference::tag_set::{self, TagSet};

/// Whether the tracker is valid.
pub fn is_valid(header: &Header, view: View<'_>) -> bool {
    let count = header.count as usize;
    if count > FLOWS {
        return false;
    }
    let (enabled, unused) = view.flows.split_at(count);
    let outside = tag_set::n_or_more(view.tags.len());
    all_zero(unused)
        && flows_are_valid(enabled, header.greatest, view.tags)
        && tags_are_valid(view.tags, &outside)
        && policies_are_valid(view.policies, view.counts, &outside)
}

/// Whether no record holds anything: "unused places are zero".
fn all_zero(records: &[Flow]) -> bool {
    let (blocks, rest) = records.as_chunks::<16>();
    any_bit(rest) == 0 && blocks.iter().all(|block| any_bit(block) == 0)
}

/// The bits that any field of these records has.
#[inline]
fn any_bit(records: &[Flow]) -> u32 {
    records.iter().fold(0, |bits, flow| bits | flow.number | flow.from | flow.to)
}

/// Whether "channel numbers rise strictly from at least 1 and don't pass the greatest" and each flow is valid.
fn flows_are_valid(enabled: &[Flow], greatest: u32, tags: &[TagSet]) -> bool {
    let mut last = 0;
    for flow in enabled {
        if flow.number <= last || !flow_is_valid(flow, tags) {
            return false;
        }
        last = flow.number;
    }
    last <= greatest
}

/// Whether "all ends are below n and differ" and "the from-set is part of the to-set".
fn flow_is_valid(flow: &Flow, tags: &[TagSet]) -> bool {
    let (Some(from), Some(to)) = (tags.get(flow.from as usize), tags.get(flow.to as usize)) else {
        return false;
    };
    flow.from != flow.to && tag_set::is_subset(from, to)
}

/// Whether "no set names a tag of n or more; each holder has its own tag".
fn tags_are_valid(tags: &[TagSet], outside: &TagSet) -> bool {
    let is_valid = |container, set| tag_set::has(set, container) && tag_set::is_disjoint(set, outside);
    tags.iter().enumerate().all(|(container, set)| is_valid(container, set))
}

/// Whether the policy sets of each container are valid.
fn policies_are_valid(policies: &[Policies], counts: &[u8], outside: &TagSet) -> bool {
    policies.iter().zip(counts).all(|(sets, count)| match count {
        0 => sets_are_valid::<0>(sets, outside),
        1 => sets_are_valid::<1>(sets, outside),
        2 => sets_are_valid::<2>(sets, outside),
        3 => sets_are_valid::<3>(sets, outside),
        4 => sets_are_valid::<4>(sets, outside),
        _ => false,
    })
}

/// Whether the first `COUNT` policy sets name no tag of n or more and "unused places are zero".
#[inline]
fn sets_are_valid<const COUNT: usize>(sets: &Policies, outside: &TagSet) -> bool {
    let mut wrong: TagSet = [0; 4];
    for (place, set) in sets.iter().enumerate() {
        let found = if place < COUNT { tag_set::common(set, outside) } else { *set };
        wrong.iter_mut().zip(found).for_each(|(word, found)| *word |= found);
    }
    tag_set::is_empty(&wrong)
}
