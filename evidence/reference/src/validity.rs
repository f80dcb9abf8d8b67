//! Whether a tracker is valid (document 01: sound), judged in full.

use crate::refusal::Refusal;
use crate::storage::{Loan, Policies, Storage, View};
use crate::tag_set::{self, TagSet};
use crate::way::Way;
use interface::{Flow, Header, Lent};

/// The places of a valid tracker, to be changed; 9 and then 12 otherwise.
pub fn open<'a, W: Way>(header: &Header, loan: Loan<'a>) -> Result<Storage<'a>, Refusal> {
    let storage = loan.cut(header.containers)?;
    if W::is_valid(header, storage.view()) {
        Ok(storage)
    } else {
        Err(Refusal::Invalid)
    }
}

/// The places of a valid tracker, to be read; 9 and then 12 otherwise.
pub fn look<'a, W: Way>(header: &Header, lent: &'a Lent) -> Result<View<'a>, Refusal> {
    let view = View::cut(header.containers, lent)?;
    if W::is_valid(header, view) {
        Ok(view)
    } else {
        Err(Refusal::Invalid)
    }
}

/// Whether the tracker is valid, n and the lengths being known to be right.
pub fn is_valid(header: &Header, view: View<'_>) -> bool {
    let Some((enabled, unused)) = view.flows.split_at_checked(header.count as usize) else {
        return false;
    };
    let outside = tag_set::n_or_more(view.tags.len());
    numbers_are_valid(enabled, header.greatest)
        && enabled.iter().all(|flow| flow_is_valid(flow, view.tags))
        && unused.iter().all(|flow| *flow == Flow::default())
        && tags_are_valid(view.tags, &outside)
        && view.policies.iter().zip(view.counts).all(|(sets, &count)| policies_are_valid(sets, count, &outside))
}

/// Whether "channel numbers rise strictly from at least 1 and don't pass the greatest".
fn numbers_are_valid(enabled: &[Flow], greatest: u32) -> bool {
    enabled.is_sorted_by(|flow, next| flow.number < next.number)
        && enabled.iter().all(|flow| (1..=greatest).contains(&flow.number))
}

/// Whether "all ends are below n and differ" and "the from-set is part of the to-set".
fn flow_is_valid(flow: &Flow, tags: &[TagSet]) -> bool {
    let (Some(from), Some(to)) = (tags.get(flow.from as usize), tags.get(flow.to as usize)) else {
        return false;
    };
    flow.from != flow.to && tag_set::is_subset(from, to)
}

/// Whether "no set names a tag of n or more; each holder has its own tag".
fn tags_are_valid(tags: &[TagSet], outside: &TagSet) -> bool {
    let is_valid = |container, set| tag_set::has(set, container) && tag_set::is_disjoint(set, outside);
    tags.iter().enumerate().all(|(container, set)| is_valid(container, set))
}

/// Whether a container has at most four policy sets, none "names a tag of n or more" and "unused places are zero".
fn policies_are_valid(sets: &Policies, count: u8, outside: &TagSet) -> bool {
    let Some((in_use, unused)) = sets.split_at_checked(usize::from(count)) else {
        return false;
    };
    in_use.iter().all(|set| tag_set::is_disjoint(set, outside)) && unused.iter().all(tag_set::is_empty)
}
