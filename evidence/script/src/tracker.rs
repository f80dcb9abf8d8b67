//! The tracker of a script: its header, its lists, and how much of each list is lent.

use interface::{Flow, Guard, Header, Lent};
use std::fmt::Debug;

/// The places of each list: words of tags, words of policy sets, counts, records of flows.
pub const PLACES: [usize; 4] = [1028, 4112, 257, 600];
/// How many of them are lent at first.
const AT_FIRST: [usize; 4] = [1028, 4112, 257, 512];

/// The tracker.
pub struct Tracker {
    pub header: Header,
    /// The lists, whether lent or not.
    pub whole: Lent,
    room: [usize; 4],
}

/// Lists of these lengths, all zero.
pub fn zeros(lengths: [usize; 4]) -> Lent {
    let [tags, policies, counts, flows] = lengths;
    Lent {
        tags: vec![0; tags].into(),
        policies: vec![0; policies].into(),
        counts: vec![0; counts].into(),
        flows: vec![Flow::default(); flows].into(),
    }
}

/// The first place at which two lists differ, with what each has there.
fn first_place<T: PartialEq + Debug>(name: &str, one: &[T], other: &[T]) -> Option<String> {
    let place = one.iter().zip(other).position(|(one, other)| one != other)?;
    Some(format!("place {place} of {name}: {:?} and {:?}", one[place], other[place]))
}

/// Writes what was lent back to the front of the whole list.
fn copy_back<T: Guard>(whole: &mut [T], lent: &[T]) {
    for (place, value) in whole.iter_mut().zip(lent) {
        *place = *value;
    }
}

impl Default for Tracker {
    /// All zero.
    fn default() -> Tracker {
        Tracker { header: Header::default(), whole: zeros(PLACES), room: AT_FIRST }
    }
}

impl Tracker {
    /// Lends so many places of each list from now on, at most as many as there are.
    pub fn make_room(&mut self, room: [usize; 4]) {
        self.room = std::array::from_fn(|list| room[list].min(PLACES[list]));
    }

    /// A copy of what is lent, each list between new guard zones.
    pub fn lent(&self) -> Lent {
        let [tags, policies, counts, flows] = self.room;
        Lent {
            tags: self.whole.tags[..tags].into(),
            policies: self.whole.policies[..policies].into(),
            counts: self.whole.counts[..counts].into(),
            flows: self.whole.flows[..flows].into(),
        }
    }

    /// Takes back what was lent, as a call left it. A list that is empty leaves the tracker's own as it is.
    pub fn take_back(&mut self, lent: &Lent) {
        copy_back(&mut self.whole.tags, &lent.tags);
        copy_back(&mut self.whole.policies, &lent.policies);
        copy_back(&mut self.whole.counts, &lent.counts);
        copy_back(&mut self.whole.flows, &lent.flows);
    }

    /// The words of tags that are lent.
    pub fn tags(&mut self) -> &mut [u64] {
        &mut self.whole.tags[..self.room[0]]
    }

    /// The words of policy sets that are lent.
    pub fn policies(&mut self) -> &mut [u64] {
        &mut self.whole.policies[..self.room[1]]
    }

    /// The counts that are lent.
    pub fn counts(&mut self) -> &mut [u8] {
        &mut self.whole.counts[..self.room[2]]
    }

    /// The records that are lent.
    pub fn flows(&mut self) -> &mut [Flow] {
        &mut self.whole.flows[..self.room[3]]
    }

    /// The first number of the header or place of the lists at which two trackers differ.
    pub fn difference(&self, other: &Tracker) -> Option<String> {
        let (one, other_lists) = (&self.whole, &other.whole);
        first_place("the header", &[self.header], &[other.header])
            .or_else(|| first_place("tags", &one.tags, &other_lists.tags))
            .or_else(|| first_place("policies", &one.policies, &other_lists.policies))
            .or_else(|| first_place("counts", &one.counts, &other_lists.counts))
            .or_else(|| first_place("flows", &one.flows, &other_lists.flows))
    }
}
