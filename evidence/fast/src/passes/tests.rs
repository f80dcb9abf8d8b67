//! Single passes, and the copy that is brought up to date between them.

use super::{pass, propagate, Room};
use crate::tests::{flow, members, Random};
use interface::Flow;
use reference::tag_set;

/// The gain of each of four passes over these flows, with the sets as each pass found them.
fn four_passes(n: usize, enabled: &[Flow]) -> Vec<u32> {
    let mut tags: Vec<_> = (0..n).map(tag_set::only).collect();
    let one = |tags: &mut Vec<_>| {
        let found = tags.clone();
        pass(tags, enabled, &found, &mut [0; 512]).0
    };
    (0..4).map(|_| one(&mut tags)).collect()
}

/// The gain and the sets of the whole propagation from the start.
fn propagated(n: usize, enabled: &[Flow]) -> (u32, Vec<Vec<u32>>) {
    let mut tags: Vec<_> = (0..n).map(tag_set::only).collect();
    let gain = propagate(&mut tags, enabled, &mut Room::new());
    (gain, tags.iter().map(members).collect())
}

#[test]
fn a_pass_reads_the_sets_as_it_found_them() {
    let chain = [flow(1, 0, 1), flow(2, 1, 2), flow(3, 2, 3)];
    assert_eq!(four_passes(4, &chain), [3, 2, 1, 0]);
    assert_eq!(propagated(4, &chain), (6, vec![vec![0], vec![0, 1], vec![0, 1, 2], vec![0, 1, 2, 3]]));
}

#[test]
fn a_pass_counts_a_tag_that_two_flows_bring_once() {
    let twice = [flow(1, 0, 2), flow(2, 0, 2), flow(3, 1, 2)];
    assert_eq!(four_passes(3, &twice), [2, 0, 0, 0]);
    assert_eq!(propagated(3, &twice), (2, vec![vec![0], vec![1], vec![0, 1, 2]]));
}

/// The gain of all passes, with a fresh copy of all sets before each pass.
fn by_whole_copies(tags: &mut [[u64; 4]], enabled: &[Flow]) -> u32 {
    let mut gain = 0;
    loop {
        let found = tags.to_vec();
        let before = gain;
        for flow in enabled {
            let (to, from) = (flow.to as usize, found[flow.from as usize]);
            gain += (0..4).map(|word| (from[word] & !tags[to][word]).count_ones()).sum::<u32>();
            (0..4).for_each(|word| tags[to][word] |= from[word]);
        }
        if gain == before {
            return gain;
        }
    }
}

#[test]
fn the_copy_that_is_brought_up_to_date_is_a_whole_copy() {
    let mut random = Random::new(5);
    for round in 0..400 {
        let n = 2 + random.below(if round % 4 == 0 { 255 } else { 12 });
        let count = random.below(if round % 4 == 0 { 513 } else { 16 });
        let enabled: Vec<Flow> = (1..=count).map(|number| flow(number, random.below(n), random.below(n))).collect();
        let mut tags: Vec<_> = (0..n as usize).map(tag_set::only).collect();
        let mut expected = tags.clone();
        let gain = propagate(&mut tags, &enabled, &mut Room::new());
        assert_eq!(gain, by_whole_copies(&mut expected, &enabled));
        assert_eq!(tags, expected);
    }
}
