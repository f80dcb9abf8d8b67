//! The limits of document 01, at the last number that is accepted and the first that is not.

use super::{flow, members, storage, up_to, Random, Tracker};
use crate::Tested;
use interface::{Answer, Header, Implementation, Lent};
use std::array;

#[test]
fn numbers_of_containers() {
    for (n, refusal) in [(0, 9), (1, 0), (2, 0), (255, 0), (256, 0), (257, 9), (65_536, 9), (u32::MAX, 9)] {
        let mut lent = storage(300, 5, &mut Random::new(3));
        let before = lent.clone();
        let header = if refusal == 0 { Header { containers: n, count: 0, greatest: 0 } } else { Header::default() };
        assert_eq!(Tested.start(n, &mut lent), Answer { refusal, gain: 0, header });
        assert_eq!(lent == before, refusal != 0);
    }
}

#[test]
fn a_tracker_of_one_container() {
    let mut tracker = Tracker::new(1);
    assert_eq!(tracker.tags(0), [0]);
    assert_eq!(tracker.enable(1, 0, 0).refusal, 5);
    assert_eq!([tracker.enable(1, 0, 1).refusal, tracker.enable(1, 1, 0).refusal], [4, 4]);
    assert_eq!(tracker.add(0, &[0]).refusal, 0);
    assert!(tracker.legal(0));
}

#[test]
fn starting_writes_the_places_in_use_alone() {
    for n in [1, 63, 64, 65, 255, 256] {
        let tracker = Tracker::new(n as u32);
        let lent = &tracker.lent;
        for container in 0..n {
            let set: [u64; 4] = lent.tags[4 * container..4 * container + 4].try_into().unwrap();
            assert_eq!(members(&set), [container as u32]);
        }
        assert!(lent.policies[..16 * n].iter().all(|&word| word == 0));
        assert!(lent.counts[..n].iter().all(|&count| count == 0));
        assert!(lent.flows[..512].iter().all(|&record| record == flow(0, 0, 0)));
    }
}

#[test]
fn storage_just_long_enough_and_one_short() {
    for n in [1, 2, 64, 256] {
        let lent = storage(n, 0, &mut Random::new(5));
        assert_eq!(Tested.start(n as u32, &mut lent.clone()).refusal, 0);
        for short in shortened(&lent) {
            let mut after = short.clone();
            assert_eq!(Tested.start(n as u32, &mut after), Answer { refusal: 9, ..Answer::default() });
            assert_eq!(after, short);
        }
    }
}

/// The same storage with one list one place shorter, for each list.
pub fn shortened(lent: &Lent) -> [Lent; 4] {
    let whole = [lent.tags.len(), lent.policies.len(), lent.counts.len(), lent.flows.len()];
    array::from_fn(|list| {
        let mut places = whole;
        places[list] -= 1;
        up_to(places, 0, lent)
    })
}

#[test]
fn four_policy_sets_and_a_fifth() {
    let mut tracker = Tracker::new(256);
    for place in 0..4 {
        assert_eq!(tracker.add(255, &[place, 255]).refusal, 0);
        assert_eq!(u32::from(tracker.lent.counts[255]), place + 1);
        let word = 16 * 255 + 4 * place as usize;
        assert_eq!(tracker.lent.policies[word..word + 4], [1 << place, 0, 0, 1 << 63]);
    }
    assert_eq!(tracker.add(255, &[1]).refusal, 11);
    assert_eq!(tracker.add(254, &[1]).refusal, 0);
}

#[test]
fn the_same_policy_set_takes_two_places() {
    let mut tracker = Tracker::new(2);
    assert_eq!([tracker.add(0, &[0]).refusal, tracker.add(0, &[0]).refusal], [0, 0]);
    assert_eq!(tracker.lent.counts[0], 2);
    assert_eq!(tracker.lent.policies[..16], [1, 0, 0, 0, 1, 0, 0, 0, 0, 0, 0, 0, 0, 0, 0, 0]);
}

#[test]
fn flow_numbers_of_32_bits() {
    let mut tracker = Tracker::new(2);
    assert_eq!(tracker.enable(0, 0, 1).refusal, 6);
    assert_eq!(tracker.gain(u32::MAX - 1, 0, 1), 1);
    assert_eq!(tracker.gain(u32::MAX, 0, 1), 0);
    assert_eq!(tracker.enable(u32::MAX, 0, 1).refusal, 6);
    assert_eq!([tracker.disable(0).refusal, tracker.disable(u32::MAX).refusal], [8, 0]);
    assert_eq!(tracker.enable(u32::MAX, 0, 1).refusal, 6);
    assert_eq!(tracker.lent.flows[..2], [flow(u32::MAX - 1, 0, 1), flow(0, 0, 0)]);
}

#[test]
fn a_refused_enable_uses_up_no_number() {
    let mut tracker = Tracker::new(2);
    assert_eq!(tracker.enable(9, 0, 2).refusal, 4);
    assert_eq!(tracker.gain(1, 0, 1), 1);
}

#[test]
fn disabling_packs_the_table() {
    let mut tracker = Tracker::new(9);
    for number in 1..=8 {
        tracker.gain(10 * number, number, 0);
    }
    for number in [40, 10, 80] {
        assert_eq!(tracker.disable(number).refusal, 0);
    }
    let left: Vec<u32> = tracker.lent.flows[..9].iter().map(|flow| flow.number).collect();
    assert_eq!(left, [20, 30, 50, 60, 70, 0, 0, 0, 0]);
    assert_eq!(tracker.lent.flows[2], flow(50, 5, 0));
    assert!(tracker.lent.flows[5..512].iter().all(|&record| record == flow(0, 0, 0)));
    assert_eq!(tracker.disable(40).refusal, 8);
    assert_eq!(tracker.header.greatest, 80);
}

#[test]
fn disabling_in_a_full_table() {
    for gone in [1, 2, 256, 511, 512] {
        let mut tracker = Tracker::new(3);
        (1..=512).for_each(|number| assert_eq!(tracker.enable(number, 0, 1 + number % 2).refusal, 0));
        assert_eq!(tracker.disable(gone).refusal, 0);
        let left: Vec<u32> = tracker.lent.flows[..511].iter().map(|flow| flow.number).collect();
        assert_eq!(left, (1..=512).filter(|&number| number != gone).collect::<Vec<_>>());
        assert_eq!(tracker.lent.flows[511], flow(0, 0, 0));
    }
}

#[test]
fn a_ring_of_256() {
    let mut tracker = Tracker::new(256);
    let gains: u32 = (0..256).map(|from| tracker.gain(from + 1, from, (from + 1) % 256)).sum();
    assert_eq!(gains, 256 * 255);
    assert_eq!(tracker.tags(77), (0..256).collect::<Vec<_>>());
}

#[test]
fn the_greatest_gain_of_one_event() {
    let mut tracker = Tracker::new(256);
    (0..255).rev().for_each(|from| assert!(tracker.enable(256 - from, from, from + 1).refusal == 0));
    let table = tracker.table();
    assert!(table.iter().enumerate().all(|(container, tags)| tags.len() == container + 1));
    assert_eq!(tracker.gain(1000, 255, 0), 255 * 256 / 2);
}
