//! The ranking against a plain sort.

use super::{Random, Tracker};
use crate::Tested;
use interface::Implementation;

/// A tracker after random flows.
fn mixed(n: u32, random: &mut Random) -> Tracker {
    let mut tracker = Tracker::new(n);
    for number in 1..=n.min(60) {
        tracker.enable(number, random.below(n), random.below(n));
    }
    tracker
}

#[test]
fn most_tags_first_then_the_lower_number() {
    let mut random = Random::new(11);
    for n in [1, 2, 3, 5, 17, 64, 100, 255, 256] {
        let tracker = mixed(n, &mut random);
        let mut expected: Vec<u16> = (0..n as u16).collect();
        expected.sort_by_cached_key(|&container| (-(tracker.tags(u32::from(container)).len() as i64), container));
        let mut out = [999; 300];
        assert_eq!(Tested.rank(tracker.header, &tracker.lent, &mut out), Ok(()));
        assert_eq!(out[..n as usize], expected);
        assert!(out[n as usize..].iter().all(|&place| place == 999));
    }
}

#[test]
fn all_containers_with_all_tags() {
    let mut tracker = Tracker::new(256);
    (0..256).for_each(|from| assert_eq!(tracker.enable(from + 1, from, (from + 1) % 256).refusal, 0));
    let mut out = [0; 256];
    assert_eq!(Tested.rank(tracker.header, &tracker.lent, &mut out), Ok(()));
    assert!((0..256).eq(out));
}

#[test]
fn output_just_long_enough_and_one_short() {
    for n in [1, 4, 256] {
        let tracker = mixed(n, &mut Random::new(12));
        let mut out = vec![999; n as usize];
        assert_eq!(Tested.rank(tracker.header, &tracker.lent, &mut out[1..]), Err(10));
        assert!(out.iter().all(|&place| place == 999));
        assert_eq!(Tested.rank(tracker.header, &tracker.lent, &mut out), Ok(()));
    }
}
