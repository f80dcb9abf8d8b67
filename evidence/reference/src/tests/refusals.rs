//! Every refusal of the calls on a tracker, and which is answered where several hold.

use super::limits::shortened;
use super::{all_calls, flow, lend, lengths, set, up_to, Tracker};
use crate::Tested;
use interface::{Answer, Header, Implementation, Lent};

/// A tracker of three containers in storage that is just long enough, with four policy sets of container 1 and so many
/// flows enabled.
fn tracker(flows: u32) -> (Header, Lent) {
    let mut tracker = Tracker::new(3);
    (0..4).for_each(|_| assert_eq!(tracker.add(1, &[1]).refusal, 0));
    (1..=flows).for_each(|number| assert_eq!(tracker.enable(number, 0, 1 + number % 2).refusal, 0));
    (tracker.header, up_to(lengths(3), 0, &tracker.lent))
}

/// The first number of those that hold, or 0.
fn first(held: &[(bool, u32)]) -> u32 {
    held.iter().find(|(holds, _)| *holds).map_or(0, |(_, number)| *number)
}

/// Storage that is as it was, short, not valid, or both.
fn spoilt(lent: &Lent, short: Option<usize>, invalid: bool) -> Lent {
    let mut lent = lent.clone();
    if invalid {
        lent.tags[0] = 0;
    }
    match short {
        Some(list) => shortened(&lent)[list].clone(),
        None => lent,
    }
}

/// Each way to spoil storage, or not to.
fn spoils() -> impl Iterator<Item = (Option<usize>, bool)> {
    [None, Some(0), Some(1), Some(2), Some(3)].into_iter().flat_map(|short| [(short, false), (short, true)])
}

/// Sees that a call answers this refusal and then changes nothing.
fn check(header: Header, lent: &Lent, expected: u32, call: impl Fn(&mut Lent) -> Answer) {
    let mut after = lent.clone();
    let answer = call(&mut after);
    assert_eq!(answer.refusal, expected);
    if expected != 0 {
        assert_eq!(answer, Answer { refusal: expected, gain: 0, header });
        assert_eq!(&after, lent);
    }
}

#[test]
fn order_of_enable() {
    const MAX: u32 = u32::MAX;
    let ends = [(0, 1), (1, 0), (3, 1), (0, 3), (3, 3), (4, 3), (MAX, 0), (0, MAX), (MAX, MAX), (2, 2)];
    for flows in [5, 512] {
        let (header, good) = tracker(flows);
        for (short, invalid) in spoils() {
            let lent = spoilt(&good, short, invalid);
            for (from, to) in ends {
                for number in [0, 1, flows, flows + 1, MAX] {
                    let ends = [(from >= 3, 4), (to >= 3, 4), (from == to, 5)];
                    let rest = [(number <= flows, 6), (flows == 512, 7)];
                    let held = [&[(short.is_some(), 9), (invalid, 12)], &ends[..], &rest].concat();
                    let flow = flow(number, from, to);
                    check(header, &lent, first(&held), |lent| Tested.enable(header, lent, flow));
                }
            }
        }
    }
}

#[test]
fn order_of_disable() {
    let (header, good) = tracker(5);
    for (short, invalid) in spoils() {
        let lent = spoilt(&good, short, invalid);
        for number in [0, 1, 5, 6, u32::MAX] {
            let held = [(short.is_some(), 9), (invalid, 12), (!(1..=5).contains(&number), 8)];
            check(header, &lent, first(&held), |lent| Tested.disable(header, lent, number));
        }
    }
}

#[test]
fn order_of_adding_a_policy_set() {
    let (header, good) = tracker(5);
    for (short, invalid) in spoils() {
        let lent = spoilt(&good, short, invalid);
        for container in [0, 1, 2, 3, u32::MAX] {
            for policy in [vec![], vec![2], vec![0, 1, 2], vec![3], vec![0, 64], vec![255]] {
                let outside = policy.iter().any(|&tag| tag >= 3);
                let storage = [(short.is_some(), 9), (invalid, 12)];
                let held = [&storage[..], &[(container >= 3, 4), (outside, 4), (container == 1, 11)]].concat();
                check(header, &lent, first(&held), |lent| Tested.add_policy(header, lent, container, set(&policy)));
            }
        }
    }
}

#[test]
fn order_of_the_questions() {
    let (header, good) = tracker(5);
    for (short, invalid) in spoils() {
        let lent = spoilt(&good, short, invalid);
        for container in [0, 2, 3, 255, u32::MAX] {
            let expected = first(&[(short.is_some(), 9), (invalid, 12), (container >= 3, 4)]);
            assert_eq!(Tested.tags_of(header, &lent, container).err().unwrap_or(0), expected);
            assert_eq!(Tested.size_of(header, &lent, container).err().unwrap_or(0), expected);
            assert_eq!(Tested.is_legal(header, &lent, container).err().unwrap_or(0), expected);
        }
    }
}

#[test]
fn order_of_ranking() {
    let (header, good) = tracker(5);
    for (short, invalid) in spoils() {
        let lent = spoilt(&good, short, invalid);
        for places in [0, 2, 3, 4] {
            let mut out = vec![999; places];
            let expected = first(&[(short.is_some(), 9), (invalid, 12), (places < 3, 10)]);
            assert_eq!(Tested.rank(header, &lent, &mut out).err().unwrap_or(0), expected);
            assert_eq!(out.iter().all(|&place| place == 999), expected != 0);
        }
    }
}

#[test]
fn a_header_with_a_bad_number_of_containers() {
    for containers in [0, 257, 1 << 30, u32::MAX] {
        let (header, lent) = tracker(5);
        let longer = up_to(lengths(3), 20_000, &lent);
        assert_eq!(all_calls(Header { containers, ..header }, &longer, 1), [9; 7]);
    }
}

#[test]
fn a_bad_size_comes_before_a_bad_count() {
    let (header, lent) = tracker(5);
    for count in [513, u32::MAX] {
        let header = Header { count, ..header };
        assert_eq!(all_calls(header, &lent, 1), [12; 7]);
        for short in shortened(&lent) {
            assert_eq!(all_calls(header, &short, 1), [9; 7]);
        }
    }
}

#[test]
fn empty_storage() {
    let header = Header { containers: 1, count: 0, greatest: 0 };
    let mut nothing = lend(vec![], vec![], vec![], vec![]);
    assert_eq!(all_calls(header, &nothing, 1), [9; 7]);
    assert_eq!(Tested.start(1, &mut nothing), Answer { refusal: 9, ..Answer::default() });
}
