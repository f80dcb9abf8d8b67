//! Each clause of validity, broken alone in a tracker that is otherwise valid.

use super::{all_calls, flow, lengths, Random, Tracker};
use crate::Tested;
use interface::{Flow, Header, Implementation};

/// A valid tracker with n containers, flows 3, 7 and 9 enabled, two policy sets of container 1 and four of container 2.
fn tracker(n: u32) -> Tracker {
    let mut tracker = Tracker::new(n);
    for (number, from, to) in [(1, 0, 3), (3, 0, 1), (7, 1, 2), (9, 2, 3)] {
        assert_eq!(tracker.enable(number, from, to).refusal, 0);
    }
    assert_eq!(tracker.disable(1).refusal, 0);
    for container in [1, 2, 1, 2, 2, 2] {
        assert_eq!(tracker.add(container, &[0, n - 1]).refusal, 0);
    }
    tracker
}

/// Sees that the tracker is accepted by all calls, and refused by all of them as not valid once it is broken.
fn check(good: &Tracker, breaking: impl FnOnce(&mut Tracker)) {
    let disabled = good.lent.flows[0].number;
    let room = good.header.count < 512;
    let expected = if room { [0; 7] } else { [7, 0, 0, 0, 0, 0, 0] };
    assert_eq!(all_calls(good.header, &good.lent, disabled), expected);
    let mut broken = good.clone();
    breaking(&mut broken);
    assert_eq!(all_calls(broken.header, &broken.lent, disabled), [12; 7]);
}

#[test]
fn counts_of_flows() {
    let mut full = Tracker::new(5);
    (1..=512).for_each(|number| assert_eq!(full.enable(number, 0, 1 + number % 4).refusal, 0));
    for count in [513, 519, 520, 1 << 31, u32::MAX] {
        check(&full, |tracker| tracker.header.count = count);
    }
    check(&full, |tracker| {
        tracker.lent.flows[512] = flow(513, 0, 1);
        tracker.header = Header { containers: 5, count: 513, greatest: 513 };
    });
}

#[test]
fn counts_of_policy_sets() {
    for count in [5, 6, 128, 255] {
        check(&tracker(5), |tracker| tracker.lent.counts[2] = count);
        check(&tracker(5), |tracker| tracker.lent.counts[0] = count);
    }
}

#[test]
fn numbers_rise_strictly_from_at_least_1() {
    for (place, number) in [(0, 0), (0, 7), (0, 8), (1, 3), (1, 2), (1, 0), (1, 9), (2, 7), (2, 6), (2, 0)] {
        check(&tracker(5), |tracker| tracker.lent.flows[place].number = number);
    }
    check(&tracker(5), |tracker| tracker.lent.flows.swap(0, 2));
}

#[test]
fn numbers_do_not_pass_the_greatest() {
    for greatest in [0, 3, 8] {
        check(&tracker(5), |tracker| tracker.header.greatest = greatest);
    }
    check(&tracker(5), |tracker| tracker.lent.flows[2].number = 10);
    check(&tracker(5), |tracker| tracker.lent.flows[2].number = u32::MAX);
}

#[test]
fn ends_are_below_n() {
    for end in [5, 6, 255, 256, u32::MAX] {
        for place in 0..3 {
            check(&tracker(5), |tracker| tracker.lent.flows[place].from = end);
            check(&tracker(5), |tracker| tracker.lent.flows[place].to = end);
        }
    }
}

#[test]
fn ends_differ() {
    for place in 0..3 {
        check(&tracker(5), |tracker| tracker.lent.flows[place].from = tracker.lent.flows[place].to);
        check(&tracker(5), |tracker| tracker.lent.flows[place].to = tracker.lent.flows[place].from);
    }
}

#[test]
fn tag_sets_name_no_tag_of_n_or_more() {
    for n in [5, 63, 64, 65, 128, 191, 192, 193, 255] {
        for tag in (n..256).filter(|tag| tag % 61 == 0 || *tag == n || *tag == 255) {
            check(&tracker(n), |tracker| tracker.lent.tags[16 + (tag / 64) as usize] |= 1 << (tag % 64));
        }
    }
}

#[test]
fn policy_sets_name_no_tag_of_n_or_more() {
    for n in [5, 63, 64, 65, 128, 191, 192, 193, 255] {
        for tag in (n..256).filter(|tag| tag % 61 == 0 || *tag == n || *tag == 255) {
            for place in [16, 20, 32, 36, 40, 44] {
                check(&tracker(n), |tracker| tracker.lent.policies[place + (tag / 64) as usize] |= 1 << (tag % 64));
            }
        }
    }
}

#[test]
fn each_container_has_its_own_tag() {
    let good = tracker(256);
    for container in (4..256).filter(|container| container % 9 == 0 || container % 64 == 63) {
        check(&good, |tracker| tracker.lent.tags[4 * container + container / 64] = 0);
    }
    check(&good, |tracker| tracker.lent.tags[3 * 4] &= !8);
    check(&good, |tracker| tracker.lent.tags.swap(16, 20));
}

#[test]
fn the_from_set_is_part_of_the_to_set() {
    check(&tracker(5), |tracker| tracker.lent.tags[4] &= !1);
    check(&tracker(5), |tracker| tracker.lent.tags[8] &= !2);
    check(&tracker(5), |tracker| tracker.lent.tags[12] &= !4);
    check(&tracker(5), |tracker| tracker.lent.tags[0] |= 16);
    check(&tracker(5), |tracker| tracker.lent.flows[1] = flow(7, 4, 2));
    check(&tracker(255), |tracker| tracker.lent.tags[3] |= 1 << 62);
}

#[test]
fn unused_records_are_zero() {
    let parts: [fn(&mut Flow); 3] =
        [|record| record.number = 10, |record| record.from = 1, |record| record.to = 1 << 31];
    for place in [3, 4, 100, 511] {
        for part in parts {
            check(&tracker(5), |tracker| part(&mut tracker.lent.flows[place]));
        }
    }
    check(&tracker(5), |tracker| tracker.header.count = 2);
    check(&tracker(5), |tracker| tracker.header.count = 0);
    check(&tracker(5), |tracker| tracker.header.count = 4);
    check(&tracker(5), |tracker| tracker.header.count = 512);
}

#[test]
fn unused_policy_words_are_zero() {
    for place in (0..16).chain(24..32).chain(48..80) {
        check(&tracker(5), |tracker| tracker.lent.policies[place] = 1);
    }
    check(&tracker(256), |tracker| tracker.lent.policies[16 * 256 - 1] = 1 << 63);
    check(&tracker(5), |tracker| tracker.lent.counts[1] = 1);
    check(&tracker(5), |tracker| tracker.lent.counts[2] = 3);
}

#[test]
fn what_is_valid_though_no_list_of_calls_makes_it() {
    let mut tracker = tracker(5);
    tracker.header.greatest = u32::MAX;
    assert_eq!(tracker.disable(7).refusal, 0);
    assert_eq!(tracker.enable(u32::MAX, 0, 1).refusal, 6);
    tracker.lent.tags[16] |= 1;
    assert_eq!(tracker.tags(4), [0, 4]);
    tracker.lent.counts[1] = 4;
    assert_eq!(tracker.add(1, &[]).refusal, 11);
    assert!(!tracker.legal(1));
}

#[test]
fn what_lies_beyond_is_not_judged() {
    let mut random = Random::new(8);
    let mut tracker = tracker(5);
    let [tags, policies, counts, flows] = lengths(5);
    tracker.lent.tags[tags..].fill_with(|| random.word());
    tracker.lent.policies[policies..].fill_with(|| random.word());
    tracker.lent.counts[counts..].fill(255);
    tracker.lent.flows[flows..].fill(flow(1, 9, 9));
    assert_eq!(all_calls(tracker.header, &tracker.lent, 9), [0; 7]);
}

#[test]
fn single_bits_of_tag_sets_that_are_flipped() {
    let good = tracker(200);
    for place in 0..4 * 200 {
        for bit in [0, 13, 31, 63] {
            let mut changed = good.clone();
            changed.lent.tags[place] ^= 1 << bit;
            let (container, tag) = (place / 4, 64 * (place % 4) + bit);
            let removed = good.lent.tags[place] >> bit & 1 == 1;
            let breaks = removed || tag >= 200 || container < 3;
            let answer = Tested.tags_of(changed.header, &changed.lent, 0);
            assert_eq!(answer.err(), breaks.then_some(12), "{place} {bit}");
        }
    }
}
