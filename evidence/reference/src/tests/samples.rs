//! The samples of document 01, with their numbers.

use super::{flow, lend, members, Tracker};
use crate::Tested;
use interface::{Answer, Event, Implementation};

/// The input of Example 1.
pub const EXAMPLE: [u8; 25] = [5, 0, 1, 2, 3, 0, 2, 0, 1, 1, 2, 0, 3, 1, 2, 1, 1, 1, 3, 0, 4, 3, 4, 1, 4];

/// The whole output of Example 1.
const EXAMPLE_TEXT: &str = "4 5 0 1 2 3 4\n3 4 0 1 2 3\n2 3 0 1 2\n1 2 0 1\n0 1 0\nevents 8 gain 10\n";

#[test]
fn three_containers_and_no_event() {
    let tracker = Tracker::new(3);
    assert_eq!(tracker.table(), [[0], [1], [2]]);
}

#[test]
fn example_1_text() {
    let mut out = [b'x'; 100];
    assert_eq!(Tested.tally(&EXAMPLE, &mut out), Ok(EXAMPLE_TEXT.len()));
    assert_eq!(&out[..EXAMPLE_TEXT.len()], EXAMPLE_TEXT.as_bytes());
    assert!(out[EXAMPLE_TEXT.len()..].iter().all(|&byte| byte == b'x'));
}

#[test]
fn example_1_gains() {
    let mut tracker = Tracker::new(5);
    let mut at = 1;
    let mut gains = Vec::new();
    while at < EXAMPLE.len() {
        let (event, next) = Tested.read_record(&EXAMPLE, at).unwrap();
        let answer = tracker.event(event);
        assert_eq!(answer.refusal, 0);
        gains.push(answer.gain);
        at = next;
    }
    assert_eq!(gains, [1, 1, 0, 4, 0, 0, 4, 0]);
    assert_eq!(tracker.table(), [vec![0], vec![0, 1], vec![0, 1, 2], vec![0, 1, 2, 3], vec![0, 1, 2, 3, 4]]);
    assert_eq!((tracker.header.count, tracker.header.greatest), (0, 4));
}

#[test]
fn a_disabled_flow_carries_nothing() {
    let mut tracker = Tracker::new(3);
    assert_eq!(tracker.gain(1, 1, 2), 1);
    assert_eq!(tracker.disable(1), Answer { refusal: 0, gain: 0, header: tracker.header });
    assert_eq!(tracker.gain(2, 0, 1), 1);
    assert_eq!(tracker.table(), [vec![0], vec![0, 1], vec![1, 2]]);
}

#[test]
fn two_flows_left_enabled() {
    let mut tracker = Tracker::new(3);
    assert_eq!([tracker.gain(1, 1, 2), tracker.gain(2, 0, 1)], [1, 2]);
    assert_eq!(tracker.table(), [vec![0], vec![0, 1], vec![0, 1, 2]]);
}

#[test]
fn a_ring_of_three() {
    let mut tracker = Tracker::new(3);
    assert_eq!([tracker.gain(1, 0, 1), tracker.gain(2, 1, 2), tracker.gain(3, 2, 0)], [1, 2, 3]);
    assert_eq!(tracker.table(), [[0, 1, 2], [0, 1, 2], [0, 1, 2]]);
}

#[test]
fn two_flows_with_the_same_ends() {
    let mut tracker = Tracker::new(3);
    assert_eq!([tracker.gain(1, 0, 1), tracker.gain(2, 0, 1)], [1, 0]);
    assert_eq!(tracker.disable(1).refusal, 0);
    assert_eq!(tracker.gain(3, 2, 0), 2);
    assert_eq!(tracker.table(), [vec![0, 2], vec![0, 1, 2], vec![2]]);
}

#[test]
fn numbers_are_written_and_read() {
    let cases: [(u64, &[u8]); 3] = [(127, &[127]), (128, &[128, 1]), (4_294_967_295, &[255, 255, 255, 255, 15])];
    for (value, bytes) in cases {
        let mut out = [77; 8];
        assert_eq!(Tested.encode(value, &mut out, 1), Ok(1 + bytes.len()));
        assert_eq!(&out[1..=bytes.len()], bytes);
        assert!(out[0] == 77 && out[1 + bytes.len()..].iter().all(|&byte| byte == 77));
        assert_eq!(Tested.decode(bytes, 0, 32), Ok((value, bytes.len())));
    }
}

#[test]
fn numbers_that_are_refused() {
    assert_eq!(Tested.decode(&[128, 0], 0, 32), Err(2));
    assert_eq!(Tested.decode(&[255, 255, 255, 255, 16], 0, 32), Err(2));
    assert_eq!(Tested.decode(&[128], 0, 32), Err(1));
}

#[test]
fn policy_sets_are_not_united() {
    let mut tracker = Tracker::new(3);
    assert_eq!([tracker.gain(1, 0, 2), tracker.gain(2, 1, 2)], [1, 1]);
    assert_eq!(tracker.tags(2), [0, 1, 2]);
    assert!(!tracker.legal(2));
    assert_eq!([tracker.add(2, &[0, 2]).refusal, tracker.add(2, &[1, 2]).refusal], [0, 0]);
    assert!(!tracker.legal(2));
    assert_eq!(tracker.add(2, &[0, 1, 2]).refusal, 0);
    assert!(tracker.legal(2));
}

#[test]
fn sizes_of_a_tracker() {
    assert_eq!(Tracker::new(256).tags(255), [255]);
    let mut lent = lend(vec![9; 2000], vec![9; 5000], vec![9; 300], vec![flow(9, 9, 9); 600]);
    let before = lent.clone();
    assert_eq!(Tested.start(257, &mut lent), Answer { refusal: 9, ..Answer::default() });
    assert_eq!(lent, before);
}

#[test]
fn a_full_table() {
    let mut tracker = Tracker::new(3);
    for number in 1..=512 {
        assert_eq!(tracker.enable(number, number % 2, 2).refusal, 0);
    }
    assert_eq!(tracker.enable(513, 0, 2).refusal, 7);
    assert_eq!(tracker.disable(100).refusal, 0);
    assert_eq!(tracker.enable(513, 0, 2).refusal, 0);
    assert_eq!((tracker.header.count, tracker.header.greatest), (512, 513));
}

#[test]
fn example_1_records_are_written_back() {
    let mut out = [0; EXAMPLE.len()];
    let mut at = Tested.write_head(5, &mut out).unwrap();
    while at < EXAMPLE.len() {
        let (event, _) = Tested.read_record(&EXAMPLE, at).unwrap();
        at = Tested.write_record(event, &mut out, at).unwrap();
    }
    assert_eq!(out, EXAMPLE);
    assert_eq!(Tested.read_record(&EXAMPLE, 9), Ok((Event::Disable(2), 11)));
    assert_eq!(members(&[1, 2, 0, 1 << 63]), [0, 65, 255]);
}
