//! The replay: refusals of n and of records, and the same tracker as by single calls.

use super::limits::shortened;
use super::samples::EXAMPLE;
use super::{beyond, flow, storage, Random, Tracker};
use crate::Tested;
use interface::{Event, Header, Implementation, Lent, Replayed};

/// Replays a log into storage with random content, for up to 256 containers.
fn replayed(bytes: &[u8]) -> (Replayed, Lent) {
    let mut lent = storage(256, 3, &mut Random::new(31));
    let replayed = Tested.replay(bytes, &mut lent);
    (replayed, lent)
}

/// A log with these events.
pub fn log(n: u32, events: &[Event]) -> Vec<u8> {
    let mut bytes = vec![0; 5 + 16 * events.len()];
    let mut at = Tested.write_head(n, &mut bytes).unwrap();
    for &event in events {
        at = Tested.write_record(event, &mut bytes, at).unwrap();
    }
    bytes.truncate(at);
    bytes
}

/// A random log, mostly of events that are accepted, and sometimes spoilt in a byte or cut.
pub fn random_log(random: &mut Random) -> Vec<u8> {
    let n = [1, 2, 3, 5, 9, 40, 130, 256][random.below(8) as usize];
    let mut enabled: Vec<u32> = Vec::new();
    let mut greatest = 0;
    let mut events = Vec::new();
    for _ in 0..random.below(60) {
        if random.below(3) == 0 && !enabled.is_empty() {
            events.push(Event::Disable(enabled.swap_remove(random.below(enabled.len() as u32) as usize)));
        } else if n > 1 {
            let from = random.below(n);
            greatest += 1 + random.below(9).pow(random.below(6));
            enabled.push(greatest);
            events.push(Event::Enable(flow(greatest, from, (from + 1 + random.below(n - 1)) % n)));
        }
    }
    let mut bytes = log(n, &events);
    match random.below(4) {
        0 => bytes.truncate(random.below(bytes.len() as u32 + 1) as usize),
        1 => {
            let place = random.below(bytes.len() as u32) as usize;
            bytes[place] = [0, 1, 2, 3, 127, 128, 255, random.word() as u8][random.below(8) as usize];
        }
        _ => {}
    }
    bytes
}

#[test]
fn example_1() {
    let (replayed, lent) = replayed(&EXAMPLE);
    let header = Header { containers: 5, count: 0, greatest: 4 };
    assert_eq!(replayed, Replayed { refusal: 0, byte: 0, events: 8, gain: 10, header });
    assert_eq!(Tested.tags_of(header, &lent, 4), Ok([31, 0, 0, 0]));
}

#[test]
fn refusals_of_n_leave_all_as_it_was() {
    let before = storage(256, 3, &mut Random::new(31));
    let cases: [(&[u8], u32); 9] = [
        (&[], 1),
        (&[128], 1),
        (&[128, 0], 2),
        (&[255, 255, 255, 255, 16], 2),
        (&[0], 9),
        (&[0, 2], 9),
        (&[129, 2], 9),
        (&[255, 255, 255, 255, 15, 0, 1, 0, 1], 9),
        (&[133, 0, 7], 2),
    ];
    for (bytes, refusal) in cases {
        let (replayed, lent) = replayed(bytes);
        assert_eq!(replayed, Replayed { refusal, ..Replayed::default() });
        assert_eq!(lent, before);
    }
}

#[test]
fn storage_that_is_short_leaves_all_as_it_was() {
    for short in shortened(&storage(5, 0, &mut Random::new(32))) {
        let mut lent = short.clone();
        assert_eq!(Tested.replay(&EXAMPLE, &mut lent), Replayed { refusal: 9, ..Replayed::default() });
        assert_eq!(lent, short);
        assert_eq!(Tested.replay(&[133, 0], &mut lent).refusal, 2);
    }
    assert_eq!(Tested.replay(&EXAMPLE, &mut storage(5, 0, &mut Random::new(32))).refusal, 0);
}

#[test]
fn a_log_of_n_alone() {
    for (bytes, n) in [(vec![1], 1), (vec![128, 2], 256)] {
        let (replayed, lent) = replayed(&bytes);
        let header = Header { containers: n, count: 0, greatest: 0 };
        assert_eq!(replayed, Replayed { header, ..Replayed::default() });
        assert_eq!(Tested.size_of(header, &lent, n - 1), Ok(1));
    }
}

#[test]
fn each_refusal_of_a_record() {
    let start = [3, 0, 5, 0, 1];
    let cases: [(&[u8], u32); 18] = [
        (&[0], 1),
        (&[1], 1),
        (&[128], 1),
        (&[0, 6, 1], 1),
        (&[0, 6, 9, 9], 4),
        (&[0, 6, 9], 1),
        (&[128, 0], 2),
        (&[0, 134, 0, 1, 2], 2),
        (&[0, 6, 9, 130, 0], 2),
        (&[2, 6, 1, 2], 3),
        (&[0, 1, 3, 1], 4),
        (&[0, 1, 1, 3], 4),
        (&[0, 1, 1, 1], 5),
        (&[0, 5, 1, 2], 6),
        (&[0, 0, 1, 2], 6),
        (&[1, 0], 8),
        (&[1, 4], 8),
        (&[1, 6, 0, 7, 1, 2], 8),
    ];
    let header = Header { containers: 3, count: 1, greatest: 5 };
    let (_, expected) = replayed(&start);
    for (record, refusal) in cases {
        let bytes = [&start, record].concat();
        let (answer, lent) = replayed(&bytes);
        assert_eq!(answer, Replayed { refusal, byte: 5, events: 1, gain: 1, header }, "{record:?}");
        assert_eq!(lent, expected);
    }
}

#[test]
fn a_513th_flow() {
    let events: Vec<Event> = (1..=513).map(|number| Event::Enable(flow(number, 0, 1))).collect();
    let whole = log(2, &events[..512]);
    let header = Header { containers: 2, count: 512, greatest: 512 };
    let (answer, lent) = replayed(&log(2, &events));
    assert_eq!(answer, Replayed { refusal: 7, byte: whole.len() as u64, events: 512, gain: 1, header });
    assert_eq!(replayed(&whole), (Replayed { refusal: 0, byte: 0, events: 512, gain: 1, header }, lent));
    let again = [&events[..512], &[Event::Disable(7), Event::Enable(flow(513, 1, 0))]].concat();
    assert_eq!(replayed(&log(2, &again)).0.gain, 2);
}

/// The replay by single calls.
fn by_single_calls(bytes: &[u8]) -> Option<(Replayed, Tracker)> {
    let (n, mut at) = Tested.read_head(bytes).ok().filter(|(n, _)| (1..=256).contains(n))?;
    let mut tracker = Tracker::new(n);
    let mut done = Replayed { header: tracker.header, ..Replayed::default() };
    while at < bytes.len() {
        let read = Tested.read_record(bytes, at);
        let refusal = match read {
            Ok((event, _)) => {
                let answer = tracker.event(event);
                done.gain += u64::from(answer.gain);
                answer.refusal
            }
            Err(refusal) => refusal,
        };
        if refusal != 0 {
            return Some((Replayed { refusal, byte: at as u64, ..done }, tracker));
        }
        done = Replayed { events: done.events + 1, header: tracker.header, ..done };
        at = read.unwrap().1;
    }
    Some((done, tracker))
}

#[test]
fn the_same_as_single_calls() {
    let mut random = Random::new(33);
    let mut seen = [0; 10];
    for _ in 0..1500 {
        let bytes = random_log(&mut random);
        let (answer, lent) = replayed(&bytes);
        seen[answer.refusal as usize] += 1;
        let before = storage(256, 3, &mut Random::new(31));
        let Some((expected, tracker)) = by_single_calls(&bytes) else {
            assert!(matches!(answer.refusal, 1 | 2 | 9));
            assert_eq!((answer, lent), (Replayed { refusal: answer.refusal, ..Replayed::default() }, before));
            continue;
        };
        assert_eq!(answer, expected);
        let n = answer.header.containers as usize;
        assert_eq!(lent.tags[..4 * n], tracker.lent.tags[..4 * n]);
        assert_eq!(lent.policies[..16 * n], tracker.lent.policies[..16 * n]);
        assert_eq!(lent.counts[..n], tracker.lent.counts[..n]);
        assert_eq!(lent.flows[..512], tracker.lent.flows[..512]);
        assert_eq!(beyond(n, &lent), beyond(n, &before));
    }
    assert!([0, 1, 2, 3, 4, 5, 6, 8, 9].iter().all(|&refusal| seen[refusal] > 0), "{seen:?}");
}
