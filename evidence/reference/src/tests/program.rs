//! The text of `tally`.

use super::replays::{log, random_log};
use super::samples::EXAMPLE;
use super::{flow, members, storage, Random};
use crate::Tested;
use interface::{Event, Implementation};

/// The text for this input, which must leave the places after it as they were.
fn text(bytes: &[u8]) -> String {
    let mut out = vec![b'#'; 300_000];
    let length = Tested.tally(bytes, &mut out).unwrap();
    assert!(out[length..].iter().all(|&byte| byte == b'#'));
    out.truncate(length);
    String::from_utf8(out).unwrap()
}

/// The text put together from the answers of the other calls.
fn expected(bytes: &[u8]) -> String {
    let mut lent = storage(256, 0, &mut Random::new(41));
    let replayed = Tested.replay(bytes, &mut lent);
    let mut order = vec![0; replayed.header.containers as usize];
    let mut text = String::new();
    if replayed.header.containers > 0 {
        Tested.rank(replayed.header, &lent, &mut order).unwrap();
    }
    for container in order {
        let tags = members(&Tested.tags_of(replayed.header, &lent, u32::from(container)).unwrap());
        let words: Vec<String> = tags.iter().map(u32::to_string).collect();
        text += &format!("{container} {} {}\n", tags.len(), words.join(" "));
    }
    match replayed.refusal {
        0 => text + &format!("events {} gain {}\n", replayed.events, replayed.gain),
        number => text + &format!("refused {number} at {}\n", replayed.byte),
    }
}

#[test]
fn inputs_whose_n_is_refused() {
    let cases: [(&[u8], &str); 6] = [
        (&[], "refused 1 at 0\n"),
        (&[128], "refused 1 at 0\n"),
        (&[128, 0], "refused 2 at 0\n"),
        (&[0], "refused 9 at 0\n"),
        (&[129, 2, 0, 1, 0, 1], "refused 9 at 0\n"),
        (&[255, 255, 255, 255, 255], "refused 2 at 0\n"),
    ];
    for (bytes, line) in cases {
        assert_eq!(text(bytes), line);
    }
}

#[test]
fn a_refused_record_after_the_lines() {
    assert_eq!(text(&[2]), "0 1 0\n1 1 1\nevents 0 gain 0\n");
    assert_eq!(text(&[2, 0, 1, 0, 1, 1, 2]), "1 2 0 1\n0 1 0\nrefused 8 at 5\n");
    assert_eq!(text(&[2, 9]), "0 1 0\n1 1 1\nrefused 3 at 1\n");
    assert_eq!(text(&EXAMPLE[..24]), "4 5 0 1 2 3 4\n3 4 0 1 2 3\n2 3 0 1 2\n1 2 0 1\n0 1 0\nrefused 1 at 23\n");
}

#[test]
fn the_same_as_by_the_other_calls() {
    let mut random = Random::new(42);
    for _ in 0..300 {
        let bytes = random_log(&mut random);
        assert_eq!(text(&bytes), expected(&bytes));
    }
}

#[test]
fn the_longest_text() {
    let ring: Vec<Event> = (0..256).map(|from| Event::Enable(flow(from + 1, from, (from + 1) % 256))).collect();
    let bytes = log(256, &ring);
    let text = text(&bytes);
    assert_eq!(text, expected(&bytes));
    assert!(text.ends_with("events 256 gain 65280\n"));
    assert_eq!(text.lines().count(), 257);
}

/// A log of exactly 16,384 bytes: pairs of enable and disable, and an enable at the end.
fn longest_input() -> Vec<u8> {
    let pair = |number| [Event::Enable(flow(number, 0, 1)), Event::Disable(number)];
    let mut events: Vec<Event> = (1..=2079).flat_map(pair).collect();
    events.push(Event::Enable(flow(2080, 0, 1)));
    log(2, &events)
}

#[test]
fn input_of_16384_and_16385_bytes() {
    let mut bytes = longest_input();
    assert_eq!(bytes.len(), 16_384);
    assert_eq!(text(&bytes), "1 2 0 1\n0 1 0\nevents 4159 gain 1\n");
    bytes.push(0);
    assert_eq!(text(&bytes), "refused 10 at 16384\n");
    bytes[0] = 0;
    assert_eq!(text(&bytes), "refused 10 at 16384\n");
    assert_eq!(text(&[0; 16_384]), "refused 9 at 0\n");
    assert_eq!(text(&[5; 16_384]), "0 1 0\n1 1 1\n2 1 2\n3 1 3\n4 1 4\nrefused 3 at 1\n");
    assert_eq!(text(&[0; 100_000]), "refused 10 at 16384\n");
}

#[test]
fn output_just_long_enough_and_one_short() {
    let inputs = [EXAMPLE.to_vec(), vec![], vec![128, 2], vec![3, 0, 1, 0, 1, 1, 9], vec![0; 16_385]];
    for bytes in inputs {
        let length = text(&bytes).len();
        let mut out = vec![b'#'; length];
        for short in [0, 1, length / 2, length - 1] {
            assert_eq!(Tested.tally(&bytes, &mut out[..short]), Err(10));
            assert!(out.iter().all(|&byte| byte == b'#'));
        }
        assert_eq!(Tested.tally(&bytes, &mut out), Ok(length));
    }
}
