//! Inputs beyond the limits of `tally` that are wrong early as well, logs of very many events and bytes, and those of as many
//! events as `tally` reads.
use crate::inputs::{Random, MOST_BYTES};
use crate::logs::Written;
use interface::{Event, Flow};

/// Lengths above what `tally` reads, near ones of 16 bits among them.
const LENGTHS: [usize; 10] = [MOST_BYTES + 1, 65_546, 32_768 + 10, 65_536, MOST_BYTES + 2, 65_535, 65_536 + MOST_BYTES, 65_537 + MOST_BYTES, 131_072 + 7, 262_144];

/// Beginnings that a replay refuses at once: n refused, the first record refused, or bytes that cannot be read.
const BEGINNINGS: [&[u8]; 8] = [&[0], &[2, 0, 1, 0, 2], &[129, 2], &[2, 129, 2], &[128, 0], &[3, 0, 1, 0, 1, 1, 9], &[2, 0, 128, 0], &[255, 255, 255, 255, 15]];

/// How many overlong inputs there are.
pub const OVERLONG: usize = LENGTHS.len() * 3;

/// Bytes that `tally` refuses for their length and that are wrong early too: zeros, a refused beginning before zeros, a small log before an unknown kind.
pub fn overlong_log(random: &mut Random, case: usize) -> Vec<u8> {
    let length = LENGTHS[case % LENGTHS.len()];
    let round = case / LENGTHS.len();
    let mut bytes = match round {
        0 if case.is_multiple_of(2) => Vec::new(),
        0 | 1 => BEGINNINGS[(case + round) % BEGINNINGS.len()].to_vec(),
        _ => vec![2, 0, 1, 0, 1, 1, 1, 7],
    };
    let rest = u8::from(case > 0 && random.once_in(4));
    bytes.resize(length, rest);
    bytes
}

/// The long replays: events, and how the log ends.
const REPLAYS: [(usize, End); 10] = [
    (20_000, End::Refused),
    (8_193, End::Complete),
    (70_000, End::Refused),
    (20_000, End::Cut),
    (8_191, End::Unknown),
    (8_192, End::Complete),
    (3_500, End::Refused),
    (65_536, End::Complete),
    (65_535, End::Refused),
    (13_108, End::Refused),
];

/// How many long replays there are.
pub const LONG_REPLAYS: usize = REPLAYS.len();

/// How a long replay ends.
#[derive(Clone, Copy, Debug)]
enum End {
    Complete,
    Refused,
    Unknown,
    Cut,
}

/// A log of so many events on three containers, enables and disables by turns.
pub fn long_replay(random: &mut Random, case: usize) -> Vec<u8> {
    let (events, end) = REPLAYS[case % REPLAYS.len()];
    let mut written = Written::new(3, &[]);
    for place in 0..events {
        let number = 1 + place as u32 / 2;
        let (from, to) = random.pick(&[(0, 1), (1, 2), (2, 0)]);
        let enable = Event::Enable(Flow { number, from, to });
        written.event(if place % 2 == 0 { enable } else { Event::Disable(number) });
    }
    ended(written, end, 4_000_000)
}

/// The bytes of a log with its end; a refused one disables this number.
fn ended(mut written: Written, end: End, number: u32) -> Vec<u8> {
    match end {
        End::Complete => {}
        End::Refused => written.event(Event::Disable(number)),
        End::Unknown => written.bytes.push(2),
        End::Cut => written.bytes.extend([0, 255]),
    }
    written.bytes
}

/// The events after which those of a log of many events go on to containers that no tag has reached.
const EARLY: usize = 4_096;

/// The logs of many events that `tally` reads: containers, events, and how the log ends. On fewer than 128 containers
/// 4,159 events fill 16,384 bytes, on 256 one less fits.
const MANY: [(u32, usize, End); 14] = [
    (3, 4_097, End::Refused),
    (3, 4_096, End::Complete),
    (3, 4_159, End::Complete),
    (256, 4_097, End::Complete),
    (3, 4_094, End::Complete),
    (3, 4_095, End::Refused),
    (3, 4_096, End::Refused),
    (3, 4_097, End::Complete),
    (3, 4_098, End::Unknown),
    (3, 4_098, End::Cut),
    (40, 4_159, End::Complete),
    (3, 4_158, End::Refused),
    (256, 4_096, End::Refused),
    (256, 4_158, End::Complete),
];

/// How many logs of many events there are.
pub const MANY_EVENTS: usize = MANY.len();

/// A log of so many events that `tally` reads: enables and disables by turns between 0 and 1, at last along a chain.
pub fn many_events(random: &mut Random, case: usize) -> Vec<u8> {
    let (n, events, end) = MANY[case % MANY.len()];
    let mut written = Written::new(n, &[]);
    for place in 0..events {
        let number = 1 + place as u32 / 2;
        let link = 1 + place.saturating_sub(EARLY) as u32 / 2 % (n - 2);
        let (from, to) = if place < EARLY { random.pick(&[(0, 1), (1, 0)]) } else { (link, link + 1) };
        let enable = Event::Enable(Flow { number, from, to });
        written.event(if place % 2 == 0 { enable } else { Event::Disable(number) });
    }
    ended(written, end, 0)
}

#[cfg(test)]
mod tests {
    use super::*;
    use crate::wrapper::ample;
    use interface::Implementation;
    use reference::Reference;

    /// Every overlong input is longer than what `tally` reads.
    #[test]
    fn overlong_is_too_long() {
        let mut random = Random::new(1, 0, 0);
        assert!((0..OVERLONG).all(|case| overlong_log(&mut random, case).len() > MOST_BYTES));
    }

    /// Among the long replays are some of more than 65,536 bytes and some whose refused record begins beyond 16,384.
    #[test]
    fn long_replays_are_long() {
        let mut random = Random::new(1, 0, 0);
        let lengths: Vec<usize> = (0..LONG_REPLAYS).map(|case| long_replay(&mut random, case).len()).collect();
        assert!([0, 2, 3, 7, 8].iter().all(|case| lengths[*case] > 65_536) && lengths[1] > 16_384);
    }

    /// `tally` reads every log of many events, the fullest leave no byte or none that an enable could use, and their gain is
    /// the sum that the chain gives: 2 between 0 and 1, then one more tag at each link.
    #[test]
    fn many_events_fit() {
        let mut random = Random::new(1, 0, 0);
        let lengths: Vec<usize> = (0..MANY_EVENTS).map(|case| many_events(&mut random, case).len()).collect();
        assert!(lengths.iter().all(|length| *length <= MOST_BYTES));
        assert_eq!([lengths[2], lengths[10], lengths[13]], [MOST_BYTES, MOST_BYTES, MOST_BYTES - 4]);
        let run = |case: usize| Reference.replay(&many_events(&mut Random::new(1, 0, 0), case), &mut ample());
        assert_eq!((run(2).events, run(2).gain, run(13).events, run(13).gain), (4_159, 4, 4_158, 2 + (2..=32).sum::<u64>()));
    }
}
