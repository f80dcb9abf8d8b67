//! The same answers and the same storage as those of `reference`, on random valid trackers and on random logs.

use crate::tests::replays::random_log;
use crate::tests::{flow, storage, Random};
use crate::Fast;
use interface::{Answer, Event, Flow, Header, Implementation, Lent};
use reference::tag_set;
use reference::Reference;

/// A tracker in the storage of each of the two.
struct Pair {
    header: Header,
    fast: Lent,
    plain: Lent,
}

impl Pair {
    /// A started tracker in the same random storage.
    fn new(n: u32, random: &mut Random) -> Self {
        let mut fast = storage(n as usize, 3, random);
        let mut plain = fast.clone();
        let answer = Fast.start(n, &mut fast);
        assert_eq!(answer, Reference.start(n, &mut plain));
        Pair { header: answer.header, fast, plain }
    }

    /// Does an event in both, and answers what both answer.
    fn event(&mut self, event: Event) -> Answer {
        let answer = act(&Fast, self.header, &mut self.fast, event);
        assert_eq!(answer, act(&Reference, self.header, &mut self.plain, event), "{event:?}");
        assert_eq!(self.fast, self.plain);
        self.header = answer.header;
        answer
    }

    /// Sees that both give the same sets, sizes and ranking.
    fn ask(&self) {
        for container in [0, self.header.containers / 2, self.header.containers - 1, self.header.containers] {
            let set = Fast.tags_of(self.header, &self.fast, container);
            assert_eq!(set, Reference.tags_of(self.header, &self.plain, container));
            assert_eq!(set.is_ok(), container < self.header.containers);
            let size = Fast.size_of(self.header, &self.fast, container);
            assert_eq!(size, Reference.size_of(self.header, &self.plain, container));
        }
        let (mut fast, mut plain) = ([999; 260], [999; 260]);
        assert_eq!(Fast.rank(self.header, &self.fast, &mut fast), Ok(()));
        assert_eq!(Reference.rank(self.header, &self.plain, &mut plain), Ok(()));
        assert_eq!(fast, plain);
    }

    /// Gives a random container a random tag and then each flow's tags to its end, until the tracker is valid again.
    fn add_tag(&mut self, random: &mut Random) {
        let n = self.header.containers;
        let sets = self.plain.tags[..4 * n as usize].as_chunks_mut::<4>().0;
        let container = random.below(n) as usize;
        sets[container] = tag_set::union(&sets[container], &tag_set::only(random.below(n) as usize));
        let enabled = &self.plain.flows[..self.header.count as usize];
        let ends = |flow: &Flow| (flow.from as usize, flow.to as usize);
        while let Some((from, to)) = enabled.iter().map(ends).find(|&(a, b)| !tag_set::is_subset(&sets[a], &sets[b])) {
            sets[to] = tag_set::union(&sets[from], &sets[to]);
        }
        self.fast = self.plain.clone();
    }
}

/// Does an event by one implementation.
fn act(by: &dyn Implementation, header: Header, lent: &mut Lent, event: Event) -> Answer {
    match event {
        Event::Enable(flow) => by.enable(header, lent, flow),
        Event::Disable(number) => by.disable(header, lent, number),
    }
}

/// A random event, now and then one that is refused.
fn random_event(pair: &Pair, random: &mut Random) -> Event {
    let Header { containers, count, greatest } = pair.header;
    if count > 0 && random.below(4) == 0 {
        return Event::Disable(random.one_of(&pair.plain.flows[..count as usize]).number + random.below(8) / 7);
    }
    let ends = containers + random.below(9) / 8;
    Event::Enable(flow(greatest + 1 - random.below(9) / 8, random.below(ends), random.below(ends)))
}

/// Follows random events on n containers, and answers how many were accepted and their gain.
fn follow(n: u32, events: usize, random: &mut Random) -> (usize, u32) {
    let mut pair = Pair::new(n, random);
    let (mut accepted, mut gain) = (0, 0);
    for _ in 0..events {
        if random.below(8) == 0 {
            pair.add_tag(random);
        }
        let event = random_event(&pair, random);
        let answer = pair.event(event);
        accepted += usize::from(answer.refusal == 0);
        gain += answer.gain;
        pair.ask();
    }
    (accepted, gain)
}

#[test]
fn random_trackers() {
    let mut random = Random::new(51);
    let (mut accepted, mut gain) = (0, 0);
    for round in 0..300 {
        let (more, gained) = follow(2 + round % 11, 30, &mut random);
        accepted += more;
        gain += gained;
    }
    assert!(accepted > 4000 && gain > 4000, "{accepted} {gain}");
}

#[test]
fn random_trackers_of_many_containers() {
    let mut random = Random::new(52);
    for n in [63, 64, 65, 128, 129, 192, 255, 256] {
        let (accepted, gain) = follow(n, 200, &mut random);
        assert!(accepted > 100 && gain > 100, "{n} {accepted} {gain}");
    }
}

#[test]
fn a_full_table() {
    let mut random = Random::new(53);
    let mut pair = Pair::new(256, &mut random);
    for number in 1..=512 {
        let from = random.below(256);
        pair.event(Event::Enable(flow(number, from, (from + 1 + random.below(255)) % 256)));
    }
    assert_eq!(pair.header.count, 512);
    assert_eq!(pair.event(Event::Enable(flow(513, 0, 1))).refusal, 7);
    pair.ask();
}

#[test]
fn the_longest_propagation() {
    let mut pair = Pair::new(256, &mut Random::new(54));
    (0..255).rev().for_each(|from| assert_eq!(pair.event(Event::Enable(flow(256 - from, from, from + 1))).refusal, 0));
    assert_eq!(pair.event(Event::Enable(flow(257, 255, 0))).gain, 255 * 256 / 2);
    pair.ask();
}

#[test]
fn texts_and_replays() {
    let mut random = Random::new(55);
    let (mut fast, mut plain) = (vec![b'#'; 300_000], vec![b'#'; 300_000]);
    let mut lent = storage(256, 3, &mut random);
    for _ in 0..800 {
        let bytes = random_log(&mut random);
        let length = Fast.tally(&bytes, &mut fast).unwrap();
        assert_eq!(Reference.tally(&bytes, &mut plain), Ok(length));
        assert_eq!(fast, plain);
        let mut other = lent.clone();
        assert_eq!(Fast.replay(&bytes, &mut lent), Reference.replay(&bytes, &mut other));
        assert_eq!(lent, other);
        assert_eq!(Fast.tally(&bytes, &mut fast[..length - 1]), Err(10));
    }
}
