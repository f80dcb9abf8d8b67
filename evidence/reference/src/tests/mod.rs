//! The tests: helpers that all of them use, and one file for each concern.

mod definition;
mod limits;
mod log;
mod number;
mod program;
mod ranking;
mod refusals;
pub mod replays;
mod samples;
mod validity;

use crate::Tested;
use interface::{Answer, Event, Flow, Header, Implementation, Lent};

/// Random numbers that are the same at each run.
pub struct Random(u64);

impl Random {
    /// A source; each seed gives other numbers.
    pub fn new(seed: u64) -> Self {
        Random(seed.wrapping_mul(0x9e37_79b9_7f4a_7c15) | 1)
    }

    /// The next random word.
    pub fn word(&mut self) -> u64 {
        self.0 ^= self.0 << 13;
        self.0 ^= self.0 >> 7;
        self.0 ^= self.0 << 17;
        self.0.wrapping_mul(0x2545_f491_4f6c_dd1d)
    }

    /// A random number below `limit`.
    pub fn below(&mut self, limit: u32) -> u32 {
        ((self.word() >> 32) % u64::from(limit)) as u32
    }

    /// A random one of these.
    pub fn one_of<T: Copy>(&mut self, all: &[T]) -> T {
        all[self.below(all.len() as u32) as usize]
    }
}

/// A flow with these ends.
pub fn flow(number: u32, from: u32, to: u32) -> Flow {
    Flow { number, from, to }
}

/// Lent storage of these lists.
pub fn lend(tags: Vec<u64>, policies: Vec<u64>, counts: Vec<u8>, flows: Vec<Flow>) -> Lent {
    Lent { tags: tags.into(), policies: policies.into(), counts: counts.into(), flows: flows.into() }
}

/// Storage for n containers with so many places more in each list, all with random content.
pub fn storage(n: usize, more: usize, random: &mut Random) -> Lent {
    lend(
        (0..4 * n + more).map(|_| random.word()).collect(),
        (0..16 * n + more).map(|_| random.word()).collect(),
        (0..n + more).map(|_| random.word() as u8).collect(),
        (0..512 + more).map(|_| flow(random.word() as u32, random.word() as u32, random.word() as u32)).collect(),
    )
}

/// The storage up to these places of its lists, and so many zeros after them.
pub fn up_to(places: [usize; 4], zeros: usize, lent: &Lent) -> Lent {
    lend(
        [&lent.tags[..places[0]], &vec![0; zeros]].concat(),
        [&lent.policies[..places[1]], &vec![0; zeros]].concat(),
        [&lent.counts[..places[2]], &vec![0; zeros]].concat(),
        [&lent.flows[..places[3]], &vec![flow(0, 0, 0); zeros]].concat(),
    )
}

/// The lengths in use for n containers.
pub fn lengths(n: usize) -> [usize; 4] {
    [4 * n, 16 * n, n, 512]
}

/// The storage from the lengths in use on.
pub fn beyond(n: usize, lent: &Lent) -> Lent {
    let [tags, policies, counts, flows] = lengths(n);
    lend(
        lent.tags[tags..].to_vec(),
        lent.policies[policies..].to_vec(),
        lent.counts[counts..].to_vec(),
        lent.flows[flows..].to_vec(),
    )
}

/// The set with these tags.
pub fn set(tags: &[u32]) -> [u64; 4] {
    let mut set = [0; 4];
    for tag in tags {
        set[(tag / 64) as usize] |= 1 << (tag % 64);
    }
    set
}

/// The tags of a set, rising.
pub fn members(set: &[u64; 4]) -> Vec<u32> {
    (0..256).filter(|tag| set[(tag / 64) as usize] & (1 << (tag % 64)) != 0).collect()
}

/// A tracker in storage that is longer than it needs to be, with random content beyond.
#[derive(Clone, PartialEq, Debug)]
pub struct Tracker {
    pub header: Header,
    pub lent: Lent,
    beyond: Lent,
}

impl Tracker {
    /// A started tracker.
    pub fn new(n: u32) -> Self {
        let mut lent = storage(n as usize, 7, &mut Random::new(u64::from(n)));
        let beyond = beyond(n as usize, &lent);
        let answer = Tested.start(n, &mut lent);
        assert_eq!(answer, Answer { refusal: 0, gain: 0, header: Header { containers: n, count: 0, greatest: 0 } });
        Tracker { header: answer.header, lent, beyond }
    }

    /// Takes the answer of a call: the header goes on, and a refusal has changed nothing.
    fn take(&mut self, before: &Tracker, answer: Answer) -> Answer {
        if answer.refusal != 0 {
            assert_eq!(answer, Answer { refusal: answer.refusal, gain: 0, header: before.header });
            assert_eq!(self, before);
        }
        self.header = answer.header;
        if (1..=256).contains(&self.header.containers) && self.lent.flows.len() == 519 {
            assert_eq!(beyond(self.header.containers as usize, &self.lent), self.beyond);
        }
        answer
    }

    /// Enables a flow.
    pub fn enable(&mut self, number: u32, from: u32, to: u32) -> Answer {
        let before = self.clone();
        let answer = Tested.enable(self.header, &mut self.lent, flow(number, from, to));
        self.take(&before, answer)
    }

    /// Disables a flow.
    pub fn disable(&mut self, number: u32) -> Answer {
        let before = self.clone();
        let answer = Tested.disable(self.header, &mut self.lent, number);
        self.take(&before, answer)
    }

    /// Does an event.
    pub fn event(&mut self, event: Event) -> Answer {
        match event {
            Event::Enable(Flow { number, from, to }) => self.enable(number, from, to),
            Event::Disable(number) => self.disable(number),
        }
    }

    /// Adds a policy set.
    pub fn add(&mut self, container: u32, tags: &[u32]) -> Answer {
        let before = self.clone();
        let answer = Tested.add_policy(self.header, &mut self.lent, container, set(tags));
        self.take(&before, answer)
    }

    /// The gain of enabling a flow that is accepted.
    pub fn gain(&mut self, number: u32, from: u32, to: u32) -> u32 {
        let answer = self.enable(number, from, to);
        assert_eq!(answer.refusal, 0);
        answer.gain
    }

    /// The tags of a container, rising.
    pub fn tags(&self, container: u32) -> Vec<u32> {
        let set = Tested.tags_of(self.header, &self.lent, container).unwrap();
        assert_eq!(Tested.size_of(self.header, &self.lent, container), Ok(members(&set).len() as u32));
        members(&set)
    }

    /// The tags of all containers.
    pub fn table(&self) -> Vec<Vec<u32>> {
        (0..self.header.containers).map(|container| self.tags(container)).collect()
    }

    /// Whether a container is legal.
    pub fn legal(&self, container: u32) -> bool {
        Tested.is_legal(self.header, &self.lent, container).unwrap()
    }
}

/// The refusals of all seven calls on this tracker, each by itself; a refused call must leave everything as it was.
pub fn all_calls(header: Header, lent: &Lent, disabled: u32) -> [u32; 7] {
    let changing = |call: &dyn Fn(&mut Lent) -> Answer| {
        let mut after = lent.clone();
        let answer = call(&mut after);
        assert!(answer.refusal == 0 || (&after, answer.gain, answer.header) == (lent, 0, header));
        answer.refusal
    };
    let mut out = [999; 256];
    let answers = [
        changing(&|lent| Tested.enable(header, lent, flow(4_000_000_000, 0, 1))),
        changing(&|lent| Tested.disable(header, lent, disabled)),
        changing(&|lent| Tested.add_policy(header, lent, 0, [1, 0, 0, 0])),
        Tested.tags_of(header, lent, 0).err().unwrap_or(0),
        Tested.size_of(header, lent, 0).err().unwrap_or(0),
        Tested.is_legal(header, lent, 0).err().unwrap_or(0),
        Tested.rank(header, lent, &mut out).err().unwrap_or(0),
    ];
    assert!(answers[6] == 0 || out == [999; 256]);
    answers
}
