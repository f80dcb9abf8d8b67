//! Trackers as states: storage of drawn lengths and content, and valid trackers that real calls have reached.
use crate::clauses::{beyond, has_tag, tags};
use crate::inputs::{Random, TABLE};
use crate::logs::{Course, Shape, Steps, Written};
use interface::{Event, Flow, Header, Implementation, Lent};
use std::cell::OnceCell;

/// A tracker: its header and its storage.
#[derive(Clone, Debug)]
pub struct State {
    pub header: Header,
    pub lent: Lent,
}

/// The lengths that n containers need: tags, policies, counts, flows.
pub fn lengths(n: u32) -> [usize; 4] {
    let n = n as usize;
    [4 * n, 16 * n, n, TABLE]
}

/// What storage holds before it is used.
#[derive(Clone, Copy, Debug)]
pub enum Content {
    Zero,
    Few,
    Any,
}

/// Any flow record.
pub fn any_flow(random: &mut Random) -> Flow {
    Flow { number: random.number(), from: random.number(), to: random.number() }
}

/// Storage of these lengths and this content.
pub fn storage(random: &mut Random, lengths: [usize; 4], content: Content) -> Lent {
    let zero = |random: &mut Random| match content {
        Content::Zero => true,
        Content::Few => !random.once_in(8),
        Content::Any => false,
    };
    let words = |random: &mut Random, length: usize| (0..length).map(|_| if zero(random) { 0 } else { random.word() }).collect();
    Lent {
        tags: words(random, lengths[0]),
        policies: words(random, lengths[1]),
        counts: (0..lengths[2]).map(|_| if zero(random) { 0 } else { random.byte() }).collect(),
        flows: (0..lengths[3]).map(|_| if zero(random) { Flow::default() } else { any_flow(random) }).collect(),
    }
}

/// Storage that n containers can use: of the very lengths or longer, of drawn content.
pub fn ample_storage(random: &mut Random, n: u32) -> Lent {
    let mut needed = lengths(n);
    if !random.once_in(4) {
        needed.iter_mut().for_each(|length| *length += random.below(20));
    }
    let content = random.pick(&[Content::Zero, Content::Few, Content::Any]);
    storage(random, needed, content)
}

/// The storage without what lies beyond the needed lengths.
pub fn cut_to_need(state: &mut State) {
    let needed = lengths(state.header.containers);
    state.lent.tags.truncate(needed[0]);
    state.lent.policies.truncate(needed[1]);
    state.lent.counts.truncate(needed[2]);
    state.lent.flows.truncate(needed[3]);
}

/// How many policy sets the containers of a state get.
#[derive(Clone, Copy, Debug)]
pub enum Policies {
    None,
    Some,
    Full,
}

/// A recipe for a valid state: containers, shape, enables, how often a disable comes, policy sets.
type Recipe = (u32, Shape, usize, usize, Policies);

/// The valid states: small, at the ends of words, with a full table, with full policy sets.
const RECIPES: [Recipe; 26] = [
    (1, Shape::Chain, 0, 0, Policies::None),
    (1, Shape::Chain, 0, 0, Policies::Full),
    (2, Shape::Chain, 1, 0, Policies::Some),
    (2, Shape::Alike, TABLE, 0, Policies::Some),
    (3, Shape::Chain, 2, 0, Policies::Full),
    (5, Shape::ChainBack, 12, 4, Policies::Some),
    (6, Shape::Random, 3, 0, Policies::None),
    (16, Shape::Groups, 511, 0, Policies::Some),
    (24, Shape::Groups, 40, 3, Policies::Some),
    (63, Shape::Groups, 90, 5, Policies::Some),
    (64, Shape::Groups, TABLE, 0, Policies::Full),
    (65, Shape::Groups, 70, 4, Policies::Some),
    (100, Shape::Tree, 90, 6, Policies::Some),
    (127, Shape::StarOut, 60, 0, Policies::Some),
    (128, Shape::Chain, 127, 0, Policies::Full),
    (129, Shape::StarIn, 40, 4, Policies::Some),
    (191, Shape::Groups, 300, 3, Policies::None),
    (192, Shape::TwoWay, 180, 0, Policies::Some),
    (193, Shape::Random, 12, 0, Policies::Some),
    (254, Shape::Groups, 480, 0, Policies::Some),
    (255, Shape::Tree, 254, 0, Policies::Some),
    (256, Shape::Groups, TABLE, 0, Policies::Full),
    (256, Shape::Chain, 255, 0, Policies::Some),
    (256, Shape::Random, TABLE, 0, Policies::Some),
    (256, Shape::Groups, 200, 3, Policies::None),
    (256, Shape::Chain, 0, 0, Policies::Full),
];

/// How many valid states there are.
pub const STATES: usize = RECIPES.len();

/// The valid states, each reached by real calls of one implementation when it is first asked for.
pub struct Pool<'a> {
    by: &'a dyn Implementation,
    seed: u64,
    states: Vec<OnceCell<State>>,
}

impl<'a> Pool<'a> {
    /// A pool in which no state has been reached yet.
    pub fn new(by: &'a dyn Implementation, seed: u64) -> Pool<'a> {
        Pool { by, seed, states: vec![OnceCell::new(); STATES] }
    }

    /// A copy of one of the valid states.
    pub fn state(&self, place: usize) -> State {
        self.states[place].get_or_init(|| reached(self.by, self.seed, place)).clone()
    }
}

/// A valid state that real calls have reached, in storage that is longer than needed and has other content beyond.
fn reached(by: &dyn Implementation, seed: u64, place: usize) -> State {
    let (n, shape, enables, churn, policies) = RECIPES[place];
    let mut random = Random::new(seed, 1000, place as u64);
    let mut course = Course::new(n, if place.is_multiple_of(2) { Steps::Gaps } else { Steps::Wide });
    course.go_on(&mut random, shape, enables, churn);
    let mut needed = lengths(n);
    needed.iter_mut().for_each(|length| *length += 1 + random.below(30));
    let mut state = State { header: Header::default(), lent: storage(&mut random, needed, Content::Any) };
    if enables > 300 {
        state.header = by.replay(&Written::new(n, &course.events).bytes, &mut state.lent).header;
    } else {
        do_events(by, &mut state, n, &course.events);
    }
    add_policies(by, &mut random, &mut state, policies);
    state
}

/// Starts the tracker of a state and does these events.
fn do_events(by: &dyn Implementation, state: &mut State, n: u32, events: &[Event]) {
    state.header = by.start(n, &mut state.lent).header;
    for event in events {
        let answer = match event {
            Event::Enable(flow) => by.enable(state.header, &mut state.lent, *flow),
            Event::Disable(number) => by.disable(state.header, &mut state.lent, *number),
        };
        state.header = answer.header;
    }
}

/// Adds policy sets to the containers of a state.
fn add_policies(by: &dyn Implementation, random: &mut Random, state: &mut State, policies: Policies) {
    let n = state.header.containers;
    for container in 0..n {
        let sets = match policies {
            Policies::None => 0,
            Policies::Some => (container as usize * 3 + random.below(3)) % 5,
            Policies::Full => 4,
        };
        for _ in 0..sets {
            let policy = right_policy(random, n, container, tags(&state.lent, container));
            by.add_policy(state.header, &mut state.lent, container, policy);
        }
    }
}

/// A policy set of tags below n: the container's tags, these without one, without its own, with others, none, all, or any.
pub fn right_policy(random: &mut Random, n: u32, container: u32, set: &[u64]) -> [u64; 4] {
    let mut policy = [set[0], set[1], set[2], set[3]];
    let held: Vec<usize> = (0..256).filter(|tag| has_tag(set, *tag)).collect();
    let mut without = |tag: usize| policy[tag / 64] &= !(1 << (tag % 64));
    match random.below(8) {
        0 => {}
        1..=3 if !held.is_empty() => without(random.pick(&held)),
        4 => without(container as usize % 256),
        5 => policy.iter_mut().for_each(|word| *word |= random.word()),
        6 => policy = if random.once_in(2) { [0; 4] } else { [u64::MAX; 4] },
        _ => policy.iter_mut().for_each(|word| *word = random.word()),
    }
    (0..4).for_each(|word| policy[word] &= !beyond(n as usize, word));
    policy
}

#[cfg(test)]
mod tests {
    use super::*;
    use crate::clauses::broken;
    use reference::Reference;

    /// Every state of the pool breaks no clause and is what its recipe says.
    #[test]
    fn states_are_valid() {
        let pool = Pool::new(&Reference, 3);
        for (place, recipe) in RECIPES.iter().enumerate() {
            let state = pool.state(place);
            assert_eq!(state.header.containers, recipe.0);
            assert_eq!(broken(state.header, &state.lent), [], "state {place}");
            if recipe.3 == 0 {
                assert_eq!(state.header.count as usize, recipe.2, "state {place}");
            }
        }
    }

    /// Policy sets that are asked to be right name no tag of n or more.
    #[test]
    fn right_policies_are_right() {
        let mut random = Random::new(8, 0, 0);
        for n in 1..=256 {
            let set = [u64::MAX; 4];
            let policy = right_policy(&mut random, n, n - 1, &set);
            assert!((n as usize..256).all(|tag| !has_tag(&policy, tag)));
        }
    }
}
