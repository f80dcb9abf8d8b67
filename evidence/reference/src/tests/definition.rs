//! The tag sets against the definitions of documents 000 and 01, computed as set comprehensions.

use super::{flow, members, Random, Tracker};
use interface::{Event, Flow};
use std::collections::BTreeSet;

/// Pairs of containers, or of a tag and a container.
type Pairs = BTreeSet<(u32, u32)>;

/// The reflexive and transitive closure of the flows: each pair (a, b) where b can be reached from a by zero or more of
/// them.
fn closure(n: u32, enabled: &[Flow]) -> Pairs {
    let mut closed: Pairs = (0..n).map(|container| (container, container)).collect();
    loop {
        let more: Pairs = closed
            .iter()
            .flat_map(|&(a, b)| enabled.iter().filter(move |flow| flow.from == b).map(move |flow| (a, flow.to)))
            .filter(|pair| !closed.contains(pair))
            .collect();
        if more.is_empty() {
            return closed;
        }
        closed.extend(more);
    }
}

/// One relation followed by another.
fn followed_by(first: &Pairs, second: &Pairs) -> Pairs {
    first.iter().flat_map(|&(x, z)| second.range((z, 0)..=(z, u32::MAX)).map(move |&(_, y)| (x, y))).collect()
}

/// What document 01 says of a list of calls, from n and the arguments alone.
struct Model {
    n: u32,
    enabled: Vec<Flow>,
    greatest: u32,
    /// Flows of document 000 for the accepted history; as tag t is container t, also the pairs of tag and container.
    flows: Pairs,
}

impl Model {
    /// The empty history.
    fn new(n: u32) -> Self {
        Model { n, enabled: Vec::new(), greatest: 0, flows: (0..n).map(|container| (container, container)).collect() }
    }

    /// The refusal of an event, or 0 if it joins the history.
    fn refusal(&self, event: Event) -> u32 {
        match event {
            Event::Enable(flow) if flow.from >= self.n || flow.to >= self.n => 4,
            Event::Enable(flow) if flow.from == flow.to => 5,
            Event::Enable(flow) if flow.number <= self.greatest => 6,
            Event::Enable(_) if self.enabled.len() == 512 => 7,
            Event::Disable(number) if self.enabled.iter().all(|flow| flow.number != number) => 8,
            _ => 0,
        }
    }

    /// Lets an event join, and answers the gain: "the count of (tag, holder) pairs present after it and not before".
    fn join(&mut self, event: Event) -> u32 {
        match event {
            Event::Enable(flow) => {
                self.enabled.push(flow);
                self.greatest = flow.number;
            }
            Event::Disable(number) => self.enabled.retain(|flow| flow.number != number),
        }
        let after = followed_by(&self.flows, &closure(self.n, &self.enabled));
        let gain = after.difference(&self.flows).count() as u32;
        self.flows = after;
        gain
    }
}

/// The pairs of tag and container of a tracker, as its storage has them and as a question about the last container
/// answers.
fn pairs(tracker: &Tracker) -> Pairs {
    let n = tracker.header.containers;
    let table: Vec<Vec<u32>> = tracker.lent.tags[..4 * n as usize].as_chunks().0.iter().map(members).collect();
    assert_eq!(tracker.tags(n - 1), table[n as usize - 1]);
    (0..).zip(table).flat_map(|(container, tags)| tags.into_iter().map(move |tag| (tag, container))).collect()
}

/// A random event, now and then with arguments that are refused.
fn random_event(model: &Model, random: &mut Random) -> Event {
    let ends = model.n + u32::from(random.below(20) == 0);
    match random.below(5) {
        0 | 1 if !model.enabled.is_empty() => Event::Disable(random.one_of(&model.enabled).number),
        0 => Event::Disable(random.below(model.greatest + 2)),
        _ => Event::Enable(flow(model.greatest + random.below(4), random.below(ends), random.below(ends))),
    }
}

/// Follows a random history of so many calls and holds the tracker against the model after each.
fn follow(n: u32, calls: usize, random: &mut Random) -> [usize; 2] {
    let (mut model, mut tracker) = (Model::new(n), Tracker::new(n));
    assert_eq!(pairs(&tracker), model.flows);
    let mut done = [0, 0];
    for _ in 0..calls {
        let event = random_event(&model, random);
        let refusal = model.refusal(event);
        let gain = if refusal == 0 { model.join(event) } else { 0 };
        let answer = tracker.event(event);
        assert_eq!((answer.refusal, answer.gain), (refusal, gain));
        assert_eq!(pairs(&tracker), model.flows);
        assert_eq!((tracker.header.count as usize, tracker.header.greatest), (model.enabled.len(), model.greatest));
        assert_eq!(tracker.lent.flows[..model.enabled.len()], model.enabled);
        done[usize::from(refusal != 0)] += 1;
    }
    done
}

#[test]
fn random_small_histories() {
    let mut random = Random::new(1);
    let mut done = [0, 0];
    for history in 0..600 {
        let [accepted, refused] = follow(1 + history % 8, 24, &mut random);
        done = [done[0] + accepted, done[1] + refused];
    }
    assert!(done[0] > 5000 && done[1] > 1000, "{done:?}");
}

#[test]
fn random_histories_across_the_words_of_a_set() {
    let mut random = Random::new(2);
    for n in [63, 64, 65, 130, 200, 256] {
        follow(n, 40, &mut random);
    }
}

#[test]
fn after_an_event_tags_come_from_before_it_along_enabled_flows() {
    let mut random = Random::new(3);
    for history in 0..200 {
        let n = 2 + history % 5;
        let (mut model, mut tracker) = (Model::new(n), Tracker::new(n));
        for _ in 0..16 {
            let event = random_event(&model, &mut random);
            let before = pairs(&tracker);
            if tracker.event(event).refusal != 0 {
                continue;
            }
            model.join(event);
            let reach = closure(n, &model.enabled);
            let has = |t, b| (0..n).any(|a| before.contains(&(t, a)) && reach.contains(&(a, b)));
            let after: Pairs = (0..n).flat_map(|t| (0..n).map(move |b| (t, b))).filter(|&(t, b)| has(t, b)).collect();
            assert_eq!(pairs(&tracker), after);
        }
    }
}

#[test]
fn no_run_has_a_tag_that_the_tracker_lacks() {
    let mut random = Random::new(4);
    for history in 0..200 {
        let n = 2 + history % 5;
        let (mut model, mut tracker, mut run) = (Model::new(n), Tracker::new(n), Model::new(n).flows);
        for _ in 0..20 {
            let event = random_event(&model, &mut random);
            if tracker.event(event).refusal == 0 {
                model.join(event);
            }
            for _ in 0..random.below(6).min(6 * model.enabled.len() as u32) {
                let passage = random.one_of(&model.enabled);
                let carried = run.iter().filter(|pair| pair.1 == passage.from).map(|pair| (pair.0, passage.to));
                run.extend(carried.collect::<Vec<_>>());
            }
            assert!(run.is_subset(&pairs(&tracker)));
        }
    }
}
