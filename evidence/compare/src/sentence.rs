//! Document 01's sentence on what an event does, computed as it is written: neither passes over the flows nor a copy of the sets.
use crate::clauses::has_tag;
use interface::{Event, Flow};

/// A set of containers or of tags.
type Set = [u64; 4];

/// The set of one member.
fn only(member: usize) -> Set {
    let mut set = [0; 4];
    set[member / 64] = 1 << (member % 64);
    set
}

/// Adds all members of one set to another.
fn unite(set: &mut [u64], other: &[u64]) {
    set.iter_mut().zip(other).for_each(|(word, more)| *word |= more);
}

/// For each container those that can be reached from it by zero or more of the flows (a boolean matrix, by Warshall).
fn reached(n: usize, flows: &[Flow]) -> Vec<Set> {
    let mut rows: Vec<Set> = (0..n).map(only).collect();
    for flow in flows {
        unite(&mut rows[flow.from as usize], &only(flow.to as usize));
    }
    for via in 0..n {
        let onward = rows[via];
        if onward != only(via) {
            rows.iter_mut().filter(|row| has_tag(&row[..], via)).for_each(|row| unite(row, &onward));
        }
    }
    rows
}

/// Does something with each member of a set, rising.
fn each_member(set: Set, mut what: impl FnMut(usize)) {
    for (place, word) in set.into_iter().enumerate() {
        let mut rest = word;
        while rest != 0 {
            what(64 * place + rest.trailing_zeros() as usize);
            rest &= rest - 1;
        }
    }
}

/// The tag sets after an event: b has tag t exactly if some a had t before it and b can be reached from a by flows enabled after it.
pub fn after(n: usize, before: &[u64], flows: &[Flow]) -> Vec<u64> {
    let mut sets = vec![0; 4 * n];
    for (row, held) in reached(n, flows).into_iter().zip(before.chunks(4)) {
        each_member(row, |b| unite(&mut sets[4 * b..4 * b + 4], held));
    }
    sets
}

/// The gain: the count of (tag, container) pairs after and not before.
pub fn gain(before: &[u64], after: &[u64]) -> u64 {
    before.iter().zip(after).map(|(before, after)| u64::from((after & !before).count_ones())).sum()
}

/// The tag sets at the start.
fn at_start(n: usize) -> Vec<u64> {
    (0..n).flat_map(only).collect()
}

/// The tag sets and the sum of the gains after events that all join.
pub fn after_all(n: usize, events: &[Event]) -> (Vec<u64>, u64) {
    let (mut sets, mut sum, mut flows) = (at_start(n), 0, Vec::new());
    for event in events {
        match *event {
            Event::Enable(flow) => flows.push(flow),
            Event::Disable(number) => flows.retain(|flow: &Flow| flow.number != number),
        }
        let now = after(n, &sets, &flows);
        sum += gain(&sets, &now);
        sets = now;
    }
    (sets, sum)
}

#[cfg(test)]
mod tests {
    use super::*;
    use crate::inputs::Random;
    use crate::logs::any_ends;

    /// An enable in a few words.
    fn enable(number: u32, from: u32, to: u32) -> Event {
        Event::Enable(Flow { number, from, to })
    }

    /// The gains of events, one by one.
    fn gains(n: usize, events: &[Event]) -> Vec<u64> {
        let sum = |done: usize| after_all(n, &events[..done]).1;
        (0..events.len()).map(|done| sum(done + 1) - sum(done)).collect()
    }

    /// The paper's example and samples have the paper's gains.
    #[test]
    fn samples_of_the_paper() {
        let off = Event::Disable;
        let example = [enable(1, 2, 3), enable(2, 0, 1), off(2), enable(3, 1, 2), off(1), off(3), enable(4, 3, 4), off(4)];
        assert_eq!(gains(5, &example), [1, 1, 0, 4, 0, 0, 4, 0]);
        assert_eq!(gains(3, &[enable(1, 1, 2), off(1), enable(2, 0, 1)]), [1, 0, 1]);
        assert_eq!(gains(3, &[enable(1, 1, 2), enable(2, 0, 1)]), [1, 2]);
        assert_eq!(gains(3, &[enable(1, 0, 1), enable(2, 1, 2), enable(3, 2, 0)]), [1, 2, 3]);
        assert_eq!(gains(3, &[enable(1, 0, 1), enable(2, 0, 1), off(1), enable(3, 2, 0)]), [1, 0, 0, 2]);
        assert_eq!(after_all(3, &[]).0, [1, 0, 0, 0, 2, 0, 0, 0, 4, 0, 0, 0]);
    }

    /// The matrix holds just the containers that a search from each container meets.
    #[test]
    fn matrix_is_what_a_search_meets() {
        let mut random = Random::new(4, 0, 0);
        for n in [2, 3, 9, 64, 65, 256] {
            let ends = |_| any_ends(&mut random, n as u32);
            let flows: Vec<Flow> = (0..n).map(ends).map(|(from, to)| Flow { number: 1, from, to }).collect();
            for (a, row) in reached(n, &flows).into_iter().enumerate() {
                let mut met = vec![a];
                let mut next = 0;
                while next < met.len() {
                    let onward = flows.iter().filter(|flow| flow.from as usize == met[next]).map(|flow| flow.to as usize);
                    let new: Vec<usize> = onward.filter(|to| !met.contains(to)).collect();
                    new.into_iter().for_each(|to| if !met.contains(&to) { met.push(to) });
                    next += 1;
                }
                met.sort_unstable();
                let mut held = Vec::new();
                each_member(row, |member| held.push(member));
                assert_eq!(held, met);
            }
        }
    }
}
