//! Valid states made by hand, among them those that no list of calls reaches.
use crate::clauses::beyond;
use crate::inputs::{Random, TABLE};
use crate::logs::any_ends;
use crate::sentence::after;
use crate::states::{lengths, right_policy, State};
use interface::{Flow, Header, Lent};

/// A valid state: sets with tags that nothing brought, closed under the flows; any greatest; policy sets of any kind, empty and alike ones too.
pub fn made_state(random: &mut Random, case: usize) -> State {
    if case == 0 {
        return smallest(random);
    }
    let n = match case % 4 {
        0 => 2 + random.below(7) as u32,
        _ => random.containers(),
    };
    let mut lent = longer_storage(random, n, case % 3 == 2);
    let count = made_flows(random, n, case, &mut lent);
    let often = if case.is_multiple_of(4) { 1 } else { random.pick(&[1, 3, 20]) };
    made_tags(random, n, often, &mut lent);
    close(n, count, &mut lent);
    made_policies(random, n, &mut lent);
    let least = lent.flows[..count].last().map_or(0, |flow| flow.number);
    let higher = least.saturating_add(random.number());
    let greatest = if case.is_multiple_of(2) { least } else { random.pick(&[least.saturating_add(1), higher, u32::MAX]) };
    State { header: Header { containers: n, count: count as u32, greatest }, lent }
}

/// Two containers of which the second has the tag of the first, though nothing was ever enabled.
fn smallest(random: &mut Random) -> State {
    let mut lent = longer_storage(random, 2, false);
    lent.tags = vec![1, 0, 0, 0, 3, 0, 0, 0].into();
    State { header: Header { containers: 2, count: 0, greatest: 0 }, lent }
}

/// Storage of zeros as long as needed; now and then much longer, with other content beyond.
fn longer_storage(random: &mut Random, n: u32, longer: bool) -> Lent {
    let needed = lengths(n);
    let [tags, policies, counts, flows] = needed;
    let (tags, policies) = (vec![0; tags].into(), vec![0; policies].into());
    let mut lent = Lent { tags, policies, counts: vec![0; counts].into(), flows: vec![Flow::default(); flows].into() };
    if longer {
        lengthen(random, &mut lent);
    }
    lent
}

/// Makes the lists of a storage much longer than any tracker needs, with other content beyond what they had.
pub fn lengthen(random: &mut Random, lent: &mut Lent) {
    let word = random.draw();
    lent.tags.resize(random.pick(&[1_101, 1_200, 2_000]).max(lent.tags.len()), word);
    lent.policies.resize(random.pick(&[4_201, 4_500]).max(lent.policies.len()), !word);
    lent.counts.resize(random.pick(&[301, 1_000]).max(lent.counts.len()), word as u8);
    let flow = Flow { number: word as u32, from: 1, to: 0 };
    lent.flows.resize(random.pick(&[TABLE + 1, 601, 601, 2_000]).max(lent.flows.len()), flow);
}

/// Enables some flows with rising numbers, none in every second case, and answers how many.
fn made_flows(random: &mut Random, n: u32, case: usize, lent: &mut Lent) -> usize {
    let most = random.pick(&[1, 3, 8, 60]);
    let count = if n < 2 || case % 4 < 2 { 0 } else { 1 + random.below(most) };
    let mut number = 0;
    for place in 0..count {
        number += 1 + random.below(5) as u32;
        let (from, to) = any_ends(random, n);
        lent.flows[place] = Flow { number, from, to };
    }
    count
}

/// Gives each container its own tag and, in one word of so many, others.
fn made_tags(random: &mut Random, n: u32, often: usize, lent: &mut Lent) {
    let n = n as usize;
    for container in 0..n {
        for word in 0..4 {
            let more = if random.once_in(often) { random.word() } else { 0 };
            lent.tags[4 * container + word] = more & !beyond(n, word);
        }
        lent.tags[4 * container + container / 64] |= 1 << (container % 64);
    }
}

/// Closes the sets under the enabled flows.
fn close(n: u32, count: usize, lent: &mut Lent) {
    let n = n as usize;
    let closed = after(n, &lent.tags, &lent.flows[..count]);
    lent.tags[..4 * n].copy_from_slice(&closed);
}

/// Gives each container up to four policy sets, now and then the same one or an empty one several times.
fn made_policies(random: &mut Random, n: u32, lent: &mut Lent) {
    for container in 0..n as usize {
        let count = random.below(5);
        let set = lent.tags[4 * container..][..4].to_vec();
        let one = right_policy(random, n, container as u32, &set);
        let alike = random.pick(&[None, None, Some([0; 4]), Some(one)]);
        for place in 0..count {
            let policy = alike.unwrap_or_else(|| right_policy(random, n, container as u32, &set));
            lent.policies[16 * container + 4 * place..][..4].copy_from_slice(&policy);
        }
        lent.counts[container] = count as u8;
    }
}

#[cfg(test)]
mod tests {
    use super::*;
    use crate::clauses::broken;

    /// Every state that is made is valid, and among them are such as no list of calls reaches.
    #[test]
    fn made_states_are_valid() {
        let mut random = Random::new(7, 0, 0);
        let mut unreachable = 0;
        for case in 0..600 {
            let state = made_state(&mut random, case);
            assert_eq!(broken(state.header, &state.lent), [], "case {case}");
            let n = state.header.containers;
            let held: u32 = state.lent.tags[..4 * n as usize].iter().map(|word| word.count_ones()).sum();
            unreachable += usize::from(state.header.greatest == 0 && held > n);
        }
        assert!(unreachable > 50);
    }
}
