//! Breaking one clause of validity at a time, at its first, a middle and its last possible place.
use crate::clauses::{beyond, has_tag, is_part, possible, tags, Clause, Place, PLACES};
use crate::inputs::{Random, TABLE};
use crate::states::{lengths, State};
use interface::Flow;

/// One way to break a state: the clause, the way, the place.
#[derive(Clone, Copy, Debug, PartialEq, Eq)]
pub struct Break {
    pub clause: Clause,
    pub way: usize,
    pub place: Place,
}

/// How many ways there are to break a clause.
fn ways(clause: Clause) -> usize {
    match clause {
        Clause::Containers => CONTAINERS.len(),
        Clause::Count => COUNTS.len(),
        Clause::PolicyCount => 3,
        Clause::Rising => 2,
        Clause::AtLeastOne => 1,
        Clause::OwnTag => 4,
        Clause::Greatest => 3,
        Clause::FromBelow | Clause::ToBelow => 5,
        Clause::EndsDiffer => 2,
        Clause::TagBelow => 6,
        Clause::PolicyTagBelow => 16,
        Clause::Part => 5,
        Clause::UnusedRecord => 4,
        Clause::UnusedPolicy => 16,
    }
}

/// Numbers of containers that starting refuses; some have products with 4 or 16 that are small in 32 bits.
const CONTAINERS: [u32; 7] = [0, 257, 258, 0x1000_0001, 0x4000_0001, 0x8000_0000, u32::MAX];
/// Counts of flows above the table's 512.
const COUNTS: [u32; 5] = [513, 514, 0x1_0000, 0x8000_0000, u32::MAX];

/// All breaks.
pub fn breaks() -> Vec<Break> {
    let clauses = std::iter::once(Clause::Containers).chain(crate::clauses::CLAUSES);
    let mut list = Vec::new();
    for clause in clauses {
        for (way, place) in (0..ways(clause)).flat_map(|way| PLACES.map(|place| (way, place))) {
            let needless = match clause {
                Clause::Containers | Clause::Count | Clause::AtLeastOne => place != Place::First,
                Clause::OwnTag => way > 0 && place != Place::Middle,
                _ => false,
            };
            if !needless {
                list.push(Break { clause, way, place });
            }
        }
    }
    list
}

/// Breaks a state in this way; answers no, and has changed nothing, where the state has no such place.
pub fn apply(random: &mut Random, state: &mut State, one: Break) -> bool {
    let Some(range) = possible(state.header, one.clause) else { return false };
    let place = match one.place {
        Place::First => range.0,
        Place::Middle if range.1 - range.0 < 2 => return false,
        Place::Middle => range.0 + 1 + random.below(range.1 - range.0 - 1),
        Place::Last => range.1,
    };
    match one.clause {
        Clause::Containers => break_containers(state, one.way),
        Clause::Count => break_count(state, one.way),
        Clause::PolicyCount => break_policy_count(random, state, one.way, place),
        Clause::Rising => break_rising(state, one.way, place),
        Clause::AtLeastOne => break_at_least_one(state),
        Clause::Greatest => break_greatest(state, one.way, place),
        Clause::FromBelow | Clause::ToBelow => break_end(state, one, place),
        Clause::EndsDiffer => break_ends_differ(state, one.way, place),
        Clause::TagBelow => break_tag(random, state, one.way, place),
        Clause::PolicyTagBelow => break_policy_tag(random, state, one, place),
        Clause::OwnTag => break_own_tag(random, state, one, place),
        Clause::Part => break_part(random, state, one.way, place),
        Clause::UnusedRecord => break_unused_record(random, state, one.way, place),
        Clause::UnusedPolicy => break_unused_policy(random, state, one, place),
    }
}

/// n becomes one that starting refuses; for 257 and 258 the storage grows to hold it.
fn break_containers(state: &mut State, way: usize) -> bool {
    state.header.containers = CONTAINERS[way];
    if CONTAINERS[way] < 1000 {
        let needed = lengths(CONTAINERS[way]);
        state.lent.tags.resize(needed[0].max(state.lent.tags.len()), 0);
        state.lent.policies.resize(needed[1].max(state.lent.policies.len()), 0);
        state.lent.counts.resize(needed[2].max(state.lent.counts.len()), 0);
    }
    true
}

/// The count passes 512 on a full table; what lies beyond it goes on as if it were in use.
fn break_count(state: &mut State, way: usize) -> bool {
    if state.header.count as usize != TABLE || state.header.greatest > u32::MAX - 200 {
        return false;
    }
    let last = state.lent.flows[TABLE - 1];
    state.lent.flows.truncate(TABLE);
    for more in 1..=100 {
        state.lent.flows.push(Flow { number: state.header.greatest + more, ..last });
    }
    state.header.greatest += 100;
    state.header.count = COUNTS[way];
    true
}

/// A count of policy sets passes four.
fn break_policy_count(random: &mut Random, state: &mut State, way: usize, place: usize) -> bool {
    state.lent.counts[place] = [5, 255, 5 + random.below(250) as u8][way];
    true
}

/// A number equals the one before it, or the two change places.
fn break_rising(state: &mut State, way: usize, place: usize) -> bool {
    let flows = &mut state.lent.flows;
    let (before, here) = (flows[place - 1].number, flows[place].number);
    flows[place].number = before;
    if way == 1 {
        flows[place - 1].number = here;
    }
    true
}

/// The first number becomes 0.
fn break_at_least_one(state: &mut State) -> bool {
    state.lent.flows[0].number = 0;
    true
}

/// The greatest falls to just below the number at this place, to 0 or to far below; where only the last may pass it, that one is raised.
fn break_greatest(state: &mut State, way: usize, place: usize) -> bool {
    let last = (state.header.count as usize).min(TABLE) - 1;
    match way {
        0 => state.header.greatest = state.lent.flows[place].number.saturating_sub(1),
        1 => state.header.greatest = 0,
        _ if state.header.greatest == u32::MAX => return false,
        _ => state.lent.flows[last].number = state.header.greatest + 1,
    }
    true
}

/// An end becomes n or more, also such that its low bits are those of a right one.
fn break_end(state: &mut State, one: Break, place: usize) -> bool {
    let n = state.header.containers;
    let flow = &mut state.lent.flows[place];
    if flow.from.max(flow.to) >= n {
        return false;
    }
    let end = if one.clause == Clause::FromBelow { &mut flow.from } else { &mut flow.to };
    *end = [n, *end + 256, *end + 65_536, *end | 0x8000_0000, u32::MAX][one.way];
    true
}

/// From and to become equal.
fn break_ends_differ(state: &mut State, way: usize, place: usize) -> bool {
    let flow = &mut state.lent.flows[place];
    if way == 0 {
        flow.to = flow.from;
    } else {
        flow.from = flow.to;
    }
    true
}

/// A tag of n or more: n itself, 255, or any in one of the four words; nothing where there is none.
fn tag_beyond(random: &mut Random, n: u32, way: usize) -> Option<usize> {
    let tags: Vec<usize> = match way {
        0 => vec![n as usize],
        1 => vec![255],
        word => (64 * (word - 2)..64 * (word - 1)).collect(),
    };
    let wrong: Vec<usize> = tags.into_iter().filter(|tag| *tag >= n as usize && *tag < 256).collect();
    (!wrong.is_empty()).then(|| random.pick(&wrong))
}

/// A container and all that flows lead to from it get a tag of n or more.
fn break_tag(random: &mut Random, state: &mut State, way: usize, place: usize) -> bool {
    let Some(tag) = tag_beyond(random, state.header.containers, way) else { return false };
    set_tag(state, place as u32, tag);
    let mut changed = true;
    while changed {
        changed = false;
        for flow in enabled(state) {
            if has_tag(tags(&state.lent, flow.from), tag) && !has_tag(tags(&state.lent, flow.to), tag) {
                set_tag(state, flow.to, tag);
                changed = true;
            }
        }
    }
    true
}

/// The enabled flows of a state that is valid so far, or as many as there are; those with wrong ends are left out.
fn enabled(state: &State) -> Vec<Flow> {
    let n = state.header.containers;
    let used = (state.header.count as usize).min(state.lent.flows.len());
    state.lent.flows[..used].iter().filter(|flow| flow.from < n && flow.to < n).copied().collect()
}

/// Adds a tag to a container.
fn set_tag(state: &mut State, container: u32, tag: usize) {
    state.lent.tags[4 * container as usize + tag / 64] |= 1 << (tag % 64);
}

/// Takes a tag from a container.
fn clear_tag(state: &mut State, container: u32, tag: usize) {
    state.lent.tags[4 * container as usize + tag / 64] &= !(1 << (tag % 64));
}

/// A used policy set of a container, the first to the fourth, gets a tag of n or more in one of its words.
fn break_policy_tag(random: &mut Random, state: &mut State, one: Break, place: usize) -> bool {
    let (set, word) = (one.way / 4, one.way % 4);
    let Some(tag) = tag_beyond(random, state.header.containers, 2 + word) else { return false };
    let Some(place) = nearest(state, one.place, place, |count| usize::from(count) > set && count < 5) else { return false };
    state.lent.policies[16 * place + 4 * set + word] |= 1 << (tag % 64);
    true
}

/// The container nearest to a place, seen from the side that the place is on, whose count of policy sets is as asked.
fn nearest(state: &State, side: Place, place: usize, asked: impl Fn(u8) -> bool) -> Option<usize> {
    let n = state.header.containers as usize;
    let counts = &state.lent.counts;
    match side {
        Place::Last => (0..=place).rev().find(|container| asked(counts[*container])),
        _ => (place..n).find(|container| asked(counts[*container])),
    }
}

/// A container, at this place or with a tag in a later word, loses its own tag, as do all from which flows lead to it.
fn break_own_tag(random: &mut Random, state: &mut State, one: Break, place: usize) -> bool {
    let n = state.header.containers as usize;
    let place = match one.way {
        0 => place,
        word if n > 64 * word => 64 * word + random.below((n - 64 * word).min(64)),
        _ => return false,
    };
    clear_tag(state, place as u32, place);
    let mut changed = true;
    while changed {
        changed = false;
        for flow in enabled(state) {
            if has_tag(tags(&state.lent, flow.from), place) && !has_tag(tags(&state.lent, flow.to), place) {
                clear_tag(state, flow.from, place);
                changed = true;
            }
        }
    }
    true
}

/// The to-set of a flow loses the tag of its from-container, or the from-set gains one, in any or a certain word, that the to-set lacks.
fn break_part(random: &mut Random, state: &mut State, way: usize, place: usize) -> bool {
    let flow = state.lent.flows[place];
    if flow.from.max(flow.to) >= state.header.containers || flow.from == flow.to {
        return false;
    }
    if way == 0 {
        clear_tag(state, flow.to, flow.from as usize);
        return true;
    }
    let word = way - 1;
    let free = !tags(&state.lent, flow.to)[word] & !beyond(state.header.containers as usize, word);
    let places: Vec<usize> = (0..64).filter(|bit| free >> bit & 1 == 1).collect();
    if places.is_empty() {
        return false;
    }
    let tag = 64 * word + random.pick(&places);
    set_tag(state, flow.from, tag);
    !is_part(tags(&state.lent, flow.from), tags(&state.lent, flow.to))
}

/// A field of an unused record is not zero, or all are those of a right flow.
fn break_unused_record(random: &mut Random, state: &mut State, way: usize, place: usize) -> bool {
    let number = random.pick(&[1, 0x100, 0x8000_0000, u32::MAX]);
    state.lent.flows[place] = match way {
        0 => Flow { number, ..Flow::default() },
        1 => Flow { from: number, ..Flow::default() },
        2 => Flow { to: number, ..Flow::default() },
        _ => Flow { number: state.header.greatest, from: 0, to: 1 },
    };
    true
}

/// One of the sixteen policy words of a container is not zero though it is unused.
fn break_unused_policy(random: &mut Random, state: &mut State, one: Break, place: usize) -> bool {
    let Some(place) = nearest(state, one.place, place, |count| 4 * usize::from(count) <= one.way) else { return false };
    let wrong = beyond(state.header.containers as usize, one.way % 4);
    let bits = [1, 1 << 63, 1 << random.below(64), wrong];
    state.lent.policies[16 * place + one.way] = random.pick(&bits).max(1);
    true
}

#[cfg(test)]
mod tests {
    use super::*;
    use crate::clauses::broken;
    use crate::states::{Pool, STATES};
    use reference::Reference;

    /// Every break breaks just its clause wherever it can be applied, and each can be applied somewhere.
    #[test]
    fn breaks_break_their_clause_alone() {
        let pool = Pool::new(&Reference, 4);
        let mut random = Random::new(4, 0, 0);
        for one in breaks() {
            let mut applied = 0;
            for place in 0..STATES {
                let mut state = pool.state(place);
                if apply(&mut random, &mut state, one) {
                    applied += 1;
                    let found = broken(state.header, &state.lent);
                    assert!(!found.is_empty() && found.iter().all(|b| b.clause == one.clause), "{one:?} on state {place} breaks {found:?}");
                }
            }
            assert!(applied > 0, "{one:?} is never applied");
        }
    }

    /// Any break can follow any other, and a state once broken stays broken by the first or by the second.
    #[test]
    fn breaks_can_follow_each_other() {
        let pool = Pool::new(&Reference, 4);
        let mut random = Random::new(4, 0, 2);
        let list = breaks();
        for (first, second) in list.iter().flat_map(|first| list.iter().map(move |second| (*first, *second))) {
            let mut state = pool.state([2, 3, 5, 10][random.below(4)]);
            let n = state.header.containers;
            let once = apply(&mut random, &mut state, first);
            let twice = state.header.containers == n && apply(&mut random, &mut state, second);
            assert!(!once && !twice || !broken(state.header, &state.lent).is_empty() || first.clause == second.clause, "{first:?} {second:?}");
        }
    }

    /// A clause with a place is broken at the first and at the last possible place on some state.
    #[test]
    fn breaks_reach_first_and_last() {
        let pool = Pool::new(&Reference, 4);
        let mut random = Random::new(4, 0, 1);
        for clause in crate::clauses::CLAUSES {
            for (place, first) in [(Place::First, true), (Place::Last, false)] {
                let reached = (0..STATES).any(|which| {
                    let mut state = pool.state(which);
                    let range = possible(state.header, clause);
                    let done = apply(&mut random, &mut state, Break { clause, way: 0, place });
                    let wanted = range.map(|range| if first { range.0 } else { range.1 });
                    done && broken(state.header, &state.lent).iter().any(|b| Some(b.place) == wanted)
                });
                assert!(reached, "{clause:?} {place:?}");
            }
        }
    }
}
