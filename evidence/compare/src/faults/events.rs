//! Faults of starting, of events and of adding a set.
use super::{Written, ALL, CALLS, REPLAY};
use crate::inputs::TABLE;
use crate::states::lengths;
use crate::wrapper::{Faulty, Hooks, Scope, RIGHT};
use interface::{Answer, Flow, Header, Lent};

/// The faults of this file.
pub fn written() -> Vec<Written> {
    [spreading(), gains(), orders(), enabling(), disabling(), starting(), adding()].concat()
}

/// The faults of propagation and of the gain, which two implementations could have alike.
pub fn about_sets() -> Vec<Written> {
    [spreading(), gains()].concat()
}

/// Faults of propagation.
fn spreading() -> Vec<Written> {
    vec![
        ("propagation to the destination only", ALL, Hooks { enable: destination_only, ..RIGHT }),
        ("propagation of one pass", ALL, Hooks { enable: one_pass, ..RIGHT }),
        ("propagation of two passes", ALL, Hooks { enable: two_passes, ..RIGHT }),
        ("propagation of 200 passes", ALL, Hooks { enable: |f, h, l, x| spread(f, h, l, x, |l, h| passes(l, h, 200)), ..RIGHT }),
        ("the copy of the sets is never refreshed", ALL, Hooks { enable: |f, h, l, x| spread(f, h, l, x, |l, h| copied_again(l, h, 0)), ..RIGHT }),
        ("the first 100 changed sets are copied again", ALL, Hooks { enable: |f, h, l, x| spread(f, h, l, x, |l, h| copied_again(l, h, 100)), ..RIGHT }),
        ("the first 126 changed sets are copied again", ALL, Hooks { enable: |f, h, l, x| spread(f, h, l, x, |l, h| copied_again(l, h, 126)), ..RIGHT }),
        ("the first 250 changed sets are copied again", ALL, Hooks { enable: |f, h, l, x| spread(f, h, l, x, |l, h| copied_again(l, h, 250)), ..RIGHT }),
        ("closure of all flows ever enabled", ALL, Hooks { start: start_ever, enable: enable_ever, ..RIGHT }),
        ("tags never change", ALL, Hooks { enable: never, ..RIGHT }),
        ("propagation at the first enable only", ALL, Hooks { enable: first_only, ..RIGHT }),
        ("only the from-container's own tag flows", ALL, Hooks { enable: own_only, ..RIGHT }),
        ("the last word of a set does not flow", ALL, Hooks { enable: last_word_stays, ..RIGHT }),
        ("tags flow back as well", ALL, Hooks { enable: backwards_too, ..RIGHT }),
    ]
}

/// Faults of the gain.
fn gains() -> Vec<Written> {
    vec![
        ("gain off by one", ALL, Hooks { enable: |f, h, l, x| changed(f.right.enable(h, l, x), |a| a.gain += 1), ..RIGHT }),
        ("gain one too many where there is one", ALL, Hooks { enable: |f, h, l, x| changed(f.right.enable(h, l, x), |a| a.gain += u32::from(a.gain > 0)), ..RIGHT }),
        ("the gain is taken modulo 32,768", ALL, Hooks { enable: |f, h, l, x| changed(f.right.enable(h, l, x), |a| a.gain %= 32_768), ..RIGHT }),
        ("gain counts pairs held before", ALL, Hooks { enable: gain_of_all, ..RIGHT }),
        ("gain of the destination only", ALL, Hooks { enable: gain_of_destination, ..RIGHT }),
        ("gain of a disable is 1", ALL, Hooks { disable: |f, h, l, x| changed(f.right.disable(h, l, x), |a| a.gain = 1), ..RIGHT }),
        ("gain of adding a set is 1", CALLS, Hooks { add_policy: |f, h, l, c, p| changed(f.right.add_policy(h, l, c, p), |a| a.gain = 1), ..RIGHT }),
        ("a refusal has a gain", CALLS, Hooks { enable: |f, h, l, x| refused(f.right.enable(h, l, x), |a| a.gain = 1), ..RIGHT }),
    ]
}

/// Faults in the order of the refusals.
fn orders() -> Vec<Written> {
    vec![
        ("5 before 4", ALL, Hooks { enable: |f, h, l, x| swapped(f, h, l, x, 4, 5), ..RIGHT }),
        ("6 before 4", ALL, Hooks { enable: |f, h, l, x| swapped(f, h, l, x, 4, 6), ..RIGHT }),
        ("7 before 4", ALL, Hooks { enable: |f, h, l, x| swapped(f, h, l, x, 4, 7), ..RIGHT }),
        ("6 before 5", ALL, Hooks { enable: |f, h, l, x| swapped(f, h, l, x, 5, 6), ..RIGHT }),
        ("7 before 5", ALL, Hooks { enable: |f, h, l, x| swapped(f, h, l, x, 5, 7), ..RIGHT }),
        ("7 before 6", ALL, Hooks { enable: |f, h, l, x| swapped(f, h, l, x, 6, 7), ..RIGHT }),
        ("4 before 12 in enable", CALLS, Hooks { enable: |f, h, l, x| swapped(f, h, l, x, 12, 4), ..RIGHT }),
        ("4 before 9 in enable", CALLS, Hooks { enable: |f, h, l, x| swapped(f, h, l, x, 9, 4), ..RIGHT }),
        ("12 before 9 in enable", CALLS, Hooks { enable: |f, h, l, x| twelve(f.right.enable(h, l, x), h, l), ..RIGHT }),
        ("12 before 9 in disable", CALLS, Hooks { disable: |f, h, l, x| twelve(f.right.disable(h, l, x), h, l), ..RIGHT }),
        ("12 before 9 in add_policy", CALLS, Hooks { add_policy: |f, h, l, c, p| twelve(f.right.add_policy(h, l, c, p), h, l), ..RIGHT }),
        ("8 before 12", CALLS, Hooks { disable: |f, h, l, x| eight(f.right.disable(h, l, x), l, x, 12), ..RIGHT }),
        ("8 before 9", CALLS, Hooks { disable: |f, h, l, x| eight(f.right.disable(h, l, x), l, x, 9), ..RIGHT }),
        ("11 before 4 for the set", CALLS, Hooks { add_policy: eleven_first, ..RIGHT }),
        ("4 before 12 in add_policy", CALLS, Hooks { add_policy: four_before_twelve, ..RIGHT }),
    ]
}

/// Faults of enabling.
fn enabling() -> Vec<Written> {
    vec![
        ("a refused enable uses up its number", SEEN, Hooks { enable: uses_number, ..RIGHT }),
        ("the header of a refusal is empty", SEEN, Hooks { enable: |f, h, l, x| refused(f.right.enable(h, l, x), |a| a.header = Header::default()), ..RIGHT }),
        ("a refused enable is stored all the same", SEEN, Hooks { enable: stored_all_the_same, ..RIGHT }),
        ("the table is full at 511", ALL, Hooks { enable: full_at_511, ..RIGHT }),
        ("the table is full at 513", ALL, Hooks { enable: full_at_513, ..RIGHT }),
        ("the table is full at the first enable", ALL, Hooks { enable: full_at_once, ..RIGHT }),
        ("every tracker is invalid", CALLS, Hooks { enable: |_, h, _, _| answer(12, h), ..RIGHT }),
        ("number 0 is accepted", ALL, Hooks { enable: zero_accepted, ..RIGHT }),
        ("the greatest number is accepted again", ALL, Hooks { enable: equal_accepted, ..RIGHT }),
        ("containers are judged against 256", ALL, Hooks { enable: against_256, ..RIGHT }),
        ("from equal to to is accepted", ALL, Hooks { enable: |f, h, l, x| forgiven(f.right.enable(h, l, x), 5), ..RIGHT }),
        ("numbers are compared with a sign", ALL, Hooks { enable: signed, ..RIGHT }),
        ("the last number is refused", ALL, Hooks { enable: last_number_refused, ..RIGHT }),
        ("a flow with the same ends is not stored again", SEEN, Hooks { enable: alike_not_stored, ..RIGHT }),
        ("new flows go to the front", SEEN, Hooks { enable: to_the_front, ..RIGHT }),
        ("the greatest is not raised", ALL, Hooks { enable: |f, h, l, x| changed(f.right.enable(h, l, x), |a| a.header.greatest = h.greatest), ..RIGHT }),
    ]
}

/// Used where the flow table or the header can be seen.
const SEEN: &[Scope] = REPLAY;

/// Faults of disabling.
fn disabling() -> Vec<Written> {
    vec![
        ("a disable drops both alike flows", ALL, Hooks { disable: drops_alike, ..RIGHT }),
        ("a disable takes tags away", ALL, Hooks { disable: takes_tags, ..RIGHT }),
        ("a removed record is not cleared", SEEN, Hooks { disable: not_cleared, ..RIGHT }),
        ("records are not moved", SEEN, Hooks { disable: not_moved, ..RIGHT }),
        ("the last record takes the place of the removed one", SEEN, Hooks { disable: last_moved, ..RIGHT }),
        ("the greatest falls with a disable", ALL, Hooks { disable: greatest_falls, ..RIGHT }),
        ("the first record is not found", ALL, Hooks { disable: |f, h, l, x| missed(f, h, l, x, 0), ..RIGHT }),
        ("the last record is not found", ALL, Hooks { disable: |f, h, l, x| missed(f, h, l, x, h.count.wrapping_sub(1)), ..RIGHT }),
        ("the record 511 is not found", SEEN, Hooks { disable: |f, h, l, x| missed(f, h, l, x, 511), ..RIGHT }),
        ("number 0 finds an unused record", ALL, Hooks { disable: zero_found, ..RIGHT }),
        ("a flow that is not enabled is disabled without refusal", ALL, Hooks { disable: |f, h, l, x| forgiven(f.right.disable(h, l, x), 8), ..RIGHT }),
    ]
}

/// Faults of starting.
fn starting() -> Vec<Written> {
    vec![
        ("start keeps tags", SEEN, Hooks { start: |f, n, l| kept(f, n, l, 0), ..RIGHT }),
        ("start keeps policies", SEEN, Hooks { start: |f, n, l| kept(f, n, l, 1), ..RIGHT }),
        ("start keeps policy counts", SEEN, Hooks { start: |f, n, l| kept(f, n, l, 2), ..RIGHT }),
        ("start keeps flows", SEEN, Hooks { start: |f, n, l| kept(f, n, l, 3), ..RIGHT }),
        ("start writes tags beyond", SEEN, Hooks { start: |f, n, l| past(f, n, l, 0), ..RIGHT }),
        ("start writes policies beyond", SEEN, Hooks { start: |f, n, l| past(f, n, l, 1), ..RIGHT }),
        ("start writes counts beyond", SEEN, Hooks { start: |f, n, l| past(f, n, l, 2), ..RIGHT }),
        ("start writes flows beyond", SEEN, Hooks { start: |f, n, l| past(f, n, l, 3), ..RIGHT }),
        ("start accepts 0", ALL, Hooks { start: |f, n, l| if n == 0 { Answer::default() } else { f.right.start(n, l) }, ..RIGHT }),
        ("start accepts 257", ALL, Hooks { start: |f, n, l| if n == 257 { f.right.start(1, l) } else { f.right.start(n, l) }, ..RIGHT }),
        ("start takes n by its low byte", ALL, Hooks { start: |f, n, l| f.right.start(if n == 256 { n } else { n % 256 }, l), ..RIGHT }),
        ("start refuses 256", ALL, Hooks { start: |f, n, l| if n == 256 { answer(9, Header::default()) } else { f.right.start(n, l) }, ..RIGHT }),
        ("a refused start answers n", CALLS, Hooks { start: |f, n, l| refused(f.right.start(n, l), |a| a.header.containers = n), ..RIGHT }),
        ("a refused start writes", SEEN, Hooks { start: writes_refused, ..RIGHT }),
    ]
}

/// Faults of adding a set.
fn adding() -> Vec<Written> {
    vec![
        ("three policy sets are all", CALLS, Hooks { add_policy: full_at_three, ..RIGHT }),
        ("a fifth policy set is accepted", CALLS, Hooks { add_policy: |f, h, l, c, p| forgiven(f.right.add_policy(h, l, c, p), 11), ..RIGHT }),
        ("the same set twice takes one place", CALLS, Hooks { add_policy: once, ..RIGHT }),
        ("a tag of n or more is accepted in a set", CALLS, Hooks { add_policy: bad_tag, ..RIGHT }),
        ("a tag of n or more is accepted in a set's last word", CALLS, Hooks { add_policy: bad_last_word, ..RIGHT }),
        ("new sets go to the front", CALLS, Hooks { add_policy: set_to_the_front, ..RIGHT }),
        ("adding a set raises the greatest", CALLS, Hooks { add_policy: raises_greatest, ..RIGHT }),
        ("no container is judged when a set is added", CALLS, Hooks { add_policy: |f, h, l, c, p| forgiven(f.right.add_policy(h, l, c.min(h.containers), p), 4), ..RIGHT }),
    ]
}

/// An answer without gain.
pub fn answer(refusal: u32, header: Header) -> Answer {
    Answer { refusal, gain: 0, header }
}

/// An accepted answer after a change.
fn changed(mut answer: Answer, change: impl Fn(&mut Answer)) -> Answer {
    if answer.refusal == 0 {
        change(&mut answer);
    }
    answer
}

/// A refused answer after a change.
fn refused(mut answer: Answer, change: impl Fn(&mut Answer)) -> Answer {
    if answer.refusal != 0 {
        change(&mut answer);
    }
    answer
}

/// The answer without this refusal.
pub fn forgiven(mut answer: Answer, refusal: u32) -> Answer {
    if answer.refusal == refusal {
        answer.refusal = 0;
    }
    answer
}

/// The count of (tag, container) pairs.
fn pairs(header: Header, lent: &Lent) -> u32 {
    lent.tags[..4 * header.containers as usize].iter().map(|word| word.count_ones()).sum()
}

/// Adds the tags of one container to another's.
fn flow_into(lent: &mut Lent, from: u32, to: u32) {
    for word in 0..4 {
        lent.tags[4 * to as usize + word] |= lent.tags[4 * from as usize + word];
    }
}

/// A right enable whose propagation is replaced by another.
fn spread(f: &Faulty, header: Header, lent: &mut Lent, flow: Flow, by: impl Fn(&mut Lent, Header)) -> Answer {
    let before = lent.tags.clone();
    let mut given = f.right.enable(header, lent, flow);
    if given.refusal == 0 {
        lent.tags = before;
        let had = pairs(header, lent);
        by(lent, given.header);
        given.gain = pairs(header, lent).wrapping_sub(had);
    }
    given
}

/// Adds the from-set to the to-set and goes no further.
fn destination_only(f: &Faulty, header: Header, lent: &mut Lent, flow: Flow) -> Answer {
    spread(f, header, lent, flow, |lent, _| flow_into(lent, flow.from, flow.to))
}

/// So many passes over the enabled flows, each reading the sets as it found them.
fn passes(lent: &mut Lent, header: Header, many: usize) {
    for _ in 0..many {
        let found = lent.tags.clone();
        if pass(lent, header, &found).is_empty() {
            return;
        }
    }
}

/// One pass over the enabled flows that reads these sets; answers the containers whose sets it changed, in the order of the changes.
fn pass(lent: &mut Lent, header: Header, found: &[u64]) -> Vec<usize> {
    let mut changed = Vec::new();
    for flow in &lent.flows[..header.count as usize] {
        let (from, to) = (4 * flow.from as usize, 4 * flow.to as usize);
        if (0..4).any(|word| found[from + word] & !lent.tags[to + word] != 0) {
            (0..4).for_each(|word| lent.tags[to + word] |= found[from + word]);
            changed.push(to / 4);
        }
    }
    changed
}

/// Passes until one adds nothing; of the sets that a pass changed only the first so many are copied again for the next.
fn copied_again(lent: &mut Lent, header: Header, most: usize) {
    let mut found = lent.tags.clone();
    loop {
        let changed = pass(lent, header, &found);
        if changed.is_empty() {
            return;
        }
        for container in changed.into_iter().take(most) {
            found[4 * container..][..4].copy_from_slice(&lent.tags[4 * container..][..4]);
        }
    }
}

/// Propagates in one pass.
fn one_pass(f: &Faulty, header: Header, lent: &mut Lent, flow: Flow) -> Answer {
    spread(f, header, lent, flow, |lent, header| passes(lent, header, 1))
}

/// Propagates in two passes.
fn two_passes(f: &Faulty, header: Header, lent: &mut Lent, flow: Flow) -> Answer {
    spread(f, header, lent, flow, |lent, header| passes(lent, header, 2))
}

/// Starts and forgets what was ever enabled.
fn start_ever(f: &Faulty, n: u32, lent: &mut Lent) -> Answer {
    f.ever.borrow_mut().clear();
    f.right.start(n, lent)
}

/// Propagates over all flows ever enabled, disabled ones too.
fn enable_ever(f: &Faulty, header: Header, lent: &mut Lent, flow: Flow) -> Answer {
    let mut ever = f.ever.borrow_mut();
    if ever.last().is_some_and(|last| last.number != header.greatest) {
        ever.clear();
    }
    let given = spread(f, header, lent, flow, |lent, now| {
        for _ in 0..now.containers {
            let before = pairs(now, lent);
            let all = lent.flows[..now.count as usize].iter().chain(ever.iter()).copied().collect::<Vec<Flow>>();
            all.iter().for_each(|flow| flow_into(lent, flow.from, flow.to));
            if pairs(now, lent) == before {
                break;
            }
        }
    });
    if given.refusal == 0 {
        ever.push(flow);
    }
    given
}

/// Changes no tag.
fn never(f: &Faulty, header: Header, lent: &mut Lent, flow: Flow) -> Answer {
    spread(f, header, lent, flow, |_, _| ())
}

/// Propagates at the first enable and later merely stores flows.
fn first_only(f: &Faulty, header: Header, lent: &mut Lent, flow: Flow) -> Answer {
    if header.greatest == 0 { f.right.enable(header, lent, flow) } else { never(f, header, lent, flow) }
}

/// Lets the own tag of the from-container flow and none of the others.
fn own_only(f: &Faulty, header: Header, lent: &mut Lent, flow: Flow) -> Answer {
    let tag = flow.from as usize;
    spread(f, header, lent, flow, |lent, _| lent.tags[4 * flow.to as usize + tag / 64] |= 1 << (tag % 64))
}

/// Keeps the fourth word of every set as it was.
fn last_word_stays(f: &Faulty, header: Header, lent: &mut Lent, flow: Flow) -> Answer {
    let before = lent.tags.clone();
    let mut given = f.right.enable(header, lent, flow);
    if given.refusal == 0 {
        for place in (3..4 * header.containers as usize).step_by(4) {
            given.gain -= (lent.tags[place] & !before[place]).count_ones();
            lent.tags[place] = before[place];
        }
    }
    given
}

/// Lets the tags of the to-container flow back.
fn backwards_too(f: &Faulty, header: Header, lent: &mut Lent, flow: Flow) -> Answer {
    let mut given = f.right.enable(header, lent, flow);
    if given.refusal == 0 {
        let before = pairs(header, lent);
        flow_into(lent, flow.to, flow.from);
        given.gain += pairs(header, lent) - before;
    }
    given
}

/// Answers all pairs as the gain.
fn gain_of_all(f: &Faulty, header: Header, lent: &mut Lent, flow: Flow) -> Answer {
    let given = f.right.enable(header, lent, flow);
    changed(given, |given| given.gain = pairs(header, lent))
}

/// Answers only what the to-container has gained.
fn gain_of_destination(f: &Faulty, header: Header, lent: &mut Lent, flow: Flow) -> Answer {
    let size = |lent: &Lent| (0..4).map(|word| lent.tags.get(4 * flow.to as usize % 1024 + word).map_or(0, |word| word.count_ones())).sum::<u32>();
    let before = size(lent);
    let given = f.right.enable(header, lent, flow);
    changed(given, |given| given.gain = size(lent) - before)
}

/// Whether a refusal applies to an enable, whatever stands before it.
fn applies(refusal: u32, header: Header, flow: Flow) -> bool {
    match refusal {
        4 => flow.from >= header.containers || flow.to >= header.containers,
        5 => flow.from == flow.to,
        6 => flow.number <= header.greatest,
        _ => header.count >= 512,
    }
}

/// Answers the later of two refusals where both apply.
fn swapped(f: &Faulty, header: Header, lent: &mut Lent, flow: Flow, earlier: u32, later: u32) -> Answer {
    let given = f.right.enable(header, lent, flow);
    if given.refusal == earlier && applies(later, header, flow) { answer(later, header) } else { given }
}

/// Answers 12 instead of 9 where the header or a count of policy sets is wrong as well.
fn twelve(given: Answer, header: Header, lent: &Lent) -> Answer {
    let wrong = header.count > 512 || lent.counts.iter().take(header.containers as usize).any(|count| *count > 4);
    if given.refusal == 9 && wrong { answer(12, header) } else { given }
}

/// Answers 8 instead of an earlier refusal where no record has the number.
fn eight(given: Answer, lent: &Lent, number: u32, earlier: u32) -> Answer {
    let found = lent.flows.iter().any(|flow| flow.number == number);
    if given.refusal == earlier && !found { answer(8, given.header) } else { given }
}

/// Answers 11 before the set is judged.
fn eleven_first(f: &Faulty, header: Header, lent: &mut Lent, container: u32, policy: [u64; 4]) -> Answer {
    let given = f.right.add_policy(header, lent, container, policy);
    let full = container < header.containers && lent.counts.get(container as usize) == Some(&4);
    if given.refusal == 4 && full { answer(11, header) } else { given }
}

/// Answers 4 for the container before validity is judged.
fn four_before_twelve(f: &Faulty, header: Header, lent: &mut Lent, container: u32, policy: [u64; 4]) -> Answer {
    let given = f.right.add_policy(header, lent, container, policy);
    if given.refusal == 12 && container >= header.containers { answer(4, header) } else { given }
}

/// A refused enable raises the greatest.
fn uses_number(f: &Faulty, header: Header, lent: &mut Lent, flow: Flow) -> Answer {
    let mut given = f.right.enable(header, lent, flow);
    if (4..=7).contains(&given.refusal) {
        given.header.greatest = header.greatest.max(flow.number);
    }
    given
}

/// A refused enable leaves its record in the table.
fn stored_all_the_same(f: &Faulty, header: Header, lent: &mut Lent, flow: Flow) -> Answer {
    let given = f.right.enable(header, lent, flow);
    if (4..=6).contains(&given.refusal) && (header.count as usize) < TABLE {
        lent.flows[header.count as usize] = flow;
    }
    given
}

/// Refuses the 512th flow.
fn full_at_511(f: &Faulty, header: Header, lent: &mut Lent, flow: Flow) -> Answer {
    let mut other = lent.clone();
    let given = f.right.enable(header, &mut other, flow);
    if given.refusal == 0 && header.count == 511 {
        return answer(7, header);
    }
    *lent = other;
    given
}

/// Accepts the 513th flow, and stores it where the table is longer.
fn full_at_513(f: &Faulty, header: Header, lent: &mut Lent, flow: Flow) -> Answer {
    let given = f.right.enable(header, lent, flow);
    if given.refusal != 7 || header.count != 512 {
        return given;
    }
    if let Some(record) = lent.flows.get_mut(TABLE) {
        *record = flow;
    }
    answer(0, Header { count: 513, greatest: flow.number, ..header })
}

/// Refuses every enable that could be accepted.
fn full_at_once(f: &Faulty, header: Header, lent: &mut Lent, flow: Flow) -> Answer {
    let given = f.right.enable(header, &mut lent.clone(), flow);
    if given.refusal == 0 { answer(7, header) } else { given }
}

/// Accepts number 0 as the first.
fn zero_accepted(f: &Faulty, header: Header, lent: &mut Lent, flow: Flow) -> Answer {
    let given = f.right.enable(header, lent, flow);
    if flow.number == 0 && header.greatest == 0 { forgiven(given, 6) } else { given }
}

/// Accepts a number that equals the greatest.
fn equal_accepted(f: &Faulty, header: Header, lent: &mut Lent, flow: Flow) -> Answer {
    let given = f.right.enable(header, lent, flow);
    if flow.number == header.greatest { forgiven(given, 6) } else { given }
}

/// Accepts containers from n to 255.
fn against_256(f: &Faulty, header: Header, lent: &mut Lent, flow: Flow) -> Answer {
    let given = f.right.enable(header, lent, flow);
    if flow.from < 256 && flow.to < 256 { forgiven(given, 4) } else { given }
}

/// Takes numbers above 2,147,483,647 for negative ones.
fn signed(f: &Faulty, header: Header, lent: &mut Lent, flow: Flow) -> Answer {
    let mut other = lent.clone();
    let given = f.right.enable(header, &mut other, flow);
    if given.refusal == 0 && flow.number as i32 <= header.greatest as i32 {
        return answer(6, header);
    }
    *lent = other;
    given
}

/// Refuses the number 4,294,967,295.
fn last_number_refused(f: &Faulty, header: Header, lent: &mut Lent, flow: Flow) -> Answer {
    if flow.number < u32::MAX {
        return f.right.enable(header, lent, flow);
    }
    let given = f.right.enable(header, &mut lent.clone(), flow);
    if given.refusal == 0 { answer(6, header) } else { given }
}

/// Does not store a flow whose ends another enabled flow has.
fn alike_not_stored(f: &Faulty, header: Header, lent: &mut Lent, flow: Flow) -> Answer {
    let mut given = f.right.enable(header, lent, flow);
    let alike = |other: &Flow| other.from == flow.from && other.to == flow.to;
    if given.refusal == 0 && lent.flows[..header.count as usize].iter().any(alike) {
        lent.flows[header.count as usize] = Flow::default();
        given.header.count = header.count;
    }
    given
}

/// Puts a new flow before the others.
fn to_the_front(f: &Faulty, header: Header, lent: &mut Lent, flow: Flow) -> Answer {
    let given = f.right.enable(header, lent, flow);
    if given.refusal == 0 {
        lent.flows[..given.header.count as usize].rotate_right(1);
    }
    given
}

/// Drops every flow with the ends of the one that is disabled.
pub fn drops_alike(f: &Faulty, header: Header, lent: &mut Lent, number: u32) -> Answer {
    let ends = lent.flows.iter().find(|flow| flow.number == number).copied().unwrap_or_default();
    let mut given = f.right.disable(header, lent, number);
    while given.refusal == 0 {
        let used = &lent.flows[..given.header.count as usize];
        let Some(other) = used.iter().find(|flow| flow.from == ends.from && flow.to == ends.to) else { break };
        let other = other.number;
        given = f.right.disable(given.header, lent, other);
    }
    given
}

/// Takes the tag of the from-container from the to-container where no other flow needs it.
fn takes_tags(f: &Faulty, header: Header, lent: &mut Lent, number: u32) -> Answer {
    let ends = lent.flows.iter().find(|flow| flow.number == number).copied().unwrap_or_default();
    let given = f.right.disable(header, lent, number);
    if given.refusal == 0 {
        lent.tags[4 * ends.to as usize + ends.from as usize / 64] &= !(1 << (ends.from % 64));
    }
    given
}

/// Leaves the last record where it was.
fn not_cleared(f: &Faulty, header: Header, lent: &mut Lent, number: u32) -> Answer {
    let before = lent.flows.clone();
    let given = f.right.disable(header, lent, number);
    if given.refusal == 0 {
        lent.flows[given.header.count as usize] = before[given.header.count as usize];
    }
    given
}

/// Clears the record and moves none.
fn not_moved(f: &Faulty, header: Header, lent: &mut Lent, number: u32) -> Answer {
    let before = lent.flows.clone();
    let given = f.right.disable(header, lent, number);
    if given.refusal == 0 {
        lent.flows = before;
        lent.flows[..header.count as usize].iter_mut().filter(|flow| flow.number == number).for_each(|flow| *flow = Flow::default());
    }
    given
}

/// Moves the last record to the place of the removed one.
fn last_moved(f: &Faulty, header: Header, lent: &mut Lent, number: u32) -> Answer {
    let before = lent.flows.clone();
    let given = f.right.disable(header, lent, number);
    if given.refusal == 0 {
        let last = header.count as usize - 1;
        lent.flows = before;
        let removed = lent.flows.iter().position(|flow| flow.number == number).unwrap_or(last);
        lent.flows[removed] = lent.flows[last];
        lent.flows[last] = Flow::default();
    }
    given
}

/// The greatest becomes that of the flows still enabled.
pub fn greatest_falls(f: &Faulty, header: Header, lent: &mut Lent, number: u32) -> Answer {
    let given = f.right.disable(header, lent, number);
    changed(given, |given| {
        let used = &lent.flows[..given.header.count as usize];
        given.header.greatest = used.last().map_or(0, |flow| flow.number);
    })
}

/// Does not find the record at one place.
pub fn missed(f: &Faulty, header: Header, lent: &mut Lent, number: u32, place: u32) -> Answer {
    let here = place < header.count && lent.flows.get(place as usize).is_some_and(|flow| flow.number == number);
    if !here {
        return f.right.disable(header, lent, number);
    }
    let given = f.right.disable(header, &mut lent.clone(), number);
    if given.refusal == 0 { answer(8, header) } else { given }
}

/// Takes an unused record for a flow of number 0.
fn zero_found(f: &Faulty, header: Header, lent: &mut Lent, number: u32) -> Answer {
    let given = f.right.disable(header, lent, number);
    if number == 0 && header.count < 512 { forgiven(given, 8) } else { given }
}

/// Starts but leaves one list as it was.
fn kept(f: &Faulty, n: u32, lent: &mut Lent, list: usize) -> Answer {
    let before = lent.clone();
    let given = f.right.start(n, lent);
    match list {
        0 => lent.tags = before.tags,
        1 => lent.policies = before.policies,
        2 => lent.counts = before.counts,
        _ => lent.flows = before.flows,
    }
    given
}

/// Starts and clears the first place beyond one list.
fn past(f: &Faulty, n: u32, lent: &mut Lent, list: usize) -> Answer {
    let given = f.right.start(n, lent);
    if given.refusal == 0 {
        let at = lengths(n)[list];
        match list {
            0 => lent.tags.iter_mut().skip(at).take(1).for_each(|word| *word = 0),
            1 => lent.policies.iter_mut().skip(at).take(1).for_each(|word| *word = 0),
            2 => lent.counts.iter_mut().skip(at).take(1).for_each(|count| *count = 0),
            _ => lent.flows.iter_mut().skip(at).take(1).for_each(|flow| *flow = Flow::default()),
        }
    }
    given
}

/// Clears the tags before the size is judged.
fn writes_refused(f: &Faulty, n: u32, lent: &mut Lent) -> Answer {
    let given = f.right.start(n, lent);
    if given.refusal != 0 {
        lent.tags.fill(0);
    }
    given
}

/// Does not add a set that the container has already.
fn once(f: &Faulty, header: Header, lent: &mut Lent, container: u32, policy: [u64; 4]) -> Answer {
    let mut other = lent.clone();
    let given = f.right.add_policy(header, &mut other, container, policy);
    if given.refusal != 0 {
        return given;
    }
    let place = 16 * container as usize;
    let used = 4 * lent.counts[container as usize] as usize;
    if !lent.policies[place..place + used].chunks(4).any(|set| set == policy) {
        *lent = other;
    }
    given
}

/// Accepts a set with a tag of n or more.
fn bad_tag(f: &Faulty, header: Header, lent: &mut Lent, container: u32, policy: [u64; 4]) -> Answer {
    let given = f.right.add_policy(header, lent, container, policy);
    if container < header.containers { forgiven(given, 4) } else { given }
}

/// Accepts a set whose only tags of n or more stand in the fourth word.
fn bad_last_word(f: &Faulty, header: Header, lent: &mut Lent, container: u32, policy: [u64; 4]) -> Answer {
    let [a, b, c, _] = policy;
    let given = f.right.add_policy(header, lent, container, policy);
    if given.refusal != 4 {
        return given;
    }
    let other = f.right.add_policy(header, &mut lent.clone(), container, [a, b, c, 0]);
    if other.refusal == 4 { given } else { other }
}

/// Puts a new set before the container's others.
fn set_to_the_front(f: &Faulty, header: Header, lent: &mut Lent, container: u32, policy: [u64; 4]) -> Answer {
    let given = f.right.add_policy(header, lent, container, policy);
    if given.refusal == 0 {
        let place = 16 * container as usize;
        let used = 4 * lent.counts[container as usize] as usize;
        lent.policies[place..place + used].rotate_right(4);
    }
    given
}

/// Refuses the fourth set.
fn full_at_three(f: &Faulty, header: Header, lent: &mut Lent, container: u32, policy: [u64; 4]) -> Answer {
    if lent.counts.get(container as usize) != Some(&3) {
        return f.right.add_policy(header, lent, container, policy);
    }
    let given = f.right.add_policy(header, &mut lent.clone(), container, policy);
    if given.refusal == 0 { answer(11, header) } else { given }
}

/// Raises the greatest number as if a set were an event.
fn raises_greatest(f: &Faulty, header: Header, lent: &mut Lent, container: u32, policy: [u64; 4]) -> Answer {
    changed(f.right.add_policy(header, lent, container, policy), |given| given.header.greatest = header.greatest.wrapping_add(1))
}
