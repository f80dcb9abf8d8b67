//! Faults that refuse what is valid: lists much longer than needed, and states that are unusual.
use super::Fault;
use crate::counts::{Call, ON_TRACKER};
use crate::inputs::TABLE;
use crate::states::lengths;
use crate::wrapper::{Aim, Faulty, Hooks, Scope, RIGHT};
use interface::{Answer, Flow, Header, Lent};

/// The rules that are too strict, by what they refuse; the first four are about the lengths of the lists.
const RULES: [&str; 8] = [
    "tags above 1,100 words",
    "policies above 4,200 words",
    "counts above 300",
    "tables above 600 records",
    "more tags than their own where greatest is 0",
    "policy sets that are alike",
    "an empty policy set",
    "a greatest above all numbers",
];

/// The calls that judge by the rule that the aim names before all else.
const STRICT: Hooks = Hooks {
    start: |f, n, l| event(f, Call::Start, Header { containers: n, ..Header::default() }, l, |l| f.right.start(n, l)),
    enable: |f, h, l, flow| event(f, Call::Enable, h, l, |l| f.right.enable(h, l, flow)),
    disable: |f, h, l, number| event(f, Call::Disable, h, l, |l| f.right.disable(h, l, number)),
    add_policy: |f, h, l, container, policy| event(f, Call::AddPolicy, h, l, |l| f.right.add_policy(h, l, container, policy)),
    tags_of: |f, h, l, container| too_strict(f, Call::TagsOf, h, l).map_or_else(|| f.right.tags_of(h, l, container), Err),
    size_of: |f, h, l, container| too_strict(f, Call::SizeOf, h, l).map_or_else(|| f.right.size_of(h, l, container), Err),
    is_legal: |f, h, l, container| too_strict(f, Call::IsLegal, h, l).map_or_else(|| f.right.is_legal(h, l, container), Err),
    rank: |f, h, l, out| match too_strict(f, Call::Rank, h, l) {
        Some(refusal) => Err(refusal),
        None => f.right.rank(h, l, out),
    },
    ..RIGHT
};

/// The faults of this file: each rule in each call; starting judges only lengths, and a replay too.
pub fn aimed() -> Vec<Fault> {
    let mut list = Vec::new();
    for (rule, name) in RULES.iter().enumerate() {
        let calls = ON_TRACKER.iter().chain((rule < 4).then_some(&Call::Start));
        let fault = |scope, name: String, call| Fault { name, hooks: STRICT, scope, aim: Aim { call: Some(call), part: Some(rule), ..Aim::default() } };
        list.extend(calls.map(|call| fault(Scope::Calls, format!("{name}: refused in {}", call.name()), *call)));
        if rule < 4 {
            list.push(fault(Scope::Replay, format!("{name}: refused in replay"), Call::Start));
        }
    }
    list
}

/// The refusal that the rule makes in this call, where it applies to storage that is long enough.
fn too_strict(f: &Faulty, call: Call, header: Header, lent: &Lent) -> Option<u32> {
    let (n, held) = (header.containers, [lent.tags.len(), lent.policies.len(), lent.counts.len(), lent.flows.len()]);
    if f.aim.call != Some(call) || !(1..=256).contains(&n) || lengths(n).iter().zip(held).any(|(needed, held)| held < *needed) {
        return None;
    }
    let rule = f.aim.part?;
    let applies = match rule {
        0..=3 => held[rule] > [1_100, 4_200, 300, 600][rule],
        4 => header.greatest == 0 && lent.tags[..4 * n as usize].iter().map(|word| word.count_ones()).sum::<u32>() > n,
        5 | 6 => (0..n as usize).any(|container| odd_policies(lent, container, rule == 6)),
        _ => header.count > 0 && lent.flows[..TABLE.min(header.count as usize)].last().is_some_and(|flow: &Flow| flow.number < header.greatest),
    };
    applies.then_some(if rule < 4 { 9 } else { 12 })
}

/// Whether a container has an empty policy set, or else two that are alike.
fn odd_policies(lent: &Lent, container: usize, empty: bool) -> bool {
    let used = 4 * usize::from(lent.counts[container]).min(4);
    let sets: Vec<&[u64]> = lent.policies[16 * container..][..used].chunks(4).collect();
    if empty {
        return sets.contains(&&[0; 4][..]);
    }
    (0..sets.len()).any(|place| sets[..place].contains(&sets[place]))
}

/// A starting, an event or an adding after the rule.
fn event(f: &Faulty, call: Call, header: Header, lent: &mut Lent, right: impl Fn(&mut Lent) -> Answer) -> Answer {
    let back = if call == Call::Start { Header::default() } else { header };
    match too_strict(f, call, header, lent) {
        Some(refusal) => Answer { refusal, gain: 0, header: back },
        None => right(lent),
    }
}
