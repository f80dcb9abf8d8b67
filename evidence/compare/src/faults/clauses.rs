//! Faults of validity and of storage: a clause that is not judged, a list whose length is not judged.
use super::Fault;
use crate::clauses::{broken, possible, Broken, Clause, Place, CLAUSES, PLACES};
use crate::counts::{Call, ON_TRACKER};
use crate::states::lengths;
use crate::wrapper::{Aim, Faulty, Hooks, Scope, RIGHT};
use interface::{Answer, Header, Lent};

/// The calls that leave out what the aim names.
const BLIND: Hooks = Hooks {
    enable: |f, h, l, flow| accepted(f, Call::Enable, h, f.right.enable(h, l, flow), l),
    disable: |f, h, l, number| accepted(f, Call::Disable, h, f.right.disable(h, l, number), l),
    add_policy: |f, h, l, container, policy| accepted(f, Call::AddPolicy, h, f.right.add_policy(h, l, container, policy), l),
    tags_of: |f, h, l, container| answered(f, Call::TagsOf, h, f.right.tags_of(h, l, container), l),
    size_of: |f, h, l, container| answered(f, Call::SizeOf, h, f.right.size_of(h, l, container), l),
    is_legal: |f, h, l, container| answered(f, Call::IsLegal, h, f.right.is_legal(h, l, container), l),
    rank: |f, h, l, out| answered(f, Call::Rank, h, f.right.rank(h, l, out), l),
    start: |f, n, l| accepted(f, Call::Start, Header { containers: n, ..Header::default() }, f.right.start(n, l), l),
    ..RIGHT
};

/// The faults of this file.
pub fn aimed() -> Vec<Fault> {
    let mut list = Vec::new();
    for clause in CLAUSES {
        let about = Aim { clause: Some(clause), ..Aim::default() };
        for call in ON_TRACKER {
            list.push(blind(format!("{clause:?} is not judged in {}", call.name()), Aim { call: Some(call), ..about }));
        }
        if !matches!(clause, Clause::Count | Clause::AtLeastOne | Clause::Greatest) {
            list.extend(PLACES.iter().map(|place| blind(format!("{clause:?} is not judged at the {place:?} place"), Aim { place: Some(*place), ..about })));
        }
        list.extend((0..parts(clause)).map(|part| blind(format!("{clause:?} is not judged in part {part}"), Aim { part: Some(part), ..about })));
    }
    list.extend(short_lists());
    list
}

/// How many words or fields of a place a clause is judged in, where there are several.
fn parts(clause: Clause) -> usize {
    match clause {
        Clause::TagBelow | Clause::OwnTag => 4,
        Clause::PolicyTagBelow | Clause::UnusedPolicy => 16,
        Clause::UnusedRecord => 3,
        _ => 0,
    }
}

/// A fault that leaves out what its aim names.
fn blind(name: String, aim: Aim) -> Fault {
    Fault { name, hooks: BLIND, scope: Scope::Calls, aim }
}

/// Faults that accept a list that is too short, in each call.
fn short_lists() -> Vec<Fault> {
    let names = ["tags", "policies", "counts", "flows"];
    let calls = ON_TRACKER.iter().chain(&[Call::Start]);
    let aims = calls.flat_map(|call| (0..4).map(|list| Aim { call: Some(*call), list, ..Aim::default() }));
    aims.map(|aim| blind(format!("short {} are accepted in {}", names[aim.list], aim.call.map_or("", Call::name)), aim)).collect()
}

/// Whether this call leaves out the only thing that makes it refuse.
fn unseen(f: &Faulty, call: Call, header: Header, refusal: u32, lent: &Lent) -> bool {
    if f.aim.call.is_some_and(|only| only != call) {
        return false;
    }
    match f.aim.clause {
        Some(clause) => refusal == 12 && broken(header, lent).iter().all(|one| aimed_at(f.aim, clause, header, one)),
        None => refusal == 9 && only_short(header.containers, lent, f.aim.list),
    }
}

/// Whether what a state breaks is what the aim leaves out.
fn aimed_at(aim: Aim, clause: Clause, header: Header, one: &Broken) -> bool {
    let (first, last) = possible(header, clause).unwrap_or((0, 0));
    let at = match aim.place {
        None => true,
        Some(Place::First) => one.place == first,
        Some(Place::Last) => one.place == last,
        Some(Place::Middle) => one.place != first && one.place != last,
    };
    one.clause == clause && at && aim.part.is_none_or(|part| part == one.part)
}

/// Whether this list is too short and no other is.
fn only_short(n: u32, lent: &Lent, list: usize) -> bool {
    let held = [lent.tags.len(), lent.policies.len(), lent.counts.len(), lent.flows.len()];
    (1..=256).contains(&n) && (0..4).all(|place| (held[place] < lengths(n)[place]) == (place == list))
}

/// An answer in which the refusal is left out if it should be.
fn accepted(f: &Faulty, call: Call, header: Header, given: Answer, lent: &Lent) -> Answer {
    if unseen(f, call, header, given.refusal, lent) { Answer { refusal: 0, ..given } } else { given }
}

/// The same for a question.
fn answered<T: Default>(f: &Faulty, call: Call, header: Header, given: Result<T, u32>, lent: &Lent) -> Result<T, u32> {
    match given {
        Err(refusal) if unseen(f, call, header, refusal, lent) => Ok(T::default()),
        given => given,
    }
}
