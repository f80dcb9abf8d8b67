//! Faults that write one place outside what a call is lent, whatever they answer: before the start or past the end of a
//! list of the storage, of an input, of an output. Each does so only where the right call accepts.
#![allow(unsafe_code)]
use super::Fault;
use crate::clauses::Place;
use crate::counts::{Call, ON_TRACKER};
use crate::wrapper::{Aim, Faulty, Hooks, Scope, RIGHT};
use interface::{Answer, Lent, Replayed};
use std::hint::black_box;

/// What is written outside: one of the four lists, an input, an output.
const WHAT: [&str; 6] = ["tags", "policies", "counts", "flows", "the input", "the output"];
/// The places of an input and of an output in that list.
const INPUT: usize = 4;
const OUTPUT: usize = 5;
/// The calls that are lent an input.
const READING: [Call; 5] = [Call::Replay, Call::Decode, Call::ReadHead, Call::ReadRecord, Call::Tally];
/// The calls that are lent an output.
const WRITING: [Call; 5] = [Call::Rank, Call::Encode, Call::WriteHead, Call::WriteRecord, Call::Tally];

/// The calls, each of which writes outside what the aim names.
const OUTSIDE: Hooks = Hooks {
    start: |f, n, l| {
        let given = f.right.start(n, l);
        storage(f, Call::Start, l, given)
    },
    enable: |f, h, l, flow| {
        let given = f.right.enable(h, l, flow);
        storage(f, Call::Enable, l, given)
    },
    disable: |f, h, l, number| {
        let given = f.right.disable(h, l, number);
        storage(f, Call::Disable, l, given)
    },
    add_policy: |f, h, l, container, policy| {
        let given = f.right.add_policy(h, l, container, policy);
        storage(f, Call::AddPolicy, l, given)
    },
    tags_of: |f, h, l, container| storage(f, Call::TagsOf, l, f.right.tags_of(h, l, container)),
    size_of: |f, h, l, container| storage(f, Call::SizeOf, l, f.right.size_of(h, l, container)),
    is_legal: |f, h, l, container| storage(f, Call::IsLegal, l, f.right.is_legal(h, l, container)),
    rank: |f, h, l, out| {
        let given = storage(f, Call::Rank, l, f.right.rank(h, l, out));
        list(f, Call::Rank, OUTPUT, out, given)
    },
    replay: |f, b, l| {
        let given = f.right.replay(b, l);
        list(f, Call::Replay, INPUT, b, storage(f, Call::Replay, l, given))
    },
    decode: |f, b, at, w| list(f, Call::Decode, INPUT, b, f.right.decode(b, at, w)),
    encode: |f, v, out, at| {
        let given = f.right.encode(v, out, at);
        list(f, Call::Encode, OUTPUT, out, given)
    },
    read_head: |f, b| list(f, Call::ReadHead, INPUT, b, f.right.read_head(b)),
    write_head: |f, n, out| {
        let given = f.right.write_head(n, out);
        list(f, Call::WriteHead, OUTPUT, out, given)
    },
    read_record: |f, b, at| list(f, Call::ReadRecord, INPUT, b, f.right.read_record(b, at)),
    write_record: |f, event, out, at| {
        let given = f.right.write_record(event, out, at);
        list(f, Call::WriteRecord, OUTPUT, out, given)
    },
    tally: |f, b, out| {
        let given = list(f, Call::Tally, INPUT, b, f.right.tally(b, out));
        list(f, Call::Tally, OUTPUT, out, given)
    },
    ..RIGHT
};

/// What a call answers.
trait Given {
    /// Whether it is no refusal.
    fn accepted(&self) -> bool;
}

impl Given for Answer {
    fn accepted(&self) -> bool {
        self.refusal == 0
    }
}

impl Given for Replayed {
    fn accepted(&self) -> bool {
        self.refusal == 0
    }
}

impl<T> Given for Result<T, u32> {
    fn accepted(&self) -> bool {
        self.is_ok()
    }
}

/// The faults of this file: each list of the storage in each call that is lent it, each input, each output, on both sides.
pub fn aimed() -> Vec<Fault> {
    let on_storage = ON_TRACKER.into_iter().chain([Call::Start, Call::Replay]);
    let mut list: Vec<(Call, usize)> = on_storage.flat_map(|call| (0..INPUT).map(move |what| (call, what))).collect();
    list.extend(READING.map(|call| (call, INPUT)));
    list.extend(WRITING.map(|call| (call, OUTPUT)));
    let sides = [(Place::First, "before the start"), (Place::Last, "past the end")];
    list.into_iter().flat_map(|(call, what)| sides.map(|(place, words)| fault(call, what, place, words))).collect()
}

/// The fault of this call that writes on this side of what is meant.
fn fault(call: Call, what: usize, place: Place, words: &str) -> Fault {
    let scope = match call {
        Call::Replay => Scope::Replay,
        Call::Tally => Scope::Tally,
        _ => Scope::Calls,
    };
    let name = format!("{} writes one place {words} of {}", call.name(), WHAT[what]);
    Fault { name, hooks: OUTSIDE, scope, aim: Aim { call: Some(call), list: what, place: Some(place), ..Aim::default() } }
}

/// An answer; where it is an accepted one, the place outside the list that the aim names is written.
fn storage<T: Given>(f: &Faulty, call: Call, lent: &Lent, given: T) -> T {
    let given = list(f, call, 0, &lent.tags, given);
    let given = list(f, call, 1, &lent.policies, given);
    let given = list(f, call, 2, &lent.counts, given);
    list(f, call, 3, &lent.flows, given)
}

/// The same for one list, input or output.
fn list<O: Default, T: Given>(f: &Faulty, call: Call, what: usize, list: &[O], given: T) -> T {
    if f.aim.call == Some(call) && f.aim.list == what && given.accepted() {
        write_outside(list, f.aim.place);
    }
    given
}

/// Writes zero one place before the list or one place past it, as a call does that has only the pointer.
/// The list stands between zones in one allocation, so the place is there; `black_box` hides where the pointer is from.
fn write_outside<O: Default>(list: &[O], side: Option<Place>) {
    let first = black_box(list.as_ptr().cast_mut());
    let place = if side == Some(Place::First) { first.wrapping_sub(1) } else { first.wrapping_add(list.len()) };
    unsafe { place.write(O::default()) }
}

#[cfg(test)]
mod tests {
    use super::*;
    use crate::compare::compare_on;
    use crate::states::Pool;
    use fast::Fast;

    /// What is told names the call, the list, the side and the place; the answers of both are the same.
    #[test]
    fn what_is_told() {
        let pool = Pool::new(&Fast, 1);
        for fault in aimed() {
            let wrong = Faulty::new(&Fast, fault.hooks, fault.scope, fault.aim);
            let found = compare_on(&pool, &Fast, &wrong, 6_000, 1).expect_err(&fault.name);
            let side = if fault.aim.place == Some(Place::First) { "1 before the start of" } else { "1 past the end of" };
            let told = format!("the second wrote what it was not lent, {side} {}", WHAT[fault.aim.list]);
            assert!(found.first == found.second && found.place.starts_with(&told), "{}: {found}", fault.name);
        }
    }
}
