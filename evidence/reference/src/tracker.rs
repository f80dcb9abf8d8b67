//! The public calls that change a tracker: the lengths and the validity first, then what the call does.

use crate::event;
use crate::refusal::Refusal;
use crate::storage::{Loan, POLICIES};
use crate::tag_set::{self, TagSet};
use crate::validity;
use crate::way::Way;
use interface::{Answer, Flow, Header};

/// A new tracker. "Starting: 9."
pub fn start(n: u32, loan: Loan<'_>) -> Answer {
    match loan.cut(n) {
        Ok(mut storage) => Answer { refusal: 0, gain: 0, header: event::start(&mut storage) },
        Err(refusal) => Answer { refusal: refusal.number(), ..Answer::default() },
    }
}

/// The tracker after a flow is enabled. "Opening: 9, 12, 4 for from, 4 for to, 5, 6, 7."
pub fn enable<W: Way>(mut header: Header, loan: Loan<'_>, flow: Flow) -> Answer {
    let done = validity::open::<W>(&header, loan)
        .and_then(|mut storage| event::enable::<W>(flow, &mut header, &mut storage, &mut W::room()));
    answer(done, header)
}

/// The tracker after a flow is disabled. "Closing: 9, 12, 8."
pub fn disable<W: Way>(mut header: Header, loan: Loan<'_>, number: u32) -> Answer {
    let done = validity::open::<W>(&header, loan)
        .and_then(|mut storage| event::disable(number, &mut header, &mut storage));
    answer(done, header)
}

/// The tracker after a policy set is added.
pub fn add_policy<W: Way>(header: Header, loan: Loan<'_>, container: u32, policy: &TagSet) -> Answer {
    answer(add::<W>(&header, loan, container, policy), header)
}

/// The gain of adding a policy set, 0. "Adding a set: 9, 12, 4 for the holder, 4 for the set, 11."
fn add<W: Way>(header: &Header, loan: Loan<'_>, container: u32, policy: &TagSet) -> Result<u32, Refusal> {
    let storage = validity::open::<W>(header, loan)?;
    let outside = tag_set::n_or_more(storage.tags.len());
    if container >= header.containers || !tag_set::is_disjoint(policy, &outside) {
        return Err(Refusal::NoSuchContainer);
    }
    let count = &mut storage.counts[container as usize];
    if usize::from(*count) >= POLICIES {
        return Err(Refusal::PoliciesFull);
    }
    storage.policies[container as usize][usize::from(*count)] = *policy;
    *count += 1;
    Ok(0)
}

/// The answer of a call: "Every refusal answers its number with all other numbers 0", the header as it went in.
fn answer(done: Result<u32, Refusal>, header: Header) -> Answer {
    match done {
        Ok(gain) => Answer { refusal: 0, gain, header },
        Err(refusal) => Answer { refusal: refusal.number(), gain: 0, header },
    }
}
