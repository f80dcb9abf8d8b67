//! The words that are calls on the script's tracker.

use crate::answer;
use crate::numbers::Numbers;
use crate::session::{Said, Session};
use interface::Flow;

/// A new tracker, and its header.
pub fn start(session: &mut Session, given: &Numbers) -> Said {
    let answer = session.change(|side, _, lent| side.start(given.at(0), lent));
    Ok(format!(": {}, {}", answer::call(&answer), answer::header(answer.header)))
}

/// Enabling a flow.
pub fn enable(session: &mut Session, given: &Numbers) -> Said {
    let answer = session.change(|side, header, lent| side.enable(header, lent, given.flow(0)));
    Ok(format!(": {}", answer::call(&answer)))
}

/// Disabling a flow.
pub fn disable(session: &mut Session, given: &Numbers) -> Said {
    let answer = session.change(|side, header, lent| side.disable(header, lent, given.at(0)));
    Ok(format!(": {}", answer::call(&answer)))
}

/// Adding a policy set.
pub fn add(session: &mut Session, given: &Numbers) -> Said {
    let answer = session.change(|side, header, lent| side.add_policy(header, lent, given.at(0), given.set(1)));
    Ok(format!(": {}", answer::call(&answer)))
}

/// Enabling many flows, of which none may be refused.
pub fn fill(session: &mut Session, given: &Numbers) -> Said {
    for _ in 0..given.at::<u32>(0) {
        let greatest = session.tracker.header.greatest;
        let number = greatest.checked_add(1).ok_or_else(|| format!("there is no number after {greatest}"))?;
        let flow = Flow { number, from: 0, to: 1 };
        let answer = session.change(|side, header, lent| side.enable(header, lent, flow));
        if answer.refusal != 0 {
            return Err(format!("flow {number} cannot be enabled: {}", answer::refused(answer.refusal)));
        }
    }
    Ok(String::new())
}

/// The tags of a container.
pub fn set(session: &mut Session, given: &Numbers) -> Said {
    let done = session.ask(|side, header, lent| side.tags_of(header, lent, given.at(0)));
    Ok(answer::question(done, |set| answer::tags(&set)))
}

/// The size of a container's tag set.
pub fn size(session: &mut Session, given: &Numbers) -> Said {
    let done = session.ask(|side, header, lent| side.size_of(header, lent, given.at(0)));
    Ok(answer::question(done, |size| format!(" {size}")))
}

/// Whether a container may be sent.
pub fn legal(session: &mut Session, given: &Numbers) -> Said {
    let done = session.ask(|side, header, lent| side.is_legal(header, lent, given.at(0)));
    Ok(answer::question(done, |legal| String::from(if legal { " yes" } else { " no" })))
}

/// The ranking, and the places after it.
pub fn rank(session: &mut Session, given: &Numbers) -> Said {
    let (done, out) = session.ask(|side, header, lent| side.rank(header, lent, given.at(0)));
    let refused = |refusal| format!("{}, leaves", answer::refused(refusal));
    Ok(format!(": {}{}", done.map_or_else(refused, |()| String::from("ranked")), answer::spaced(out.iter())))
}
