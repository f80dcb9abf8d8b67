//! The words that write the script's tracker past the calls, and the one that says how much of it is lent.

use crate::numbers::Numbers;
use crate::session::{Said, Session};
use interface::Header;

/// How much of each list is lent.
pub fn room(session: &mut Session, given: &Numbers) -> Said {
    session.tracker.make_room(std::array::from_fn(|list| given.at(list)));
    Ok(String::new())
}

/// Writes a value at a place of what is lent of a list.
fn put<T>(lent: &mut [T], place: usize, value: T) -> Said {
    let length = lent.len();
    let written = lent.get_mut(place).ok_or_else(|| format!("place {place} is not lent: there are {length}"))?;
    *written = value;
    Ok(String::new())
}

/// A word of the tags.
pub fn word(session: &mut Session, given: &Numbers) -> Said {
    put(session.tracker.tags(), given.at(0), given.at(1))
}

/// A word of the policy sets.
pub fn policy(session: &mut Session, given: &Numbers) -> Said {
    put(session.tracker.policies(), given.at(0), given.at(1))
}

/// The count of a container's policy sets.
pub fn count(session: &mut Session, given: &Numbers) -> Said {
    put(session.tracker.counts(), given.at(0), given.at(1))
}

/// A record of the table.
pub fn flow(session: &mut Session, given: &Numbers) -> Said {
    put(session.tracker.flows(), given.at(0), given.flow(1))
}

/// The header.
pub fn header(session: &mut Session, given: &Numbers) -> Said {
    session.tracker.header = Header { containers: given.at(0), count: given.at(1), greatest: given.at(2) };
    Ok(String::new())
}

/// An execution of a flow (document 000): the tags of the first container are added to those of the second.
pub fn exec(session: &mut Session, given: &Numbers) -> Said {
    let sets = session.tracker.tags().as_chunks_mut::<4>().0;
    let (from, to): (usize, usize) = (given.at(0), given.at(1));
    let lacks = |container: usize| format!("the set of container {container} is not lent");
    let tags = *sets.get(from).ok_or_else(|| lacks(from))?;
    let set = sets.get_mut(to).ok_or_else(|| lacks(to))?;
    for (word, more) in set.iter_mut().zip(tags) {
        *word |= more;
    }
    Ok(String::new())
}
