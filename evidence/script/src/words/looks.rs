//! The words that show the script's tracker as it is; they are no calls.

use crate::answer;
use crate::numbers::Numbers;
use crate::session::{Said, Session};

/// The header.
pub fn now(session: &mut Session, _: &Numbers) -> Said {
    Ok(format!(": {}", answer::header(session.tracker.header)))
}

/// The records that the header counts.
pub fn list(session: &mut Session, _: &Numbers) -> Said {
    let count = session.tracker.header.count;
    let flows = session.tracker.whole.flows.get(..count as usize);
    let flows = flows.ok_or_else(|| format!("the header counts {count} records, and the table has fewer"))?;
    Ok(format!(":{}", flows.iter().map(|flow| format!(" | {}", answer::flow(flow))).collect::<String>()))
}

/// The sets of all containers.
pub fn view(session: &mut Session, _: &Numbers) -> Said {
    let n = session.tracker.header.containers;
    let sets = session.tracker.whole.tags.as_chunks().0.get(..n as usize);
    let sets = sets.ok_or_else(|| format!("the header says {n} containers, and there are words for fewer"))?;
    Ok(format!(":{}", sets.iter().map(|set| format!(" |{}", answer::tags(set))).collect::<String>()))
}

/// A record.
pub fn record(session: &mut Session, given: &Numbers) -> Said {
    Ok(format!(": {}", answer::flow(&session.tracker.whole.flows[given.at::<usize>(0)])))
}
