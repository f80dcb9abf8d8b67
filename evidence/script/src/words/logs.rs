//! The words that read and write numbers, heads and records of a log.

use crate::answer;
use crate::numbers::Numbers;
use crate::session::{Said, Session};
use interface::Implementation;

/// The places for a number: the longest takes ten bytes.
const NUMBER: usize = 10;
/// The places that `put` lends.
const PUT: usize = 3;
/// The places that `write` lends.
const RECORD: usize = 8;
/// The places that `begin` lends.
const HEAD: usize = 4;

/// The bytes of a number.
pub fn number(session: &mut Session, given: &Numbers) -> Said {
    let (done, out) = session.side.encode(given.at(0), NUMBER, 0);
    let bytes = |next: usize| out.get(..next).map_or_else(|| format!(" next {next}"), answer::spaced);
    Ok(answer::question(done, bytes))
}

/// The number at a position.
pub fn decode(session: &mut Session, given: &Numbers) -> Said {
    let done = session.side.decode(&given.bytes(2), given.at(1), given.at(0));
    Ok(answer::question(done, |(value, next)| format!(" {value}, next {next}")))
}

/// A number written at a position.
pub fn put(session: &mut Session, given: &Numbers) -> Said {
    let (done, out) = session.side.encode(given.at(1), PUT, given.at(0));
    Ok(format!(": {}", answer::left(done, &out)))
}

/// A whole log.
pub fn log(session: &mut Session, given: &Numbers) -> Said {
    Ok(format!(": {}", session.side.read(&given.bytes(0), read_log)))
}

/// n and the records one after the other, up to the end or the refusal. A reader that does not go on is stopped.
fn read_log(one: &dyn Implementation, bytes: &[u8]) -> String {
    let (n, mut at) = match one.read_head(bytes) {
        Ok(read) => read,
        Err(refusal) => return format!("{} at 0", answer::refused(refusal)),
    };
    let mut text = format!("n {n}");
    while at != bytes.len() {
        match one.read_record(bytes, at) {
            Ok((event, next)) if next > at => {
                text += &format!(", {}", answer::event(event));
                at = next;
            }
            Ok((event, next)) => return format!("{text}, {}, next {next}", answer::event(event)),
            Err(refusal) => return format!("{text}, {} at {at}", answer::refused(refusal)),
        }
    }
    text + ", end"
}

/// The record at a position.
pub fn item(session: &mut Session, given: &Numbers) -> Said {
    let done = session.side.read_record(&given.bytes(1), given.at(0));
    Ok(answer::question(done, |(event, next)| format!(" {}, next {next}", answer::event(event))))
}

/// A record written at a position.
pub fn write(session: &mut Session, given: &Numbers) -> Said {
    let (done, out) = session.side.write_record(given.event(1), RECORD, given.at(0));
    Ok(format!(": {}", answer::left(done, &out)))
}

/// n written at the start.
pub fn begin(session: &mut Session, given: &Numbers) -> Said {
    let (done, out) = session.side.write_head(given.at(0), HEAD);
    Ok(format!(": {}", answer::left(done, &out)))
}

/// The length of a record.
pub fn bytes(session: &mut Session, given: &Numbers) -> Said {
    Ok(format!(": {}", session.side.record_len(given.event(0))))
}
