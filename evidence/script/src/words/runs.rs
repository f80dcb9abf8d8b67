//! The words that run whole logs.

use crate::answer;
use crate::numbers::Numbers;
use crate::session::{Said, Session};
use crate::tracker::zeros;
use interface::{Event, Flow, Places};

/// The places for a text of `tally`: more than the longest takes, that of 256 containers which all have all tags.
const TEXT: usize = 300_000;
/// The longest text that is printed.
const PRINTED: usize = 512;
/// The records of the table that `lent` lends.
const TABLE: usize = 513;
/// What each of them holds.
const OTHER: Flow = Flow { number: 7, from: 8, to: 9 };

/// n of a log, by a replay in new lists, and the position after n.
pub fn judge(session: &mut Session, given: &Numbers) -> Said {
    let mut lent = zeros(std::array::from_fn(|list| given.at(list)));
    let bytes = given.bytes(4);
    let run = session.side.replay(&bytes, &mut lent);
    Ok(match (run.header.containers, session.side.read_head(&bytes)) {
        (0, _) => format!(": {}", answer::refused(run.refusal)),
        (n, Ok((_, next))) => format!(": {n}, next {next}"),
        (n, Err(refusal)) => format!(": {n}, its reading {}", answer::refused(refusal)),
    })
}

/// A replay in the script's tracker.
pub fn replay(session: &mut Session, given: &Numbers) -> Said {
    Ok(format!(": {}", answer::replayed(&session.replay(&given.bytes(0)))))
}

/// The text of `tally`.
pub fn tally(session: &mut Session, given: &Numbers) -> Said {
    Ok(format!(":{}", text(session, &given.bytes(0))))
}

/// The text of `tally` on lines of its own, or its length where it is long; a long one is kept.
fn text(session: &mut Session, bytes: &[u8]) -> String {
    let (done, out) = session.side.tally(bytes, TEXT);
    let text = match done {
        Ok(length) if length <= TEXT => &out[..length],
        Ok(length) => return format!(" {length} bytes of text in {TEXT} places"),
        Err(refusal) => return format!(" {}", answer::refused(refusal)),
    };
    if text.len() > PRINTED {
        session.long = text.to_vec();
        return format!(" {} bytes of text", text.len());
    }
    let lines = String::from_utf8_lossy(text);
    format!("\n{}", lines.strip_suffix('\n').unwrap_or(&format!("{lines} and no newline at the end")))
}

/// The text of `tally` in few places.
pub fn short(session: &mut Session, given: &Numbers) -> Said {
    let (done, out) = session.side.tally(&given.bytes(1), given.at(0));
    Ok(format!(": {}", answer::left(done, &out)))
}

/// A large log: written, replayed, and its text.
pub fn large(session: &mut Session, given: &Numbers) -> Said {
    let (n, events) = large_log(given.at(0));
    let mut bytes = match session.side.write_log(n, &events) {
        Ok(bytes) => bytes,
        Err(refusal) => return Ok(format!(": its writing {}", answer::refused(refusal))),
    };
    if given.at::<u32>(0) == 2 {
        bytes.push(0);
    }
    let run = session.replay(&bytes);
    Ok(format!(": {}, text:{}", answer::replayed(&run), text(session, &bytes)))
}

/// n and the events of large log 0 to 4; log 2 is log 1 with one byte more.
fn large_log(log: u32) -> (u32, Vec<Event>) {
    let enable = |number: u32, from, to| Event::Enable(Flow { number, from, to });
    match log {
        0 => (2, (1..=513).map(|number| enable(number, 0, 1)).collect()),
        1 | 2 => {
            let both = |number| [enable(number, 0, 1), Event::Disable(number)];
            (2, (1..2080).flat_map(both).chain([enable(2080, 0, 1)]).collect())
        }
        3 => (256, Vec::new()),
        _ => (256, (1..=256).map(|number| enable(number, number - 1, number % 256)).collect()),
    }
}

/// A log replayed and a flow enabled, on a table of other content; the script's own table and header stay.
pub fn lent(session: &mut Session, given: &Numbers) -> Said {
    let mut lent = session.tracker.lent();
    lent.flows = vec![OTHER; TABLE].into();
    let run = session.side.replay(&given.bytes(3), &mut lent);
    let answer = session.side.enable(run.header, &mut lent, given.flow(0));
    lent.flows = Places::default();
    session.tracker.take_back(&lent);
    Ok(format!(": {}, {}", answer::call(&answer), answer::header(answer.header)))
}
