//! What is printed for an answer.

use interface::{Answer, Event, Flow, Header, Replayed};
use std::fmt::Display;

/// Each of these after a space.
pub fn spaced<T: Display>(list: impl IntoIterator<Item = T>) -> String {
    list.into_iter().fold(String::new(), |text, one| text + " " + &one.to_string())
}

/// The tags of a set, each after a space.
pub fn tags(set: &[u64; 4]) -> String {
    spaced((0..256).filter(|tag| set[tag / 64] >> (tag % 64) & 1 == 1))
}

/// The number of a refusal.
pub fn refused(refusal: u32) -> String {
    format!("refused {refusal}")
}

/// What a question answers, after the colon, or its refusal.
pub fn question<T>(done: Result<T, u32>, text: impl FnOnce(T) -> String) -> String {
    format!(":{}", done.map_or_else(|refusal| format!(" {}", refused(refusal)), text))
}

/// What a call that changes the tracker answers. A refusal has no gain; one that has is printed with it.
pub fn call(answer: &Answer) -> String {
    match (answer.refusal, answer.gain) {
        (0, gain) => format!("accepted, gain {gain}"),
        (refusal, 0) => refused(refusal),
        (refusal, gain) => format!("{}, gain {gain}", refused(refusal)),
    }
}

/// The three numbers of a header.
pub fn header(header: Header) -> String {
    format!("n {}, flows {}, greatest {}", header.containers, header.count, header.greatest)
}

/// What a replay answers. A complete one has byte 0; one that has another is printed with it.
pub fn replayed(run: &Replayed) -> String {
    let end = match (run.refusal, run.byte) {
        (0, 0) => String::from("complete"),
        (0, byte) => format!("complete at {byte}"),
        (refusal, byte) => format!("{} at {byte}", refused(refusal)),
    };
    format!("{end}, events {}, gain {}, {}", run.events, run.gain, header(run.header))
}

/// A flow: its number, from, to.
pub fn flow(flow: &Flow) -> String {
    format!("{} {} {}", flow.number, flow.from, flow.to)
}

/// A record of the log.
pub fn event(event: Event) -> String {
    match event {
        Event::Enable(enabled) => format!("enable {}", flow(&enabled)),
        Event::Disable(number) => format!("disable {number}"),
    }
}

/// What a call that writes bytes answers, and the whole output as it left it.
pub fn left(done: Result<usize, u32>, out: &[u8]) -> String {
    let next = done.map_or_else(refused, |next| format!("next {next}"));
    format!("{next}, leaves{}", spaced(out))
}
