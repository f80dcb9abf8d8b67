//! The tests: helpers that all of them use, and one file for each concern.

mod help;
mod line;
mod samples;
mod stored;
mod typing;
mod words;

use crate::compare::{compare, Compared};
use crate::typed;
use reference::Reference;

/// What a script prints on standard output, what on standard error, and whether nothing was wrong, with the reference
/// as both implementations.
fn typed(script: &[u8]) -> (String, String, bool) {
    let (mut out, mut err) = (Vec::new(), Vec::new());
    let right = typed::run(&mut &script[..], &mut out, &mut err, [&Reference, &Reference]).unwrap();
    (String::from_utf8(out).unwrap(), String::from_utf8(err).unwrap(), right)
}

/// A script compared with a stored output, with the reference as both implementations.
fn compared(script: &[u8], stored: &[u8]) -> Compared {
    compare(&mut &script[..], stored, [("first", &Reference), ("second", &Reference)]).unwrap()
}
