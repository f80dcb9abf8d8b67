//! The texts of two libraries on the same logs: where the logs come from, and where the texts differ.
use crate::cases::cases;
use crate::compare::compare_case;
use crate::counts::Class;
use crate::inputs::TABLE;
use crate::logs::Written;
use crate::wrapper::{Aim, Faulty, Hooks, Scope, RIGHT};
use interface::{Event, Flow, Implementation};
use std::cell::RefCell;
use std::collections::HashSet;

/// A log and the name by which it is told: the class and number of its case and its place there, or what it is for.
#[derive(Clone, Debug)]
pub struct Log {
    pub name: String,
    pub bytes: Vec<u8>,
}

/// The classes whose cases give logs to `tally`.
const CLASSES: [Class; 6] = [Class::Logs, Class::Cuts, Class::LongLogs, Class::Wide, Class::Overlong, Class::ManyEvents];

thread_local! {
    /// The inputs of `tally` in the case that is run.
    static GIVEN: RefCell<Vec<Vec<u8>>> = const { RefCell::new(Vec::new()) };
}

/// Notes the input of `tally` and answers without a text, so that the case goes on to its next input.
fn noted(_: &Faulty, bytes: &[u8], _: &mut [u8]) -> Result<usize, u32> {
    GIVEN.with_borrow_mut(|given| given.push(bytes.to_vec()));
    Err(10)
}

/// The logs that the cases of a comparison with so many inputs give to `tally`; each once, and after those made by hand.
pub fn logs(by: &dyn Implementation, inputs: u64, seed: u64) -> Vec<Log> {
    let one = Faulty::new(by, Hooks { tally: noted, ..RIGHT }, Scope::Tally, Aim::default());
    let mut all = by_hand();
    let every = CLASSES.into_iter().flat_map(|class| (0..cases(class, inputs)).map(move |case| (class, case)));
    for (class, case) in every {
        // What the case comes to is no matter here: only its logs are used.
        let _ = compare_case(&one, &one, class, case, seed);
        let given = GIVEN.take().into_iter().enumerate();
        all.extend(given.map(|(place, bytes)| Log { name: format!("seed {seed}, {}/{case}, {place}", class.name()), bytes }));
    }
    let mut seen = HashSet::new();
    all.retain(|log| seen.insert(log.bytes.clone()));
    all
}

/// Logs made by hand: the paper's example and samples, and one for each refusal.
fn by_hand() -> Vec<Log> {
    let list: [(&str, &[u8]); 16] = [
        ("the example", &[5, 0, 1, 2, 3, 0, 2, 0, 1, 1, 2, 0, 3, 1, 2, 1, 1, 1, 3, 0, 4, 3, 4, 1, 4]),
        ("no event", &[3]),
        ("a flow ended before the next", &[3, 0, 1, 1, 2, 1, 1, 0, 2, 0, 1]),
        ("two flows enabled", &[3, 0, 1, 1, 2, 0, 2, 0, 1]),
        ("a ring", &[3, 0, 1, 0, 1, 0, 2, 1, 2, 0, 3, 2, 0]),
        ("two alike flows", &[3, 0, 1, 0, 1, 0, 2, 0, 1, 1, 1, 0, 3, 2, 0]),
        ("256 containers", &[128, 2]),
        ("empty", &[]),
        ("cut short", &[2, 0, 1, 0]),
        ("long number", &[2, 0, 128, 0]),
        ("unknown kind", &[2, 9]),
        ("no such container", &[2, 0, 1, 0, 2]),
        ("same container", &[2, 0, 1, 1, 1]),
        ("old number", &[2, 0, 1, 0, 1, 0, 1, 1, 0]),
        ("not enabled", &[2, 0, 1, 0, 1, 1, 7]),
        ("257 containers", &[129, 2]),
    ];
    let full: Vec<Event> = (1..=TABLE as u32 + 1).map(|number| Event::Enable(Flow { number, from: 0, to: 1 })).collect();
    let full = Written::new(2, &full).bytes;
    let named = |(name, bytes): (&str, &[u8])| Log { name: format!("by hand, {name}"), bytes: bytes.to_vec() };
    list.into_iter().chain([("table full", &full[..])]).map(named).collect()
}

/// Lists of bytes one behind the other, each after its length.
pub fn framed<'a>(lists: impl Iterator<Item = &'a [u8]>) -> Vec<u8> {
    lists.flat_map(|list| [&(list.len() as u32).to_le_bytes()[..], list].concat()).collect()
}

/// The lists that stand one behind the other, each after its length; nothing where the bytes end within one.
pub fn unframed(bytes: &[u8]) -> Option<Vec<Vec<u8>>> {
    let (mut lists, mut rest) = (Vec::new(), bytes);
    while !rest.is_empty() {
        let (length, after) = rest.split_first_chunk()?;
        let (list, after) = after.split_at_checked(u32::from_le_bytes(*length) as usize)?;
        lists.push(list.to_vec());
        rest = after;
    }
    Some(lists)
}

/// The first line at which two texts differ, counted from 1, with that line of each; nothing where they are the same.
pub fn first_line(first: &[u8], second: &[u8]) -> Option<(usize, [String; 2])> {
    if first == second {
        return None;
    }
    let lines = [first, second].map(|text| text.split_inclusive(|byte| *byte == b'\n').collect::<Vec<_>>());
    let place = (0..).find(|place| lines[0].get(*place) != lines[1].get(*place))?;
    let shown = |lines: &Vec<&[u8]>| lines.get(place).map_or("(no line)".into(), |line| format!("{:?}", String::from_utf8_lossy(line)));
    Some((place + 1, [shown(&lines[0]), shown(&lines[1])]))
}

#[cfg(test)]
mod tests {
    use super::*;
    use fast::Fast;

    /// Texts that differ in a line, in its end, or in length differ there and not before; like texts nowhere.
    #[test]
    fn first_lines() {
        let told = |first: &str, second: &str| first_line(first.as_bytes(), second.as_bytes());
        let lines = |first: &str, second: &str| [first, second].map(str::to_string);
        assert_eq!(told("0 1 0\nevents 0 gain 0\n", "0 1 0\nevents 0 gain 0\n"), None);
        let gain = lines("\"events 1 gain 1\\n\"", "\"events 1 gain 2\\n\"");
        assert_eq!(told("0 1 0\nevents 1 gain 1\n", "0 1 0\nevents 1 gain 2\n"), Some((2, gain)));
        assert_eq!(told("0 1 0\n", "0 1 0"), Some((1, lines("\"0 1 0\\n\"", "\"0 1 0\""))));
        assert_eq!(told("a\n", "a\nb\n"), Some((2, lines("(no line)", "\"b\\n\""))));
    }

    /// Framed lists come back as they were, and a part of them does not.
    #[test]
    fn frames() {
        let lists = [vec![], vec![1, 2, 3], vec![0; 300]];
        let bytes = framed(lists.iter().map(Vec::as_slice));
        assert_eq!(unframed(&bytes).as_deref(), Some(&lists[..]));
        assert_eq!((unframed(&bytes[..bytes.len() - 1]), unframed(&bytes[..2])), (None, None));
    }

    /// The logs are of all classes, no two alike, complete ones and each refusal among them; a seed fixes them.
    #[test]
    fn logs_of_all_kinds() {
        let all = logs(&Fast, 150, 1);
        assert!(CLASSES.iter().all(|class| all.iter().any(|log| log.name.contains(class.name()))));
        let mut out = vec![0; 300_000];
        let mut last = |log: &Log| {
            let length = Fast.tally(&log.bytes, &mut out).expect("room for the text");
            String::from_utf8_lossy(&out[..length]).lines().last().unwrap_or_default().to_string()
        };
        let lasts: Vec<String> = all.iter().map(&mut last).collect();
        assert!((1..=10).all(|number| lasts.iter().any(|line| line.starts_with(&format!("refused {number} at ")))));
        assert_eq!(last(&all[0]), "events 8 gain 10");
        let again = logs(&Fast, 150, 1);
        assert!(all.len() == again.len() && all.iter().zip(&again).all(|(one, other)| one.bytes == other.bytes));
        assert_eq!(all.iter().map(|log| &log.bytes).collect::<HashSet<_>>().len(), all.len());
    }
}
