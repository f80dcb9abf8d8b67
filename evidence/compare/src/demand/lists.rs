//! Lists of calls with refused ones among them: all short ones over an alphabet, and longer ones that are drawn.
use super::history::{Asked, History};
use crate::inputs::{Random, TABLE};
use crate::logs::any_ends;
use interface::{Event, Flow};

/// A letter of the alphabet; the history so far says which call it stands for.
#[derive(Clone, Copy, Debug, PartialEq, Eq)]
pub enum Letter {
    /// A flow with these ends, numbered one above the greatest.
    Enable(u32, u32),
    /// A flow from 0 to 1 with a number that leaves others out.
    Gap,
    NoFrom,
    NoTo,
    Same,
    Old,
    DisableFirst,
    DisableLast,
    DisableGone,
    DisableAbove,
    Add,
    AddOutside,
}

/// The alphabet for n containers: every pair of ends, and each way to be refused.
pub fn letters(n: u32) -> Vec<Letter> {
    use Letter::*;
    let ends = (0..n * n).map(|place| (place / n, place % n)).filter(|(from, to)| from != to);
    let mut all: Vec<Letter> = ends.map(|(from, to)| Enable(from, to)).collect();
    all.extend([Gap, NoFrom, NoTo, Same, Old, DisableFirst, DisableLast, DisableGone, DisableAbove, Add, AddOutside]);
    all
}

/// The call that a letter stands for after this history.
pub fn asked(history: &History, letter: Letter) -> Asked {
    let (n, next) = (history.n, history.greatest + 1);
    let enable = |number, from, to| Asked::Event(Event::Enable(Flow { number, from, to }));
    let disable = |number| Asked::Event(Event::Disable(number));
    let number_of = |flow: Option<&Flow>| flow.map_or(0, |flow| flow.number);
    match letter {
        Letter::Enable(from, to) => enable(next, from, to),
        Letter::Gap => enable(next + 2, 0, 1),
        Letter::NoFrom => enable(next, n, 0),
        Letter::NoTo => enable(next, 0, n),
        Letter::Same => enable(next, 1, 1),
        Letter::Old => enable(history.greatest, 0, 1),
        Letter::DisableFirst => disable(number_of(history.enabled.first())),
        Letter::DisableLast => disable(number_of(history.enabled.last())),
        Letter::DisableGone => disable(history.gone.last().copied().unwrap_or(0)),
        Letter::DisableAbove => disable(next),
        Letter::Add => Asked::Add(0, [3, 0, 0, 0]),
        Letter::AddOutside => Asked::Add(n, [1, 0, 0, 0]),
    }
}

/// The lists of n containers begin with each two letters and go on with up to so many more.
const LISTS: [(u32, usize); 2] = [(2, 3), (3, 2)];

/// How many beginnings there are.
pub fn beginnings() -> usize {
    LISTS.iter().map(|(n, _)| letters(*n).len().pow(2)).sum()
}

/// A beginning of two letters: its n, the letters, how many more letters follow at most. Neighbours are far apart.
pub fn beginning(case: usize) -> (u32, [Letter; 2], usize) {
    let mut place = case * 7919 % beginnings();
    for (n, more) in LISTS {
        let all = letters(n);
        if place < all.len().pow(2) {
            return (n, [all[place / all.len()], all[place % all.len()]], more);
        }
        place -= all.len().pow(2);
    }
    unreachable!("a place below the number of beginnings")
}

/// A drawn list on two, three or four containers; now and then one that fills the flow table.
pub fn drawn(random: &mut Random, case: usize) -> (u32, Vec<Asked>) {
    let n = 2 + (case % 3) as u32;
    let mut history = History::new(n);
    if case % 60 == 57 {
        return (2, filling(random));
    }
    let top = random.once_in(4);
    let calls = (0..6 + random.below(20)).map(|place| {
        let asked = if place == 0 && top { high(random, n) } else { drawn_call(random, &history, case % 5 == 4) };
        history.take(asked);
        asked
    });
    (n, calls.collect())
}

/// An enable with one of the highest numbers, or one that has the highest bit.
fn high(random: &mut Random, n: u32) -> Asked {
    let number = random.pick(&[0x7FFF_FFFE, 0x8000_0000, u32::MAX - 5, u32::MAX - 1, u32::MAX]);
    let (from, to) = any_ends(random, n);
    Asked::Event(Event::Enable(Flow { number, from, to }))
}

/// A drawn call: most of them right, one in four wrong in one way or two; one in ten adds a policy set, or every second.
fn drawn_call(random: &mut Random, history: &History, adds: bool) -> Asked {
    let wrong = random.once_in(4);
    match random.below(if adds { 18 } else { 10 }) {
        0..=5 => Asked::Event(Event::Enable(drawn_flow(random, history, wrong))),
        6..=8 => Asked::Event(Event::Disable(drawn_number(random, history, wrong))),
        _ => {
            let n = history.n;
            let tags = random.below(1 << n) as u64;
            let set = if wrong && random.once_in(2) { [tags, 0, 0, 1] } else { [tags, 0, 0, 0] };
            let right = if random.once_in(2) { 0 } else { random.container(n) };
            Asked::Add(if wrong && random.once_in(2) { random.no_container(n) } else { right }, set)
        }
    }
}

/// A flow to enable, right or with one of its fields wrong.
fn drawn_flow(random: &mut Random, history: &History, wrong: bool) -> Flow {
    let (from, to) = any_ends(random, history.n);
    let step = random.pick(&[1, 1, 1, 2, 3, 1_000_000]);
    let right = Flow { number: history.greatest.saturating_add(step), from, to };
    let outside = random.no_container(history.n);
    match random.below(4) {
        _ if !wrong => right,
        0 => Flow { from: outside, ..right },
        1 => Flow { to: outside, ..right },
        2 => Flow { to: from, ..right },
        _ => Flow { number: random.pick(&[0, history.greatest, history.greatest / 2]), ..right },
    }
}

/// A number to disable: of any enabled flow, or one that none has.
fn drawn_number(random: &mut Random, history: &History, wrong: bool) -> u32 {
    if !wrong && !history.enabled.is_empty() {
        return random.pick(&history.enabled).number;
    }
    let gone = history.gone.last().copied().unwrap_or(0);
    random.pick(&[0, gone, gone, history.greatest, history.greatest.wrapping_add(1)])
}

/// Enables until the table is full and once more, disables some flow, and goes on past the end again.
fn filling(random: &mut Random) -> Vec<Asked> {
    let ends = |random: &mut Random| random.pick(&[(0, 1), (0, 1), (0, 1), (1, 0)]);
    let mut enable = |number| {
        let (from, to) = if number < 300 { (0, 1) } else { ends(random) };
        Asked::Event(Event::Enable(Flow { number, from, to }))
    };
    let mut calls: Vec<Asked> = (1..=TABLE as u32 + 1).map(&mut enable).collect();
    calls.extend([enable(513), Asked::Event(Event::Disable(200)), enable(513), enable(514)]);
    calls
}

#[cfg(test)]
mod tests {
    use super::*;
    use std::collections::HashSet;

    /// Every beginning comes up once.
    #[test]
    fn beginnings_are_all() {
        let all: HashSet<String> = (0..beginnings()).map(|case| format!("{:?}", beginning(case))).collect();
        assert_eq!((all.len(), beginnings()), (13 * 13 + 17 * 17, 458));
    }

    /// Each letter meets the refusal that it is for, at the start or after a flow was enabled and disabled.
    #[test]
    fn letters_are_refused_as_meant() {
        let refusals = |history: &History| letters(2).into_iter().map(|one| history.refusal(asked(history, one))).collect::<Vec<_>>();
        let mut history = History::new(2);
        assert_eq!(refusals(&history), [0, 0, 0, 4, 4, 5, 6, 8, 8, 8, 8, 0, 4]);
        history.take(asked(&history, Letter::Gap));
        assert_eq!((history.greatest, refusals(&history)), (3, vec![0, 0, 0, 4, 4, 5, 6, 0, 0, 8, 8, 0, 4]));
    }

    /// Drawn lists meet every refusal of events and of adding, and most of their calls join.
    #[test]
    fn drawn_lists_meet_all() {
        let mut random = Random::new(1, 0, 0);
        let mut met = [0; 13];
        for case in 0..600 {
            let (n, calls) = drawn(&mut random, case);
            let mut history = History::new(n);
            calls.iter().for_each(|asked| met[history.take(*asked) as usize] += 1);
        }
        assert!([4, 5, 6, 7, 8, 11].iter().all(|number| met[*number] > 0) && met[0] * 2 > met.iter().sum());
    }
}
