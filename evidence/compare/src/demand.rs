//! Demand 3 itself, run: every execution of the accepted history of a list of calls is enumerated, and the table of each
//! implementation's tracker after the list is held against them all. Which events joined is found from n and the
//! arguments alone, not from any answer.
use crate::counts::Call;
use crate::inputs::Random;
use crate::logs::Written;
use crate::pair::{Checked, Pair};
use crate::side::Side;
use crate::states::{lengths, storage, Content, State};
use executions::Executions;
use history::{Asked, History};
use interface::{Answer, Event, Header};
use lists::{asked, beginning, drawn, letters};

mod executions;
mod history;
mod lists;

pub use lists::beginnings;

/// A tag set.
type Set = [u64; 4];

/// What one implementation shows after a call: its answer's refusal and header, the sets as they are stored, and the same
/// as it tells them.
#[derive(Debug)]
struct Shown {
    refusal: u32,
    header: Header,
    stored: Vec<Set>,
    told: Vec<Result<Set, u32>>,
}

/// A list of calls so far: its accepted history, all executions of it, and what the two trackers have come to.
#[derive(Clone)]
struct List {
    calls: Vec<Asked>,
    history: History,
    executions: Executions,
    trackers: [State; 2],
}

/// The sets as they are stored.
fn stored(state: &State, n: u32) -> Vec<Set> {
    state.lent.tags.chunks(4).take(n as usize).map(|set| [set[0], set[1], set[2], set[3]]).collect()
}

/// The call by which the answers to a call of a list are counted.
fn counted(asked: Asked) -> Call {
    match asked {
        Asked::Event(Event::Enable(_)) => Call::Enable,
        Asked::Event(Event::Disable(_)) => Call::Disable,
        Asked::Add(..) => Call::AddPolicy,
    }
}

/// Makes a call of a list on one tracker, which goes on from the header that is answered.
fn make(one: &Side, state: &mut State, asked: Asked) -> Answer {
    let (header, lent) = (state.header, &mut state.lent);
    let answer = match asked {
        Asked::Event(Event::Enable(flow)) => one.enable(header, lent, flow),
        Asked::Event(Event::Disable(number)) => one.disable(header, lent, number),
        Asked::Add(container, set) => one.add_policy(header, lent, container, set),
    };
    state.header = answer.header;
    answer
}

impl List {
    /// The empty list, with storage of drawn content in which nothing is started yet.
    fn new(random: &mut Random, n: u32) -> List {
        let more = random.below(3);
        let lent = storage(random, lengths(n).map(|length| length + more), Content::Any);
        let state = State { header: Header::default(), lent };
        let (history, executions) = (History::new(n), Executions::at_start(n as usize));
        List { calls: Vec::new(), history, executions, trackers: [state.clone(), state] }
    }

    /// The empty list, on trackers that the two have started.
    fn start(pair: &mut Pair, random: &mut Random, n: u32) -> Checked<List> {
        let mut list = List::new(random, n);
        let both = pair.both(Call::Start);
        let shown = [0, 1].map(|who| {
            let answer = both[who].start(n, &mut list.trackers[who].lent);
            list.trackers[who].header = answer.header;
            list.shown(both[who], who, answer.refusal)
        });
        list.judge(pair, Call::Start, 0, &shown)?;
        Ok(list)
    }

    /// What one of the two shows after a call with this refusal.
    fn shown(&self, one: &Side, who: usize, refusal: u32) -> Shown {
        let (n, State { header, lent }) = (self.history.n, &self.trackers[who]);
        let told = (0..n).map(|container| one.tags_of(*header, lent, container)).collect();
        Shown { refusal, header: *header, stored: stored(&self.trackers[who], n), told }
    }

    /// Makes one more call, and holds both trackers against the demand.
    fn go_on(&mut self, pair: &mut Pair, asked: Asked) -> Checked<()> {
        self.calls.push(asked);
        let refusal = self.history.take(asked);
        self.executions.pass(&self.history.enabled);
        let both = pair.both(counted(asked));
        let shown = [0, 1].map(|who| {
            let answer = make(both[who], &mut self.trackers[who], asked);
            self.shown(both[who], who, answer.refusal)
        });
        self.judge(pair, counted(asked), refusal, &shown)
    }

    /// Fails where one of the two does not show what the paper says of the list; counts the answer otherwise.
    fn judge(&self, pair: &mut Pair, call: Call, refusal: u32, shown: &[Shown; 2]) -> Checked<()> {
        let places = shown.iter().zip(["first", "second"]).map(|(one, name)| Some((name, self.against(one, refusal)?)));
        let place = places.flatten().next().map(|(name, place)| format!("{name}: {place}"));
        pair.hold(call, refusal, [&shown[0], &shown[1]], place, &|| self.told())
    }

    /// How what one of the two shows is not what the paper says of the list.
    fn against(&self, shown: &Shown, refusal: u32) -> Option<String> {
        let History { n, greatest, enabled, .. } = &self.history;
        let header = Header { containers: *n, count: enabled.len() as u32, greatest: *greatest };
        if shown.refusal != refusal {
            return Some(format!("the answer is {}, by the arguments it is {refusal}", shown.refusal));
        }
        if shown.header != header {
            return Some(format!("the header is not {header:?}"));
        }
        if !shown.told.iter().zip(&shown.stored).all(|(told, stored)| *told == Ok(*stored)) {
            return Some(String::from("tags_of does not tell what is stored"));
        }
        self.against_table(&shown.stored)
    }

    /// How demand 3 fails with these sets.
    fn against_table(&self, sets: &[Set]) -> Option<String> {
        match self.executions.table(sets) {
            Some(table) => self.executions.against(table).map(|place| format!("demand 3: {place}")),
            None => Some(String::from("a set has a tag of n or more")),
        }
    }

    /// How a text is not that of the list: its last line is another, up to the gain, or its container lines fail demand 3.
    fn against_text(&self, text: &str, last: &str) -> Option<String> {
        let lines: Vec<&str> = text.lines().collect();
        let n = self.history.n as usize;
        if lines.len() != n + 1 || lines[n].split(" gain ").next() != Some(last) {
            return Some(format!("the text has not a line for each container and then {last}"));
        }
        match sets_of(&lines[..n]) {
            Some(sets) => self.against_table(&sets),
            None => Some(String::from("a container line is not of the paper's form")),
        }
    }

    /// The list in words.
    fn told(&self) -> String {
        let call = |asked: &Asked| match asked {
            Asked::Event(Event::Enable(flow)) => format!("enable {} {} {}", flow.number, flow.from, flow.to),
            Asked::Event(Event::Disable(number)) => format!("disable {number}"),
            Asked::Add(container, set) => format!("add {container} {set:?}"),
        };
        let last = self.calls.len().saturating_sub(40);
        let calls: Vec<String> = self.calls[last..].iter().map(call).collect();
        let before = if last > 0 { format!("{last} calls, then ") } else { String::new() };
        format!("n {}, {before}{}", self.history.n, if calls.is_empty() { "no call".into() } else { calls.join(", ") })
    }

    /// All lists that have up to so many letters more.
    fn extend(&self, pair: &mut Pair, alphabet: &[lists::Letter], more: usize) -> Checked<()> {
        for letter in alphabet {
            let mut longer = self.clone();
            pair.input();
            longer.go_on(pair, asked(&self.history, *letter))?;
            if more > 1 {
                longer.extend(pair, alphabet, more - 1)?;
            }
        }
        Ok(())
    }
}

/// All short lists with one beginning.
pub fn short_lists(pair: &mut Pair, random: &mut Random, case: usize) -> Checked<()> {
    let (n, letters_of, more) = beginning(case);
    let mut list = List::start(pair, random, n)?;
    for letter in letters_of {
        pair.input();
        let call = asked(&list.history, letter);
        list.go_on(pair, call)?;
    }
    list.extend(pair, &letters(n), more)
}

/// A drawn list as calls, then its events as a log: a replay, and the text of `tally`.
pub fn drawn_list(pair: &mut Pair, random: &mut Random, case: usize) -> Checked<()> {
    pair.input();
    let (n, calls) = drawn(random, case);
    let mut list = List::start(pair, random, n)?;
    for call in &calls {
        list.go_on(pair, *call)?;
    }
    as_log(pair, random, n, &calls)
}

/// The events of a list up to the first refused one, as a list whose calls no tracker has got; with that event's place and refusal.
fn up_to_refused(random: &mut Random, n: u32, events: &[Event]) -> (List, usize, u32) {
    let mut list = List::new(random, n);
    for (place, event) in events.iter().enumerate() {
        let refusal = list.history.take(Asked::Event(*event));
        if refusal != 0 {
            return (list, place, refusal);
        }
        list.calls.push(Asked::Event(*event));
        list.executions.pass(&list.history.enabled);
    }
    (list, events.len(), 0)
}

/// The events of a list as a log, which ends at the first refused one.
fn as_log(pair: &mut Pair, random: &mut Random, n: u32, calls: &[Asked]) -> Checked<()> {
    let event = |asked: &Asked| match asked {
        Asked::Event(event) => Some(*event),
        Asked::Add(..) => None,
    };
    let events: Vec<Event> = calls.iter().filter_map(event).collect();
    let written = Written::new(n, &events);
    let (mut list, done, refusal) = up_to_refused(random, n, &events);
    let both = pair.both(Call::Replay);
    let shown = [0, 1].map(|who| {
        let answer = both[who].replay(&written.bytes, &mut list.trackers[who].lent);
        list.trackers[who].header = answer.header;
        list.shown(both[who], who, answer.refusal)
    });
    list.judge(pair, Call::Replay, refusal, &shown)?;
    let last = match refusal {
        0 => format!("events {done}"),
        number => format!("refused {number} at {}", written.records[done]),
    };
    let both = pair.both(Call::Tally);
    let texts = both.map(|one| text(one, &written.bytes));
    let place = texts.iter().find_map(|text| list.against_text(text, &last));
    pair.hold(Call::Tally, 0, [&texts[0], &texts[1]], place, &|| list.told())
}

/// The text that one implementation gives for a log on few containers.
fn text(one: &Side, bytes: &[u8]) -> String {
    let (length, out) = one.tally(bytes, &[0; 200]);
    String::from_utf8_lossy(&out[..length.unwrap_or(0)]).into_owned()
}

/// The sets that the container lines of a text tell, each container once; nothing where a line is of another form.
fn sets_of(lines: &[&str]) -> Option<Vec<Set>> {
    let mut sets = vec![[0; 4]; lines.len()];
    for line in lines {
        let words: Option<Vec<usize>> = line.split(' ').map(|word| word.parse().ok()).collect();
        let words = words.filter(|words| words.len() > 2 && words[1] == words.len() - 2)?;
        let set = sets.get_mut(words[0]).filter(|set| **set == [0; 4])?;
        words[2..].iter().filter(|tag| **tag < 256).for_each(|tag| set[tag / 64] |= 1 << (tag % 64));
    }
    Some(sets)
}

#[cfg(test)]
mod tests {
    use super::*;
    use crate::wrapper::{Aim, Faulty, Hooks, Scope, RIGHT};
    use interface::Flow;
    use reference::Reference;

    /// What lists say of an implementation that is wrong in these calls, on its own side and on the other.
    fn found(hooks: Hooks, lists: fn(&mut Pair, &mut Random, usize) -> Checked<()>, case: usize) -> Option<String> {
        let wrong = Faulty::new(&Reference, hooks, Scope::Calls, Aim::default());
        let mut pair = Pair::new(&wrong, &Reference, 1);
        lists(&mut pair, &mut Random::new(1, 0, 0), case).err().map(|difference| difference.place)
    }

    /// Where one call is wrong the place tells so: a refusal, a tag at the start, an answer other than what is stored.
    #[test]
    fn places_of_faults() {
        assert_eq!(found(RIGHT, short_lists, 0), None);
        assert_eq!(found(RIGHT, drawn_list, 0), None);
        let full = Hooks { enable: |_, header, _, _| Answer { refusal: 7, gain: 0, header }, ..RIGHT };
        assert_eq!(found(full, short_lists, 0).as_deref(), Some("first: the answer is 7, by the arguments it is 0"));
        let start = |f: &Faulty, n, lent: &mut interface::Lent| {
            let answer = f.right.start(n, lent);
            lent.tags[4] |= 1;
            answer
        };
        let told = found(Hooks { start, ..RIGHT }, drawn_list, 0);
        assert_eq!(told.as_deref(), Some("first: demand 3: no execution has more than {0} {1}, the tracker has {0} {0, 1}"));
        let told = found(Hooks { tags_of: |_, _, _, _| Ok([1, 0, 0, 0]), ..RIGHT }, short_lists, 0);
        assert_eq!(told.as_deref(), Some("first: tags_of does not tell what is stored"));
    }

    /// The lines of a text are read as sets, and lines of another form are not.
    #[test]
    fn lines_are_sets() {
        assert_eq!(sets_of(&["1 2 0 1", "0 1 0"]), Some(vec![[1, 0, 0, 0], [3, 0, 0, 0]]));
        for wrong in [["1 2 0 1", "1 1 0"], ["1 3 0 1", "0 1 0"], ["2 1 0", "0 1 0"], ["1 0", "0 1 0"], ["a 1 0", "0 1 0"]] {
            assert_eq!(sets_of(&wrong), None);
        }
    }

    /// A text with another last line, a line too few or a tag too many is not that of the list.
    #[test]
    fn texts_of_a_list() {
        let events = [Event::Enable(Flow { number: 1, from: 0, to: 1 }), Event::Disable(5)];
        let (list, done, refusal) = up_to_refused(&mut Random::new(1, 0, 0), 2, &events);
        assert_eq!((done, refusal, list.told().as_str()), (1, 8, "n 2, enable 1 0 1"));
        let right = "1 2 0 1\n0 1 0\nrefused 8 at 5\n";
        assert_eq!(list.against_text(right, "refused 8 at 5"), None);
        for wrong in ["1 2 0 1\n0 1 0\nrefused 8 at 50\n", "0 1 0\nrefused 8 at 5\n", "0 2 0 1\n1 2 0 1\nrefused 8 at 5\n"] {
            assert!(list.against_text(wrong, "refused 8 at 5").is_some(), "{wrong}");
        }
    }
}
