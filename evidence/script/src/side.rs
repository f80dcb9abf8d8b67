//! One implementation, which gets only lists between guard zones. What a call writes outside its lists, into an input,
//! or at a place that its answer leaves alone is kept until asked for.

use interface::{Answer, Event, Flow, Guard, Header, Implementation, Lent, Places, Replayed};
use std::cell::RefCell;
use std::fmt::Debug;
use std::hint::black_box;
use std::ops::Range;

/// What each place of an output holds before a call.
const BEFORE: u8 = 7;
/// The places lent for a whole log: the most bytes that `tally` reads.
const LOG: usize = 16_384;

/// How far each list of the storage may be written: tags, policies, counts, flows.
type Reach = [usize; 4];

/// Nothing may be written.
const NOTHING: Reach = [0; 4];

/// One implementation, and the first place that it wrote and must not.
pub struct Side<'a> {
    one: &'a dyn Implementation,
    wrote: RefCell<Option<String>>,
}

/// The places of a tracker of n containers: "at least 4n words for tag sets, 16n words for permitted sets (four a
/// holder) and n bytes for their counts", and "a lent table of 512 records".
fn places(n: u32) -> Reach {
    let n = n as usize;
    [4 * n, 16 * n, n, 512]
}

/// How far an accepted call may write; a refused one writes nothing.
fn accepted(answer: &Answer, reach: Reach) -> Reach {
    if answer.refusal == 0 {
        reach
    } else {
        NOTHING
    }
}

/// The places that a call wrote, by its answer: from a position to the next, or none.
fn from(at: usize) -> impl Fn(&Result<usize, u32>) -> Range<usize> {
    move |done| done.map_or(0..0, |next| at..next)
}

/// The first place that was changed and is not one of these.
fn changed<T: PartialEq + Debug>(name: &str, before: &[T], after: &[T], may: Range<usize>) -> Option<String> {
    if before.len() != after.len() {
        return Some(format!("the length of {name}: it was {} and is {}", before.len(), after.len()));
    }
    let place = (0..before.len()).find(|place| !may.contains(place) && before[*place] != after[*place])?;
    Some(format!("place {place} of {name}: it was {:?} and is {:?}", before[place], after[place]))
}

/// The first place of the storage that was changed and is out of reach.
fn out_of_reach(before: &Lent, after: &Lent, [tags, policies, counts, flows]: Reach) -> Option<String> {
    changed("tags", &before.tags, &after.tags, 0..tags)
        .or_else(|| changed("policies", &before.policies, &after.policies, 0..policies))
        .or_else(|| changed("counts", &before.counts, &after.counts, 0..counts))
        .or_else(|| changed("flows", &before.flows, &after.flows, 0..flows))
}

/// How it lends lists.
impl<'a> Side<'a> {
    /// An implementation that has written nothing yet.
    pub fn new(one: &'a dyn Implementation) -> Side<'a> {
        Side { one, wrote: RefCell::new(None) }
    }

    /// The first place that was written and must not be, since this was last asked.
    pub fn wrote(&self) -> Option<String> {
        self.wrote.take()
    }

    /// Keeps the first of these places.
    fn keep(&self, place: Option<String>) {
        if let Some(place) = place {
            self.wrote.borrow_mut().get_or_insert(place);
        }
    }

    /// Lends the storage; the answer says how far it may be written.
    fn storage<T>(&self, lent: &mut Lent, ask: impl FnOnce(&mut Lent) -> T, reach: impl FnOnce(&T) -> Reach) -> T {
        let before = lent.clone();
        let answer = ask(lent);
        let after = black_box(&*lent);
        self.keep(after.overrun().or_else(|| out_of_reach(&before, after, reach(&answer))));
        answer
    }

    /// Lends a copy of the input, which must stay as it is. `black_box`: that a shared slice is only read is no reason
    /// for the compiler to leave out the look at the copy after the call.
    fn input<T>(&self, bytes: &[u8], ask: impl FnOnce(&[u8]) -> T) -> T {
        let copy = black_box(Places::from(bytes));
        let answer = ask(&copy);
        let copy = black_box(copy);
        self.keep(copy.overrun("the input").or_else(|| changed("the input", bytes, &copy, 0..0)));
        answer
    }

    /// Lends so many places of 7; the answer says which of them may be written.
    fn output<O: Guard + From<u8>, T>(
        &self,
        places: usize,
        ask: impl FnOnce(&mut [O]) -> T,
        may: impl FnOnce(&T) -> Range<usize>,
    ) -> (T, Places<O>) {
        let before = vec![O::from(BEFORE); places];
        let mut out = black_box(Places::from(&before[..]));
        let answer = ask(&mut out);
        let out = black_box(out);
        self.keep(out.overrun("the output").or_else(|| changed("the output", &before, &out, may(&answer))));
        (answer, out)
    }
}

/// The calls on a tracker.
impl Side<'_> {
    /// Starting.
    pub fn start(&self, n: u32, lent: &mut Lent) -> Answer {
        self.storage(lent, |lent| self.one.start(n, lent), |answer| accepted(answer, places(n)))
    }

    /// Enabling a flow, which writes tags and flows.
    pub fn enable(&self, header: Header, lent: &mut Lent, flow: Flow) -> Answer {
        let [tags, _, _, flows] = places(header.containers);
        let reach = |answer: &Answer| accepted(answer, [tags, 0, 0, flows]);
        self.storage(lent, |lent| self.one.enable(header, lent, flow), reach)
    }

    /// Disabling a flow, which writes flows.
    pub fn disable(&self, header: Header, lent: &mut Lent, number: u32) -> Answer {
        let [_, _, _, flows] = places(header.containers);
        let reach = |answer: &Answer| accepted(answer, [0, 0, 0, flows]);
        self.storage(lent, |lent| self.one.disable(header, lent, number), reach)
    }

    /// Adding a policy set, which writes policies and counts.
    pub fn add_policy(&self, header: Header, lent: &mut Lent, container: u32, policy: [u64; 4]) -> Answer {
        let [_, policies, counts, _] = places(header.containers);
        let reach = |answer: &Answer| accepted(answer, [0, policies, counts, 0]);
        self.storage(lent, |lent| self.one.add_policy(header, lent, container, policy), reach)
    }

    /// The tags of a container.
    pub fn tags_of(&self, header: Header, lent: &mut Lent, container: u32) -> Result<[u64; 4], u32> {
        self.storage(lent, |lent| self.one.tags_of(header, lent, container), |_| NOTHING)
    }

    /// The size of a container's tag set.
    pub fn size_of(&self, header: Header, lent: &mut Lent, container: u32) -> Result<u32, u32> {
        self.storage(lent, |lent| self.one.size_of(header, lent, container), |_| NOTHING)
    }

    /// Whether a container is legal.
    pub fn is_legal(&self, header: Header, lent: &mut Lent, container: u32) -> Result<bool, u32> {
        self.storage(lent, |lent| self.one.is_legal(header, lent, container), |_| NOTHING)
    }

    /// The ranking, in so many places.
    pub fn rank(&self, header: Header, lent: &mut Lent, places: usize) -> (Result<(), u32>, Places<u16>) {
        let may = |done: &Result<(), u32>| done.map_or(0..0, |()| 0..header.containers as usize);
        let ask = |lent: &mut Lent| self.output(places, |out| self.one.rank(header, lent, out), may);
        self.storage(lent, ask, |_| NOTHING)
    }

    /// A replay. One that begins has accepted n, and may write what starting may.
    pub fn replay(&self, bytes: &[u8], lent: &mut Lent) -> Replayed {
        let reach = |run: &Replayed| match run.header.containers {
            0 => NOTHING,
            n => places(n),
        };
        self.storage(lent, |lent| self.input(bytes, |bytes| self.one.replay(bytes, lent)), reach)
    }
}

/// The calls on bytes.
impl Side<'_> {
    /// The number at a position.
    pub fn decode(&self, bytes: &[u8], at: usize, width: u32) -> Result<(u64, usize), u32> {
        self.input(bytes, |bytes| self.one.decode(bytes, at, width))
    }

    /// Writing a number at a position of so many places.
    pub fn encode(&self, value: u64, places: usize, at: usize) -> (Result<usize, u32>, Places<u8>) {
        self.output(places, |out| self.one.encode(value, out, at), from(at))
    }

    /// n at the start of a log.
    pub fn read_head(&self, bytes: &[u8]) -> Result<(u32, usize), u32> {
        self.input(bytes, |bytes| self.one.read_head(bytes))
    }

    /// Writing n at the start of so many places.
    pub fn write_head(&self, n: u32, places: usize) -> (Result<usize, u32>, Places<u8>) {
        self.output(places, |out| self.one.write_head(n, out), from(0))
    }

    /// What is read from bytes by any number of calls.
    pub fn read<T>(&self, bytes: &[u8], read: impl FnOnce(&dyn Implementation, &[u8]) -> T) -> T {
        self.input(bytes, |bytes| read(self.one, bytes))
    }

    /// The record at a position.
    pub fn read_record(&self, bytes: &[u8], at: usize) -> Result<(Event, usize), u32> {
        self.input(bytes, |bytes| self.one.read_record(bytes, at))
    }

    /// Writing a record at a position of so many places.
    pub fn write_record(&self, event: Event, places: usize, at: usize) -> (Result<usize, u32>, Places<u8>) {
        self.output(places, |out| self.one.write_record(event, out, at), from(at))
    }

    /// How many bytes a record takes.
    pub fn record_len(&self, event: Event) -> usize {
        self.one.record_len(event)
    }

    /// The text of `tally`, in so many places.
    pub fn tally(&self, bytes: &[u8], places: usize) -> (Result<usize, u32>, Places<u8>) {
        self.input(bytes, |bytes| self.output(places, |out| self.one.tally(bytes, out), from(0)))
    }

    /// A whole log, its n and its records one after the other in the same places.
    pub fn write_log(&self, n: u32, events: &[Event]) -> Result<Vec<u8>, u32> {
        let all = |out: &mut [u8]| {
            let first = self.one.write_head(n, out)?;
            events.iter().try_fold(first, |at, event| self.one.write_record(*event, out, at))
        };
        let (done, out) = self.output(LOG, all, |done: &Result<usize, u32>| 0..done.unwrap_or(LOG));
        done.map(|end| out[..end.min(LOG)].to_vec())
    }
}
