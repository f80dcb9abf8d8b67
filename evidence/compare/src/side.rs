//! One of the two implementations, which is asked only with lists between guard zones: the storage is lent as it is, of
//! inputs and outputs a copy is lent. Whatever a call writes outside its lists, or into an input, is kept until asked for.
use crate::difference::first_place;
use interface::{Answer, Event, Flow, Guard, Header, Implementation, Lent, Places, Replayed};
use std::cell::{Cell, RefCell};
use std::hint::black_box;
use std::ops::Deref;

/// What a call answered, and the output as it left it.
pub type Left<T, O> = (T, Places<O>);

/// One implementation, and where it has written outside what it was lent.
pub struct Side<'a> {
    one: &'a dyn Implementation,
    overrun: RefCell<Option<String>>,
    /// An allocation that the copy of the last input stood in.
    room: Cell<Option<Places<u8>>>,
}

impl<'a> Side<'a> {
    /// An implementation that has written nowhere.
    pub fn new(one: &'a dyn Implementation) -> Side<'a> {
        Side { one, overrun: RefCell::new(None), room: Cell::new(None) }
    }

    /// The first place outside its lists that was written since this was last asked.
    pub fn overrun(&self) -> Option<String> {
        self.overrun.take()
    }

    /// Keeps the first of these places.
    fn keep(&self, place: Option<String>) {
        if let Some(place) = place {
            self.overrun.borrow_mut().get_or_insert(place);
        }
    }

    /// Lends the storage.
    fn lend<L: Deref<Target = Lent>, T>(&self, mut lent: L, ask: impl FnOnce(&mut L) -> T) -> T {
        let answer = ask(&mut lent);
        self.keep(black_box(&*lent).overrun());
        answer
    }

    /// Lends a copy of the input, which nobody may change. `black_box`: that a shared slice is only read is no reason
    /// for the compiler to leave out the look at the copy after the call.
    fn lend_input<T>(&self, bytes: &[u8], ask: impl FnOnce(&[u8]) -> T) -> T {
        let mut copy = self.room.take().unwrap_or_default();
        copy.renew(bytes);
        let copy = black_box(copy);
        let answer = ask(&copy);
        let copy = black_box(copy);
        self.keep(copy.overrun("the input").or_else(|| first_place("the input", bytes, &copy)));
        self.room.set(Some(copy));
        answer
    }

    /// Lends a copy of the output.
    fn lend_output<O: Guard, T>(&self, out: &[O], ask: impl FnOnce(&mut [O]) -> T) -> Left<T, O> {
        let mut copy = black_box(Places::from(out));
        let answer = ask(&mut copy);
        let copy = black_box(copy);
        self.keep(copy.overrun("the output"));
        (answer, copy)
    }

    /// Starting.
    pub fn start(&self, n: u32, lent: &mut Lent) -> Answer {
        self.lend(lent, |lent| self.one.start(n, lent))
    }

    /// Enabling a flow.
    pub fn enable(&self, header: Header, lent: &mut Lent, flow: Flow) -> Answer {
        self.lend(lent, |lent| self.one.enable(header, lent, flow))
    }

    /// Disabling a flow.
    pub fn disable(&self, header: Header, lent: &mut Lent, number: u32) -> Answer {
        self.lend(lent, |lent| self.one.disable(header, lent, number))
    }

    /// Adding a policy set.
    pub fn add_policy(&self, header: Header, lent: &mut Lent, container: u32, policy: [u64; 4]) -> Answer {
        self.lend(lent, |lent| self.one.add_policy(header, lent, container, policy))
    }

    /// The tags of a container.
    pub fn tags_of(&self, header: Header, lent: &Lent, container: u32) -> Result<[u64; 4], u32> {
        self.lend(lent, |lent| self.one.tags_of(header, lent, container))
    }

    /// The size of a container's tag set.
    pub fn size_of(&self, header: Header, lent: &Lent, container: u32) -> Result<u32, u32> {
        self.lend(lent, |lent| self.one.size_of(header, lent, container))
    }

    /// Whether a container may be sent.
    pub fn is_legal(&self, header: Header, lent: &Lent, container: u32) -> Result<bool, u32> {
        self.lend(lent, |lent| self.one.is_legal(header, lent, container))
    }

    /// The ranking.
    pub fn rank(&self, header: Header, lent: &Lent, out: &[u16]) -> Left<Result<(), u32>, u16> {
        self.lend(lent, |lent| self.lend_output(out, |out| self.one.rank(header, lent, out)))
    }

    /// A replay of a log.
    pub fn replay(&self, bytes: &[u8], lent: &mut Lent) -> Replayed {
        self.lend(lent, |lent| self.lend_input(bytes, |bytes| self.one.replay(bytes, lent)))
    }

    /// The number at a position.
    pub fn decode(&self, bytes: &[u8], at: usize, width: u32) -> Result<(u64, usize), u32> {
        self.lend_input(bytes, |bytes| self.one.decode(bytes, at, width))
    }

    /// Writing a number.
    pub fn encode(&self, value: u64, out: &[u8], at: usize) -> Left<Result<usize, u32>, u8> {
        self.lend_output(out, |out| self.one.encode(value, out, at))
    }

    /// n at the start of a log.
    pub fn read_head(&self, bytes: &[u8]) -> Result<(u32, usize), u32> {
        self.lend_input(bytes, |bytes| self.one.read_head(bytes))
    }

    /// Writing n at the start of a log.
    pub fn write_head(&self, n: u32, out: &[u8]) -> Left<Result<usize, u32>, u8> {
        self.lend_output(out, |out| self.one.write_head(n, out))
    }

    /// The record at a position.
    pub fn read_record(&self, bytes: &[u8], at: usize) -> Result<(Event, usize), u32> {
        self.lend_input(bytes, |bytes| self.one.read_record(bytes, at))
    }

    /// Writing a record.
    pub fn write_record(&self, event: Event, out: &[u8], at: usize) -> Left<Result<usize, u32>, u8> {
        self.lend_output(out, |out| self.one.write_record(event, out, at))
    }

    /// How many bytes a record takes.
    pub fn record_len(&self, event: Event) -> usize {
        self.one.record_len(event)
    }

    /// The text of `tally`.
    pub fn tally(&self, bytes: &[u8], out: &[u8]) -> Left<Result<usize, u32>, u8> {
        self.lend_input(bytes, |bytes| self.lend_output(out, |out| self.one.tally(bytes, out)))
    }

    /// The first so many events of a log.
    pub fn events_of(&self, bytes: &[u8], many: u64) -> Option<Vec<Event>> {
        self.lend_input(bytes, |bytes| {
            let (_, mut at) = self.one.read_head(bytes).ok()?;
            let mut events = Vec::new();
            while (events.len() as u64) < many {
                let (event, end) = self.one.read_record(bytes, at).ok()?;
                events.push(event);
                at = end;
            }
            Some(events)
        })
    }

    /// Whether the log that it would write for the log that it has read is that log.
    pub fn writes_again(&self, bytes: &[u8]) -> bool {
        let room = vec![0; bytes.len()];
        let (done, out) = self.lend_input(bytes, |bytes| self.lend_output(&room, |out| copy_log(self.one, bytes, out)));
        done.is_some() && out[..] == *bytes
    }
}

/// Writes the log that was read record by record; nothing where a record takes other bytes than those that were read.
fn copy_log(one: &dyn Implementation, bytes: &[u8], out: &mut [u8]) -> Option<()> {
    let (n, mut at) = one.read_head(bytes).ok()?;
    if one.write_head(n, out) != Ok(at) {
        return None;
    }
    while at < bytes.len() {
        let (event, end) = one.read_record(bytes, at).ok()?;
        if one.write_record(event, out, at) != Ok(end) {
            return None;
        }
        at = end;
    }
    Some(())
}

#[cfg(test)]
mod tests {
    use super::*;
    use reference::Reference;

    /// A right call writes nowhere outside its lists; the first place that was written is kept, and told once.
    #[test]
    fn what_was_written_is_told_once() {
        let side = Side::new(&Reference);
        assert_eq!(side.write_head(300, &[7; 3]).0, Ok(2));
        assert_eq!(side.overrun(), None);
        side.keep(Some(String::from("here")));
        side.keep(Some(String::from("there")));
        assert_eq!((side.overrun().as_deref(), side.overrun()), (Some("here"), None));
    }
}
