//! The product as an `Implementation`: its proved library, target/staticlib/libforeign.a, behind safe functions.
//!
//! Each `unsafe` block hands over the pointers and lengths of slices that are borrowed for the whole call, `&mut` ones as `*mut`; no function keeps one.
//! Each of the exported functions answers for every content and length and writes only inside the slices it is lent, by its contract in crates/foreign.
mod foreign;

use foreign::{CallAnswer, NumberAnswer, TagSet, WriteAnswer};
use interface::{Answer, Event, Flow, Header, Implementation, Lent, Replayed};

/// The proved library.
pub struct Product;

/// The answer of a call, as it came back.
fn answer(told: CallAnswer) -> Answer {
    Answer { refusal: told.refusal, gain: told.gain, header: told.header }
}

/// The value, or the refusal; a refused question answers nothing else, so `none` is what must stand beside it.
fn value_or<T: PartialEq + std::fmt::Debug>(refusal: u32, value: T, none: T) -> Result<T, u32> {
    if refusal == 0 {
        return Ok(value);
    }
    assert_eq!(value, none, "refusal {refusal} with another number");
    Err(refusal)
}

/// The number that was read and the position after it, or the refusal.
fn read(told: NumberAnswer) -> Result<(u64, usize), u32> {
    value_or(told.refusal, (told.value, told.next), (0, 0))
}

/// The position after what was written, or the refusal.
fn written(told: WriteAnswer) -> Result<usize, u32> {
    value_or(told.refusal, told.next, 0)
}

impl Implementation for Product {
    fn start(&self, n: u32, lent: &mut Lent) -> Answer {
        let (t, p, c, f) = (&mut lent.tags, &mut lent.policies, &mut lent.counts, &mut lent.flows);
        answer(unsafe { foreign::tracker_start(n, t.as_mut_ptr(), t.len(), p.as_mut_ptr(), p.len(), c.as_mut_ptr(), c.len(), f.as_mut_ptr(), f.len()) })
    }

    fn enable(&self, header: Header, lent: &mut Lent, flow: Flow) -> Answer {
        let (t, p, c, f) = (&mut lent.tags, &lent.policies, &lent.counts, &mut lent.flows);
        answer(unsafe { foreign::tracker_enable(header, t.as_mut_ptr(), t.len(), p.as_ptr(), p.len(), c.as_ptr(), c.len(), f.as_mut_ptr(), f.len(), flow) })
    }

    fn disable(&self, header: Header, lent: &mut Lent, number: u32) -> Answer {
        let (t, p, c, f) = (&lent.tags, &lent.policies, &lent.counts, &mut lent.flows);
        answer(unsafe { foreign::tracker_disable(header, t.as_ptr(), t.len(), p.as_ptr(), p.len(), c.as_ptr(), c.len(), f.as_mut_ptr(), f.len(), number) })
    }

    fn add_policy(&self, header: Header, lent: &mut Lent, container: u32, policy: [u64; 4]) -> Answer {
        let (t, p, c, f) = (&lent.tags, &mut lent.policies, &mut lent.counts, &lent.flows);
        let set = TagSet { words: policy };
        answer(unsafe { foreign::tracker_add_policy(header, t.as_ptr(), t.len(), p.as_mut_ptr(), p.len(), c.as_mut_ptr(), c.len(), f.as_ptr(), f.len(), container, set) })
    }

    fn tags_of(&self, header: Header, lent: &Lent, container: u32) -> Result<[u64; 4], u32> {
        let (t, p, c, f) = (&lent.tags, &lent.policies, &lent.counts, &lent.flows);
        let told = unsafe { foreign::tracker_tags_of(header, t.as_ptr(), t.len(), p.as_ptr(), p.len(), c.as_ptr(), c.len(), f.as_ptr(), f.len(), container) };
        value_or(told.refusal, told.set.words, [0; 4])
    }

    fn size_of(&self, header: Header, lent: &Lent, container: u32) -> Result<u32, u32> {
        let (t, p, c, f) = (&lent.tags, &lent.policies, &lent.counts, &lent.flows);
        let told = unsafe { foreign::tracker_size_of(header, t.as_ptr(), t.len(), p.as_ptr(), p.len(), c.as_ptr(), c.len(), f.as_ptr(), f.len(), container) };
        value_or(told.refusal, told.size, 0)
    }

    fn is_legal(&self, header: Header, lent: &Lent, container: u32) -> Result<bool, u32> {
        let (t, p, c, f) = (&lent.tags, &lent.policies, &lent.counts, &lent.flows);
        let told = unsafe { foreign::tracker_is_legal(header, t.as_ptr(), t.len(), p.as_ptr(), p.len(), c.as_ptr(), c.len(), f.as_ptr(), f.len(), container) };
        value_or(told.refusal, told.legal, false)
    }

    fn rank(&self, header: Header, lent: &Lent, out: &mut [u16]) -> Result<(), u32> {
        let (t, p, c, f) = (&lent.tags, &lent.policies, &lent.counts, &lent.flows);
        let refusal = unsafe { foreign::tracker_rank(header, t.as_ptr(), t.len(), p.as_ptr(), p.len(), c.as_ptr(), c.len(), f.as_ptr(), f.len(), out.as_mut_ptr(), out.len()) };
        value_or(refusal, (), ())
    }

    fn replay(&self, bytes: &[u8], lent: &mut Lent) -> Replayed {
        let (t, p, c, f) = (&mut lent.tags, &mut lent.policies, &mut lent.counts, &mut lent.flows);
        let told = unsafe { foreign::tracker_replay(bytes.as_ptr(), bytes.len(), t.as_mut_ptr(), t.len(), p.as_mut_ptr(), p.len(), c.as_mut_ptr(), c.len(), f.as_mut_ptr(), f.len()) };
        Replayed { refusal: told.refusal, byte: told.byte as u64, events: told.events, gain: told.gain, header: told.header }
    }

    fn decode(&self, bytes: &[u8], at: usize, width: u32) -> Result<(u64, usize), u32> {
        read(unsafe { foreign::log_decode(bytes.as_ptr(), bytes.len(), at, width) })
    }

    fn encode(&self, value: u64, out: &mut [u8], at: usize) -> Result<usize, u32> {
        written(unsafe { foreign::log_encode(out.as_mut_ptr(), out.len(), at, value) })
    }

    fn read_head(&self, bytes: &[u8]) -> Result<(u32, usize), u32> {
        let (n, next) = read(unsafe { foreign::log_read_head(bytes.as_ptr(), bytes.len()) })?;
        Ok((u32::try_from(n).expect("n is a number of 32 bits"), next))
    }

    fn write_head(&self, n: u32, out: &mut [u8]) -> Result<usize, u32> {
        written(unsafe { foreign::log_write_head(out.as_mut_ptr(), out.len(), n) })
    }

    fn read_record(&self, bytes: &[u8], at: usize) -> Result<(Event, usize), u32> {
        let told = unsafe { foreign::log_read_record(bytes.as_ptr(), bytes.len(), at) };
        let (kind, flow, next) = value_or(told.refusal, (told.kind, told.flow, told.next), (0, Flow::default(), 0))?;
        match kind {
            0 => Ok((Event::Enable(flow), next)),
            1 => {
                assert_eq!((flow.from, flow.to), (0, 0), "a disable has no ends");
                Ok((Event::Disable(flow.number), next))
            }
            _ => panic!("a record of kind {kind}"),
        }
    }

    fn write_record(&self, event: Event, out: &mut [u8], at: usize) -> Result<usize, u32> {
        written(match event {
            Event::Enable(flow) => unsafe { foreign::log_write_enable(out.as_mut_ptr(), out.len(), at, flow) },
            Event::Disable(number) => unsafe { foreign::log_write_disable(out.as_mut_ptr(), out.len(), at, number) },
        })
    }

    fn record_len(&self, event: Event) -> usize {
        match event {
            Event::Enable(flow) => unsafe { foreign::log_enable_len(flow) },
            Event::Disable(number) => unsafe { foreign::log_disable_len(number) },
        }
    }

    fn tally(&self, bytes: &[u8], out: &mut [u8]) -> Result<usize, u32> {
        written(unsafe { foreign::tally_text(bytes.as_ptr(), bytes.len(), out.as_mut_ptr(), out.len()) })
    }
}
