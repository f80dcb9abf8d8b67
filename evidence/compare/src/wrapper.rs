//! A wrapper around a right implementation in which single calls can be replaced by wrong ones.
use crate::clauses::{has_tag, tags, Clause, Place};
use crate::counts::Call;
use crate::inputs::{MOST_BYTES, TABLE};
use interface::{Answer, Event, Flow, Header, Implementation, Lent, Replayed};
use std::cell::RefCell;

/// Where a wrong call is used: as a call of its own, within a replay, or within `tally`.
#[derive(Clone, Copy, Debug, PartialEq, Eq)]
pub enum Scope {
    Calls,
    Replay,
    Tally,
}

/// What a fault that is narrower than its call is about.
#[derive(Clone, Copy, Debug, Default)]
pub struct Aim {
    /// The clause that is not judged.
    pub clause: Option<Clause>,
    /// The only place at which it is not judged.
    pub place: Option<Place>,
    /// The only call that does not judge it.
    pub call: Option<Call>,
    /// The only word or field in which it is not judged.
    pub part: Option<usize>,
    /// The list of the storage that is meant.
    pub list: usize,
}

/// The forms of the calls, each with the wrapper before its arguments.
type Start = fn(&Faulty, u32, &mut Lent) -> Answer;
type Enable = fn(&Faulty, Header, &mut Lent, Flow) -> Answer;
type Disable = fn(&Faulty, Header, &mut Lent, u32) -> Answer;
type AddPolicy = fn(&Faulty, Header, &mut Lent, u32, [u64; 4]) -> Answer;
type Question<T> = fn(&Faulty, Header, &Lent, u32) -> Result<T, u32>;
type Rank = fn(&Faulty, Header, &Lent, &mut [u16]) -> Result<(), u32>;
type Replay = fn(&Faulty, &[u8], &mut Lent) -> Replayed;
type Decode = fn(&Faulty, &[u8], usize, u32) -> Result<(u64, usize), u32>;
type Encode = fn(&Faulty, u64, &mut [u8], usize) -> Result<usize, u32>;
type ReadHead = fn(&Faulty, &[u8]) -> Result<(u32, usize), u32>;
type WriteHead = fn(&Faulty, u32, &mut [u8]) -> Result<usize, u32>;
type ReadRecord = fn(&Faulty, &[u8], usize) -> Result<(Event, usize), u32>;
type WriteRecord = fn(&Faulty, Event, &mut [u8], usize) -> Result<usize, u32>;
type RecordLen = fn(&Faulty, Event) -> usize;
type Text = fn(&Faulty, &[u8]) -> String;
type Tally = fn(&Faulty, &[u8], &mut [u8]) -> Result<usize, u32>;

/// The calls as the wrapper answers them.
#[derive(Clone, Copy)]
pub struct Hooks {
    pub start: Start,
    pub enable: Enable,
    pub disable: Disable,
    pub add_policy: AddPolicy,
    pub tags_of: Question<[u64; 4]>,
    pub size_of: Question<u32>,
    pub is_legal: Question<bool>,
    pub rank: Rank,
    pub replay: Replay,
    pub decode: Decode,
    pub encode: Encode,
    pub read_head: ReadHead,
    pub write_head: WriteHead,
    pub read_record: ReadRecord,
    pub write_record: WriteRecord,
    pub record_len: RecordLen,
    pub text: Text,
    pub tally: Tally,
}

/// The calls as they should be; those that are made of others are made of the wrapper's.
pub const RIGHT: Hooks = Hooks {
    start: |f, n, lent| f.right.start(n, lent),
    enable: |f, header, lent, flow| f.right.enable(header, lent, flow),
    disable: |f, header, lent, number| f.right.disable(header, lent, number),
    add_policy: |f, header, lent, container, policy| f.right.add_policy(header, lent, container, policy),
    tags_of: |f, header, lent, container| f.right.tags_of(header, lent, container),
    size_of: |f, header, lent, container| f.right.size_of(header, lent, container),
    is_legal: |f, header, lent, container| f.right.is_legal(header, lent, container),
    rank: |f, header, lent, out| f.right.rank(header, lent, out),
    replay: replay_by_calls,
    decode: |f, bytes, at, width| f.right.decode(bytes, at, width),
    encode: |f, value, out, at| f.right.encode(value, out, at),
    read_head: |f, bytes| number_32(f, bytes, 0),
    write_head: |f, n, out| f.right.write_head(n, out),
    read_record: read_by_numbers,
    write_record: |f, event, out, at| f.right.write_record(event, out, at),
    record_len: |f, event| f.right.record_len(event),
    text: text_by_calls,
    tally: tally_by_text,
};

/// A right implementation with calls that may be wrong.
pub struct Faulty<'a> {
    pub right: &'a dyn Implementation,
    pub hooks: Hooks,
    pub scope: Scope,
    pub aim: Aim,
    /// All flows ever enabled since the last start.
    pub ever: RefCell<Vec<Flow>>,
}

impl<'a> Faulty<'a> {
    /// A wrapper with these calls.
    pub fn new(right: &'a dyn Implementation, hooks: Hooks, scope: Scope, aim: Aim) -> Faulty<'a> {
        Faulty { right, hooks, scope, aim, ever: RefCell::new(Vec::new()) }
    }

    /// The calls that are used when a call is made by itself.
    fn alone(&self) -> &Hooks {
        if self.scope == Scope::Calls { &self.hooks } else { &RIGHT }
    }
}

impl Implementation for Faulty<'_> {
    /// Starting, wrong where the call alone is.
    fn start(&self, n: u32, lent: &mut Lent) -> Answer {
        (self.alone().start)(self, n, lent)
    }
    /// Enabling, wrong where the call alone is.
    fn enable(&self, header: Header, lent: &mut Lent, flow: Flow) -> Answer {
        (self.alone().enable)(self, header, lent, flow)
    }
    /// Disabling, wrong where the call alone is.
    fn disable(&self, header: Header, lent: &mut Lent, number: u32) -> Answer {
        (self.alone().disable)(self, header, lent, number)
    }
    /// Adding a set, wrong where the call alone is.
    fn add_policy(&self, header: Header, lent: &mut Lent, container: u32, policy: [u64; 4]) -> Answer {
        (self.alone().add_policy)(self, header, lent, container, policy)
    }
    /// The tags, wrong where the call alone is.
    fn tags_of(&self, header: Header, lent: &Lent, container: u32) -> Result<[u64; 4], u32> {
        (self.alone().tags_of)(self, header, lent, container)
    }
    /// The size, wrong where the call alone is.
    fn size_of(&self, header: Header, lent: &Lent, container: u32) -> Result<u32, u32> {
        (self.alone().size_of)(self, header, lent, container)
    }
    /// The permission question, wrong where the call alone is.
    fn is_legal(&self, header: Header, lent: &Lent, container: u32) -> Result<bool, u32> {
        (self.alone().is_legal)(self, header, lent, container)
    }
    /// The ranking, wrong where the call alone is.
    fn rank(&self, header: Header, lent: &Lent, out: &mut [u16]) -> Result<(), u32> {
        (self.alone().rank)(self, header, lent, out)
    }
    /// The replay, wrong where replays are.
    fn replay(&self, bytes: &[u8], lent: &mut Lent) -> Replayed {
        if self.scope == Scope::Replay { (self.hooks.replay)(self, bytes, lent) } else { self.right.replay(bytes, lent) }
    }
    /// Reading a number, wrong where the call alone is.
    fn decode(&self, bytes: &[u8], at: usize, width: u32) -> Result<(u64, usize), u32> {
        (self.alone().decode)(self, bytes, at, width)
    }
    /// Writing a number, wrong where the call alone is.
    fn encode(&self, value: u64, out: &mut [u8], at: usize) -> Result<usize, u32> {
        (self.alone().encode)(self, value, out, at)
    }
    /// Reading n, wrong where the call alone is; the right one is not made of numbers here.
    fn read_head(&self, bytes: &[u8]) -> Result<(u32, usize), u32> {
        if self.scope == Scope::Calls { (self.hooks.read_head)(self, bytes) } else { self.right.read_head(bytes) }
    }
    /// Writing n, wrong where the call alone is.
    fn write_head(&self, n: u32, out: &mut [u8]) -> Result<usize, u32> {
        (self.alone().write_head)(self, n, out)
    }
    /// Reading a record, wrong where the call alone is; the right one is not made of numbers here.
    fn read_record(&self, bytes: &[u8], at: usize) -> Result<(Event, usize), u32> {
        if self.scope == Scope::Calls { (self.hooks.read_record)(self, bytes, at) } else { self.right.read_record(bytes, at) }
    }
    /// Writing a record, wrong where the call alone is.
    fn write_record(&self, event: Event, out: &mut [u8], at: usize) -> Result<usize, u32> {
        (self.alone().write_record)(self, event, out, at)
    }
    /// A record's length, wrong where the call alone is.
    fn record_len(&self, event: Event) -> usize {
        (self.alone().record_len)(self, event)
    }
    /// The text, wrong where `tally` is.
    fn tally(&self, bytes: &[u8], out: &mut [u8]) -> Result<usize, u32> {
        if self.scope == Scope::Tally { (self.hooks.tally)(self, bytes, out) } else { self.right.tally(bytes, out) }
    }
}

/// A number of 32 bits read with the wrapper's numbers.
pub fn number_32(f: &Faulty, bytes: &[u8], at: usize) -> Result<(u32, usize), u32> {
    (f.hooks.decode)(f, bytes, at, 32).map(|(value, end)| (value as u32, end))
}

/// A record read field by field with the wrapper's numbers.
pub fn read_by_numbers(f: &Faulty, bytes: &[u8], at: usize) -> Result<(Event, usize), u32> {
    let (kind, at) = number_32(f, bytes, at)?;
    if kind > 1 {
        return Err(3);
    }
    let (number, at) = number_32(f, bytes, at)?;
    if kind == 1 {
        return Ok((Event::Disable(number), at));
    }
    let (from, at) = number_32(f, bytes, at)?;
    let (to, at) = number_32(f, bytes, at)?;
    Ok((Event::Enable(Flow { number, from, to }), at))
}

/// One record read and done with the wrapper's calls: the answer and the position after it, or the refusal.
pub fn one_record(f: &Faulty, bytes: &[u8], at: usize, header: Header, lent: &mut Lent) -> Result<(Answer, usize), (u32, Header)> {
    let (event, end) = (f.hooks.read_record)(f, bytes, at).map_err(|refusal| (refusal, header))?;
    let answer = match event {
        Event::Enable(flow) => (f.hooks.enable)(f, header, lent, flow),
        Event::Disable(number) => (f.hooks.disable)(f, header, lent, number),
    };
    if answer.refusal == 0 { Ok((answer, end)) } else { Err((answer.refusal, answer.header)) }
}

/// A replay made of the wrapper's calls.
pub fn replay_by_calls(f: &Faulty, bytes: &[u8], lent: &mut Lent) -> Replayed {
    let alone = |refusal| Replayed { refusal, ..Replayed::default() };
    let (n, mut at) = match (f.hooks.read_head)(f, bytes) {
        Ok(read) => read,
        Err(refusal) => return alone(refusal),
    };
    let begun = (f.hooks.start)(f, n, lent);
    if begun.refusal != 0 {
        return alone(begun.refusal);
    }
    let mut run = Replayed { header: begun.header, ..Replayed::default() };
    while at < bytes.len() {
        match one_record(f, bytes, at, run.header, lent) {
            Ok((answer, end)) => {
                run = Replayed { events: run.events + 1, gain: run.gain + u64::from(answer.gain), header: answer.header, ..run };
                at = end;
            }
            Err((refusal, header)) => return Replayed { refusal, byte: at as u64, header, ..run },
        }
    }
    run
}

/// Storage for as many containers as there can be.
pub fn ample() -> Lent {
    Lent { tags: vec![0; 1024].into(), policies: vec![0; 4096].into(), counts: vec![0; 256].into(), flows: vec![Flow::default(); TABLE].into() }
}

/// The text of `tally` made of the wrapper's replay and ranking.
pub fn text_by_calls(f: &Faulty, bytes: &[u8]) -> String {
    if bytes.len() > MOST_BYTES {
        return format!("refused 10 at {MOST_BYTES}\n");
    }
    let mut lent = ample();
    let run = (f.hooks.replay)(f, bytes, &mut lent);
    let mut order = vec![0; run.header.containers as usize];
    let mut text = String::new();
    if (f.hooks.rank)(f, run.header, &lent, &mut order).is_ok() {
        for container in &order {
            text += &line_of(u32::from(*container), &lent);
        }
    }
    match run.refusal {
        0 => text + &format!("events {} gain {}\n", run.events, run.gain),
        refusal => text + &format!("refused {refusal} at {}\n", run.byte),
    }
}

/// The line of a container: its number, the size of its set, its tags rising.
fn line_of(container: u32, lent: &Lent) -> String {
    let set = tags(lent, container);
    let held: Vec<String> = (0..256).filter(|tag| has_tag(set, *tag)).map(|tag| tag.to_string()).collect();
    format!("{container} {} {}\n", held.len(), held.join(" "))
}

/// The wrapper's text, written where it fits.
pub fn tally_by_text(f: &Faulty, bytes: &[u8], out: &mut [u8]) -> Result<usize, u32> {
    let text = (f.hooks.text)(f, bytes);
    if text.len() > out.len() {
        return Err(10);
    }
    out[..text.len()].copy_from_slice(text.as_bytes());
    Ok(text.len())
}
