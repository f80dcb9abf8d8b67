//! What is asked of each implementation: the calls of document 01 on storage that the caller lends, the log's reader and writer, and the program's text.
//! Only data and names: nothing here says how a call is answered.
#![forbid(unsafe_code)]

mod places;

pub use places::{Guard, Places, ZONE};

/// An enabled flow (document 01: a channel).
#[derive(Clone, Copy, Debug, Default, PartialEq, Eq)]
#[repr(C)]
pub struct Flow {
    pub number: u32,
    pub from: u32,
    pub to: u32,
}

/// The tracker's small numbers (document 01: those of a book): n, the count of enabled flows, the greatest accepted number.
#[derive(Clone, Copy, Debug, Default, PartialEq, Eq)]
#[repr(C)]
pub struct Header {
    pub containers: u32,
    pub count: u32,
    pub greatest: u32,
}

/// The lent storage, each list of any length and content: tag sets, policy sets (document 01: permitted sets), their counts, the flow table (the rack).
#[derive(Clone, Debug, Default, PartialEq, Eq)]
pub struct Lent {
    pub tags: Places<u64>,
    pub policies: Places<u64>,
    pub counts: Places<u8>,
    pub flows: Places<Flow>,
}

impl Lent {
    /// The first list around which something was written, and where.
    pub fn overrun(&self) -> Option<String> {
        self.tags
            .overrun("tags")
            .or_else(|| self.policies.overrun("policies"))
            .or_else(|| self.counts.overrun("counts"))
            .or_else(|| self.flows.overrun("flows"))
    }
}

/// What an event, starting or adding a set answers: the refusal's number or 0, the gain, and the header that comes back.
#[derive(Clone, Copy, Debug, Default, PartialEq, Eq)]
pub struct Answer {
    pub refusal: u32,
    pub gain: u32,
    pub header: Header,
}

/// What a replay (document 01: the run over a whole log) answers: the refusal's number or 0, the byte at which the refused record begins or 0, the events
/// done, their gain, and the header after them.
#[derive(Clone, Copy, Debug, Default, PartialEq, Eq)]
pub struct Replayed {
    pub refusal: u32,
    pub byte: u64,
    pub events: u64,
    pub gain: u64,
    pub header: Header,
}

/// A record of the log.
#[derive(Clone, Copy, Debug, PartialEq, Eq)]
pub enum Event {
    Enable(Flow),
    Disable(u32),
}

/// One implementation. An `Err` holds the number of the refusal.
pub trait Implementation {
    fn start(&self, n: u32, lent: &mut Lent) -> Answer;
    fn enable(&self, header: Header, lent: &mut Lent, flow: Flow) -> Answer;
    fn disable(&self, header: Header, lent: &mut Lent, number: u32) -> Answer;
    fn add_policy(&self, header: Header, lent: &mut Lent, container: u32, policy: [u64; 4]) -> Answer;
    fn tags_of(&self, header: Header, lent: &Lent, container: u32) -> Result<[u64; 4], u32>;
    fn size_of(&self, header: Header, lent: &Lent, container: u32) -> Result<u32, u32>;
    /// Whether the container may be sent.
    fn is_legal(&self, header: Header, lent: &Lent, container: u32) -> Result<bool, u32>;
    /// Writes the ranking at the start of `out`.
    fn rank(&self, header: Header, lent: &Lent, out: &mut [u16]) -> Result<(), u32>;
    fn replay(&self, bytes: &[u8], lent: &mut Lent) -> Replayed;
    /// The number of at most `width` bits at `at`, and the position after it. A width above 64 counts as 64.
    fn decode(&self, bytes: &[u8], at: usize, width: u32) -> Result<(u64, usize), u32>;
    /// Writes the number at `at`, and answers the position after it.
    fn encode(&self, value: u64, out: &mut [u8], at: usize) -> Result<usize, u32>;
    /// n at the start of a log, which is not judged, and the position of the first record.
    fn read_head(&self, bytes: &[u8]) -> Result<(u32, usize), u32>;
    /// Writes n at the start of a log, and answers the position of the first record. n is not judged.
    fn write_head(&self, n: u32, out: &mut [u8]) -> Result<usize, u32>;
    /// The record at `at`, and the position after it.
    fn read_record(&self, bytes: &[u8], at: usize) -> Result<(Event, usize), u32>;
    /// Writes the record at `at`, and answers the position after it.
    fn write_record(&self, event: Event, out: &mut [u8], at: usize) -> Result<usize, u32>;
    /// How many bytes the record takes.
    fn record_len(&self, event: Event) -> usize;
    /// Writes the text that the program `tally` prints for this input at the start of `out`, and answers its length; 10 where it does not fit.
    fn tally(&self, bytes: &[u8], out: &mut [u8]) -> Result<usize, u32>;
}
