//! The C functions of crates/foreign_c and the records of crates/foreign, field by field. A slice is two arguments, its
//! pointer and its length.
use interface::{Flow, Header};

#[repr(C)]
pub struct CallAnswer {
    pub refusal: u32,
    pub gain: u32,
    pub header: Header,
}

#[repr(C)]
pub struct TagSet {
    pub words: [u64; 4],
}

#[repr(C)]
pub struct SetAnswer {
    pub refusal: u32,
    pub set: TagSet,
}

#[repr(C)]
pub struct SizeAnswer {
    pub refusal: u32,
    pub size: u32,
}

#[repr(C)]
pub struct LegalAnswer {
    pub refusal: u32,
    pub legal: bool,
}

#[repr(C)]
pub struct ReplayAnswer {
    pub refusal: u32,
    pub byte: usize,
    pub events: u64,
    pub gain: u64,
    pub header: Header,
}

#[repr(C)]
pub struct NumberAnswer {
    pub refusal: u32,
    pub value: u64,
    pub next: usize,
}

#[repr(C)]
pub struct WriteAnswer {
    pub refusal: u32,
    pub next: usize,
}

#[repr(C)]
pub struct RecordAnswer {
    pub refusal: u32,
    pub kind: u32,
    pub flow: Flow,
    pub next: usize,
}

extern "C" {
    pub fn tracker_start(n: u32, tags: *mut u64, tags_length: usize, policies: *mut u64, policies_length: usize, counts: *mut u8, counts_length: usize, flows: *mut Flow, flows_length: usize) -> CallAnswer;
    pub fn tracker_enable(header: Header, tags: *mut u64, tags_length: usize, policies: *const u64, policies_length: usize, counts: *const u8, counts_length: usize, flows: *mut Flow, flows_length: usize, flow: Flow) -> CallAnswer;
    pub fn tracker_disable(header: Header, tags: *const u64, tags_length: usize, policies: *const u64, policies_length: usize, counts: *const u8, counts_length: usize, flows: *mut Flow, flows_length: usize, number: u32) -> CallAnswer;
    pub fn tracker_add_policy(header: Header, tags: *const u64, tags_length: usize, policies: *mut u64, policies_length: usize, counts: *mut u8, counts_length: usize, flows: *const Flow, flows_length: usize, container: u32, policy: TagSet) -> CallAnswer;
    pub fn tracker_tags_of(header: Header, tags: *const u64, tags_length: usize, policies: *const u64, policies_length: usize, counts: *const u8, counts_length: usize, flows: *const Flow, flows_length: usize, container: u32) -> SetAnswer;
    pub fn tracker_size_of(header: Header, tags: *const u64, tags_length: usize, policies: *const u64, policies_length: usize, counts: *const u8, counts_length: usize, flows: *const Flow, flows_length: usize, container: u32) -> SizeAnswer;
    pub fn tracker_is_legal(header: Header, tags: *const u64, tags_length: usize, policies: *const u64, policies_length: usize, counts: *const u8, counts_length: usize, flows: *const Flow, flows_length: usize, container: u32) -> LegalAnswer;
    pub fn tracker_rank(header: Header, tags: *const u64, tags_length: usize, policies: *const u64, policies_length: usize, counts: *const u8, counts_length: usize, flows: *const Flow, flows_length: usize, out: *mut u16, out_length: usize) -> u32;
    pub fn tracker_replay(bytes: *const u8, bytes_length: usize, tags: *mut u64, tags_length: usize, policies: *mut u64, policies_length: usize, counts: *mut u8, counts_length: usize, flows: *mut Flow, flows_length: usize) -> ReplayAnswer;
    pub fn log_decode(bytes: *const u8, bytes_length: usize, at: usize, width: u32) -> NumberAnswer;
    pub fn log_encode(out: *mut u8, out_length: usize, at: usize, value: u64) -> WriteAnswer;
    pub fn log_read_head(bytes: *const u8, bytes_length: usize) -> NumberAnswer;
    pub fn log_write_head(out: *mut u8, out_length: usize, n: u32) -> WriteAnswer;
    pub fn log_read_record(bytes: *const u8, bytes_length: usize, at: usize) -> RecordAnswer;
    pub fn log_write_enable(out: *mut u8, out_length: usize, at: usize, flow: Flow) -> WriteAnswer;
    pub fn log_write_disable(out: *mut u8, out_length: usize, at: usize, number: u32) -> WriteAnswer;
    pub fn log_enable_len(flow: Flow) -> usize;
    pub fn log_disable_len(number: u32) -> usize;
    pub fn tally_text(bytes: *const u8, bytes_length: usize, out: *mut u8, out_length: usize) -> WriteAnswer;
}
