//! Faults of numbers of other widths than 32, of n at the start of a log, and of the length of a record.
use super::{Written, ALL, CALLS};
use crate::wrapper::{number_32, Faulty, Hooks, RIGHT};
use interface::{Event, Flow};

/// What reading a number answers.
type Read = Result<(u64, usize), u32>;

/// The faults of this file.
pub fn written() -> Vec<Written> {
    [widths(), forms(), writing(), heads(), lengths()].concat()
}

/// Faults that take one width for another.
fn widths() -> Vec<Written> {
    vec![
        ("width 0 is taken for 1", CALLS, Hooks { decode: |f, b, at, w| f.right.decode(b, at, w.max(1)), ..RIGHT }),
        ("width 0 is refused", CALLS, Hooks { decode: |f, b, at, w| if w == 0 { Err(2) } else { f.right.decode(b, at, w) }, ..RIGHT }),
        ("widths 33 to 63 are taken for 64", CALLS, Hooks { decode: |f, b, at, w| f.right.decode(b, at, if (33..64).contains(&w) { 64 } else { w }), ..RIGHT }),
        ("widths above 32 are taken for 32", CALLS, Hooks { decode: |f, b, at, w| f.right.decode(b, at, w.min(32)), ..RIGHT }),
        ("width 64 is taken for 63", CALLS, Hooks { decode: |f, b, at, w| f.right.decode(b, at, w.min(63)), ..RIGHT }),
        ("only width 64 is taken for 63", CALLS, Hooks { decode: |f, b, at, w| f.right.decode(b, at, if w == 64 { 63 } else { w }), ..RIGHT }),
        ("widths above 64 are taken by what is over 64", CALLS, Hooks { decode: |f, b, at, w| f.right.decode(b, at, if w > 64 { w - 64 } else { w }), ..RIGHT }),
        ("widths above 64 are refused", CALLS, Hooks { decode: |f, b, at, w| if w > 64 { Err(2) } else { f.right.decode(b, at, w) }, ..RIGHT }),
        ("widths are taken by their low byte", CALLS, Hooks { decode: |f, b, at, w| f.right.decode(b, at, w % 256), ..RIGHT }),
        ("widths are taken with a sign", CALLS, Hooks { decode: |f, b, at, w| f.right.decode(b, at, if w >= 1 << 31 { 0 } else { w }), ..RIGHT }),
        ("width 48 is taken for 49", CALLS, Hooks { decode: |f, b, at, w| f.right.decode(b, at, if w == 48 { 49 } else { w }), ..RIGHT }),
        ("width 5 is taken for 4", CALLS, Hooks { decode: |f, b, at, w| f.right.decode(b, at, if w == 5 { 4 } else { w }), ..RIGHT }),
        ("widths are rounded up to groups", CALLS, Hooks { decode: |f, b, at, w| f.right.decode(b, at, w.min(64).div_ceil(7) * 7), ..RIGHT }),
    ]
}

/// Faults of reading at widths that are taken rightly.
fn forms() -> Vec<Written> {
    vec![
        ("a long number is accepted at width 64", CALLS, Hooks { decode: |f, b, at, w| at_width(f, b, at, w, 64, long_accepted), ..RIGHT }),
        ("a long number is accepted at width 21", CALLS, Hooks { decode: |f, b, at, w| at_width(f, b, at, w, 21, long_accepted), ..RIGHT }),
        ("a tenth byte of 2 is accepted", CALLS, Hooks { decode: |f, b, at, w| at_width(f, b, at, w, 64, tenth_of_two), ..RIGHT }),
        ("a tenth group is lost", CALLS, Hooks { decode: |f, b, at, w| f.right.decode(b, at, w).map(|(v, end)| (v % (1 << 63), end)), ..RIGHT }),
        ("a value above 32 bits is cut", CALLS, Hooks { decode: |f, b, at, w| f.right.decode(b, at, w).map(|(v, end)| (v % (1 << 32), end)), ..RIGHT }),
        ("a number above 32 bits that is cut short is long", CALLS, Hooks { decode: |f, b, at, w| cut_is_long(f, b, at, w), ..RIGHT }),
        ("a number that is too wide is cut short", CALLS, Hooks { decode: |f, b, at, w| at_width(f, b, at, w, 40, |_, _, _| Err(1)), ..RIGHT }),
    ]
}

/// Faults of writing numbers above 32 bits.
fn writing() -> Vec<Written> {
    vec![
        ("a number above 32 bits is written without its high bits", CALLS, Hooks { encode: |f, v, out, at| f.right.encode(v % (1 << 32), out, at), ..RIGHT }),
        ("a number of 64 bits is written without its highest", CALLS, Hooks { encode: |f, v, out, at| f.right.encode(v % (1 << 63), out, at), ..RIGHT }),
        ("a number above 35 bits is refused", CALLS, Hooks { encode: |f, v, out, at| if v >> 35 != 0 { Err(10) } else { f.right.encode(v, out, at) }, ..RIGHT }),
        ("a number of ten groups needs one place too many", CALLS, Hooks { encode: ten_need_more, ..RIGHT }),
        ("a number of nine groups writes a byte before refusal 10", CALLS, Hooks { encode: nine_write, ..RIGHT }),
    ]
}

/// Faults of n at the start of a log.
fn heads() -> Vec<Written> {
    vec![
        ("read_head takes 31 bits", ALL, Hooks { read_head: |f, b| (f.hooks.decode)(f, b, 0, 31).map(|(n, end)| (n as u32, end)), ..RIGHT }),
        ("read_head takes 33 bits", ALL, Hooks { read_head: |f, b| (f.hooks.decode)(f, b, 0, 33).map(|(n, end)| (n as u32, end)), ..RIGHT }),
        ("read_head judges n", CALLS, Hooks { read_head: |f, b| number_32(f, b, 0).and_then(judged), ..RIGHT }),
        ("read_head judges n of 0 alone", CALLS, Hooks { read_head: |f, b| number_32(f, b, 0).and_then(|(n, end)| if n == 0 { Err(9) } else { Ok((n, end)) }), ..RIGHT }),
        ("read_head answers at most 256", CALLS, Hooks { read_head: |f, b| number_32(f, b, 0).map(|(n, end)| (n.min(256), end)), ..RIGHT }),
        ("read_head answers position 1", CALLS, Hooks { read_head: |f, b| number_32(f, b, 0).map(|(n, _)| (n, 1)), ..RIGHT }),
        ("read_head takes an empty log for 0", CALLS, Hooks { read_head: |f, b| if b.is_empty() { Ok((0, 0)) } else { number_32(f, b, 0) }, ..RIGHT }),
        ("write_head writes at position 1", CALLS, Hooks { write_head: |f, n, out| f.right.encode(u64::from(n), out, 1), ..RIGHT }),
        ("write_head writes at position 1 where there is room", CALLS, Hooks { write_head: later_written, ..RIGHT }),
        ("write_head judges n", CALLS, Hooks { write_head: |f, n, out| if n > 256 { Err(10) } else { f.right.write_head(n, out) }, ..RIGHT }),
        ("write_head writes a byte before refusal 10", CALLS, Hooks { write_head: head_part, ..RIGHT }),
        ("write_head needs five places", CALLS, Hooks { write_head: |f, n, out| if out.len() < 5 { Err(10) } else { f.right.write_head(n, out) }, ..RIGHT }),
    ]
}

/// Faults of a record's length.
fn lengths() -> Vec<Written> {
    vec![
        ("record_len takes 128 for one group", CALLS, Hooks { record_len: |f, e| one_off(f, e, 128, -1), ..RIGHT }),
        ("record_len takes 127 for two groups", CALLS, Hooks { record_len: |f, e| one_off(f, e, 127, 1), ..RIGHT }),
        ("record_len takes 16,384 for two groups", CALLS, Hooks { record_len: |f, e| one_off(f, e, 16_384, -1), ..RIGHT }),
        ("record_len takes 2,097,151 for four groups", CALLS, Hooks { record_len: |f, e| one_off(f, e, 2_097_151, 1), ..RIGHT }),
        ("record_len takes 268,435,456 for four groups", CALLS, Hooks { record_len: |f, e| one_off(f, e, 268_435_456, -1), ..RIGHT }),
        ("record_len is one off where to is 127", CALLS, Hooks { record_len: to_off, ..RIGHT }),
        ("record_len leaves out the kind", CALLS, Hooks { record_len: |f, e| f.right.record_len(e) - 1, ..RIGHT }),
        ("record_len is at most 15", CALLS, Hooks { record_len: |f, e| f.right.record_len(e).min(15), ..RIGHT }),
        ("record_len of a disable is that of an enable", CALLS, Hooks { record_len: |f, e| f.right.record_len(e) + 2 * usize::from(matches!(e, Event::Disable(_))), ..RIGHT }),
    ]
}

/// A number that is refused with 2 at one width read in another way there.
fn at_width(f: &Faulty, bytes: &[u8], at: usize, width: u32, only: u32, wrong: fn(&Faulty, &[u8], usize) -> Read) -> Read {
    let given = f.right.decode(bytes, at, width);
    if width == only && given == Err(2) { wrong(f, bytes, at) } else { given }
}

/// The number without the group of 0 with which it ends, where it ends so.
fn long_accepted(f: &Faulty, bytes: &[u8], at: usize) -> Read {
    let end = at + bytes[at..].iter().take_while(|byte| **byte > 127).count();
    if bytes.get(end) != Some(&0) {
        return Err(2);
    }
    let mut shorter = bytes[at..end].to_vec();
    shorter[end - at - 1] -= 128;
    f.right.decode(&shorter, 0, 64).map(|(value, _)| (value, end + 1))
}

/// The number whose tenth byte is 2, as if that were 1.
fn tenth_of_two(f: &Faulty, bytes: &[u8], at: usize) -> Read {
    let mut other = bytes.to_vec();
    match other.get_mut(at + 9) {
        Some(tenth) if *tenth == 2 => *tenth = 1,
        _ => return Err(2),
    }
    f.right.decode(&other, at, 64)
}

/// Answers 2 where five groups are there and none of them is the last.
fn cut_is_long(f: &Faulty, bytes: &[u8], at: usize, width: u32) -> Read {
    let given = f.right.decode(bytes, at, width);
    if given == Err(1) && bytes.len().saturating_sub(at) >= 5 { Err(2) } else { given }
}

/// Refuses an output in which a number of ten groups just fits.
fn ten_need_more(f: &Faulty, value: u64, out: &mut [u8], at: usize) -> Result<usize, u32> {
    let just = value >> 63 == 1 && at.checked_add(10) == Some(out.len());
    if just { Err(10) } else { f.right.encode(value, out, at) }
}

/// Writes the first group of a number of nine groups before it refuses.
fn nine_write(f: &Faulty, value: u64, out: &mut [u8], at: usize) -> Result<usize, u32> {
    let given = f.right.encode(value, out, at);
    if let (Err(10), Some(byte), true) = (given, out.get_mut(at), value >> 56 != 0) {
        *byte = value as u8 | 128;
    }
    given
}

/// Answers 9 where starting would.
fn judged((n, end): (u32, usize)) -> Result<(u32, usize), u32> {
    if (1..=256).contains(&n) { Ok((n, end)) } else { Err(9) }
}

/// Writes n one place later where there is room for that, and answers the right position.
fn later_written(f: &Faulty, n: u32, out: &mut [u8]) -> Result<usize, u32> {
    match f.right.encode(u64::from(n), out, 1) {
        Ok(end) => Ok(end - 1),
        Err(_) => f.right.write_head(n, out),
    }
}

/// Writes the first group of n before it refuses.
fn head_part(f: &Faulty, n: u32, out: &mut [u8]) -> Result<usize, u32> {
    let given = f.right.write_head(n, out);
    if let (Err(10), Some(byte)) = (given, out.first_mut()) {
        *byte = n as u8 | 128;
    }
    given
}

/// The length of a record, one off where its number has this value.
fn one_off(f: &Faulty, event: Event, value: u32, off: isize) -> usize {
    let (Event::Disable(number) | Event::Enable(Flow { number, .. })) = event;
    let right = f.right.record_len(event);
    if number == value { right.wrapping_add_signed(off) } else { right }
}

/// The length of a record, one off where to has this value.
fn to_off(f: &Faulty, event: Event) -> usize {
    f.right.record_len(event) + usize::from(matches!(event, Event::Enable(Flow { to: 127, .. })))
}
