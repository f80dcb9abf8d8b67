//! Faults of numbers, of records and of the replay.
use super::{Written, ALL, CALLS, REPLAY_ALONE, RUNS};
use crate::wrapper::{read_by_numbers, replay_by_calls, Faulty, Hooks, RIGHT};
use interface::{Event, Flow, Header, Lent, Replayed};

/// The faults of this file.
pub fn written() -> Vec<Written> {
    [numbers(), outputs(), records(), positions(), replays(), long_replays()].concat()
}

/// Faults that take a position in 32 bits.
fn positions() -> Vec<Written> {
    vec![
        ("a position is taken in 32 bits in decode", CALLS, Hooks { decode: |f, b, at, w| f.right.decode(b, at as u32 as usize, w), ..RIGHT }),
        ("a position is taken in 32 bits in encode", CALLS, Hooks { encode: |f, v, out, at| f.right.encode(v, out, at as u32 as usize), ..RIGHT }),
        ("a position is taken in 32 bits in read_record", CALLS, Hooks { read_record: |f, b, at| f.right.read_record(b, at as u32 as usize), ..RIGHT }),
        ("a position is taken in 32 bits in write_record", CALLS, Hooks { write_record: |f, e, out, at| f.right.write_record(e, out, at as u32 as usize), ..RIGHT }),
    ]
}

/// Faults that only long logs show.
fn long_replays() -> Vec<Written> {
    vec![
        ("the byte is taken modulo 65,536", REPLAY_ALONE, Hooks { replay: |f, b, l| stopped(f.right.replay(b, l), |run| run.byte %= 65_536), ..RIGHT }),
        ("the byte is at most 16,384", REPLAY_ALONE, Hooks { replay: |f, b, l| stopped(f.right.replay(b, l), |run| run.byte = run.byte.min(16_384)), ..RIGHT }),
        ("the events are counted modulo 8,192", REPLAY_ALONE, Hooks { replay: |f, b, l| events_modulo(f, b, l, 8_192), ..RIGHT }),
        ("the events are counted modulo 65,536", REPLAY_ALONE, Hooks { replay: |f, b, l| events_modulo(f, b, l, 65_536), ..RIGHT }),
        ("a complete replay's events are counted modulo 8,192", REPLAY_ALONE, Hooks { replay: |f, b, l| complete(f.right.replay(b, l), |run| run.events %= 8_192), ..RIGHT }),
        ("a log above 65,536 bytes is cut short", REPLAY_ALONE, Hooks { replay: |f, b, l| f.right.replay(&b[..b.len().min(65_536)], l), ..RIGHT }),
    ]
}

/// Answers the events modulo a number.
fn events_modulo(f: &Faulty, bytes: &[u8], lent: &mut Lent, modulo: u64) -> Replayed {
    let run = f.right.replay(bytes, lent);
    Replayed { events: run.events % modulo, ..run }
}

/// Faults of reading numbers of 32 bits.
fn numbers() -> Vec<Written> {
    vec![
        ("a long number is accepted", ALL, Hooks { decode: |f, b, at, w| at_32(f, b, at, w, long_accepted), ..RIGHT }),
        ("a long zero is accepted", ALL, Hooks { decode: |f, b, at, w| at_32(f, b, at, w, long_zero_accepted), ..RIGHT }),
        ("a fifth byte of 16 is accepted", ALL, Hooks { decode: |f, b, at, w| at_32(f, b, at, w, |f, b, at| fifth_accepted(f, b, at, |byte| byte == 16)), ..RIGHT }),
        ("a fifth byte above 127 is accepted", CALLS, Hooks { decode: |f, b, at, w| at_32(f, b, at, w, |f, b, at| fifth_accepted(f, b, at, |byte| byte > 127)), ..RIGHT }),
        ("a fifth byte is taken by its low bits", CALLS, Hooks { decode: |f, b, at, w| at_32(f, b, at, w, |f, b, at| fifth_accepted(f, b, at, |byte| byte % 128 < 16)), ..RIGHT }),
        ("a fifth byte of 15 is refused", ALL, Hooks { decode: |f, b, at, w| at_32(f, b, at, w, fifteen_refused), ..RIGHT }),
        ("a fifth byte of 0 is accepted", CALLS, Hooks { decode: |f, b, at, w| at_32(f, b, at, w, |f, b, at| fifth_accepted(f, b, at, |byte| byte == 0)), ..RIGHT }),
        ("a fifth byte that asks for a sixth is cut short", CALLS, Hooks { decode: |f, b, at, w| at_32(f, b, at, w, sixth_asked), ..RIGHT }),
        ("a cut number is long", ALL, Hooks { decode: |f, b, at, w| at_32(f, b, at, w, |f, b, at| f.right.decode(b, at, 32).map_err(|_| 2)), ..RIGHT }),
        ("a cut number is taken as far as it goes", ALL, Hooks { decode: |f, b, at, w| at_32(f, b, at, w, cut_accepted), ..RIGHT }),
        ("a position past the end is answered with 2", CALLS, Hooks { decode: |f, b, at, w| at_32(f, b, at, w, |f, b, at| if at > b.len() { Err(2) } else { f.right.decode(b, at, 32) }), ..RIGHT }),
        ("the last position wraps", CALLS, Hooks { decode: |f, b, at, w| at_32(f, b, at, w, |f, b, at| f.right.decode(b, if at == usize::MAX { 0 } else { at }, 32)), ..RIGHT }),
        ("the position after a long form is wrong", CALLS, Hooks { decode: |f, b, at, w| at_32(f, b, at, w, |f, b, at| f.right.decode(b, at, 32).map(|(v, end)| (v, end + usize::from(v > 268_435_455)))), ..RIGHT }),
        ("the fifth group is lost", ALL, Hooks { decode: |f, b, at, w| at_32(f, b, at, w, |f, b, at| f.right.decode(b, at, 32).map(|(v, end)| (v % 268_435_456, end))), ..RIGHT }),
    ]
}

/// Faults of writing.
fn outputs() -> Vec<Written> {
    vec![
        ("a number writes a byte before refusal 10", CALLS, Hooks { encode: number_part, ..RIGHT }),
        ("a number needs one place too many", CALLS, Hooks { encode: |f, v, out, at| number_needs(f, v, out, at), ..RIGHT }),
        ("a number clears the byte after it", CALLS, Hooks { encode: number_clears, ..RIGHT }),
        ("a number at the last position wraps", CALLS, Hooks { encode: |f, v, out, at| f.right.encode(v, out, if at == usize::MAX { 0 } else { at }), ..RIGHT }),
        ("a number is written in a long form", CALLS, Hooks { encode: long_written, ..RIGHT }),
        ("a number is read and written longest group first", CALLS, Hooks { encode: turned_written, decode: turned_read, ..RIGHT }),
        ("a record writes a byte before refusal 10", CALLS, Hooks { write_record: record_part, ..RIGHT }),
        ("a record needs one place too many", CALLS, Hooks { write_record: record_needs, ..RIGHT }),
        ("a record is written with its ends changed", CALLS, Hooks { write_record: |f, e, out, at| f.right.write_record(turned(e), out, at), ..RIGHT }),
        ("a record past the end is cut short", CALLS, Hooks { write_record: |f, e, out, at| if at > out.len() { Err(1) } else { f.right.write_record(e, out, at) }, ..RIGHT }),
    ]
}

/// Faults of reading records.
fn records() -> Vec<Written> {
    vec![
        ("an unknown kind is judged after the fields", ALL, Hooks { read_record: kind_after_fields, ..RIGHT }),
        ("kind 2 is a disable", ALL, Hooks { read_record: |f, b, at| kind_taken(f, b, at, |kind| kind == 2), ..RIGHT }),
        ("the kind is taken by its low byte", ALL, Hooks { read_record: |f, b, at| kind_taken(f, b, at, |kind| kind > 255 && kind % 256 == 1), ..RIGHT }),
        ("the kind is a single byte", ALL, Hooks { read_record: kind_byte, ..RIGHT }),
        ("a record is read with its ends changed", ALL, Hooks { read_record: |f, b, at| read_by_numbers(f, b, at).map(|(e, end)| (turned(e), end)), ..RIGHT }),
        ("the reader judges from equal to to", CALLS, Hooks { read_record: judging, ..RIGHT }),
        ("a record that is cut short is long", ALL, Hooks { read_record: |f, b, at| read_by_numbers(f, b, at).map_err(|refusal| if refusal == 1 { 2 } else { refusal }), ..RIGHT }),
        ("a later field's refusal is answered", CALLS, Hooks { read_record: later_field, ..RIGHT }),
    ]
}

/// Faults of the replay's answer.
fn replays() -> Vec<Written> {
    vec![
        ("the byte after the refused record", RUNS, Hooks { replay: byte_after, ..RIGHT }),
        ("the byte of the refused record counted from 1", RUNS, Hooks { replay: |f, b, l| stopped(replay_by_calls(f, b, l), |run| run.byte += 1), ..RIGHT }),
        ("the byte of a refused n is 1", RUNS, Hooks { replay: |f, b, l| unbegun(replay_by_calls(f, b, l), |run| run.byte = 1), ..RIGHT }),
        ("the events count the refused one", REPLAY_ALONE, Hooks { replay: |f, b, l| stopped(replay_by_calls(f, b, l), |run| run.events += 1), ..RIGHT }),
        ("a refused replay answers no events", REPLAY_ALONE, Hooks { replay: |f, b, l| stopped(replay_by_calls(f, b, l), |run| run.events = 0), ..RIGHT }),
        ("a refused replay answers no gain", REPLAY_ALONE, Hooks { replay: |f, b, l| stopped(replay_by_calls(f, b, l), |run| run.gain = 0), ..RIGHT }),
        ("a refused replay answers no header", REPLAY_ALONE, Hooks { replay: |f, b, l| stopped(replay_by_calls(f, b, l), |run| run.header = Header::default()), ..RIGHT }),
        ("a refused n answers its header", REPLAY_ALONE, Hooks { replay: |f, b, l| unbegun(replay_by_calls(f, b, l), |run| run.header.containers = 257), ..RIGHT }),
        ("a refused replay leaves the storage as it was", REPLAY_ALONE, Hooks { replay: undone, ..RIGHT }),
        ("a refused replay starts anew", RUNS, Hooks { replay: anew, ..RIGHT }),
        ("a complete replay answers its length", REPLAY_ALONE, Hooks { replay: |f, b, l| complete(replay_by_calls(f, b, l), |run| run.byte = b.len() as u64), ..RIGHT }),
        ("the gain is that of the last event", RUNS, Hooks { replay: last_gain, ..RIGHT }),
        ("a cut last record is left out", RUNS, Hooks { replay: cut_left_out, ..RIGHT }),
        ("refused events are left out", RUNS, Hooks { replay: refused_left_out, ..RIGHT }),
        ("9 before 1 and 2", REPLAY_ALONE, Hooks { replay: nine_first, ..RIGHT }),
        ("a replay needs storage for 256", REPLAY_ALONE, Hooks { replay: needs_all, ..RIGHT }),
        ("a replay goes on with the tracker that is there", REPLAY_ALONE, Hooks { replay: policies_kept, ..RIGHT }),
    ]
}

/// A number read wrongly where it has 32 bits, and rightly at every other width.
fn at_32(f: &Faulty, bytes: &[u8], at: usize, width: u32, wrong: impl Fn(&Faulty, &[u8], usize) -> Result<(u64, usize), u32>) -> Result<(u64, usize), u32> {
    if width == 32 { wrong(f, bytes, at) } else { f.right.decode(bytes, at, width) }
}

/// The value and the end of up to five groups, whatever their form.
fn loose(bytes: &[u8], at: usize) -> Option<(u64, usize)> {
    let mut value = 0_u64;
    for (place, byte) in bytes.get(at..)?.iter().take(5).enumerate() {
        value |= u64::from(byte % 128) << (7 * place);
        if *byte < 128 || place == 4 {
            return Some((value % (1 << 32), at + place + 1));
        }
    }
    None
}

/// Accepts a last group of 0.
fn long_accepted(f: &Faulty, bytes: &[u8], at: usize) -> Result<(u64, usize), u32> {
    match (f.right.decode(bytes, at, 32), loose(bytes, at)) {
        (Err(2), Some((value, end))) if bytes[end - 1] == 0 => Ok((value, end)),
        (given, _) => given,
    }
}

/// Accepts 128 0.
fn long_zero_accepted(f: &Faulty, bytes: &[u8], at: usize) -> Result<(u64, usize), u32> {
    match (f.right.decode(bytes, at, 32), loose(bytes, at)) {
        (Err(2), Some((0, end))) if end - at == 2 => Ok((0, end)),
        (given, _) => given,
    }
}

/// Accepts some of the fifth bytes that are refused.
fn fifth_accepted(f: &Faulty, bytes: &[u8], at: usize, which: impl Fn(u8) -> bool) -> Result<(u64, usize), u32> {
    match (f.right.decode(bytes, at, 32), loose(bytes, at)) {
        (Err(2), Some((value, end))) if end - at == 5 && which(bytes[end - 1]) => Ok((value, end)),
        (given, _) => given,
    }
}

/// Refuses a fifth byte of 15.
fn fifteen_refused(f: &Faulty, bytes: &[u8], at: usize) -> Result<(u64, usize), u32> {
    f.right.decode(bytes, at, 32).and_then(|(value, end)| if value >= 0xF000_0000 { Err(2) } else { Ok((value, end)) })
}

/// Answers 1 where the fifth byte is above 127 and nothing follows it.
fn sixth_asked(f: &Faulty, bytes: &[u8], at: usize) -> Result<(u64, usize), u32> {
    match (f.right.decode(bytes, at, 32), loose(bytes, at)) {
        (Err(2), Some((_, end))) if end == bytes.len() && bytes[end - 1] > 127 => Err(1),
        (given, _) => given,
    }
}

/// Takes the end of the bytes for the end of a number that has begun.
fn cut_accepted(f: &Faulty, bytes: &[u8], at: usize) -> Result<(u64, usize), u32> {
    match f.right.decode(bytes, at, 32) {
        Err(1) if at < bytes.len() => Ok((u64::from(bytes[at] % 128), bytes.len())),
        given => given,
    }
}

/// Writes what fits of a number before it refuses.
fn number_part(f: &Faulty, value: u64, out: &mut [u8], at: usize) -> Result<usize, u32> {
    let given = f.right.encode(value, out, at);
    if let (Err(10), Some(byte)) = (given, out.get_mut(at)) {
        *byte = value as u8 | 128;
    }
    given
}

/// Refuses an output in which a number just fits.
fn number_needs(f: &Faulty, value: u64, out: &mut [u8], at: usize) -> Result<usize, u32> {
    let mut other = out.to_vec();
    let end = f.right.encode(value, &mut other, at)?;
    if end == out.len() {
        return Err(10);
    }
    out.copy_from_slice(&other);
    Ok(end)
}

/// Clears the byte after a number.
fn number_clears(f: &Faulty, value: u64, out: &mut [u8], at: usize) -> Result<usize, u32> {
    let end = f.right.encode(value, out, at)?;
    if let Some(byte) = out.get_mut(end) {
        *byte = 0;
    }
    Ok(end)
}

/// Adds a group of 0 where there is room.
fn long_written(f: &Faulty, value: u64, out: &mut [u8], at: usize) -> Result<usize, u32> {
    let end = f.right.encode(value, out, at)?;
    if end >= out.len() {
        return Ok(end);
    }
    out[end - 1] |= 128;
    out[end] = 0;
    Ok(end + 1)
}

/// Writes the groups in falling order.
fn turned_written(f: &Faulty, value: u64, out: &mut [u8], at: usize) -> Result<usize, u32> {
    let end = f.right.encode(value, out, at)?;
    out[at..end].reverse();
    Ok(end)
}

/// Reads groups in falling order where the bytes are such a number.
fn turned_read(f: &Faulty, bytes: &[u8], at: usize, width: u32) -> Result<(u64, usize), u32> {
    for end in at.saturating_add(1)..=bytes.len().min(at.saturating_add(10)) {
        let mut part = bytes[at..end].to_vec();
        part.reverse();
        if let Ok((value, length)) = f.right.decode(&part, 0, width) {
            if length == part.len() && length > 1 {
                return Ok((value, end));
            }
        }
    }
    f.right.decode(bytes, at, width)
}

/// Writes the kind before it refuses a record.
fn record_part(f: &Faulty, event: Event, out: &mut [u8], at: usize) -> Result<usize, u32> {
    let given = f.right.write_record(event, out, at);
    if let (Err(10), Some(byte)) = (given, out.get_mut(at)) {
        *byte = u8::from(matches!(event, Event::Disable(_)));
    }
    given
}

/// Refuses an output in which a record just fits.
fn record_needs(f: &Faulty, event: Event, out: &mut [u8], at: usize) -> Result<usize, u32> {
    let mut other = out.to_vec();
    let end = f.right.write_record(event, &mut other, at)?;
    if end == out.len() {
        return Err(10);
    }
    out.copy_from_slice(&other);
    Ok(end)
}

/// The event with its ends changed.
fn turned(event: Event) -> Event {
    match event {
        Event::Enable(flow) => Event::Enable(Flow { number: flow.number, from: flow.to, to: flow.from }),
        other => other,
    }
}

/// Reads a number after an unknown kind before it refuses the kind.
fn kind_after_fields(f: &Faulty, bytes: &[u8], at: usize) -> Result<(Event, usize), u32> {
    let given = read_by_numbers(f, bytes, at);
    if given == Err(3) {
        let (_, at) = f.right.decode(bytes, at, 32)?;
        f.right.decode(bytes, at, 32)?;
    }
    given
}

/// Takes some unknown kinds for a disable.
fn kind_taken(f: &Faulty, bytes: &[u8], at: usize, which: impl Fn(u64) -> bool) -> Result<(Event, usize), u32> {
    let given = read_by_numbers(f, bytes, at);
    let (kind, after) = f.right.decode(bytes, at, 32)?;
    if given != Err(3) || !which(kind) {
        return given;
    }
    f.right.decode(bytes, after, 32).map(|(number, end)| (Event::Disable(number as u32), end))
}

/// Refuses every kind whose first byte is not 0 or 1 as unknown.
fn kind_byte(f: &Faulty, bytes: &[u8], at: usize) -> Result<(Event, usize), u32> {
    match bytes.get(at) {
        Some(kind) if *kind > 1 => Err(3),
        _ => read_by_numbers(f, bytes, at),
    }
}

/// Answers 5 where from equals to.
fn judging(f: &Faulty, bytes: &[u8], at: usize) -> Result<(Event, usize), u32> {
    match read_by_numbers(f, bytes, at)? {
        (Event::Enable(flow), _) if flow.from == flow.to => Err(5),
        read => Ok(read),
    }
}

/// Answers 1 where a number of an enable is long and the bytes end there.
fn later_field(f: &Faulty, bytes: &[u8], at: usize) -> Result<(Event, usize), u32> {
    let given = read_by_numbers(f, bytes, at);
    match f.right.decode(bytes, at, 32) {
        Ok((0, after)) if given == Err(2) && f.right.decode(bytes, after, 32) == Err(2) => match loose(bytes, after) {
            Some((_, end)) if end == bytes.len() => Err(1),
            _ => given,
        },
        _ => given,
    }
}

/// A replay that was refused after its beginning, changed.
fn stopped(mut run: Replayed, change: impl Fn(&mut Replayed)) -> Replayed {
    if run.refusal != 0 && run.header.containers != 0 {
        change(&mut run);
    }
    run
}

/// A replay that never began, changed.
fn unbegun(mut run: Replayed, change: impl Fn(&mut Replayed)) -> Replayed {
    if run.refusal != 0 && run.header.containers == 0 {
        change(&mut run);
    }
    run
}

/// A replay that came to its end, changed.
fn complete(mut run: Replayed, change: impl Fn(&mut Replayed)) -> Replayed {
    if run.refusal == 0 {
        change(&mut run);
    }
    run
}

/// Answers the byte after the refused record where the record could be read.
fn byte_after(f: &Faulty, bytes: &[u8], lent: &mut Lent) -> Replayed {
    stopped(replay_by_calls(f, bytes, lent), |run| {
        if let Ok((_, end)) = f.right.read_record(bytes, run.byte as usize) {
            run.byte = end as u64;
        }
    })
}

/// Takes back all events where one was refused.
fn undone(f: &Faulty, bytes: &[u8], lent: &mut Lent) -> Replayed {
    let before = lent.clone();
    let run = replay_by_calls(f, bytes, lent);
    if run.refusal != 0 {
        *lent = before;
    }
    run
}

/// Leaves a tracker as at its start where an event was refused.
fn anew(f: &Faulty, bytes: &[u8], lent: &mut Lent) -> Replayed {
    let run = replay_by_calls(f, bytes, lent);
    if run.refusal != 0 && run.header.containers != 0 {
        let header = f.right.start(run.header.containers, lent).header;
        return Replayed { header, ..run };
    }
    run
}

/// Answers the gain of the last event that was done.
fn last_gain(f: &Faulty, bytes: &[u8], lent: &mut Lent) -> Replayed {
    let mut other = lent.clone();
    let run = replay_by_calls(f, bytes, lent);
    let (mut end, mut last) = (0, 0);
    while let Ok((event, after)) = f.right.read_record(bytes, end.max(f.right.read_head(bytes).map_or(0, |(_, at)| at))) {
        last = if matches!(event, Event::Enable(_)) { end.max(f.right.read_head(bytes).map_or(0, |(_, at)| at)) } else { after };
        if run.refusal != 0 && after as u64 > run.byte {
            break;
        }
        end = after;
    }
    let before = replay_by_calls(f, &bytes[..last.min(bytes.len())], &mut other);
    Replayed { gain: run.gain.saturating_sub(before.gain), ..run }
}

/// Takes a record that is cut short for the end.
fn cut_left_out(f: &Faulty, bytes: &[u8], lent: &mut Lent) -> Replayed {
    stopped(replay_by_calls(f, bytes, lent), |run| {
        if run.refusal == 1 {
            run.refusal = 0;
            run.byte = 0;
        }
    })
}

/// Goes on after an event that is refused as if it were not there.
fn refused_left_out(f: &Faulty, bytes: &[u8], lent: &mut Lent) -> Replayed {
    let run = replay_by_calls(f, bytes, lent);
    let at = run.byte as usize;
    match f.right.read_record(bytes, at) {
        Ok((_, end)) if (4..=8).contains(&run.refusal) => {
            let rest = [&bytes[..at], &bytes[end..]].concat();
            refused_left_out(f, &rest, lent)
        }
        _ => run,
    }
}

/// Answers 9 for a table of fewer than 512 records before n is read.
fn nine_first(f: &Faulty, bytes: &[u8], lent: &mut Lent) -> Replayed {
    let short = lent.flows.len() < 512;
    let run = replay_by_calls(f, bytes, lent);
    if short { Replayed { refusal: 9, ..Replayed::default() } } else { run }
}

/// Refuses storage that is too short for 256 containers.
fn needs_all(f: &Faulty, bytes: &[u8], lent: &mut Lent) -> Replayed {
    if lent.tags.len() < 1024 && f.right.read_head(bytes).is_ok() {
        return Replayed { refusal: 9, ..Replayed::default() };
    }
    replay_by_calls(f, bytes, lent)
}

/// Keeps the policy sets that the storage held.
fn policies_kept(f: &Faulty, bytes: &[u8], lent: &mut Lent) -> Replayed {
    let (policies, counts) = (lent.policies.clone(), lent.counts.clone());
    let run = replay_by_calls(f, bytes, lent);
    lent.policies = policies;
    lent.counts = counts;
    run
}
