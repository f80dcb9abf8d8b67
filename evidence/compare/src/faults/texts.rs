//! Faults of the text that `tally` prints.
use super::{Written, TALLY};
use crate::inputs::MOST_BYTES;
use crate::wrapper::{ample, tally_by_text, text_by_calls, Faulty, Hooks, RIGHT};
use interface::{Lent, Replayed};

/// The faults of this file.
pub fn written() -> Vec<Written> {
    [lines(), limits(), many_events()].concat()
}

/// Faults of the lines.
fn lines() -> Vec<Written> {
    vec![
        ("text without the last newline", TALLY, Hooks { text: |f, b| text_by_calls(f, b).trim_end().to_string(), ..RIGHT }),
        ("text with an empty line at the end", TALLY, Hooks { text: |f, b| text_by_calls(f, b) + "\n", ..RIGHT }),
        ("lines end in two bytes", TALLY, Hooks { text: |f, b| text_by_calls(f, b).replace('\n', "\r\n"), ..RIGHT }),
        ("events line after a refusal", TALLY, Hooks { text: events_after_refusal, ..RIGHT }),
        ("events line instead of a refusal", TALLY, Hooks { text: events_instead, ..RIGHT }),
        ("no container lines after a refusal", TALLY, Hooks { text: no_lines_refused, ..RIGHT }),
        ("tags falling", TALLY, Hooks { text: tags_falling, ..RIGHT }),
        ("tags sorted as words", TALLY, Hooks { text: tags_as_words, ..RIGHT }),
        ("no size", TALLY, Hooks { text: no_size, ..RIGHT }),
        ("a space at the end of a line", TALLY, Hooks { text: |f, b| text_by_calls(f, b).replace('\n', " \n"), ..RIGHT }),
        ("double spaces", TALLY, Hooks { text: |f, b| text_by_calls(f, b).replace(' ', "  "), ..RIGHT }),
        ("container lines by number", TALLY, Hooks { text: by_number, ..RIGHT }),
        ("the last container is left out", TALLY, Hooks { text: last_left_out, ..RIGHT }),
        ("capital letters", TALLY, Hooks { text: |f, b| text_by_calls(f, b).replace("events", "Events").replace("refused", "Refused"), ..RIGHT }),
        ("empty input is an empty log", TALLY, Hooks { text: |f, b| if b.is_empty() { "events 0 gain 0\n".into() } else { text_by_calls(f, b) }, ..RIGHT }),
        ("empty input gives no text", TALLY, Hooks { text: |f, b| if b.is_empty() { String::new() } else { text_by_calls(f, b) }, ..RIGHT }),
    ]
}

/// Faults of the limits of input and output.
fn limits() -> Vec<Written> {
    vec![
        ("input of 16,384 bytes is refused", TALLY, Hooks { text: |f, b| if b.len() >= MOST_BYTES { limit_line(MOST_BYTES) } else { text_by_calls(f, b) }, ..RIGHT }),
        ("input of 16,385 bytes is accepted", TALLY, Hooks { text: |f, b| text_by_calls(f, if b.len() == MOST_BYTES + 1 { &b[..MOST_BYTES] } else { b }), ..RIGHT }),
        ("longer input is cut", TALLY, Hooks { text: |f, b| text_by_calls(f, &b[..b.len().min(MOST_BYTES)]), ..RIGHT }),
        ("longer input is refused at its length", TALLY, Hooks { text: |f, b| if b.len() > MOST_BYTES { limit_line(b.len()) } else { text_by_calls(f, b) }, ..RIGHT }),
        ("longer input gives lines before the refusal", TALLY, Hooks { text: lines_before_limit, ..RIGHT }),
        ("n is judged before the length", TALLY, Hooks { text: containers_first, ..RIGHT }),
        ("an early refused record is told before the length", TALLY, Hooks { text: early_refusal, ..RIGHT }),
        ("the length is taken modulo 65,536", TALLY, Hooks { text: |f, b| text_by_calls(f, if b.len() > 65_535 { &b[..b.len() % 65_536] } else { b }), ..RIGHT }),
        ("the length is taken modulo 32,768", TALLY, Hooks { text: |f, b| text_by_calls(f, if b.len() > 32_767 { &b[..b.len() % 32_768] } else { b }), ..RIGHT }),
        ("text that just fits is refused", TALLY, Hooks { tally: just_refused, ..RIGHT }),
        ("text that lacks one place is accepted", TALLY, Hooks { tally: one_short, ..RIGHT }),
        ("text is written before refusal 10", TALLY, Hooks { tally: written_before, ..RIGHT }),
        ("the place after the text is cleared", TALLY, Hooks { tally: cleared_after, ..RIGHT }),
    ]
}

/// Faults that show from 4,096 events on.
pub fn many_events() -> Vec<Written> {
    vec![
        ("the events are told modulo 4,096", TALLY, Hooks { text: |f, b| counted(f, b, |run| run.events %= 4_096), ..RIGHT }),
        ("the text is that of the first 4,096 events", TALLY, Hooks { replay: |f, b, l| first_events(f, b, l, false), ..RIGHT }),
        ("no gain is counted from 4,096 events on", TALLY, Hooks { replay: |f, b, l| first_events(f, b, l, true), ..RIGHT }),
    ]
}

/// The right text, its events and gain told after a change.
fn counted(f: &Faulty, bytes: &[u8], change: impl Fn(&mut Replayed)) -> String {
    let (lines, last) = parts(f, bytes);
    let mut run = f.right.replay(bytes, &mut ample());
    change(&mut run);
    if last.starts_with("refused") { joined(lines, &last) } else { joined(lines, &format!("events {} gain {}", run.events, run.gain)) }
}

/// A replay of the first 4,096 events; or of all, with the gain of those first ones.
fn first_events(f: &Faulty, bytes: &[u8], lent: &mut Lent, all: bool) -> Replayed {
    let first = f.right.replay(&bytes[..beginning(f, bytes, 4_096)], lent);
    if all { Replayed { gain: first.gain, ..f.right.replay(bytes, lent) } } else { first }
}

/// The bytes of n and of the first so many records, or all.
fn beginning(f: &Faulty, bytes: &[u8], records: usize) -> usize {
    let Ok((_, mut at)) = f.right.read_head(bytes) else { return bytes.len() };
    for _ in 0..records {
        match f.right.read_record(bytes, at) {
            Ok((_, end)) => at = end,
            Err(_) => return bytes.len(),
        }
    }
    at
}

/// The line of an input that is too long.
fn limit_line(at: usize) -> String {
    format!("refused 10 at {at}\n")
}

/// Tells a refused n before the length.
fn containers_first(f: &Faulty, bytes: &[u8]) -> String {
    let run = f.right.replay(&bytes[..bytes.len().min(8)], &mut ample());
    let refused = bytes.len() > MOST_BYTES && run.refusal != 0 && run.header.containers == 0;
    if refused { format!("refused {} at 0\n", run.refusal) } else { text_by_calls(f, bytes) }
}

/// Tells the lines and the refusal of a record that begins within the first 16,384 bytes of a longer input.
fn early_refusal(f: &Faulty, bytes: &[u8]) -> String {
    let beginning = &bytes[..bytes.len().min(MOST_BYTES)];
    let run = f.right.replay(beginning, &mut ample());
    let early = bytes.len() > MOST_BYTES && run.refusal != 0 && run.header.containers != 0;
    text_by_calls(f, if early { beginning } else { bytes })
}

/// The right text in its lines, the last one apart.
fn parts(f: &Faulty, bytes: &[u8]) -> (Vec<String>, String) {
    let text = text_by_calls(f, bytes);
    let mut lines: Vec<String> = text.lines().map(str::to_string).collect();
    let last = lines.pop().unwrap_or_default();
    (lines, last)
}

/// A text of these lines.
fn joined(lines: Vec<String>, last: &str) -> String {
    lines.iter().map(|line| format!("{line}\n")).collect::<String>() + last + "\n"
}

/// Each container line changed by a rule on its words.
fn each_line(f: &Faulty, bytes: &[u8], rule: impl Fn(&mut Vec<String>)) -> String {
    let (lines, last) = parts(f, bytes);
    let changed = |line: &String| {
        let mut words: Vec<String> = line.split(' ').map(str::to_string).collect();
        rule(&mut words);
        words.join(" ")
    };
    joined(lines.iter().map(changed).collect(), &last)
}

/// Adds a line of events after that of the refusal.
fn events_after_refusal(f: &Faulty, bytes: &[u8]) -> String {
    let text = text_by_calls(f, bytes);
    if text.contains("refused") { text + "events 0 gain 0\n" } else { text }
}

/// Writes a line of events instead of the refusal's.
fn events_instead(f: &Faulty, bytes: &[u8]) -> String {
    let (lines, last) = parts(f, bytes);
    let right = !last.starts_with("refused") || lines.is_empty();
    joined(lines, if right { &last } else { "events 0 gain 0" })
}

/// Writes only the refusal's line.
fn no_lines_refused(f: &Faulty, bytes: &[u8]) -> String {
    let (lines, last) = parts(f, bytes);
    if last.starts_with("refused") { joined(Vec::new(), &last) } else { joined(lines, &last) }
}

/// Writes the tags from the highest down.
fn tags_falling(f: &Faulty, bytes: &[u8]) -> String {
    each_line(f, bytes, |words| words[2..].reverse())
}

/// Writes 10 before 9.
fn tags_as_words(f: &Faulty, bytes: &[u8]) -> String {
    each_line(f, bytes, |words| words[2..].sort())
}

/// Leaves out the size.
fn no_size(f: &Faulty, bytes: &[u8]) -> String {
    each_line(f, bytes, |words| drop(words.remove(1)))
}

/// Writes the containers by rising number.
fn by_number(f: &Faulty, bytes: &[u8]) -> String {
    let (mut lines, last) = parts(f, bytes);
    lines.sort_by_key(|line| line.split(' ').next().and_then(|word| word.parse::<u32>().ok()));
    joined(lines, &last)
}

/// Leaves out the last container.
fn last_left_out(f: &Faulty, bytes: &[u8]) -> String {
    let (mut lines, last) = parts(f, bytes);
    lines.pop();
    joined(lines, &last)
}

/// Writes the container lines of the beginning before the refusal of a longer input.
fn lines_before_limit(f: &Faulty, bytes: &[u8]) -> String {
    if bytes.len() <= MOST_BYTES {
        return text_by_calls(f, bytes);
    }
    let (lines, _) = parts(f, &bytes[..MOST_BYTES]);
    joined(lines, "refused 10 at 16384")
}

/// Refuses an output in which the text just fits.
fn just_refused(f: &Faulty, bytes: &[u8], out: &mut [u8]) -> Result<usize, u32> {
    let length = text_by_calls(f, bytes).len();
    if length == out.len() { Err(10) } else { tally_by_text(f, bytes, out) }
}

/// Accepts an output that lacks one place.
fn one_short(f: &Faulty, bytes: &[u8], out: &mut [u8]) -> Result<usize, u32> {
    let text = text_by_calls(f, bytes);
    if text.len() != out.len() + 1 {
        return tally_by_text(f, bytes, out);
    }
    let room = out.len();
    out.copy_from_slice(&text.as_bytes()[..room]);
    Ok(room)
}

/// Fills the output as far as it goes before it refuses.
fn written_before(f: &Faulty, bytes: &[u8], out: &mut [u8]) -> Result<usize, u32> {
    let given = tally_by_text(f, bytes, out);
    if given.is_err() {
        let room = out.len();
        out.copy_from_slice(&text_by_calls(f, bytes).as_bytes()[..room]);
    }
    given
}

/// Clears the place after the text.
fn cleared_after(f: &Faulty, bytes: &[u8], out: &mut [u8]) -> Result<usize, u32> {
    let length = tally_by_text(f, bytes, out)?;
    if let Some(byte) = out.get_mut(length) {
        *byte = 0;
    }
    Ok(length)
}
