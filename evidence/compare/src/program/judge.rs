//! What a run must leave, and whether it did.
use super::run::{Ending, Seen};
use super::setup::Setup;
use interface::Implementation;
use product::Product;
use reference::Reference;

/// The bytes of a stream that are shown at most.
const SHOWN: usize = 300;
/// Room for every text.
const ROOM: usize = 300_000;

/// The text for an input, by the proved library and by the independent one: what the program prints must be both.
#[derive(Clone, Debug, PartialEq, Eq)]
pub struct Text {
    pub product: Vec<u8>,
    pub reference: Vec<u8>,
}

impl Text {
    /// The text for this input.
    pub fn of(bytes: &[u8]) -> Text {
        Text { product: text_by(&Product, bytes), reference: text_by(&Reference, bytes) }
    }

    /// Whether these bytes are the whole text.
    fn is(&self, bytes: &[u8]) -> bool {
        bytes == self.product && bytes == self.reference
    }

    /// Whether these bytes are a beginning of the text, and not the whole of it.
    fn begins_with(&self, bytes: &[u8]) -> bool {
        self.product.starts_with(bytes) && self.reference.starts_with(bytes) && !self.is(bytes)
    }
}

/// The text for this input by one implementation.
fn text_by(one: &dyn Implementation, bytes: &[u8]) -> Vec<u8> {
    let mut out = vec![0; ROOM];
    let length = one.tally(bytes, &mut out).expect("room for every text");
    out.truncate(length);
    out
}

/// What must come on standard output.
#[derive(Clone, Debug)]
pub enum Printed {
    Nothing,
    /// The whole text.
    Whole(Text),
    /// A beginning of the text, and not the whole of it.
    Part(Text),
    /// How the program is used.
    Usage,
}

/// What must come on standard error.
#[derive(Clone, Debug)]
pub enum Said {
    Nothing,
    /// This line alone.
    Line(Vec<u8>),
    /// One line that begins with the first, has the second in it and ends with the third.
    LineLike(&'static str, &'static str, &'static str),
    /// It is closed, and nothing can be seen.
    Unseen,
}

/// What a run must leave.
#[derive(Clone, Debug)]
pub struct Expected {
    pub printed: Printed,
    pub said: Said,
}

impl Expected {
    /// The text for this input, and nothing else.
    pub fn text(bytes: &[u8]) -> Expected {
        Expected { printed: Printed::Whole(Text::of(bytes)), said: Said::Nothing }
    }

    /// Nothing but this line on standard error: `tally: `, the name, `: `, the reason.
    pub fn line(name: &[u8], reason: &str) -> Expected {
        Expected { printed: Printed::Nothing, said: Said::Line(line(name, reason)) }
    }

    /// A beginning of the text, and a line about standard output.
    pub fn part(bytes: &[u8], reason: &str) -> Expected {
        Expected { printed: Printed::Part(Text::of(bytes)), said: Said::Line(line(b"standard output", reason)) }
    }

    /// Whether the run left what it must, in short words; or what it must leave and what it left.
    pub fn judge(&self, setup: &Setup, seen: &Seen) -> Result<String, String> {
        match self.wrong(setup, seen) {
            None => Ok(self.to_short()),
            Some(what) => Err(format!("{what}\n  expected: {}\n  seen:     {}", self.to_long(), seen_words(seen))),
        }
    }

    /// What is wrong with the run, if anything is.
    fn wrong(&self, setup: &Setup, seen: &Seen) -> Option<String> {
        match seen.ending {
            Ending::Late => return Some("the program did not end within the limit and was killed".to_string()),
            Ending::Signal(number) => return Some(format!("signal {number} ended the program")),
            Ending::Status(0) => {}
            Ending::Status(number) => return Some(format!("the exit status is {number}")),
        }
        if !self.printed.fits(&seen.output) {
            return Some("standard output is not as it must be".to_string());
        }
        if !self.said.fits(&seen.errors) {
            return Some("standard error is not as it must be".to_string());
        }
        if seen.touched {
            return Some("standard input was read".to_string());
        }
        let mut parts = setup.script.parts().into_iter();
        parts.find_map(|(call, words)| {
            untaken(call, words, seen).filter(|_| call != "close" || !setup.script.closes_may_be_left)
        })
    }

    /// What must be left, in a few words.
    fn to_short(&self) -> String {
        let printed = match &self.printed {
            Printed::Nothing => "nothing".to_string(),
            Printed::Whole(text) => format!("the library's text, {} bytes", text.product.len()),
            Printed::Part(_) => "a part of the text".to_string(),
            Printed::Usage => "the usage".to_string(),
        };
        match &self.said {
            Said::Nothing | Said::Unseen => printed,
            Said::Line(line) => format!("{printed}, and \"{}\"", cut(line.trim_ascii_end(), 80)),
            Said::LineLike(begin, has, end) => format!("{printed}, and a line \"{begin}...{has}...{end}\""),
        }
    }

    /// What must be left, in full.
    fn to_long(&self) -> String {
        let printed = match &self.printed {
            Printed::Nothing => "nothing".to_string(),
            Printed::Whole(text) if text.product == text.reference => shown(&text.product),
            Printed::Whole(text) => {
                format!("both {} and {} (the libraries differ)", shown(&text.product), shown(&text.reference))
            }
            Printed::Part(text) => format!("a beginning of {}", shown(&text.product)),
            Printed::Usage => "the usage, \"usage: tally\" first, with FILE and --help, a newline last".to_string(),
        };
        let said = match &self.said {
            Said::Nothing => "nothing".to_string(),
            Said::Line(line) => shown(line),
            Said::LineLike(begin, has, end) => format!("one line \"{begin}...{has}...{end}\""),
            Said::Unseen => "unseen".to_string(),
        };
        format!("status 0, standard output {printed}, standard error {said}")
    }
}

impl Printed {
    /// Whether this output is as it must be.
    fn fits(&self, output: &[u8]) -> bool {
        match self {
            Printed::Nothing => output.is_empty(),
            Printed::Whole(text) => text.is(output),
            Printed::Part(text) => text.begins_with(output),
            Printed::Usage => {
                let text = String::from_utf8_lossy(output);
                let words = text.contains("FILE") && text.contains("--help");
                text.starts_with("usage: tally") && words && text.ends_with('\n')
            }
        }
    }
}

impl Said {
    /// Whether this standard error is as it must be.
    fn fits(&self, errors: &[u8]) -> bool {
        match self {
            Said::Nothing => errors.is_empty(),
            Said::Line(line) => errors == line,
            Said::LineLike(begin, has, end) => {
                let text = String::from_utf8_lossy(errors);
                let Some(line) = text.strip_suffix('\n') else { return false };
                !line.contains('\n') && line.starts_with(begin) && line.contains(has) && line.ends_with(end)
            }
            Said::Unseen => true,
        }
    }
}

/// The line of a failure, each control byte of the name as a question mark.
pub fn line(name: &[u8], reason: &str) -> Vec<u8> {
    let name = name.iter().map(|byte| if *byte < 32 || *byte == 127 { b'?' } else { *byte });
    b"tally: ".iter().copied().chain(name).chain(format!(": {reason}\n").bytes()).collect()
}

/// What is wrong where the program did not take all words for a call: then the case was not met.
fn untaken(call: &str, words: &str, seen: &Seen) -> Option<String> {
    let all: Vec<&str> = words.split_whitespace().collect();
    let taken = seen.taken.iter().filter_map(|note| note.split_once(' ')).filter(|(name, _)| *name == call);
    let taken: Vec<&str> = taken.map(|(_, word)| word).collect();
    (taken != all).then(|| format!("of {} words for {call} the program took {}", all.len(), taken.len()))
}

/// What was seen, in full.
fn seen_words(seen: &Seen) -> String {
    let ending = match seen.ending {
        Ending::Status(number) => format!("status {number}"),
        Ending::Signal(number) => format!("signal {number}"),
        Ending::Late => "killed at the limit".to_string(),
    };
    format!("{ending}, standard output {}, standard error {}", shown(&seen.output), shown(&seen.errors))
}

/// Some bytes as they are shown: escaped, and cut where there are many.
pub fn shown(bytes: &[u8]) -> String {
    match bytes.len() {
        0 => "nothing".to_string(),
        _ => format!("\"{}\"", cut(bytes, SHOWN)),
    }
}

/// Some bytes escaped, so many of them at most.
fn cut(bytes: &[u8], most: usize) -> String {
    let more = if bytes.len() > most { format!("... ({} bytes)", bytes.len()) } else { String::new() };
    format!("{}{more}", bytes[..bytes.len().min(most)].escape_ascii())
}
