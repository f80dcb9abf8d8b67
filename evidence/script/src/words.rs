//! The table of all words of a script: for each word the numbers that it takes, what it does, and the function that
//! does it. The lines are read by this table, and `script --help` prints it.

use crate::numbers::Numbers;
use crate::session::{Said, Session};
use crate::tracker::PLACES;
use std::fmt;
use More::{Bytes, Ends, Nothing, Tags};

mod calls;
mod logs;
mod looks;
mod runs;
mod writes;

/// A number that a word takes: its letter, the largest, and what is wrong with a larger one.
#[derive(Clone, Copy, Debug)]
pub struct Field {
    pub letter: &'static str,
    pub most: u64,
    pub above: &'static str,
}

/// What may follow the numbers that a word must have.
#[derive(Clone, Copy, Debug, PartialEq, Eq)]
pub enum More {
    /// Nothing.
    Nothing,
    /// Any number of bytes.
    Bytes,
    /// Any number of tags.
    Tags,
    /// From and to of a flow, both or neither.
    Ends,
}

/// A word.
pub struct Word {
    pub name: &'static str,
    pub takes: &'static [Field],
    pub more: More,
    pub run: fn(&mut Session<'_>, &Numbers) -> Said,
    pub does: &'static str,
}

/// The largest number of 32 bits.
pub const LARGEST: u64 = u32::MAX as u64;
/// The most places of a list or an output that a word makes.
const MOST_PLACES: u64 = 1_000_000;

/// A number up to this one.
const fn up_to(most: u64, letter: &'static str) -> Field {
    Field { letter, most, above: "a number too large for its place" }
}

/// How many places of a list are lent.
const fn room(list: usize, letter: &'static str) -> Field {
    Field { letter, most: PLACES[list] as u64, above: "more room than there is" }
}

/// n.
const N: Field = up_to(LARGEST, "N");
/// The number of a flow.
const K: Field = up_to(LARGEST, "K");
/// The container that a flow is from.
const F: Field = up_to(LARGEST, "F");
/// The container that a flow is to.
const T: Field = up_to(LARGEST, "T");
/// A container, or the count of flows in a header.
const C: Field = up_to(LARGEST, "C");
/// The greatest number.
const G: Field = up_to(LARGEST, "G");
/// A place of a list.
const I: Field = up_to(LARGEST, "I");
/// A width in bits.
const W: Field = up_to(LARGEST, "W");
/// A position.
const P: Field = up_to(u64::MAX, "P");
/// A word, or a number of the log.
const VALUE: Field = up_to(u64::MAX, "V");
/// A count of policy sets.
const COUNT: Field = up_to(255, "V");
/// A record of the table.
const RECORD: Field = up_to(PLACES[3] as u64 - 1, "I");
/// A large log.
const LOG: Field = up_to(4, "K");
/// How many flows are enabled at once, at most as many as a table can have.
const FILLED: Field = up_to(512, "N");
/// The places for a ranking.
const RANKED: Field = up_to(MOST_PLACES, "N");
/// The places for a text.
const LENGTH: Field = up_to(MOST_PLACES, "L");
/// The places of each list that are lent.
const ROOM: &[Field] = &[room(0, "T"), room(1, "P"), room(2, "C"), room(3, "F")];
/// The places of new lists.
const LENGTHS: &[Field] =
    &[up_to(MOST_PLACES, "T"), up_to(MOST_PLACES, "P"), up_to(MOST_PLACES, "C"), up_to(MOST_PLACES, "F")];
/// A byte.
const BYTE: Field = up_to(255, "B");
/// A tag of a set.
const TAG: Field = Field { letter: "T", most: 255, above: "a set's tag above 255" };

/// A row of the table.
const fn word(
    name: &'static str,
    takes: &'static [Field],
    more: More,
    run: fn(&mut Session<'_>, &Numbers) -> Said,
    does: &'static str,
) -> Word {
    Word { name, takes, more, run, does }
}

/// All words.
pub static WORDS: &[Word] = &[
    word("room", ROOM, Nothing, writes::room, "lends so many words of tags, words of policy sets, counts and records"),
    word("start", &[N], Nothing, calls::start, "starts a tracker of N containers"),
    word("enable", &[K, F, T], Nothing, calls::enable, "enables flow K from container F to container T"),
    word("disable", &[K], Nothing, calls::disable, "disables flow K"),
    word("add", &[C], Tags, calls::add, "adds the policy set of these tags, or of none, to container C"),
    word("fill", &[FILLED], Nothing, calls::fill, "enables N flows from 0 to 1, each numbered after the greatest"),
    word("set", &[C], Nothing, calls::set, "the tags of container C"),
    word("size", &[C], Nothing, calls::size, "how many tags container C has"),
    word("legal", &[C], Nothing, calls::legal, "whether container C may be sent"),
    word("rank", &[RANKED], Nothing, calls::rank, "the ranking, into N places of 7"),
    word("now", &[], Nothing, looks::now, "the header"),
    word("list", &[], Nothing, looks::list, "the records of the table, as many as the header counts"),
    word("view", &[], Nothing, looks::view, "the sets in the words, of as many containers as the header says"),
    word("record", &[RECORD], Nothing, looks::record, "record I of the table, whether lent or not"),
    word("word", &[I, VALUE], Nothing, writes::word, "writes word I of the tags, past the calls"),
    word("policy", &[I, VALUE], Nothing, writes::policy, "writes word I of the policy sets, past the calls"),
    word("count", &[C, COUNT], Nothing, writes::count, "writes how many policy sets C has, past the calls"),
    word("flow", &[I, K, F, T], Nothing, writes::flow, "writes record I of the table, past the calls"),
    word("header", &[N, C, G], Nothing, writes::header, "writes n, the count of flows and the greatest number"),
    word("exec", &[F, T], Nothing, writes::exec, "adds the tags of container F to those of T in the words; no call"),
    word("number", &[VALUE], Nothing, logs::number, "the bytes of the number V in a log"),
    word("decode", &[W, P], Bytes, logs::decode, "the number of at most W bits at position P of these bytes"),
    word("put", &[P, VALUE], Nothing, logs::put, "writes the number V at position P of three bytes of 7"),
    word("log", &[], Bytes, logs::log, "reads a log: n and the records, up to the end or the refusal"),
    word("item", &[P], Bytes, logs::item, "reads the record at position P of these bytes"),
    word(
        "write",
        &[P, K],
        Ends,
        logs::write,
        "writes the record that disables K, or that enables K F T, at position P of eight bytes of 7",
    ),
    word("begin", &[N], Nothing, logs::begin, "writes n at the start of four bytes of 7"),
    word("bytes", &[K], Ends, logs::bytes, "how many bytes the record takes that disables K, or that enables K F T"),
    word("judge", LENGTHS, Bytes, runs::judge, "n of a log and the position after it, with new lists of these lengths"),
    word("replay", &[], Bytes, runs::replay, "replays a log in the tracker"),
    word(
        "tally",
        &[],
        Bytes,
        runs::tally,
        "the text of the program tally for these bytes, or its length above 512 bytes; the tracker stays as it is",
    ),
    word("short", &[LENGTH], Bytes, runs::short, "the same text into L bytes of 7"),
    word(
        "large",
        &[LOG],
        Nothing,
        runs::large,
        "writes a large log, replays it in the tracker, and gives its text. 0: n 2 and flows 1 to 513 from 0 to 1; \
         1: n 2 and flows 1 to 2080 from 0 to 1, each disabled directly after, but the last: 16,384 bytes; \
         2: the same and one byte 0 more; 3: n 256 alone; 4: n 256 and flow k from k-1 to k mod 256 for k 1 to 256",
    ),
    word(
        "lent",
        &[K, F, T],
        Bytes,
        runs::lent,
        "replays a log and then enables K F T, in the tracker's tags, policy sets and counts and a table of its own of \
         513 records of 7 8 9; the tracker's table and header stay as they are",
    ),
];

impl Word {
    /// The number at a place, or nothing where the word takes no more.
    pub fn field(&self, place: usize) -> Option<&Field> {
        let after = |taken: usize| match self.more {
            Nothing => None,
            Bytes => Some(&BYTE),
            Tags => Some(&TAG),
            Ends => [&F, &T].get(taken).copied(),
        };
        self.takes.get(place).or_else(|| after(place - self.takes.len()))
    }

    /// Whether so many numbers are all that the word takes.
    pub fn is_enough(&self, numbers: usize) -> bool {
        let half = self.more == Ends && numbers == self.takes.len() + 1;
        numbers >= self.takes.len() && !half
    }

    /// The word and the letters of its numbers.
    pub fn form(&self) -> String {
        let letters: String = self.takes.iter().map(|field| format!(" {}", field.letter)).collect();
        let more = match self.more {
            Nothing => "",
            Bytes => " B..",
            Tags => " T..",
            Ends => " [F T]",
        };
        format!("{}{letters}{more}", self.name)
    }
}

impl fmt::Debug for Word {
    /// Shows the form.
    fn fmt(&self, f: &mut fmt::Formatter<'_>) -> fmt::Result {
        f.write_str(&self.form())
    }
}
