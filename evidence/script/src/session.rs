//! One implementation that runs the lines of a script, on a tracker of its own.

use crate::line::Line;
use crate::side::Side;
use crate::tracker::Tracker;
use interface::{Answer, Header, Implementation, Lent, Replayed};
use std::panic::{catch_unwind, AssertUnwindSafe};

/// What is printed directly after the line; or, as an error, why the line cannot be run.
pub type Said = Result<String, String>;

/// The implementation and its tracker.
pub struct Session<'a> {
    pub side: Side<'a>,
    pub tracker: Tracker,
    /// The text of the last line where it is too long to be printed.
    pub long: Vec<u8>,
}

impl<'a> Session<'a> {
    /// An implementation before the first line.
    pub fn new(one: &'a dyn Implementation) -> Session<'a> {
        Session { side: Side::new(one), tracker: Tracker::default(), long: Vec::new() }
    }

    /// Runs a line. A call that breaks off is an error, too.
    pub fn run(&mut self, line: &Line) -> Said {
        self.long.clear();
        match line {
            Line::Note => Ok(String::new()),
            Line::Call(word, numbers) => catch_unwind(AssertUnwindSafe(|| (word.run)(self, numbers)))
                .unwrap_or_else(|_| Err(String::from("the call breaks off"))),
        }
    }

    /// What a call does on what is lent; the lists and the header that it leaves are the tracker's from then on.
    pub fn change(&mut self, call: impl FnOnce(&Side, Header, &mut Lent) -> Answer) -> Answer {
        let mut lent = self.tracker.lent();
        let answer = call(&self.side, self.tracker.header, &mut lent);
        self.tracker.take_back(&lent);
        self.tracker.header = answer.header;
        answer
    }

    /// What a question answers on what is lent.
    pub fn ask<T>(&self, question: impl FnOnce(&Side, Header, &mut Lent) -> T) -> T {
        question(&self.side, self.tracker.header, &mut self.tracker.lent())
    }

    /// What a replay does on what is lent; the lists and the header that it leaves are the tracker's from then on.
    pub fn replay(&mut self, bytes: &[u8]) -> Replayed {
        let mut lent = self.tracker.lent();
        let run = self.side.replay(bytes, &mut lent);
        self.tracker.take_back(&lent);
        self.tracker.header = run.header;
        run
    }

    /// Where two implementations that ran the same lines differ beyond what was printed.
    pub fn difference(&self, other: &Session) -> Option<String> {
        let long = || (self.long != other.long).then(|| String::from("the text that is too long to be printed"));
        self.tracker.difference(&other.tracker).or_else(long)
    }
}
