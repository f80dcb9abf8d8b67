//! Runs a script as it is read, line by line: prints what one implementation answers, and says where another one
//! answers otherwise.

use crate::line::{next_line, parse, Line, Place};
use crate::session::Session;
use interface::Implementation;
use std::io::{self, BufRead, Write};

/// What the implementation that is printed is called.
const PRINTED: &str = "the product";
/// What the one it is compared with is called.
const OTHER: &str = "the independent implementation";

/// The two implementations: the one that is printed, and the one it is compared with.
struct Typed<'a> {
    printed: Session<'a>,
    other: Session<'a>,
    /// Whether nothing was wrong so far.
    right: bool,
    /// Whether the trackers were alike so far.
    alike: bool,
}

impl Typed<'_> {
    /// Says what is wrong at a line.
    fn say(&mut self, err: &mut dyn Write, place: Place, what: &str) -> io::Result<()> {
        self.right = false;
        writeln!(err, "{place}: {what}")
    }

    /// Runs a line and prints the answer; false where nothing after it is to be run.
    fn run(&mut self, place: Place, line: &Line, out: &mut dyn Write, err: &mut dyn Write) -> io::Result<bool> {
        let (said, other) = (self.printed.run(line), self.other.run(line));
        let goes_on = said.is_ok() && other.is_ok();
        match &said {
            Ok(answer) => {
                out.write_all(&[place.line, answer.as_bytes(), b"\n"].concat())?;
                out.flush()?;
            }
            Err(reason) => self.say(err, place, reason)?,
        }
        if said != other {
            let other = other.unwrap_or_else(|reason| format!(": {reason}"));
            self.say(err, place, &format!("{OTHER} answers otherwise{other}"))?;
        }
        self.look(place, err)?;
        Ok(goes_on)
    }

    /// Says what either wrote and must not, and where the two differ beyond what was printed, once.
    fn look(&mut self, place: Place, err: &mut dyn Write) -> io::Result<()> {
        for (wrote, name) in [(self.printed.side.wrote(), PRINTED), (self.other.side.wrote(), OTHER)] {
            if let Some(wrote) = wrote {
                self.say(err, place, &format!("{name} wrote what it must not: {wrote}"))?;
            }
        }
        if let Some(difference) = self.printed.difference(&self.other).filter(|_| self.alike) {
            self.alike = false;
            self.say(err, place, &format!("{PRINTED} and {OTHER} differ after it: {difference}"))?;
        }
        Ok(())
    }
}

/// Runs a script over both implementations; answers whether nothing was wrong.
pub fn run(
    input: &mut dyn BufRead,
    out: &mut dyn Write,
    err: &mut dyn Write,
    [printed, other]: [&dyn Implementation; 2],
) -> io::Result<bool> {
    let (printed, other) = (Session::new(printed), Session::new(other));
    let mut both = Typed { printed, other, right: true, alike: true };
    let mut number = 0;
    while let Some(line) = next_line(input)? {
        number += 1;
        let place = Place { number, line: &line };
        let goes_on = match parse(&line) {
            Ok(line) => both.run(place, &line, out, err)?,
            Err(reason) => {
                both.say(err, place, &reason)?;
                false
            }
        };
        if !goes_on {
            return Ok(false);
        }
    }
    Ok(both.right)
}
