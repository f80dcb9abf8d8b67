//! Runs a script over two implementations, each on a tracker of its own, and compares what each prints with the stored
//! output; after each line also the trackers with each other.

use crate::line::{next_line, parse, shown, Line, Place};
use crate::session::{Said, Session};
use interface::Implementation;
use std::io::{self, BufRead};

/// What was compared: how many lines, and each thing that is wrong.
#[derive(Default)]
pub struct Compared {
    pub lines: u64,
    pub wrong: Vec<String>,
}

/// An implementation with its name.
pub type Named<'a> = (&'a str, &'a dyn Implementation);

/// One of the two implementations, and what is left of the stored output.
struct Watched<'a> {
    name: &'a str,
    session: Session<'a>,
    stored: &'a [u8],
    /// Whether something is wrong with it already; it runs no further line then.
    wrong: bool,
}

/// A line of the stored output or of what came; visible also where its newline is missing.
fn visible(line: Option<&[u8]>) -> String {
    match line.map(|line| (line, line.strip_suffix(b"\n"))) {
        None => String::from("(nothing)"),
        Some((_, Some(line))) => shown(line),
        Some((line, None)) => format!("{} (and no newline)", shown(line)),
    }
}

impl<'a> Watched<'a> {
    /// An implementation before the first line.
    fn new((name, one): Named<'a>, stored: &'a [u8]) -> Watched<'a> {
        Watched { name, session: Session::new(one), stored, wrong: false }
    }

    /// The next line of the stored output.
    fn next_stored(&mut self) -> Option<&'a [u8]> {
        let line = self.stored.split_inclusive(|byte| *byte == b'\n').next()?;
        self.stored = &self.stored[line.len()..];
        Some(line)
    }

    /// Notes what is wrong with it at this line.
    fn account(&mut self, place: Place, what: &str) -> String {
        self.wrong = true;
        format!("{} at {place}\n{what}", self.name)
    }

    /// What is wrong with what it said to a line and with what it wrote, if anything is.
    fn check(&mut self, place: Place, said: Said) -> Option<String> {
        let wrote = self.session.side.wrote();
        let wrong = match (wrote, said) {
            (Some(wrote), _) => format!("  wrote what it must not: {wrote}"),
            (None, Err(reason)) => format!("  {reason}"),
            (None, Ok(answer)) => self.compare(&[place.line, answer.as_bytes(), b"\n"].concat())?,
        };
        Some(self.account(place, &wrong))
    }

    /// The first of these lines that is not as stored.
    fn compare(&mut self, printed: &[u8]) -> Option<String> {
        for came in printed.split_inclusive(|byte| *byte == b'\n') {
            let stored = self.next_stored();
            if stored != Some(came) {
                return Some(format!("  stored: {}\n  came:   {}", visible(stored), visible(Some(came))));
            }
        }
        None
    }

    /// What is wrong with it at the end of the script, if anything is.
    fn check_end(&mut self) -> Option<String> {
        let stored = self.next_stored().filter(|_| !self.wrong)?;
        let came = visible(None);
        Some(format!("{} at the end of the script\n  stored: {}\n  came:   {came}", self.name, visible(Some(stored))))
    }
}

/// Runs a line over both, and answers what is wrong.
fn run_line(sides: &mut [Watched; 2], place: Place, line: &Line) -> Vec<String> {
    let said = sides.each_mut().map(|side| (!side.wrong).then(|| side.session.run(line)));
    if let [Some(Err(reason)), Some(Err(other))] = &said {
        if reason == other {
            sides.iter_mut().for_each(|side| side.wrong = true);
            return vec![format!("{place}: {reason}")];
        }
    }
    let checks = sides.iter_mut().zip(said).filter_map(|(side, said)| side.check(place, said?));
    checks.collect()
}

/// Where the trackers of the two differ, both being right so far.
fn apart([one, other]: &[Watched; 2], place: Place) -> Option<String> {
    let difference = one.session.difference(&other.session).filter(|_| !one.wrong && !other.wrong)?;
    Some(format!("{} and {} differ after {place}\n  {difference}", one.name, other.name))
}

/// Runs the script over both and compares what each prints with what is stored. Each ends at the first line at which
/// something is wrong with it.
pub fn compare(script: &mut dyn BufRead, stored: &[u8], sides: [Named; 2]) -> io::Result<Compared> {
    let mut sides = sides.map(|named| Watched::new(named, stored));
    let mut compared = Compared::default();
    let mut alike = true;
    while let Some(line) = next_line(script)? {
        compared.lines += 1;
        let place = Place { number: compared.lines, line: &line };
        match parse(&line) {
            Ok(line) => compared.wrong.extend(run_line(&mut sides, place, &line)),
            Err(reason) => {
                compared.wrong.push(format!("{place}: {reason}"));
                return Ok(compared);
            }
        }
        if let Some(difference) = apart(&sides, place).filter(|_| alike) {
            compared.wrong.push(difference);
            alike = false;
        }
        if sides.iter().all(|side| side.wrong) {
            return Ok(compared);
        }
    }
    compared.wrong.extend(sides.iter_mut().filter_map(Watched::check_end));
    if compared.lines == 0 {
        compared.wrong.push(String::from("the script has no line"));
    }
    Ok(compared)
}
