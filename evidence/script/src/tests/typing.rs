//! A script that is typed in: each line is answered before the next is read.

use crate::typed;
use reference::Reference;
use std::cell::RefCell;
use std::io::{self, BufRead, Read, Write};

/// One who types the next line only when the answer to the last can be seen.
struct Typist<'a> {
    seen: &'a RefCell<Vec<u8>>,
    lines: &'a [&'a str],
    typed: usize,
}

/// The output of the program: only what is flushed can be seen.
struct Screen<'a> {
    waiting: Vec<u8>,
    seen: &'a RefCell<Vec<u8>>,
}

impl Write for Screen<'_> {
    /// Keeps what is written until it is flushed.
    fn write(&mut self, bytes: &[u8]) -> io::Result<usize> {
        self.waiting.extend_from_slice(bytes);
        Ok(bytes.len())
    }

    /// Shows what was written.
    fn flush(&mut self) -> io::Result<()> {
        self.seen.borrow_mut().append(&mut self.waiting);
        Ok(())
    }
}

impl Read for Typist<'_> {
    /// Reads from what is typed.
    fn read(&mut self, bytes: &mut [u8]) -> io::Result<usize> {
        let read = self.fill_buf()?.read(bytes)?;
        self.consume(read);
        Ok(read)
    }
}

impl BufRead for Typist<'_> {
    /// The next line; the answers to all lines before can be seen by now.
    fn fill_buf(&mut self) -> io::Result<&[u8]> {
        let answered = self.seen.borrow().iter().filter(|byte| **byte == b'\n').count();
        assert_eq!(answered, self.typed, "a line is read before the one before is answered");
        Ok(self.lines.get(self.typed).map_or(&[], |line| line.as_bytes()))
    }

    /// Notes that a line was read.
    fn consume(&mut self, bytes: usize) {
        self.typed += usize::from(bytes > 0);
    }
}

/// Each line is answered before the next is read.
#[test]
fn each_line_is_answered_before_the_next() {
    let seen = RefCell::new(Vec::new());
    let lines = &["start 2\n", "# a note\n", "enable 1 0 1\n", "now\n"];
    let mut typist = Typist { seen: &seen, lines, typed: 0 };
    let mut screen = Screen { waiting: Vec::new(), seen: &seen };
    let right = typed::run(&mut typist, &mut screen, &mut Vec::new(), [&Reference, &Reference]).unwrap();
    let seen = String::from_utf8(seen.into_inner()).unwrap();
    assert!(right && seen.ends_with("enable 1 0 1: accepted, gain 1\nnow: n 2, flows 1, greatest 1\n"), "{seen}");
}
