//! Wrong programs, each made from the source of `tally` by one edit that the prover admits, since no contract can say
//! what a file or standard input brings and what a write takes; the cases of the program must find each.

/// A wrong program: its name, and the texts of one source file that are replaced, each with what stands in its place.
/// Each text is in that file exactly once.
#[derive(Clone, Copy, Debug)]
pub struct Edit {
    pub name: &'static str,
    /// The file, from the repository's top.
    pub file: &'static str,
    pub changes: &'static [(&'static str, &'static str)],
}

/// The program's own source.
const PROGRAM: &str = "crates/tally/src/main.rt";
/// What it reads and prints by.
const STREAM: &str = "crates/stream/src/lib.rt";

/// A log of another length is handed on: no more than its first 25 bytes.
const CUT: &[(&str, &str)] = &[("NotPresent) => show(reader, ", "NotPresent) => show(&mut reader.take(25), ")];

/// A reader whose failed reads are taken for the end.
const ENDING: &[(&str, &str)] = &[
    ("NotPresent) => show(reader, ", "NotPresent) => show(&mut Ending { reader }, "),
    (
        "fn main(rt: HostRuntime) {",
        "#[derive(Drop)]
struct Ending<'r, R> {
    reader: &'r mut R,
}

impl<'r, R: Read> Read for Ending<'r, R> {
    fn read(&mut self, buf: &mut [u8]) -> io::Result<usize> {
        match self.reader.read(buf) {
            Ok(n) => Ok(n),
            Err(error) => {
                if error.kind() == ErrorKind::Interrupted {
                    return Err(error);
                }
                Ok(0)
            }
        }
    }
}

fn main(rt: HostRuntime) {",
    ),
];

/// Standard input is read, whatever file is named.
const INPUT: &[(&str, &str)] = &[(
    "Asked::File => show_file(rt, out, errors, &mut line[..7 + n]),",
    "Asked::File => show(reader, out, errors, &line[..7 + n]),",
)];

/// An interrupted read is a failure at once.
const ONCE: &[(&str, &str)] = &[(
    "let mut tries = 0..u64::MAX;\n    while done < buf.len() {",
    "let mut tries = 0..0u64;\n    while done < buf.len() {",
)];

/// A writer that claims to have written what it could not write.
const SILENT: &[(&str, &str)] = &[
    ("NotPresent) => show(reader, out, ", "NotPresent) => show(reader, &mut Silent { out }, "),
    (
        "fn main(rt: HostRuntime) {",
        "#[derive(Drop)]
struct Silent<'w, W> {
    out: &'w mut W,
}

impl<'w, W: Write> Write for Silent<'w, W> {
    fn write(&mut self, buf: &[u8]) -> io::Result<usize> {
        match self.out.write(buf) {
            Ok(n) => Ok(n),
            Err(error) => {
                if error.kind() == ErrorKind::Interrupted {
                    return Err(error);
                }
                Ok(buf.len())
            }
        }
    }

    fn flush(&mut self) -> io::Result<()> {
        self.out.flush()
    }
}

fn main(rt: HostRuntime) {",
    ),
];

/// A file that cannot be opened ends the run without a line.
const UNTOLD: &[(&str, &str)] = &[("Err(error) => stream::try_fail(errors, line, error),", "Err(_) => Ok(()),")];

/// All wrong programs; the gate tries the first two, since each takes the time of a proof.
pub fn edits() -> Vec<Edit> {
    let edit = |file, name, changes| Edit { name, file, changes };
    vec![
        edit(PROGRAM, "another length is handed on than was read", CUT),
        edit(PROGRAM, "a failed read is taken for the end", ENDING),
        edit(PROGRAM, "standard input is read where a file is named", INPUT),
        edit(STREAM, "an interrupted read is not tried again", ONCE),
        edit(PROGRAM, "a failed write is not told", SILENT),
        edit(PROGRAM, "a file that cannot be opened is not told", UNTOLD),
    ]
}

#[cfg(test)]
mod tests {
    use super::*;
    use std::collections::HashSet;

    /// No two wrong programs have the same name, and each edit changes something.
    #[test]
    fn names_differ_and_edits_change() {
        let list = edits();
        assert_eq!(list.iter().map(|edit| edit.name).collect::<HashSet<_>>().len(), list.len());
        let changes = |edit: &Edit| edit.changes.iter().all(|(old, new)| !old.is_empty() && old != new);
        assert!(list.iter().all(|edit| !edit.changes.is_empty() && changes(edit)));
    }
}
