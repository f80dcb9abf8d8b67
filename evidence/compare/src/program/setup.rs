//! What a run of the program is given: arguments, standard input, where its outputs go, files, and how its calls are
//! made to fail.
use super::bench::Room;
use std::ffi::{OsStr, OsString};
use std::fs;
use std::io;
use std::os::unix::ffi::{OsStrExt, OsStringExt};
use std::os::unix::fs::{symlink, PermissionsExt};
use std::path::Path;
use std::process::Command;

/// What standard input is.
#[derive(Clone, Debug)]
pub enum Input {
    /// A pipe that gives these pieces, with a pause of so many milliseconds after each but the last, and ends.
    Pieces(Vec<Vec<u8>>, u64),
    /// A pipe that gives these bytes and does not end.
    Held(Vec<u8>),
    /// A file with these bytes.
    File(Vec<u8>),
    /// A file with these bytes, of which none may be read.
    Untouched(Vec<u8>),
    /// What has this path.
    Path(&'static str),
    /// A file with these bytes that is open for writing alone.
    WriteOnly(Vec<u8>),
    /// A pipe that does not block, has these bytes, and then no others though its writer is still there.
    Dry(Vec<u8>),
    /// A pipe that does not block, has these bytes, and whose writer has closed it.
    Ended(Vec<u8>),
    /// No standard input at all.
    Closed,
}

/// What standard output is.
#[derive(Clone, Copy, Debug, PartialEq, Eq)]
pub enum Output {
    /// A new file.
    File,
    /// A pipe that is read after a pause.
    Pipe,
    /// A pipe that does not block and that nobody reads.
    Stuck,
    /// A pipe whose reader has closed it, with the signal for that ignored.
    Broken,
    /// The same, with the signal for it as a program gets it by default.
    BrokenBySignal,
    /// The device that is always full.
    Full,
    /// A file that is open for reading alone.
    ReadOnly,
    /// A file that may grow by so many bytes and no further, with the signal for that ignored.
    Limited(usize),
    /// No standard output at all.
    Closed,
}

/// What is in the folder of a run beforehand.
#[derive(Clone, Debug)]
pub enum Made {
    /// A file of this name with these bytes.
    File(&'static [u8], Vec<u8>),
    /// A file of this name that nobody may read.
    Locked(&'static str),
    /// A folder of this name.
    Folder(&'static str),
    /// A symbolic link of this name to another name.
    Link(&'static str, &'static str),
    /// A FIFO of this name, to which these bytes are written once it is opened.
    Fifo(&'static str, Vec<u8>),
}

impl Made {
    /// Makes it.
    pub fn make(&self, room: &Room) -> io::Result<()> {
        match self {
            Made::File(name, bytes) => fs::write(room.path.join(OsStr::from_bytes(name)), bytes),
            Made::Locked(name) => {
                fs::write(room.at(name), b"\x05")?;
                fs::set_permissions(room.at(name), fs::Permissions::from_mode(0o000))
            }
            Made::Folder(name) => fs::create_dir(room.at(name)),
            Made::Link(name, other) => symlink(other, room.at(name)),
            Made::Fifo(name, _) => make_fifo(&room.at(name)),
        }
    }
}

/// Makes a FIFO, by the command of that name.
pub fn make_fifo(path: &Path) -> io::Result<()> {
    let status = Command::new("mkfifo").arg(path).status()?;
    if status.success() {
        Ok(())
    } else {
        Err(io::Error::other("mkfifo failed"))
    }
}

/// An argument of the program.
#[derive(Clone, Debug)]
pub enum Argument {
    /// These bytes.
    Given(Vec<u8>),
    /// The absolute path of this name in the run's folder.
    Absolute(&'static str),
}

impl Argument {
    /// The argument as it is given.
    pub fn word(&self, room: &Room) -> OsString {
        match self {
            Argument::Given(bytes) => OsString::from_vec(bytes.clone()),
            Argument::Absolute(name) => room.at(name).into_os_string(),
        }
    }
}

/// The words by which calls move few bytes or fail: those for reads, for writes and for closes, as the crate
/// `interpose` explains them.
#[derive(Clone, Debug, Default)]
pub struct Script {
    pub reads: String,
    pub writes: String,
    pub closes: String,
    /// Whether a program that does not close standard output is right too.
    pub closes_may_be_left: bool,
}

impl Script {
    /// The calls' names with their words.
    pub fn parts(&self) -> [(&'static str, &str); 3] {
        [("read", &self.reads), ("write", &self.writes), ("close", &self.closes)]
    }

    /// Whether no call is changed.
    pub fn is_empty(&self) -> bool {
        self.parts().iter().all(|(_, words)| words.is_empty())
    }
}

/// All that a run is given.
#[derive(Clone, Debug)]
pub struct Setup {
    pub arguments: Vec<Argument>,
    pub input: Input,
    pub output: Output,
    pub errors_closed: bool,
    pub made: Vec<Made>,
    pub script: Script,
    /// Whether the program is run as the user `nobody`, from a copy in its folder.
    pub nobody: bool,
}

impl Setup {
    /// A run without arguments on this input.
    pub fn on(input: Input) -> Setup {
        let script = Script::default();
        Setup {
            arguments: vec![],
            input,
            output: Output::File,
            errors_closed: false,
            made: vec![],
            script,
            nobody: false,
        }
    }

    /// A run without arguments on these bytes, which come through a pipe.
    pub fn piped(bytes: &[u8]) -> Setup {
        Setup::on(Input::Pieces(vec![bytes.to_vec()], 0))
    }

    /// A run without arguments on a file with these bytes.
    pub fn from_file(bytes: &[u8]) -> Setup {
        Setup::on(Input::File(bytes.to_vec()))
    }

    /// A run with these arguments on standard input that may not be read: it has a log, with which the text would be
    /// another.
    pub fn given(arguments: &[&[u8]]) -> Setup {
        let arguments = arguments.iter().map(|word| Argument::Given(word.to_vec())).collect();
        Setup { arguments, ..Setup::on(Input::Untouched(vec![7])) }
    }

    /// The same with this in the folder.
    pub fn with(mut self, made: Made) -> Setup {
        self.made.push(made);
        self
    }

    /// The same with this standard input.
    pub fn input(self, input: Input) -> Setup {
        Setup { input, ..self }
    }

    /// The same with this standard output.
    pub fn output(self, output: Output) -> Setup {
        Setup { output, ..self }
    }

    /// The same without standard error.
    pub fn errors_closed(self) -> Setup {
        Setup { errors_closed: true, ..self }
    }

    /// The same with these words for reads.
    pub fn reads(mut self, words: &str) -> Setup {
        self.script.reads = words.to_string();
        self
    }

    /// The same with these words for writes.
    pub fn writes(mut self, words: &str) -> Setup {
        self.script.writes = words.to_string();
        self
    }

    /// The same with these words for closes.
    pub fn closes(mut self, words: &str) -> Setup {
        self.script.closes = words.to_string();
        self
    }
}
