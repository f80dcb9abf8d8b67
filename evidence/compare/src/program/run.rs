//! One run of the program: it is started as its setup says, ends or is ended, and what it left is collected.
use super::bench::{Bench, Room};
use super::setup::{make_fifo, Input, Made, Output, Setup};
use std::fs::{self, File, OpenOptions};
use std::io::{self, PipeWriter, Read, Seek, Write};
use std::os::unix::fs::{OpenOptionsExt, PermissionsExt};
use std::os::unix::process::ExitStatusExt;
use std::path::{Path, PathBuf};
use std::process::{Child, Command, ExitStatus, Stdio};
use std::sync::mpsc::{channel, Receiver};
use std::thread;
use std::time::{Duration, Instant};

/// The flag of Linux that lets the calls on an open file not wait.
const NONBLOCK: i32 = 0o4000;
/// The bytes up to which a limited file may grow: one unit of the shell's `ulimit -f`.
const UNIT: usize = 512;
/// The pause before a pipe with standard output is read.
const PAUSE: Duration = Duration::from_millis(50);

/// How a run ended.
#[derive(Clone, Copy, Debug, PartialEq, Eq)]
pub enum Ending {
    /// By itself, with this status.
    Status(i32),
    /// By this signal.
    Signal(i32),
    /// Not within the limit: it was killed.
    Late,
}

/// What a run left.
#[derive(Clone, Debug)]
pub struct Seen {
    pub output: Vec<u8>,
    pub errors: Vec<u8>,
    pub ending: Ending,
    /// The words of the script that were taken, each after the name of its call.
    pub taken: Vec<String>,
    /// Whether some of an input was read that may not be.
    pub touched: bool,
}

/// What is kept of standard input while the program runs.
enum Kept {
    Nothing,
    Writer(#[allow(dead_code, reason = "it is only held open")] PipeWriter),
    Fifo(#[allow(dead_code, reason = "it is only held open")] File),
    Place(File),
}

/// Where standard output can be seen after the run.
enum Collected {
    Nowhere,
    /// In this file, after so many bytes that were there before.
    File(File, usize),
    Pipe(Receiver<Vec<u8>>),
}

/// Runs the program.
pub fn run(bench: &Bench, setup: &Setup) -> io::Result<Seen> {
    let room = Room::new()?;
    for made in &setup.made {
        made.make(&room)?;
    }
    let mut command = command(bench, setup, &room)?;
    let mut kept = give_input(&mut command, &setup.input, &room)?;
    let collected = give_output(&mut command, setup.output, &room)?;
    give_errors(&mut command, setup, &room)?;
    give_script(&mut command, bench, setup, &room);
    let child = command.spawn()?;
    // The command holds the program's ends of pipes, which only the program may have now.
    drop(command);
    let fifos = setup.made.iter().filter_map(|made| feed_fifo(made, &room)).collect::<Vec<_>>();
    let ending = ended(child, bench.limit)?;
    fifos.into_iter().for_each(release_fifo);
    let output = collect(collected, bench.limit)?;
    let errors = fs::read(room.at(".errors")).unwrap_or_default();
    let notes = fs::read_to_string(room.at(".notes")).unwrap_or_default();
    let taken = notes.lines().map(str::to_string).collect();
    let touched = match &mut kept {
        Kept::Place(file) => file.stream_position()? != 0,
        _ => false,
    };
    Ok(Seen { output, errors, ending, taken, touched })
}

/// The command that starts the program: itself, a shell that closes what is to be closed, or a change of user before
/// it.
fn command(bench: &Bench, setup: &Setup, room: &Room) -> io::Result<Command> {
    let mut command = match shell_line(setup) {
        Some(line) => {
            let mut shell = Command::new("sh");
            shell.arg("-c").arg(line).arg(&bench.program);
            shell
        }
        None if setup.nobody => {
            fs::copy(&bench.program, room.at("tally"))?;
            fs::set_permissions(room.at("tally"), fs::Permissions::from_mode(0o755))?;
            let mut other = Command::new("setpriv");
            other.args(["--reuid=65534", "--clear-groups", "./tally"]);
            other
        }
        None => Command::new(&bench.program),
    };
    command.args(setup.arguments.iter().map(|argument| argument.word(room)));
    command.current_dir(&room.path).env("LC_ALL", "C").env_remove("LD_PRELOAD");
    Ok(command)
}

/// The line for the shell that becomes the program, where one is needed.
fn shell_line(setup: &Setup) -> Option<String> {
    let before = match setup.output {
        Output::Limited(_) => "trap '' XFSZ; ulimit -f 1; ",
        Output::Broken => "trap '' PIPE; ",
        _ => "",
    };
    let closed = [
        (matches!(setup.input, Input::Closed), " <&-"),
        (setup.output == Output::Closed, " >&-"),
        (setup.errors_closed, " 2>&-"),
    ];
    let after: String = closed.iter().filter(|(is, _)| *is).map(|(_, word)| *word).collect();
    if before.is_empty() && after.is_empty() {
        None
    } else {
        Some(format!("{before}exec \"$0\" \"$@\"{after}"))
    }
}

/// Gives the command its standard input, and answers what is kept of it.
fn give_input(command: &mut Command, input: &Input, room: &Room) -> io::Result<Kept> {
    match input {
        Input::Pieces(pieces, pause) => {
            let (reader, writer) = io::pipe()?;
            command.stdin(Stdio::from(reader));
            let (pieces, pause) = (pieces.clone(), Duration::from_millis(*pause));
            thread::spawn(move || write_pieces(writer, &pieces, pause));
        }
        Input::Held(bytes) => {
            let (reader, mut writer) = io::pipe()?;
            writer.write_all(bytes)?;
            command.stdin(Stdio::from(reader));
            return Ok(Kept::Writer(writer));
        }
        Input::File(bytes) | Input::Untouched(bytes) => {
            fs::write(room.at(".input"), bytes)?;
            let file = File::open(room.at(".input"))?;
            command.stdin(Stdio::from(file.try_clone()?));
            return Ok(if matches!(input, Input::Untouched(_)) { Kept::Place(file) } else { Kept::Nothing });
        }
        Input::Path(path) => drop(command.stdin(Stdio::from(File::open(path)?))),
        Input::WriteOnly(bytes) => {
            fs::write(room.at(".input"), bytes)?;
            command.stdin(Stdio::from(OpenOptions::new().write(true).open(room.at(".input"))?));
        }
        Input::Dry(bytes) | Input::Ended(bytes) => {
            let (reader, mut writer) = open_fifo(&room.at(".input"), 0)?;
            writer.write_all(bytes)?;
            command.stdin(Stdio::from(reader));
            return Ok(if matches!(input, Input::Dry(_)) { Kept::Fifo(writer) } else { Kept::Nothing });
        }
        Input::Closed => drop(command.stdin(Stdio::null())),
    }
    Ok(Kept::Nothing)
}

/// Writes the pieces, each at once, with a pause after each but the last; a program that reads no further ends it.
fn write_pieces(mut writer: PipeWriter, pieces: &[Vec<u8>], pause: Duration) {
    for (place, piece) in pieces.iter().enumerate() {
        if place > 0 {
            thread::sleep(pause);
        }
        if writer.write_all(piece).and_then(|()| writer.flush()).is_err() {
            return;
        }
    }
}

/// Makes a FIFO and opens its reading end, which does not block, and its writing end, with these flags.
fn open_fifo(path: &Path, flags: i32) -> io::Result<(File, File)> {
    make_fifo(path)?;
    let reader = OpenOptions::new().read(true).custom_flags(NONBLOCK).open(path)?;
    let writer = OpenOptions::new().write(true).custom_flags(flags).open(path)?;
    Ok((reader, writer))
}

/// Gives the command its standard output, and answers where it can be seen.
fn give_output(command: &mut Command, output: Output, room: &Room) -> io::Result<Collected> {
    let path = room.at(".output");
    let (stdio, collected) = match output {
        Output::File => (Stdio::from(File::create(&path)?), Collected::File(File::open(&path)?, 0)),
        Output::Pipe => {
            let (reader, writer) = io::pipe()?;
            (Stdio::from(writer), Collected::Pipe(read_later(reader)))
        }
        Output::Stuck => {
            let (reader, writer) = open_fifo(&path, NONBLOCK)?;
            (Stdio::from(writer), Collected::File(reader, 0))
        }
        Output::Broken | Output::BrokenBySignal => (Stdio::from(io::pipe()?.1), Collected::Nowhere),
        Output::Full => (Stdio::from(OpenOptions::new().write(true).open("/dev/full")?), Collected::Nowhere),
        Output::ReadOnly => {
            fs::write(&path, b"")?;
            (Stdio::from(File::open(&path)?), Collected::File(File::open(&path)?, 0))
        }
        Output::Limited(growth) => {
            let before = UNIT - growth;
            fs::write(&path, "\n".repeat(before))?;
            (Stdio::from(OpenOptions::new().append(true).open(&path)?), Collected::File(File::open(&path)?, before))
        }
        Output::Closed => (Stdio::null(), Collected::Nowhere),
    };
    command.stdout(stdio);
    Ok(collected)
}

/// Reads all of a pipe after a pause, aside from this thread, and hands it over.
fn read_later(mut reader: io::PipeReader) -> Receiver<Vec<u8>> {
    let (sender, receiver) = channel();
    thread::spawn(move || {
        thread::sleep(PAUSE);
        let mut bytes = Vec::new();
        // What was read before a failure is handed over, and nobody may be waiting any more: neither matters here.
        let _ = reader.read_to_end(&mut bytes);
        let _ = sender.send(bytes);
    });
    receiver
}

/// Gives the command its standard error, a file.
fn give_errors(command: &mut Command, setup: &Setup, room: &Room) -> io::Result<()> {
    command.stderr(if setup.errors_closed { Stdio::null() } else { Stdio::from(File::create(room.at(".errors"))?) });
    Ok(())
}

/// Gives the command the words by which its calls move few bytes or fail.
fn give_script(command: &mut Command, bench: &Bench, setup: &Setup, room: &Room) {
    if setup.script.is_empty() {
        return;
    }
    assert!(shell_line(setup).is_none(), "the words would be the shell's");
    for (call, words) in setup.script.parts() {
        command.env(format!("INTERPOSE_{}", call.to_uppercase()), words);
    }
    command.env("LD_PRELOAD", &bench.interposer).env("INTERPOSE_NOTES", room.at(".notes"));
}

/// A FIFO and the thread that writes to it.
type Fed = (PathBuf, thread::JoinHandle<()>);

/// Writes to a FIFO once the program has opened it, aside from this thread.
fn feed_fifo(made: &Made, room: &Room) -> Option<Fed> {
    let Made::Fifo(name, bytes) = made else { return None };
    let (path, bytes) = (room.at(name), bytes.clone());
    let open = OpenOptions::new().write(true).clone();
    let feed = {
        let path = path.clone();
        // Where the program does not read it, the run's text is another: that is seen there.
        move || drop(open.open(path).and_then(|mut file| file.write_all(&bytes)))
    };
    Some((path, thread::spawn(feed)))
}

/// Lets the thread that feeds a FIFO end, where the program never opened it: gives it a reader for a moment, until it
/// has ended.
fn release_fifo((path, thread): Fed) {
    while !thread.is_finished() {
        let reader = OpenOptions::new().read(true).custom_flags(NONBLOCK).open(&path);
        thread::sleep(Duration::from_millis(1));
        drop(reader);
    }
}

/// Waits for the program's end, and kills it at the limit.
fn ended(mut child: Child, limit: Duration) -> io::Result<Ending> {
    let begin = Instant::now();
    let mut pause = Duration::from_micros(200);
    loop {
        if let Some(status) = child.try_wait()? {
            return Ok(ending_of(status));
        }
        if begin.elapsed() > limit {
            child.kill()?;
            child.wait()?;
            return Ok(Ending::Late);
        }
        thread::sleep(pause);
        pause = (pause * 2).min(Duration::from_millis(5));
    }
}

/// How a program with this status ended.
fn ending_of(status: ExitStatus) -> Ending {
    match status.code() {
        Some(code) => Ending::Status(code),
        None => Ending::Signal(status.signal().unwrap_or(0)),
    }
}

/// Collects standard output after the run.
fn collect(collected: Collected, limit: Duration) -> io::Result<Vec<u8>> {
    match collected {
        Collected::Nowhere => Ok(vec![]),
        Collected::Pipe(receiver) => receiver.recv_timeout(limit).map_err(io::Error::other),
        Collected::File(mut file, before) => {
            let (begin, mut bytes) = (Instant::now(), Vec::new());
            // A program that another thread is just starting holds every open end until it runs: so long a FIFO that
            // nobody writes to any more does not end, but would wait.
            while let Err(error) = file.read_to_end(&mut bytes) {
                if error.kind() != io::ErrorKind::WouldBlock || begin.elapsed() > limit {
                    return Err(error);
                }
                thread::sleep(Duration::from_millis(1));
            }
            Ok(bytes.split_off(before.min(bytes.len())))
        }
    }
}
