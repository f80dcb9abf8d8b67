//! C's `read`, `write` and `close` with short counts and failures on demand, for a program that is started with
//! LD_PRELOAD set to this library.
//!
//! INTERPOSE_READ, INTERPOSE_WRITE and INTERPOSE_CLOSE hold words, and each call takes the next word of its variable. A
//! number lets the call move at most so many bytes; the name of an errno, or `E` and its number, makes the call fail
//! with it. Without a word left the call is as ever. Every read takes a word; of the others only those of standard
//! output do. Each word taken is also added, as a line with the call's name, to the file that INTERPOSE_NOTES names, so
//! that a test can see that it was met. (Standard output must not be closed at the start: the file of the notes would
//! be opened in its place.)
use std::ffi::{c_int, c_long, c_void};
use std::io::Write;
use std::sync::atomic::{AtomicUsize, Ordering};

extern "C" {
    /// The system call of this number, with C's answer: -1 and errno where it fails.
    fn syscall(number: c_long, ...) -> c_long;
    /// Where this thread's errno is.
    fn __errno_location() -> *mut c_int;
}

/// The system's numbers of read, write and close.
const NUMBERS: [c_long; 3] = if cfg!(target_arch = "aarch64") { [63, 64, 57] } else { [0, 1, 3] };

/// The descriptor of standard output.
const OUTPUT: c_int = 1;

/// How many reads there were so far, and how many writes and closes of standard output.
static TURNS: [AtomicUsize; 3] = [const { AtomicUsize::new(0) }; 3];

/// What a call is to do: move at most so many bytes, or fail with this errno.
enum Turn {
    AtMost(usize),
    Fail(c_int),
}

/// The turn of the next call of this name and place in `TURNS`.
fn next(place: usize, name: &str) -> Turn {
    let turn = TURNS[place].fetch_add(1, Ordering::SeqCst);
    let words = std::env::var(format!("INTERPOSE_{}", name.to_uppercase())).unwrap_or_default();
    match words.split_whitespace().nth(turn) {
        None => Turn::AtMost(usize::MAX),
        Some(word) => {
            note(name, word);
            meaning(word)
        }
    }
}

/// What a word asks for.
fn meaning(word: &str) -> Turn {
    match word {
        "EINTR" => Turn::Fail(4),
        "EIO" => Turn::Fail(5),
        "EAGAIN" => Turn::Fail(11),
        "ENOSPC" => Turn::Fail(28),
        _ => match word.strip_prefix('E') {
            Some(number) => Turn::Fail(number.parse().expect("the number of an errno")),
            None => Turn::AtMost(word.parse().expect("a number of bytes")),
        },
    }
}

/// Adds the word to the notes.
fn note(name: &str, word: &str) {
    if let Some(path) = std::env::var_os("INTERPOSE_NOTES") {
        let file = std::fs::OpenOptions::new().append(true).create(true).open(path);
        writeln!(file.expect("the file of the notes"), "{name} {word}").expect("a note");
    }
}

/// Sets errno, and answers what a call that failed answers.
fn fail(errno: c_int) -> c_long {
    // The pointer is the C library's own, to a number that only this thread uses.
    unsafe { *__errno_location() = errno };
    -1
}

/// Reads or writes as the turn says; the buffer has `count` bytes, by the promise of the caller of `read` or `write`,
/// and no more are named.
unsafe fn transfer(place: usize, turn: Turn, file: c_int, buffer: *const c_void, count: usize) -> isize {
    (match turn {
        Turn::AtMost(most) => syscall(NUMBERS[place], c_long::from(file), buffer, count.min(most)),
        Turn::Fail(errno) => fail(errno),
    }) as isize
}

/// C's read.
///
/// # Safety
/// What C asks of its caller: the buffer has room for `count` bytes.
#[no_mangle]
pub unsafe extern "C" fn read(file: c_int, buffer: *mut c_void, count: usize) -> isize {
    transfer(0, next(0, "read"), file, buffer, count)
}

/// C's write.
///
/// # Safety
/// What C asks of its caller: the buffer has `count` bytes.
#[no_mangle]
pub unsafe extern "C" fn write(file: c_int, buffer: *const c_void, count: usize) -> isize {
    let turn = if file == OUTPUT { next(1, "write") } else { Turn::AtMost(usize::MAX) };
    transfer(1, turn, file, buffer, count)
}

/// C's close. One that is to fail closes too, as the system does.
#[no_mangle]
pub extern "C" fn close(file: c_int) -> c_int {
    let turn = if file == OUTPUT { next(2, "close") } else { Turn::AtMost(usize::MAX) };
    // The call takes a number alone and touches no memory of this program.
    let answer = unsafe { syscall(NUMBERS[2], c_long::from(file)) };
    (match turn {
        Turn::AtMost(_) => answer,
        Turn::Fail(errno) => fail(errno),
    }) as c_int
}
