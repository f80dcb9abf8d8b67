//! The program `texts`: the text that one library gives for each log of a list. It is compiled once with each library,
//! and asks only for `tally_text`, which stays while records and other calls change.
//! In: for each log its length, four bytes, lowest first, then its bytes. Out: the texts in the same form.
use std::io::{self, Read, Write};

/// What `tally_text` answers: 0 or the refusal's number, and the length of the text.
#[repr(C)]
struct WriteAnswer {
    refusal: u32,
    next: usize,
}

extern "C" {
    fn tally_text(bytes: *const u8, bytes_length: usize, out: *mut u8, out_length: usize) -> WriteAnswer;
}

/// More bytes than any text takes: 256 lines of 256 tags.
const ROOM: usize = 300_000;

/// The text for a log; a refusal to write it is told in its place.
fn text(log: &[u8], out: &mut [u8]) -> Vec<u8> {
    // SAFETY: both lists are borrowed for the whole call, and the lengths are theirs.
    let answer = unsafe { tally_text(log.as_ptr(), log.len(), out.as_mut_ptr(), out.len()) };
    match answer.refusal {
        0 => out[..answer.next].to_vec(),
        refusal => format!("no text, {refusal}\n").into_bytes(),
    }
}

fn main() -> io::Result<()> {
    let (mut all, mut told, mut out) = (Vec::new(), Vec::new(), vec![0; ROOM]);
    io::stdin().read_to_end(&mut all)?;
    let mut rest = &all[..];
    while let Some((length, after)) = rest.split_first_chunk() {
        let (log, after) = after.split_at(u32::from_le_bytes(*length) as usize);
        let text = text(log, &mut out);
        told.extend((text.len() as u32).to_le_bytes());
        told.extend(text);
        rest = after;
    }
    io::stdout().write_all(&told)
}
