//! Cases of logs that come whole on standard input, in one piece or in many.
use super::case::Case;
use super::judge::Expected;
use super::logs::{
    going_on, longest, longest_cut, longest_refused, longest_text, one_more, ring, too_long, CUT, EXAMPLE, REFUSED,
};
use super::setup::{Input, Output, Setup};

/// All cases of this kind.
pub fn cases() -> Vec<Case> {
    [small(), in_pieces(), long(), short_reads(), interrupted()].into_iter().flatten().collect()
}

/// Empty input, single bytes, the example and its beginnings, logs that are refused.
fn small() -> Vec<Case> {
    let mut cases = vec![
        Case::text("tally, /dev/null", Setup::on(Input::Path("/dev/null")), &[]),
        Case::text("tally, an empty pipe", Setup::piped(&[]), &[]),
        Case::text("tally, an empty file", Setup::from_file(&[]), &[]),
    ];
    for byte in [0, 1, 5, 128, 255] {
        cases.push(Case::text(format!("tally, the byte {byte} alone"), Setup::piped(&[byte]), &[byte]));
    }
    cases.push(Case::text("tally, the example through a pipe", Setup::piped(&EXAMPLE), &EXAMPLE));
    cases.push(Case::text("tally, the example in a file", Setup::from_file(&EXAMPLE), &EXAMPLE));
    let beginning = |length: usize| {
        let bytes = &EXAMPLE[..length];
        (format!("the first {length} bytes"), Setup::piped(bytes), Expected::text(bytes))
    };
    let beginnings = (0..=EXAMPLE.len()).map(beginning).collect();
    cases.push(Case::several("tally, every beginning of the example", "each the library's text", beginnings));
    cases.push(Case::text("tally, a log whose last record is refused", Setup::piped(&REFUSED), &REFUSED));
    cases.push(Case::text("tally, a log whose last record is cut", Setup::piped(&CUT), &CUT));
    cases
}

/// Some bytes one by one.
fn one_by_one(bytes: &[u8]) -> Vec<Vec<u8>> {
    bytes.iter().map(|byte| vec![*byte]).collect()
}

/// Logs that come in several writes.
fn in_pieces() -> Vec<Case> {
    let halves =
        |bytes: &[u8], at: usize| Setup::on(Input::Pieces(vec![bytes[..at].to_vec(), bytes[at..].to_vec()], 50));
    let slowly = Setup::on(Input::Pieces(one_by_one(&EXAMPLE), 3));
    vec![
        Case::text("tally, the example byte by byte through a pipe", slowly, &EXAMPLE),
        Case::text("tally, the example in two writes, between records", halves(&EXAMPLE, 11), &EXAMPLE),
        Case::text("tally, 16,384 bytes in two writes", halves(&longest(), 8_192), &longest()),
        Case::text("tally, 16,385 bytes in two writes, the last alone", halves(&one_more(), 16_384), &one_more()),
        Case::text(
            "tally, a pipe that does not block and is ended",
            Setup::on(Input::Ended(EXAMPLE.to_vec())),
            &EXAMPLE,
        ),
        Case::text("tally, a pipe that does not block, empty and ended", Setup::on(Input::Ended(vec![])), &[]),
    ]
}

/// Logs about as long as the program reads, longer ones, and long texts.
fn long() -> Vec<Case> {
    let named = [
        ("a log of 16,384 bytes", longest()),
        ("16,384 bytes, the last record refused", longest_refused()),
        ("16,384 bytes, the last record cut", longest_cut()),
        ("16,384 bytes less one", longest()[..16_383].to_vec()),
        ("a log of 16,385 bytes", too_long()),
        ("a log of 16,384 bytes and one more", one_more()),
        ("40,000 bytes", going_on(40_000)),
        ("100,000 bytes", going_on(100_000)),
        ("the ring of 256", ring().bytes),
        ("the longest text", longest_text()),
    ];
    let mut cases = Vec::new();
    for (name, bytes) in &named {
        cases.push(Case::text(format!("tally, {name}, through a pipe"), Setup::piped(bytes), bytes));
        cases.push(Case::text(format!("tally, {name}, in a file"), Setup::from_file(bytes), bytes));
    }
    let slowly = Setup::from_file(&ring().bytes).output(Output::Pipe);
    cases.push(Case::text("tally, the ring of 256 into a pipe that is read late", slowly, &ring().bytes));
    cases
}

/// So many times the same word.
fn times(count: usize, word: &str) -> String {
    vec![word; count].join(" ")
}

/// Reads that bring few bytes at a time.
fn short_reads() -> Vec<Case> {
    let by_ones = Setup::from_file(&EXAMPLE).reads(&times(25, "1"));
    let by_thousands = |bytes: &[u8]| Setup::from_file(bytes).reads(&times(16, "1000"));
    let to_the_limit = Setup::from_file(&one_more()).reads("16384 1");
    vec![
        Case::text("tally, the example in reads of one byte", by_ones, &EXAMPLE),
        Case::text("tally, 16,384 bytes in reads of 1,000", by_thousands(&longest()), &longest()),
        Case::text("tally, 16,385 bytes in reads of 1,000", by_thousands(&one_more()), &one_more()),
        Case::text("tally, 16,385 bytes, the last in a read of its own", to_the_limit, &one_more()),
    ]
}

/// Reads that are interrupted and tried again.
fn interrupted() -> Vec<Case> {
    let named = [
        ("before the first byte", "EINTR".to_string()),
        ("between bytes", "2 EINTR 1 EINTR EINTR 5".to_string()),
        ("between records", "11 EINTR".to_string()),
        ("before the end", "25 EINTR".to_string()),
        ("before every byte and the end", format!("{} EINTR", times(25, "EINTR 1"))),
        ("1,000 times in a row", times(1000, "EINTR")),
        ("1,000 times in a row between records", format!("11 {}", times(1000, "EINTR"))),
    ];
    let on_example = named.into_iter().map(|(name, words)| {
        Case::text(format!("tally, reads interrupted {name}"), Setup::from_file(&EXAMPLE).reads(&words), &EXAMPLE)
    });
    let at_the_limit = |name: &str, bytes: Vec<u8>| {
        Case::text(
            format!("tally, {name}, a read interrupted after 16,384"),
            Setup::from_file(&bytes).reads("16384 EINTR"),
            &bytes,
        )
    };
    on_example.chain([at_the_limit("16,384 bytes", longest()), at_the_limit("16,385 bytes", one_more())]).collect()
}
