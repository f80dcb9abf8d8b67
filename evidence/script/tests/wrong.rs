//! Implementations that are wrong in one way, as the product: each is found, at the line at which it is wrong first.
//! The library has no `unsafe`; a few of these write past a list on purpose, which takes it.

use interface::{Answer, Event, Flow, Header, Implementation, Lent, Replayed};
use reference::Reference;
use script::compare::compare;
use script::typed;
use std::hint::black_box;

/// A script whose lines the faults are about.
const SCRIPT: &str = "\
room 12 48 3 600
start 3
enable 1 0 1
enable 1 0 1
add 0 0
set 1
rank 4
disable 1
decode 32 0 5
replay 3 0 1 0 1
tally 3
room 1024 4096 256 600
large 3
replay 0
now
";

/// The ways to be wrong.
#[derive(Clone, Copy, Debug, PartialEq, Eq)]
enum Fault {
    None,
    Length,
    BeforeTags,
    Gain,
    Tags,
    Policies,
    PastTable,
    PastFlows,
    RefusedGain,
    RefusedHeader,
    RefusedWord,
    AddedFlow,
    Question,
    BreaksOff,
    PastRanking,
    DisabledTag,
    Input,
    CompleteAt,
    ReplayPastTable,
    PastText,
    NoNewline,
    LongText,
    OtherLength,
    PastLog,
    RefusedReplay,
}

/// Each fault with the number of the line at which it shows, and what is said of it.
const FOUND: &[(Fault, u64, &str)] = &[
    (Fault::Length, 2, "the length of tags: it was 12 and is 13"),
    (Fault::BeforeTags, 2, "1 before the start of tags: 9"),
    (Fault::Gain, 3, "stored: enable 1 0 1: accepted, gain 1\n  came:   enable 1 0 1: accepted, gain 2"),
    (Fault::Tags, 3, "place 8 of tags: 5 and 4"),
    (Fault::Policies, 3, "place 47 of policies: it was 0 and is 1"),
    (Fault::PastTable, 3, "place 512 of flows: it was Flow { number: 0,"),
    (Fault::PastFlows, 3, "1 past the end of flows, place 600: Flow { number: 9,"),
    (Fault::RefusedGain, 4, "stored: enable 1 0 1: refused 6\n  came:   enable 1 0 1: refused 6, gain 3"),
    (Fault::RefusedHeader, 4, "place 0 of the header: Header { containers: 3, count: 1, greatest: 2 } and"),
    (Fault::RefusedWord, 4, "place 0 of tags: it was 1 and is 3"),
    (Fault::AddedFlow, 5, "place 0 of flows: it was Flow { number: 1,"),
    (Fault::Question, 6, "place 5 of tags: it was 0 and is 9"),
    (Fault::BreaksOff, 6, "the call breaks off"),
    (Fault::PastRanking, 7, "place 3 of the output: it was 7 and is 9"),
    (Fault::DisabledTag, 8, "place 4 of tags: it was 3 and is 2"),
    (Fault::Input, 9, "place 0 of the input: it was 5 and is 9"),
    (Fault::CompleteAt, 10, "came:   replay 3 0 1 0 1: complete at 5, events 1,"),
    (Fault::ReplayPastTable, 10, "place 599 of flows"),
    (Fault::PastText, 11, "place 34 of the output: it was 7 and is 9"),
    (Fault::NoNewline, 11, "stored: events 0 gain 0\n  came:   events 0 gain 0 and no newline at the end"),
    (Fault::LongText, 13, "the text that is too long to be printed"),
    (Fault::OtherLength, 13, "came:   large 3: complete, events 0, gain 0, n 256, flows 0, greatest 0, text: 2355 by"),
    (Fault::PastLog, 13, "place 16383 of the output: it was 7 and is 9"),
    (Fault::RefusedReplay, 14, "place 0 of tags: it was 1 and is 9"),
];

/// The reference with one fault.
struct Wrong(Fault);

/// Writes a value at a place that a pointer reaches, whoever else has it.
fn poke<T>(place: *const T, value: T) {
    // The places are those of a list between guard zones, or of the zones.
    unsafe { black_box(place.cast_mut()).write(value) }
}

impl Wrong {
    /// What is wrong with an enable that is accepted.
    fn after_enable(&self, lent: &mut Lent, answer: &mut Answer) {
        match self.0 {
            Fault::Gain => answer.gain += 1,
            Fault::Tags => lent.tags[8] |= 1,
            Fault::Policies => lent.policies[47] = 1,
            Fault::PastTable => lent.flows[512].number = 9,
            Fault::PastFlows => poke(lent.flows.as_ptr().wrapping_add(600), Flow { number: 9, from: 0, to: 0 }),
            _ => (),
        }
    }

    /// What is wrong with an enable that is refused.
    fn after_refusal(&self, lent: &mut Lent, answer: &mut Answer) {
        match self.0 {
            Fault::RefusedGain => answer.gain = 3,
            Fault::RefusedHeader => answer.header.greatest += 1,
            Fault::RefusedWord => lent.tags[0] |= 2,
            _ => (),
        }
    }

    /// What is wrong with a text of this length.
    fn after_text(&self, out: &mut [u8], length: usize) -> usize {
        match self.0 {
            Fault::PastText => out[length] = 9,
            Fault::NoNewline if length < 512 => {
                out[length - 1] = 7;
                return length - 1;
            }
            Fault::OtherLength if length > 512 => {
                out[length - 1] = 7;
                return length - 1;
            }
            Fault::LongText if length > 512 => out[100] ^= 1,
            _ => (),
        }
        length
    }
}

impl Implementation for Wrong {
    /// Starting, which may add a place or write before the tags.
    fn start(&self, n: u32, lent: &mut Lent) -> Answer {
        let answer = Reference.start(n, lent);
        match self.0 {
            Fault::Length => lent.tags.push(0),
            Fault::BeforeTags => poke(lent.tags.as_ptr().wrapping_sub(1), 9),
            _ => (),
        }
        answer
    }
    /// Enabling, with what is wrong after it.
    fn enable(&self, header: Header, lent: &mut Lent, flow: Flow) -> Answer {
        let mut answer = Reference.enable(header, lent, flow);
        match answer.refusal {
            0 => self.after_enable(lent, &mut answer),
            _ => self.after_refusal(lent, &mut answer),
        }
        answer
    }
    /// Disabling, which may take a tag away.
    fn disable(&self, header: Header, lent: &mut Lent, number: u32) -> Answer {
        let answer = Reference.disable(header, lent, number);
        if self.0 == Fault::DisabledTag {
            lent.tags[4] = 2;
        }
        answer
    }
    /// Adding a set, which may write a flow.
    fn add_policy(&self, header: Header, lent: &mut Lent, container: u32, policy: [u64; 4]) -> Answer {
        let answer = Reference.add_policy(header, lent, container, policy);
        if self.0 == Fault::AddedFlow {
            lent.flows[0].to = 2;
        }
        answer
    }
    /// The tags; may break off, or write.
    fn tags_of(&self, header: Header, lent: &Lent, container: u32) -> Result<[u64; 4], u32> {
        assert!(self.0 != Fault::BreaksOff, "a fault that breaks off");
        let set = Reference.tags_of(header, lent, container);
        if self.0 == Fault::Question {
            poke(lent.tags.as_ptr().wrapping_add(5), 9);
        }
        set
    }
    /// The size, as it should be.
    fn size_of(&self, header: Header, lent: &Lent, container: u32) -> Result<u32, u32> {
        Reference.size_of(header, lent, container)
    }
    /// Whether it is legal, as it should be.
    fn is_legal(&self, header: Header, lent: &Lent, container: u32) -> Result<bool, u32> {
        Reference.is_legal(header, lent, container)
    }
    /// The ranking, which may write the place after it.
    fn rank(&self, header: Header, lent: &Lent, out: &mut [u16]) -> Result<(), u32> {
        if self.0 == Fault::PastRanking {
            out[3] = 9;
        }
        Reference.rank(header, lent, out)
    }
    /// A replay, which may answer another byte, write past the table, or write where n is refused.
    fn replay(&self, bytes: &[u8], lent: &mut Lent) -> Replayed {
        let mut run = Reference.replay(bytes, lent);
        match self.0 {
            Fault::CompleteAt => run.byte = 5,
            Fault::ReplayPastTable => lent.flows[599].number = 9,
            Fault::RefusedReplay if run.refusal == 9 => lent.tags[0] = 9,
            _ => (),
        }
        run
    }
    /// Reading a number, which may write the input.
    fn decode(&self, bytes: &[u8], at: usize, width: u32) -> Result<(u64, usize), u32> {
        let read = Reference.decode(bytes, at, width);
        if self.0 == Fault::Input {
            poke(bytes.as_ptr(), 9);
        }
        read
    }
    /// Writing a number, as it should be.
    fn encode(&self, value: u64, out: &mut [u8], at: usize) -> Result<usize, u32> {
        Reference.encode(value, out, at)
    }
    /// Reading n, as it should be.
    fn read_head(&self, bytes: &[u8]) -> Result<(u32, usize), u32> {
        Reference.read_head(bytes)
    }
    /// Writing n, which may write the last place of a whole log.
    fn write_head(&self, n: u32, out: &mut [u8]) -> Result<usize, u32> {
        if self.0 == Fault::PastLog {
            out[16_383] = 9;
        }
        Reference.write_head(n, out)
    }
    /// Reading a record, as it should be.
    fn read_record(&self, bytes: &[u8], at: usize) -> Result<(Event, usize), u32> {
        Reference.read_record(bytes, at)
    }
    /// Writing a record, as it should be.
    fn write_record(&self, event: Event, out: &mut [u8], at: usize) -> Result<usize, u32> {
        Reference.write_record(event, out, at)
    }
    /// A record's length, as it should be.
    fn record_len(&self, event: Event) -> usize {
        Reference.record_len(event)
    }
    /// The text, with what is wrong after it.
    fn tally(&self, bytes: &[u8], out: &mut [u8]) -> Result<usize, u32> {
        Reference.tally(bytes, out).map(|length| self.after_text(out, length))
    }
}

/// What the script prints and says line by line, and whether nothing is wrong.
fn typed_in(product: &dyn Implementation) -> (String, String, bool) {
    let (mut out, mut err) = (Vec::new(), Vec::new());
    let right = typed::run(&mut SCRIPT.as_bytes(), &mut out, &mut err, [product, &Reference]).unwrap();
    (String::from_utf8(out).unwrap(), String::from_utf8(err).unwrap(), right)
}

/// What is wrong when the script is compared with what the reference prints.
fn wrong(product: &dyn Implementation) -> Vec<String> {
    let (stored, _, _) = typed_in(&Reference);
    compare(&mut SCRIPT.as_bytes(), stored.as_bytes(), [("product", product), ("reference", &Reference)]).unwrap().wrong
}

/// Nothing wrong is not found.
#[test]
fn nothing_wrong_is_not_found() {
    assert_eq!(wrong(&Wrong(Fault::None)), Vec::<String>::new());
    let (_, err, right) = typed_in(&Wrong(Fault::None));
    assert!(err.is_empty() && right);
}

/// Each fault is found by the comparison, first at its line, and nothing is said of the reference alone.
#[test]
fn each_fault_is_found_at_its_line() {
    for (fault, number, said) in FOUND {
        let found = wrong(&Wrong(*fault));
        let line = SCRIPT.lines().nth(*number as usize - 1).unwrap();
        assert!(found.iter().all(|one| one.starts_with("product ")), "{fault:?}: {found:?}");
        assert!(found[0].contains(&format!("line {number}: {line}\n")), "{fault:?}: {}", found[0]);
        assert!(found[0].contains(said), "{fault:?}: {}", found[0]);
    }
}

/// Each fault is said line by line, too, first at its line.
#[test]
fn each_fault_is_said_at_its_line() {
    for (fault, number, _) in FOUND {
        let (_, err, right) = typed_in(&Wrong(*fault));
        let line = SCRIPT.lines().nth(*number as usize - 1).unwrap();
        assert!(err.starts_with(&format!("line {number}: {line}: ")), "{fault:?}: {err}");
        assert!(!right, "{fault:?}");
    }
}

/// The same fault on both sides is found by the stored output or by what a call may write, on each side.
#[test]
fn a_fault_of_both_is_found_by_what_is_stored() {
    let (stored, _, _) = typed_in(&Reference);
    for fault in [Fault::Gain, Fault::PastTable, Fault::RefusedWord, Fault::NoNewline] {
        let sides: [(&str, &dyn Implementation); 2] = [("one", &Wrong(fault)), ("other", &Wrong(fault))];
        let found = compare(&mut SCRIPT.as_bytes(), stored.as_bytes(), sides).unwrap().wrong;
        assert!(found.len() == 2 && found[0].starts_with("one at ") && found[1].starts_with("other at "), "{found:?}");
    }
}
