//! The two implementations side by side: each call goes to both with the same input, and the answer and every word lent are compared after it.
use crate::counts::{Call, Class, Counts};
use crate::difference::{first_place, short_bytes, Account, Difference};
use crate::inputs::TABLE;
use crate::sentence;
use crate::side::{Left, Side};
use interface::{Answer, Event, Flow, Header, Implementation, Lent, Places, Replayed};
use std::cell::Cell;
use std::fmt::Debug;

/// The containers times the events of a replay up to which it is held against the paper's sentence.
const SENTENCE_COST: u64 = 2_000;

/// What a comparison gives: the answer that both gave, or the difference.
pub type Checked<T> = Result<T, Difference>;

/// A tracker that is held twice, once for each implementation, and as it was before the call.
pub struct Tracker {
    pub header: Header,
    pub first: Lent,
    second: Lent,
    before: Lent,
}

impl Tracker {
    /// A tracker of which both implementations get the same copy.
    pub fn new(header: Header, lent: Lent) -> Tracker {
        Tracker { header, second: lent.clone(), before: lent.clone(), first: lent }
    }

    /// Notes the content after a call that was accepted.
    fn keep(&mut self) {
        self.before.tags.copy_from_slice(&self.first.tags);
        self.before.policies.copy_from_slice(&self.first.policies);
        self.before.counts.copy_from_slice(&self.first.counts);
        self.before.flows.copy_from_slice(&self.first.flows);
    }

    /// The first word that differs between the two, or that a call not allowed to write has changed.
    fn unlike(&self, kept: bool) -> Option<String> {
        if self.first != self.second {
            return lent_place(&self.first, &self.second);
        }
        if kept && self.first != self.before {
            return lent_place(&self.before, &self.first).map(|place| format!("both wrote on refusal, {place}"));
        }
        None
    }

    /// Where the second's sets or gain after an accepted enable are not those of the paper's sentence.
    fn against_sentence(&self, flow: Flow, gain: u32) -> Option<String> {
        let n = self.header.containers as usize;
        let before = &self.before.tags[..4 * n];
        let mut flows = self.before.flows[..self.header.count as usize].to_vec();
        flows.push(flow);
        let after = sentence::after(n, before, &flows);
        let place = first_place("tags", &self.second.tags[..4 * n], &after)
            .or_else(|| first_place("gain", &[u64::from(gain)], &[sentence::gain(before, &after)]));
        place.map(|place| format!("not what the paper's sentence gives, {place}"))
    }

    /// Where a call that adds no tag, a disable or the adding of a set, has changed a tag or answers a gain.
    fn against_stillness(&self, gain: u32) -> Option<String> {
        let place = first_place("tags", &self.second.tags, &self.before.tags).or_else(|| first_place("gain", &[gain], &[0]));
        place.map(|place| format!("a call that adds no tag, {place}"))
    }

    /// The first word beyond the lengths that the paper gives for n containers, if both have written one.
    fn beyond(&self, n: u32) -> Option<String> {
        let n = n as usize;
        let (a, b) = (&self.before, &self.first);
        let place = first_place("tags beyond", tail(&a.tags, 4 * n), tail(&b.tags, 4 * n))
            .or_else(|| first_place("policies beyond", tail(&a.policies, 16 * n), tail(&b.policies, 16 * n)))
            .or_else(|| first_place("counts beyond", tail(&a.counts, n), tail(&b.counts, n)))
            .or_else(|| first_place("flows beyond", tail(&a.flows, TABLE), tail(&b.flows, TABLE)));
        place.map(|place| format!("both wrote beyond the storage, {place}"))
    }
}

/// What lies beyond a length.
fn tail<T>(list: &[T], length: usize) -> &[T] {
    list.get(length..).unwrap_or(&[])
}

/// The first word at which two storages differ.
fn lent_place(a: &Lent, b: &Lent) -> Option<String> {
    first_place("tags", &a.tags, &b.tags)
        .or_else(|| first_place("policies", &a.policies, &b.policies))
        .or_else(|| first_place("counts", &a.counts, &b.counts))
        .or_else(|| first_place("flows", &a.flows, &b.flows))
}

/// The refusal's number of an answer that is either.
fn number_of<T>(answer: &Result<T, u32>) -> u32 {
    match answer {
        Ok(_) => 0,
        Err(number) => *number,
    }
}

/// The two implementations, what they have been seen to answer, and the case that is run.
pub struct Pair<'a> {
    first: Side<'a>,
    second: Side<'a>,
    pub counts: Counts,
    seed: u64,
    case: (Class, u64),
    call: Cell<Option<Call>>,
}

impl<'a> Pair<'a> {
    /// A pair that has seen nothing.
    pub fn new(first: &'a dyn Implementation, second: &'a dyn Implementation, seed: u64) -> Pair<'a> {
        let (first, second) = (Side::new(first), Side::new(second));
        Pair { first, second, counts: Counts::new(), seed, case: (Class::Numbers, 0), call: Cell::new(None) }
    }

    /// The case that is run from now on.
    pub fn turn_to(&mut self, class: Class, case: u64) {
        self.case = (class, case);
    }

    /// Counts an input of the present class.
    pub fn input(&mut self) {
        self.counts.inputs[self.case.0 as usize] += 1;
    }

    /// Both implementations, for a call that is made now and held against the paper alone.
    pub fn both(&self, call: Call) -> [&Side<'a>; 2] {
        self.call.set(Some(call));
        [&self.first, &self.second]
    }

    /// Fails where one of the two goes against the paper, whatever the other shows; counts the answer otherwise.
    pub fn hold<T: Debug>(&mut self, call: Call, number: u32, shown: [&T; 2], place: Option<String>, arguments: &dyn Fn() -> String) -> Checked<()> {
        self.call.set(None);
        if let Some(place) = self.overrun().or(place) {
            return Err(self.account(call, arguments(), shown.map(|one| format!("{one:?}")), place));
        }
        self.counts.note(self.case.0, call, number);
        Ok(())
    }

    /// The account of a difference in the present case.
    fn account(&self, call: Call, arguments: String, answers: [String; 2], place: String) -> Difference {
        let [first, second] = answers;
        let case = format!("{}/{}", self.case.0.name(), self.case.1);
        Box::new(Account { call: call.name().into(), arguments, first, second, place, seed: self.seed, case, ..Account::default() })
    }

    /// The account of a case that did not come to its end: an implementation gave up in a call, or the making of the input did.
    pub fn stopped(&self) -> Difference {
        let answers = [String::from("(none)"), String::from("(none)")];
        let place = match self.call.get() {
            Some(_) => "one of the two did not come back from the call",
            None => "outside the calls: the making of the input did not come to its end",
        };
        let call = self.call.get().unwrap_or(Call::Start);
        let account = self.account(call, String::from("see the message on standard error"), answers, place.into());
        Box::new(Account { stopped: true, ..*account })
    }

    /// Where one of the two has written outside what it was lent since the last call that was compared.
    fn overrun(&self) -> Option<String> {
        let told = |side: &Side, name: &str| side.overrun().map(|place| format!("{name} wrote what it was not lent, {place}"));
        told(&self.first, "the first").or_else(|| told(&self.second, "the second"))
    }

    /// Fails if one has written outside what it was lent, if the answers differ, if there is a place that differs, or if the number is none that this call may
    /// answer; counts it otherwise.
    fn agree<T: PartialEq + Debug>(&mut self, call: Call, numbers: u32, answers: [&T; 2], place: Option<String>, arguments: &dyn Fn() -> String) -> Checked<()> {
        self.call.set(None);
        let place = self.overrun().or(place);
        let shown = || answers.map(|answer| format!("{answer:?}"));
        if answers[0] != answers[1] {
            let place = place.unwrap_or_else(|| String::from("in the answer alone"));
            return Err(self.account(call, arguments(), shown(), place));
        }
        if let Some(place) = place {
            return Err(self.account(call, arguments(), shown(), place));
        }
        if !call.answers().contains(&numbers) {
            let place = format!("both answer {numbers}, which the paper's order does not leave to this call");
            return Err(self.account(call, arguments(), shown(), place));
        }
        self.counts.note(self.case.0, call, numbers);
        Ok(())
    }

    /// Where an accepted event or adding is not what the paper's sentence gives.
    fn judged(&mut self, t: &Tracker, event: Option<Event>, gain: u32) -> Option<String> {
        let Some(Event::Enable(flow)) = event else { return t.against_stillness(gain) };
        self.counts.held[0] += 1;
        t.against_sentence(flow, gain)
    }

    /// Compares what an event, a starting or an adding left.
    fn settle(&mut self, call: Call, t: &mut Tracker, event: Option<Event>, answers: [Answer; 2], arguments: &dyn Fn() -> String) -> Checked<Answer> {
        let answer = answers[0];
        let refused = answer.refusal != 0;
        let back = if call == Call::Start { Header::default() } else { t.header };
        let mut place = t.unlike(refused);
        if place.is_none() && refused && (answer.gain != 0 || answer.header != back) {
            place = Some(String::from("a refusal answers a gain or another header"));
        }
        if place.is_none() && !refused {
            place = t.beyond(answer.header.containers);
        }
        if place.is_none() && !refused && call != Call::Start && answers[0] == answers[1] {
            place = self.judged(t, event, answers[1].gain);
        }
        self.agree(call, answer.refusal, [&answers[0], &answers[1]], place, arguments)?;
        if !refused {
            t.header = answer.header;
            t.keep();
        }
        Ok(answer)
    }

    /// Starting.
    pub fn start(&mut self, t: &mut Tracker, n: u32) -> Checked<Answer> {
        self.call.set(Some(Call::Start));
        let answers = [self.first.start(n, &mut t.first), self.second.start(n, &mut t.second)];
        self.settle(Call::Start, t, None, answers, &|| format!("n {n}"))
    }

    /// Enabling a flow.
    pub fn enable(&mut self, t: &mut Tracker, flow: Flow) -> Checked<Answer> {
        self.call.set(Some(Call::Enable));
        let header = t.header;
        let answers = [self.first.enable(header, &mut t.first, flow), self.second.enable(header, &mut t.second, flow)];
        self.settle(Call::Enable, t, Some(Event::Enable(flow)), answers, &|| format!("{header:?}, {flow:?}"))
    }

    /// Disabling a flow.
    pub fn disable(&mut self, t: &mut Tracker, number: u32) -> Checked<Answer> {
        self.call.set(Some(Call::Disable));
        let header = t.header;
        let answers = [self.first.disable(header, &mut t.first, number), self.second.disable(header, &mut t.second, number)];
        self.settle(Call::Disable, t, Some(Event::Disable(number)), answers, &|| format!("{header:?}, number {number}"))
    }

    /// Adding a policy set.
    pub fn add_policy(&mut self, t: &mut Tracker, container: u32, policy: [u64; 4]) -> Checked<Answer> {
        self.call.set(Some(Call::AddPolicy));
        let header = t.header;
        let one = self.first.add_policy(header, &mut t.first, container, policy);
        let two = self.second.add_policy(header, &mut t.second, container, policy);
        self.settle(Call::AddPolicy, t, None, [one, two], &|| format!("{header:?}, container {container}, policy {policy:?}"))
    }

    /// Compares what a question answered.
    fn question<T: PartialEq + Debug>(&mut self, call: Call, t: &Tracker, container: u32, answers: [Result<T, u32>; 2]) -> Checked<()> {
        let header = t.header;
        let number = number_of(&answers[0]);
        self.agree(call, number, [&answers[0], &answers[1]], t.unlike(true), &|| format!("{header:?}, container {container}"))
    }

    /// The tags of a container.
    pub fn tags_of(&mut self, t: &Tracker, container: u32) -> Checked<()> {
        self.call.set(Some(Call::TagsOf));
        let answers = [self.first.tags_of(t.header, &t.first, container), self.second.tags_of(t.header, &t.second, container)];
        self.question(Call::TagsOf, t, container, answers)
    }

    /// The size of a container's tag set.
    pub fn size_of(&mut self, t: &Tracker, container: u32) -> Checked<()> {
        self.call.set(Some(Call::SizeOf));
        let answers = [self.first.size_of(t.header, &t.first, container), self.second.size_of(t.header, &t.second, container)];
        self.question(Call::SizeOf, t, container, answers)
    }

    /// Whether a container may be sent.
    pub fn is_legal(&mut self, t: &Tracker, container: u32) -> Checked<()> {
        self.call.set(Some(Call::IsLegal));
        let answers = [self.first.is_legal(t.header, &t.first, container), self.second.is_legal(t.header, &t.second, container)];
        self.question(Call::IsLegal, t, container, answers)?;
        if let Ok(legal) = answers[0] {
            self.counts.legal[usize::from(legal)] += 1;
        }
        Ok(())
    }

    /// The ranking, written into two copies of `out`.
    pub fn rank(&mut self, t: &Tracker, out: &[u16]) -> Checked<()> {
        self.call.set(Some(Call::Rank));
        let (answers, outs) = apart([self.first.rank(t.header, &t.first, out), self.second.rank(t.header, &t.second, out)]);
        let written = if answers[0].is_ok() { t.header.containers as usize } else { 0 };
        let place = first_place("out", &outs[0], &outs[1])
            .or_else(|| t.unlike(true))
            .or_else(|| first_place("out after the answer", &out[written.min(out.len())..], &outs[0][written.min(out.len())..]));
        let header = t.header;
        self.agree(Call::Rank, number_of(&answers[0]), [&answers[0], &answers[1]], place, &|| format!("{header:?}, {} places", out.len()))
    }

    /// A replay of a log in the tracker's storage.
    pub fn replay(&mut self, t: &mut Tracker, bytes: &[u8]) -> Checked<Replayed> {
        self.call.set(Some(Call::Replay));
        let answers = [self.first.replay(bytes, &mut t.first), self.second.replay(bytes, &mut t.second)];
        let answer = answers[0];
        let begun = answer.header.containers != 0;
        let mut place = t.unlike(!begun);
        if place.is_none() && answers[0] == answers[1] {
            place = if begun { t.beyond(answer.header.containers) } else { self.unbegun(answer) };
            place = place.or_else(|| self.replay_rules(bytes, answer));
            place = place.or_else(|| if begun { self.replay_against_sentence(bytes, t, answer) } else { None });
        }
        let lengths = [t.first.tags.len(), t.first.policies.len(), t.first.counts.len(), t.first.flows.len()];
        let arguments = || format!("log {}, storage of lengths {lengths:?}", short_bytes(bytes));
        self.agree(Call::Replay, answer.refusal, [&answers[0], &answers[1]], place, &arguments)?;
        if begun {
            t.header = answer.header;
            t.keep();
        }
        Ok(answer)
    }

    /// Where the sets or the gain of a replay are not those of the paper's sentence for the events that were done; only where that takes little time.
    fn replay_against_sentence(&mut self, bytes: &[u8], t: &Tracker, answer: Replayed) -> Option<String> {
        let n = answer.header.containers as usize;
        if n as u64 * answer.events > SENTENCE_COST && self.case.0 != Class::Wide {
            return None;
        }
        let events = self.second.events_of(bytes, answer.events)?;
        self.counts.held[1] += answer.events;
        let (sets, gain) = sentence::after_all(n, &events);
        let place = first_place("tags", &t.second.tags[..4 * n], &sets).or_else(|| first_place("gain", &[answer.gain], &[gain]));
        place.map(|place| format!("not what the paper's sentence gives, {place}"))
    }

    /// What a replay that never began has to answer: 1, 2 or 9, and nothing else.
    fn unbegun(&self, answer: Replayed) -> Option<String> {
        let alone = Replayed { refusal: answer.refusal, ..Replayed::default() };
        let right = answer == alone && [1, 2, 9].contains(&answer.refusal);
        (!right).then(|| String::from("a replay that never began answers more than its refusal"))
    }

    /// A replay that came to its end has byte 0, and each of the two would write the very bytes it has read.
    fn replay_rules(&self, bytes: &[u8], answer: Replayed) -> Option<String> {
        if answer.refusal != 0 {
            return None;
        }
        if answer.byte != 0 {
            return Some(String::from("a complete replay answers a byte"));
        }
        let alike = [&self.first, &self.second].iter().all(|one| one.writes_again(bytes));
        (!alike).then(|| String::from("the accepted log is not what would be written"))
    }

    /// Where one of the two would write other bytes than those that both have accepted.
    fn unlike_written(&self, accepted: Option<&[u8]>, write: &dyn Fn(&Side, &[u8]) -> Left<Result<usize, u32>, u8>) -> Option<String> {
        let same = |side: &Side| {
            let (end, out) = write(side, &[0; 24]);
            end.is_ok_and(|end| accepted.is_some() && out.get(..end) == accepted)
        };
        (!same(&self.first) || !same(&self.second)).then(|| String::from("the accepted bytes are not those that would be written"))
    }

    /// Where one of the two does not read back what both have written.
    fn unlike_read(&self, same: &dyn Fn(&Side) -> bool) -> Option<String> {
        (!same(&self.first) || !same(&self.second)).then(|| String::from("read back it is not what was written"))
    }

    /// The number at a position.
    pub fn decode(&mut self, bytes: &[u8], at: usize, width: u32) -> Checked<()> {
        self.call.set(Some(Call::Decode));
        let answers = [self.first.decode(bytes, at, width), self.second.decode(bytes, at, width)];
        let mut place = None;
        if let (Ok((value, end)), true) = (answers[0], answers[0] == answers[1]) {
            let wide = bits(value) > width;
            place = wide.then(|| String::from("the number has more bits than asked"));
            place = place.or_else(|| self.unlike_written(bytes.get(at..end), &|side, out| side.encode(value, out, 0)));
        }
        let number = number_of(&answers[0]);
        let arguments = || format!("{} at {at}, {width} bits", short_bytes(bytes));
        self.agree(Call::Decode, number, [&answers[0], &answers[1]], place, &arguments)?;
        self.counts.note_width(width, number);
        Ok(())
    }

    /// n at the start of a log.
    pub fn read_head(&mut self, bytes: &[u8]) -> Checked<()> {
        self.call.set(Some(Call::ReadHead));
        let answers = [self.first.read_head(bytes), self.second.read_head(bytes)];
        let mut place = None;
        if let (Ok((n, end)), true) = (answers[0], answers[0] == answers[1]) {
            place = self.unlike_written(bytes.get(..end), &|side, out| side.write_head(n, out));
        }
        self.agree(Call::ReadHead, number_of(&answers[0]), [&answers[0], &answers[1]], place, &|| short_bytes(bytes))
    }

    /// The record at a position.
    pub fn read_record(&mut self, bytes: &[u8], at: usize) -> Checked<()> {
        self.call.set(Some(Call::ReadRecord));
        let answers = [self.first.read_record(bytes, at), self.second.read_record(bytes, at)];
        let mut place = None;
        if let (Ok((event, end)), true) = (answers[0], answers[0] == answers[1]) {
            place = self.unlike_written(bytes.get(at..end), &|side, out| side.write_record(event, out, 0));
        }
        self.agree(Call::ReadRecord, number_of(&answers[0]), [&answers[0], &answers[1]], place, &|| format!("{} at {at}", short_bytes(bytes)))
    }

    /// Writing a number into two copies of `out`, and reading it back: with just its bits and with more, never with fewer.
    pub fn encode(&mut self, value: u64, out: &[u8], at: usize) -> Checked<()> {
        self.call.set(Some(Call::Encode));
        let (answers, outs) = apart([self.first.encode(value, out, at), self.second.encode(value, out, at)]);
        let mut place = written_place(out, &outs, at, answers[0]);
        if let (Ok(end), None) = (answers[0], &place) {
            let few = bits(value).checked_sub(1);
            let widths = if (at, end) == (0, out.len()) { 0..=WIDEST } else { few.unwrap_or(0)..=bits(value) };
            let read = |width| if bits(value) <= width { Ok((value, end)) } else { Err(2) };
            place = self.unlike_read(&|side| widths.clone().all(|width| side.decode(&outs[0], at, width) == read(width)));
        }
        let arguments = || format!("{value} into {} bytes at {at}", out.len());
        self.agree(Call::Encode, number_of(&answers[0]), [&answers[0], &answers[1]], place, &arguments)
    }

    /// Writing n at the start of two copies of `out`, and reading it back.
    pub fn write_head(&mut self, n: u32, out: &[u8]) -> Checked<()> {
        self.call.set(Some(Call::WriteHead));
        let (answers, outs) = apart([self.first.write_head(n, out), self.second.write_head(n, out)]);
        let mut place = written_place(out, &outs, 0, answers[0]);
        if let (Ok(end), None) = (answers[0], &place) {
            place = self.unlike_read(&|side| side.read_head(&outs[0]) == Ok((n, end)));
        }
        let arguments = || format!("{n} into {} bytes", out.len());
        self.agree(Call::WriteHead, number_of(&answers[0]), [&answers[0], &answers[1]], place, &arguments)
    }

    /// Writing a record into two copies of `out`, and reading it back.
    pub fn write_record(&mut self, event: Event, out: &[u8], at: usize) -> Checked<()> {
        self.call.set(Some(Call::WriteRecord));
        let (answers, outs) = apart([self.first.write_record(event, out, at), self.second.write_record(event, out, at)]);
        let mut place = written_place(out, &outs, at, answers[0]);
        if let (Ok(end), None) = (answers[0], &place) {
            place = self.unlike_read(&|side| side.read_record(&outs[0], at) == Ok((event, end)));
        }
        let arguments = || format!("{event:?} into {} bytes at {at}", out.len());
        self.agree(Call::WriteRecord, number_of(&answers[0]), [&answers[0], &answers[1]], place, &arguments)
    }

    /// How many bytes a record takes: it is written into just so many, and one less is refused with 10.
    pub fn record_len(&mut self, event: Event) -> Checked<()> {
        self.call.set(Some(Call::RecordLen));
        let answers = [self.first.record_len(event), self.second.record_len(event)];
        let length = answers[0].clamp(1, 64);
        let room = vec![0; length];
        let fits = |side: &Side| {
            let [just, less] = [length, length - 1].map(|room_left| side.write_record(event, &room[..room_left], 0).0);
            (just, less) == (Ok(answers[0]), Err(10))
        };
        let place = (!fits(&self.first) || !fits(&self.second)).then(|| String::from("not the bytes that the record takes"));
        self.agree(Call::RecordLen, 0, [&answers[0], &answers[1]], place, &|| format!("{event:?}"))
    }

    /// The text of `tally`, written into two copies of `out`; answers its length where it fits.
    pub fn tally(&mut self, bytes: &[u8], out: &[u8]) -> Checked<Option<usize>> {
        self.call.set(Some(Call::Tally));
        let (answers, outs) = apart([self.first.tally(bytes, out), self.second.tally(bytes, out)]);
        let arguments = || format!("input {}, room for {} bytes", short_bytes(bytes), out.len());
        let place = written_place(out, &outs, 0, answers[0]);
        self.agree(Call::Tally, number_of(&answers[0]), [&answers[0], &answers[1]], place, &arguments)?;
        let Ok(length) = answers[0] else { return Ok(None) };
        let refusal = text_refusal(&outs[0][..length]);
        let place = refusal.is_none().then(|| String::from("the last line is neither of the two that the paper gives"));
        self.agree(Call::Text, refusal.unwrap_or(0), [&answers[0], &answers[1]], place, &arguments)?;
        Ok(Some(length))
    }
}

/// The widest numbers that are read back.
const WIDEST: u32 = 66;

/// How many bits a number has.
fn bits(value: u64) -> u32 {
    u64::BITS - value.leading_zeros()
}

/// The answers of both, and the outputs of both.
fn apart<T, O>([first, second]: [Left<T, O>; 2]) -> ([T; 2], [Places<O>; 2]) {
    ([first.0, second.0], [first.1, second.1])
}

/// The first byte at which two outputs differ, or that lies outside the answer and was written all the same.
fn written_place(out: &[u8], outs: &[Places<u8>; 2], at: usize, answer: Result<usize, u32>) -> Option<String> {
    let both = first_place("out", &outs[0], &outs[1]);
    let (from, to) = match answer {
        Ok(end) => (at, end),
        Err(_) => (out.len(), out.len()),
    };
    if from > to || to > out.len() {
        return both.or_else(|| Some(String::from("the answer lies outside the output")));
    }
    both.or_else(|| first_place("out before the answer", &out[..from], &outs[0][..from]))
        .or_else(|| first_place("out after the answer", &out[to..], &outs[0][to..]))
}

/// The refusal that the last line of a text names, 0 for the line of events, nothing for any other line.
fn text_refusal(text: &[u8]) -> Option<u32> {
    let text = std::str::from_utf8(text).ok()?.strip_suffix('\n')?;
    let words: Vec<&str> = text.lines().last()?.split(' ').collect();
    match words[..] {
        ["events", events, "gain", gain] => (events.parse::<u64>().is_ok() && gain.parse::<u64>().is_ok()).then_some(0),
        ["refused", number, "at", byte] if byte.parse::<u64>().is_ok() => number.parse().ok(),
        _ => None,
    }
}

#[cfg(test)]
mod tests {
    use super::*;

    /// The two last lines of the paper are read, and no other line is.
    #[test]
    fn last_line_is_read() {
        assert_eq!(text_refusal(b"0 1 0\nevents 8 gain 10\n"), Some(0));
        assert_eq!(text_refusal(b"refused 10 at 16384\n"), Some(10));
        for wrong in [&b"events 8 gain 10"[..], b"events 8\n", b"refused 3 at\n", b"refused 3 at 4 \n", b"", b"0 1 0\n"] {
            assert_eq!(text_refusal(wrong), None);
        }
    }

    /// A byte written on refusal, before the answer or after it is a place; a byte within it is none.
    #[test]
    fn bytes_outside_the_answer_are_seen() {
        let out = [7; 6];
        let changed = |at: usize| {
            let mut other = Places::from(&out[..]);
            other[at] = 1;
            [other.clone(), other]
        };
        assert!(written_place(&out, &changed(2), 2, Ok(4)).is_none());
        assert!(written_place(&out, &changed(1), 2, Ok(4)).is_some());
        assert!(written_place(&out, &changed(4), 2, Ok(4)).is_some());
        assert!(written_place(&out, &changed(2), 2, Err(10)).is_some());
    }
}
