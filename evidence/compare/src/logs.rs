//! Logs: courses of events that join, events that are refused, and damage to the bytes.
use crate::inputs::{Random, MOST_BYTES, TABLE};
use interface::{Event, Flow};

/// How the flows of a course lie.
#[derive(Clone, Copy, Debug, PartialEq, Eq)]
pub enum Shape {
    Chain,
    ChainBack,
    Ring,
    RingBack,
    StarOut,
    StarIn,
    TwoWay,
    Alike,
    Groups,
    Tree,
    Layers,
    Random,
}

/// All shapes.
pub const SHAPES: [Shape; 12] = [
    Shape::Chain,
    Shape::ChainBack,
    Shape::Ring,
    Shape::RingBack,
    Shape::StarOut,
    Shape::StarIn,
    Shape::TwoWay,
    Shape::Alike,
    Shape::Groups,
    Shape::Tree,
    Shape::Layers,
    Shape::Random,
];

/// The ends of the flow with this place in a shape on n containers, n at least 2.
pub fn ends(random: &mut Random, shape: Shape, n: u32, place: usize) -> (u32, u32) {
    let step = (place % (n as usize - 1)) as u32;
    let turn = (place % n as usize) as u32;
    match shape {
        Shape::Chain => (step, step + 1),
        Shape::ChainBack => (n - 2 - step, n - 1 - step),
        Shape::Ring => (turn, (turn + 1) % n),
        Shape::RingBack => (n - 1 - turn, (n - turn) % n),
        Shape::StarOut => (0, step + 1),
        Shape::StarIn => (step + 1, 0),
        Shape::TwoWay => two_way(n, place),
        Shape::Alike => (step % 2, 1 - step % 2),
        Shape::Groups => group_ends(random, n),
        Shape::Tree => (step / 2, step + 1),
        Shape::Layers => layer_ends(n, place),
        Shape::Random => any_ends(random, n),
    }
}

/// Two ends of neighbours, there at even places and back at odd ones.
fn two_way(n: u32, place: usize) -> (u32, u32) {
    let low = (place / 2 * 2 % n as usize) as u32;
    let (low, high) = if low + 1 < n { (low, low + 1) } else { (0, 1) };
    if place.is_multiple_of(2) { (low, high) } else { (high, low) }
}

/// The ends of two layers: 1 to many, each of these to one more, at last 0 to 1.
fn layer_ends(n: u32, place: usize) -> (u32, u32) {
    let half = (n - 2) / 2;
    let turn = (place % (2 * half as usize + 1)) as u32;
    match turn {
        turn if turn < half => (1, 2 + turn),
        turn if turn < 2 * half => (2 + turn - half, 2 + turn),
        _ => (0, 1),
    }
}

/// Two ends within a group of six, upwards, so that tag sets stay small.
fn group_ends(random: &mut Random, n: u32) -> (u32, u32) {
    let base = random.below(n as usize) as u32 / 6 * 6;
    let top = (base + 6).min(n);
    if top - base < 2 {
        return (0, 1);
    }
    let from = base + random.below((top - base) as usize - 1) as u32;
    (from, from + 1 + random.below((top - from) as usize - 1) as u32)
}

/// Any two ends that differ.
pub fn any_ends(random: &mut Random, n: u32) -> (u32, u32) {
    let from = random.container(n);
    let to = random.container(n);
    if from != to { (from, to) } else { (from, (from + 1) % n) }
}

/// How the numbers of enabled flows rise.
#[derive(Clone, Copy, Debug)]
pub enum Steps {
    Ones,
    Gaps,
    Wide,
    Top,
}

/// A course of events that all join: n, what is enabled, the greatest number, the events so far.
#[derive(Clone, Debug)]
pub struct Course {
    pub n: u32,
    pub greatest: u32,
    pub enabled: Vec<Flow>,
    pub events: Vec<Event>,
    pub gone: Vec<u32>,
    steps: Steps,
}

impl Course {
    /// A course without events.
    pub fn new(n: u32, steps: Steps) -> Course {
        Course { n, greatest: 0, enabled: Vec::new(), events: Vec::new(), gone: Vec::new(), steps }
    }

    /// A course without events whose n and steps are drawn; few containers are the more frequent.
    pub fn drawn(random: &mut Random) -> Course {
        let n = random.containers();
        let n = if n > 66 && !random.once_in(3) { 2 + random.below(20) as u32 } else { n };
        let steps = random.pick(&[Steps::Ones, Steps::Gaps, Steps::Wide, Steps::Top]);
        Course::new(n, steps)
    }

    /// The number of the next flow, nothing where there is none above the greatest.
    fn next_number(&self, random: &mut Random) -> Option<u32> {
        let step = match self.steps {
            Steps::Ones => 1,
            Steps::Gaps => 1 + random.below(4) as u32,
            Steps::Wide => 1 + random.below(3_000_000) as u32,
            Steps::Top if self.greatest == 0 => u32::MAX - random.below(700) as u32,
            Steps::Top => 1,
        };
        self.greatest.checked_add(step)
    }

    /// Enables a flow with the ends of the shape at this place, where there is room and a number.
    pub fn enable(&mut self, random: &mut Random, shape: Shape, place: usize) {
        if self.n > 1 {
            let ends = ends(random, shape, self.n, place);
            self.enable_ends(random, ends);
        }
    }

    /// Enables a flow with these ends, where there is room and a number.
    pub fn enable_ends(&mut self, random: &mut Random, (from, to): (u32, u32)) {
        let Some(number) = self.next_number(random) else { return };
        if self.enabled.len() == TABLE {
            return;
        }
        let flow = Flow { number, from, to };
        self.greatest = number;
        self.enabled.push(flow);
        self.events.push(Event::Enable(flow));
    }

    /// Disables one of the enabled flows: the first, the last or any.
    pub fn disable(&mut self, random: &mut Random) {
        if self.enabled.is_empty() {
            return;
        }
        let last = self.enabled.len() - 1;
        let any = random.below(last + 1);
        let flow = self.enabled.remove(random.pick(&[0, last, any, any]));
        self.gone.push(flow.number);
        self.events.push(Event::Disable(flow.number));
    }

    /// Disables the flow with the greatest number, where it is enabled.
    pub fn disable_greatest(&mut self) {
        if self.enabled.last().is_some_and(|flow| flow.number == self.greatest) {
            self.enabled.pop();
            self.gone.push(self.greatest);
            self.events.push(Event::Disable(self.greatest));
        }
    }

    /// Goes on for so many events; a disable comes once in `churn` events, never where it is 0.
    pub fn go_on(&mut self, random: &mut Random, shape: Shape, events: usize, churn: usize) {
        for place in 0..events {
            if churn != 0 && random.once_in(churn) {
                self.disable(random);
            } else {
                self.enable(random, shape, place);
            }
        }
    }

    /// Enables flows until the table is full or the numbers are used up.
    pub fn fill(&mut self, random: &mut Random, shape: Shape) {
        for place in 0..TABLE {
            self.enable(random, shape, place);
        }
    }

    /// An event of which this refusal, or these two at once, apply to a tracker that has come so far.
    pub fn refused(&self, random: &mut Random, kind: Refused) -> Event {
        let n = self.n;
        let right = self.greatest.saturating_add(1 + random.below(3) as u32);
        let used = [0, self.greatest, self.greatest, random.below(self.greatest as usize + 1) as u32];
        let old = random.pick(&used);
        let (from, to) = if n > 1 { any_ends(random, n) } else { (0, 0) };
        let wrong = random.no_container(n);
        let (number, from, to) = match kind {
            Refused::From => (right, wrong, to),
            Refused::To => (right, from, wrong),
            Refused::Same | Refused::FullAndSame => (right, from, from),
            Refused::Old | Refused::FullAndOld => (old, from, to),
            Refused::Full => (right, from, to),
            Refused::FromAndSame => (right, wrong, wrong),
            Refused::FromAndOld => (old, wrong, to),
            Refused::SameAndOld => (old, from, from),
            Refused::FullAndFrom => (right, wrong, to),
            Refused::NotEnabled => return Event::Disable(self.not_enabled(random)),
        };
        Event::Enable(Flow { number, from, to })
    }

    /// A number that no enabled flow has.
    fn not_enabled(&self, random: &mut Random) -> u32 {
        let gone = if self.gone.is_empty() { 0 } else { random.pick(&self.gone) };
        let near = [0, gone, gone, self.greatest.wrapping_add(1), u32::MAX, random.number()];
        let chosen = random.pick(&near);
        if self.enabled.iter().any(|flow| flow.number == chosen) { 0 } else { chosen }
    }
}

/// The refusals of events, and two at once so that the order shows.
#[derive(Clone, Copy, Debug, PartialEq, Eq)]
pub enum Refused {
    From,
    To,
    Same,
    Old,
    Full,
    NotEnabled,
    FromAndSame,
    FromAndOld,
    SameAndOld,
    FullAndFrom,
    FullAndSame,
    FullAndOld,
}

/// All kinds of refused events.
pub const REFUSED: [Refused; 12] = [
    Refused::From,
    Refused::To,
    Refused::Same,
    Refused::Old,
    Refused::Full,
    Refused::NotEnabled,
    Refused::FromAndSame,
    Refused::FromAndOld,
    Refused::SameAndOld,
    Refused::FullAndFrom,
    Refused::FullAndSame,
    Refused::FullAndOld,
];

impl Refused {
    /// Whether the table has to be full for it.
    pub fn needs_full(self) -> bool {
        matches!(self, Refused::Full | Refused::FullAndFrom | Refused::FullAndSame | Refused::FullAndOld)
    }
}

/// The bytes of a log, and where its records and its numbers begin.
#[derive(Clone, Debug, Default)]
pub struct Written {
    pub bytes: Vec<u8>,
    pub records: Vec<usize>,
    pub numbers: Vec<usize>,
}

impl Written {
    /// The log of n and these events.
    pub fn new(n: u32, events: &[Event]) -> Written {
        let mut written = Written::default();
        written.number(n);
        for event in events {
            written.event(*event);
        }
        written
    }

    /// Adds a number in its shortest form.
    fn number(&mut self, value: u32) {
        self.numbers.push(self.bytes.len());
        put_number(&mut self.bytes, value);
    }

    /// Adds a record.
    pub fn event(&mut self, event: Event) {
        self.records.push(self.bytes.len());
        match event {
            Event::Enable(flow) => [0, flow.number, flow.from, flow.to].into_iter().for_each(|value| self.number(value)),
            Event::Disable(number) => [1, number].into_iter().for_each(|value| self.number(value)),
        }
    }
}

/// Adds the shortest form of a number of 32 bits to some bytes.
pub fn put_number(bytes: &mut Vec<u8>, value: u32) {
    put_wide(bytes, u64::from(value));
}

/// Adds the shortest form of a number to some bytes.
pub fn put_wide(bytes: &mut Vec<u8>, value: u64) {
    let mut rest = value;
    while rest >= 128 {
        bytes.push(128 + (rest % 128) as u8);
        rest /= 128;
    }
    bytes.push(rest as u8);
}

/// A form of a number that is too long, or one of five groups whose fifth byte is drawn.
pub fn odd_number(random: &mut Random, value: u32) -> Vec<u8> {
    let mut bytes = Vec::new();
    put_number(&mut bytes, value);
    if random.once_in(2) {
        let group = if random.once_in(2) { 128 } else { 255 };
        let fifth = [0, 1, 14, 15, 15, 16, 16, 16, 17, 31, 127, 128, 143, 144, 255];
        return vec![group, random.pick(&[128, 255]), group, group, random.pick(&fifth)];
    }
    let last = bytes.len() - 1;
    bytes[last] |= 128;
    bytes.extend(std::iter::repeat_n(128, random.pick(&[0, 0, 0, 1, 2, 3])));
    bytes.push(random.pick(&[0, 0, 0, 1]));
    bytes
}

/// The kinds of damage.
#[derive(Clone, Copy, Debug, PartialEq, Eq)]
pub enum Damage {
    Changed,
    Inserted,
    Removed,
    Cut,
    OddNumber,
    UnknownKind,
    LongKind,
    Tail,
    OddContainers,
}

/// All kinds of damage.
pub const DAMAGES: [Damage; 9] = [
    Damage::Changed,
    Damage::Inserted,
    Damage::Removed,
    Damage::Cut,
    Damage::OddNumber,
    Damage::UnknownKind,
    Damage::LongKind,
    Damage::Tail,
    Damage::OddContainers,
];

/// The bytes of a log after damage of one kind.
pub fn damaged(random: &mut Random, written: &Written, damage: Damage) -> Vec<u8> {
    let mut bytes = written.bytes.clone();
    let at = random.below(bytes.len());
    let byte = random.byte();
    let record = if written.records.is_empty() { 0 } else { random.pick(&written.records) };
    match damage {
        Damage::Changed => bytes[at] = byte,
        Damage::Inserted => bytes.insert(at, byte),
        Damage::Removed => drop(bytes.remove(at)),
        Damage::Cut => bytes.truncate(at),
        Damage::OddNumber => {
            let place = random.below(written.numbers.len());
            let (start, end) = (written.numbers[place], written.numbers.get(place + 1).copied().unwrap_or(bytes.len()));
            let value = u32::from(bytes[start] & 127);
            bytes.splice(start..end, odd_number(random, value));
        }
        Damage::UnknownKind => {
            let kind = random.pick(&[&[2][..], &[3], &[127], &[128, 1], &[128, 2], &[129, 2], &[129, 2], &[129, 2], &[255, 255, 255, 255, 15]]);
            bytes.splice(record..=record, kind.iter().copied());
        }
        Damage::LongKind => drop(bytes.splice(record..=record, odd_number(random, 0))),
        Damage::Tail => bytes.extend((0..1 + random.below(7)).map(|_| random.byte())),
        Damage::OddContainers => {
            let end = written.records.first().copied().unwrap_or(bytes.len());
            bytes.splice(..end, odd_containers(random, u32::from(byte)));
        }
    }
    bytes
}

/// A beginning of a log that starting does not take, or takes only just.
fn odd_containers(random: &mut Random, n: u32) -> Vec<u8> {
    if random.once_in(3) {
        return odd_number(random, n);
    }
    let mut bytes = Vec::new();
    let huge = [0, 0, 256, 257, 257, 258, 512, 65_536, 65_537, 0x0100_0001, 0x1000_0000, 0x4000_0000, 0x8000_0001, u32::MAX];
    put_number(&mut bytes, random.pick(&huge));
    bytes
}

/// A valid log of exactly so many bytes, at least 100, on 256 containers or fewer of more than 128.
pub fn exact_log(random: &mut Random, length: usize, most_enabled: usize) -> (Course, Written) {
    let mut course = Course::new(200 + random.below(57) as u32, Steps::Ones);
    course.greatest = 20_000;
    let mut written = Written::new(course.n, &[]);
    while written.bytes.len() < length {
        let left = length - written.bytes.len();
        let event = exact_event(random, &mut course, left, most_enabled);
        written.event(event);
    }
    (course, written)
}

/// An event that joins and after which the bytes that are left can still be filled: a disable takes 4 bytes, an enable 6, 7 or 8.
fn exact_event(random: &mut Random, course: &mut Course, left: usize, most_enabled: usize) -> Event {
    let crowded = course.enabled.len() >= most_enabled || random.once_in(3);
    let last_two = left == 8 && course.enabled.len() == 1;
    if left == 4 || (crowded && !course.enabled.is_empty() && !last_two && fillable(left - 4)) {
        course.disable(random);
    } else {
        let sizes: Vec<usize> = [6, 7, 8].into_iter().filter(|size| *size <= left && fillable(left - size)).collect();
        let size = random.pick(&sizes);
        let number = course.greatest + 1;
        let (low, other) = (random.below(127) as u32, random.below(127) as u32);
        let (from, to) = if size == 8 { (128, 129 + low % 70) } else { (low, if size == 7 { 128 + other % 72 } else { (low + 1 + other % 126) % 128 }) };
        let flow = if random.once_in(2) { Flow { number, from, to } } else { Flow { number, from: to, to: from } };
        course.greatest = number;
        course.enabled.push(flow);
        course.events.push(Event::Enable(flow));
    }
    course.events[course.events.len() - 1]
}

/// Whether so many bytes can be filled by records of 4 (one of them enabled before), 6, 7 and 8 bytes.
fn fillable(left: usize) -> bool {
    left != 1 && left != 2 && left != 3 && left != 5 && left != 9
}

/// The lengths of logs around the limit of `tally`.
pub const LIMITS: [usize; 6] = [MOST_BYTES, MOST_BYTES + 1, MOST_BYTES - 1, MOST_BYTES + 2, 20_000, MOST_BYTES];

#[cfg(test)]
mod tests {
    use super::*;

    /// Judges an event by the paper's sentence on what joins, apart from both implementations.
    fn joins(n: u32, greatest: u32, enabled: &[Flow], event: Event) -> bool {
        match event {
            Event::Enable(f) => f.from < n && f.to < n && f.from != f.to && f.number > greatest && enabled.len() < TABLE,
            Event::Disable(number) => enabled.iter().any(|flow| flow.number == number),
        }
    }

    /// All events of a course join.
    fn all_join(n: u32, events: &[Event]) -> bool {
        let (mut greatest, mut enabled) = (0, Vec::new());
        for event in events {
            if !joins(n, greatest, &enabled, *event) {
                return false;
            }
            match *event {
                Event::Enable(flow) => {
                    greatest = flow.number;
                    enabled.push(flow);
                }
                Event::Disable(number) => enabled.retain(|flow: &Flow| flow.number != number),
            }
        }
        true
    }

    /// Courses of each shape hold only events that join, and the events made to be refused do not join.
    #[test]
    fn courses_join_and_refused_events_do_not() {
        let mut random = Random::new(5, 0, 0);
        for (shape, round) in SHAPES.into_iter().flat_map(|shape| (0..40).map(move |round| (shape, round))) {
            let mut course = Course::drawn(&mut random);
            course.go_on(&mut random, shape, 5 * round, round % 4);
            for kind in REFUSED {
                if kind.needs_full() {
                    course.fill(&mut random, shape);
                }
                assert!(all_join(course.n, &course.events), "{shape:?} on {}", course.n);
                if !kind.needs_full() || course.enabled.len() == TABLE {
                    let event = course.refused(&mut random, kind);
                    assert!(!joins(course.n, course.greatest, &course.enabled, event), "{kind:?} {event:?}");
                }
            }
        }
    }

    /// Logs of an exact length have that length, and all their events join.
    #[test]
    fn exact_logs_are_exact() {
        let mut random = Random::new(6, 0, 0);
        for length in 100..400 {
            let (course, written) = exact_log(&mut random, length, 1 + length % 60);
            assert_eq!(written.bytes.len(), length);
            assert!(all_join(course.n, &course.events));
            assert_eq!(written.bytes, Written::new(course.n, &course.events).bytes);
        }
    }
}
