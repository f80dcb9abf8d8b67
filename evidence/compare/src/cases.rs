//! The classes of inputs: what one case of each class gives to the two implementations.
use crate::breaks::{apply, breaks, Break};
use crate::clauses::{tags, CLAUSES};
use crate::counts::Class;
use crate::demand::{beginnings, drawn_list, short_lists};
use crate::inputs::{Random, MOST_BYTES, SIZES, TABLE};
use crate::logs::{any_ends, damaged, exact_log, odd_number, put_number, Course, Refused, Steps, Written, DAMAGES, LIMITS, REFUSED, SHAPES};
use crate::long::{long_replay, many_events, overlong_log, LONG_REPLAYS, MANY_EVENTS, OVERLONG};
use crate::made::{lengthen, made_state};
use crate::numbers::{numbers, CASES, WIDTHS};
use crate::pair::{Checked, Pair, Tracker};
use crate::states::{ample_storage, cut_to_need, lengths, right_policy, storage, Content, Pool, STATES};
use crate::wide::{wide_course, WIDE};
use interface::{Event, Flow, Header, Lent};

/// Positions so far off that a sum with them may wrap, and those that are near ones in fewer bits.
pub const FAR: [usize; 14] = [
    usize::MAX,
    usize::MAX - 1,
    usize::MAX - 4,
    usize::MAX / 2,
    1 << 8,
    1 << 16,
    1 << 31,
    1 << 32,
    (1 << 32) + 1,
    (1 << 32) + 2,
    1 << 33,
    1 << 62,
    1 << 63,
    (1 << 63) + 1,
];
/// The bytes of which all short strings are made.
const ALPHABET: [u8; 8] = [0, 1, 2, 15, 16, 127, 128, 255];
/// The case of the strings of one byte, after which those over the alphabet with three more bytes come.
const OVER_ALPHABET: u64 = 257;

/// What a case needs: the pair, the valid states, the ways to break them.
pub struct Run<'a> {
    pub pair: Pair<'a>,
    pool: &'a Pool<'a>,
    breaks: Vec<Break>,
}

impl<'a> Run<'a> {
    /// A run over a pair and the states of a pool.
    pub fn new(pair: Pair<'a>, pool: &'a Pool<'a>) -> Run<'a> {
        Run { pair, pool, breaks: breaks() }
    }
}

/// How many cases a class has; the budget counts for those that are drawn, the others are lists that are always run whole.
pub fn cases(class: Class, budget: u64) -> u64 {
    match class {
        Class::Numbers => CASES as u64,
        Class::Strings => OVER_ALPHABET + 1 + 512,
        Class::Broken => (breaks().len() * STATES) as u64,
        Class::Records => budget * 32 / 100,
        Class::Logs => (budget * 16 / 100).min(1_400 + budget / 20),
        Class::Cuts => budget / 150,
        Class::LongLogs => (budget / 5000).max(12),
        Class::Valid => budget * 8 / 100,
        Class::BrokenTwice => budget * 14 / 100,
        Class::Short => budget * 10 / 100,
        Class::Random => budget * 12 / 100,
        Class::Sequences => budget * 8 / 100,
        Class::Filled => (budget / 2000).max(4),
        Class::Wide => (budget / 1000).max(24),
        Class::Made => budget * 4 / 100,
        Class::Overlong => OVERLONG as u64,
        Class::LongReplays => LONG_REPLAYS as u64,
        Class::ManyEvents => MANY_EVENTS as u64,
        Class::Demand => (budget / 34).min(beginnings() as u64),
        Class::DemandDrawn => (budget / 50).max(60),
    }
}

/// Runs one case.
pub fn run_case(run: &mut Run, class: Class, case: u64, seed: u64) -> Checked<()> {
    let mut random = Random::new(seed, class as u64, case);
    let random = &mut random;
    run.pair.turn_to(class, case);
    match class {
        Class::Numbers => numbers(run, random, case as usize),
        Class::Strings => strings(run, case),
        Class::Records => records(run, random),
        Class::Logs => logs(run, random, case as usize),
        Class::Cuts => cuts(run, random),
        Class::LongLogs => long_logs(run, random, case as usize),
        Class::Valid => valid(run, random, case as usize),
        Class::Broken => broken(run, random, case as usize),
        Class::BrokenTwice => broken_twice(run, random),
        Class::Short => short(run, random, case as usize),
        Class::Random => random_states(run, random),
        Class::Sequences => sequence(run, random, case as usize),
        Class::Filled => filled(run, random, case as usize),
        Class::Wide => wide(run, random, case as usize),
        Class::Made => made(run, random, case as usize),
        Class::Overlong => overlong(run, random, case as usize),
        Class::LongReplays => long_replays(run, random, case as usize),
        Class::ManyEvents => many(run, random, case as usize),
        Class::Demand => short_lists(&mut run.pair, random, case as usize),
        Class::DemandDrawn => drawn_list(&mut run.pair, random, case as usize),
    }
}

/// All strings of up to three bytes over the alphabet, of two bytes with this first one, of one byte, or over the alphabet with this beginning.
fn strings(run: &mut Run, case: u64) -> Checked<()> {
    let mut list: Vec<Vec<u8>> = Vec::new();
    if case == 0 {
        list = suffixes(&[], 3);
    } else if case < OVER_ALPHABET {
        list.extend((0..=255).map(|byte| vec![(case - 1) as u8, byte]));
    } else if case == OVER_ALPHABET {
        list.push(Vec::new());
        list.extend((0..=255).map(|byte| vec![byte]));
    } else {
        let place = (case - OVER_ALPHABET - 1) as usize;
        let beginning = [ALPHABET[place / 64], ALPHABET[place / 8 % 8], ALPHABET[place % 8]];
        list = suffixes(&beginning, 3);
    }
    for (place, string) in list.iter().enumerate() {
        run.pair.input();
        run.pair.decode(string, 0, 32)?;
        run.pair.decode(string, 0, WIDTHS[(case as usize + place) % WIDTHS.len()])?;
        run.pair.read_head(string)?;
        run.pair.read_record(string, 0)?;
        if case <= OVER_ALPHABET {
            run.pair.decode(string, 1, 32)?;
            run.pair.read_record(string, 1)?;
        }
    }
    Ok(())
}

/// All strings over the alphabet with this beginning and one to so many bytes after it.
fn suffixes(beginning: &[u8], most: usize) -> Vec<Vec<u8>> {
    let mut list = vec![beginning.to_vec()];
    let mut from = 0;
    for _ in 0..most {
        let to = list.len();
        for place in from..to {
            for byte in ALPHABET {
                let mut longer = list[place].clone();
                longer.push(byte);
                list.push(longer);
            }
        }
        from = to;
    }
    list.split_off(1)
}

/// An event with drawn fields.
fn any_event(random: &mut Random) -> Event {
    if random.once_in(3) {
        return Event::Disable(random.number());
    }
    Event::Enable(Flow { number: random.number(), from: random.number(), to: random.number() })
}

/// A record written into outputs of lengths around its need, read back, and read after damage.
fn records(run: &mut Run, random: &mut Random) -> Checked<()> {
    run.pair.input();
    let event = any_event(random);
    let mut written = Written::default();
    written.event(event);
    let need = written.bytes.len();
    run.pair.record_len(event)?;
    let at = random.below(4);
    for length in [0, at, at + need - 1, at + need, at + need + 1, at + need + 4, random.below(at + need + 1)] {
        let out = random.bytes(length);
        run.pair.write_record(event, &out, at)?;
    }
    let out = random.bytes(need + 4);
    let far = random.pick(&[need + 3, need + 4, need + 5, usize::MAX, usize::MAX - 1, usize::MAX - need, usize::MAX - need + 1]);
    run.pair.write_record(event, &out, far)?;
    run.pair.write_record(event, &out, random.pick(&FAR))?;
    written.event(any_event(random));
    for at in 0..=written.bytes.len() + 1 {
        run.pair.read_record(&written.bytes, at)?;
    }
    for _ in 0..4 {
        let damage = random.pick(&DAMAGES);
        let bytes = damaged(random, &written, damage);
        run.pair.read_record(&bytes, 0)?;
        let at = random.below(bytes.len() + 2);
        run.pair.read_record(&bytes, at)?;
        run.pair.decode(&bytes, at, random.pick(&WIDTHS))?;
    }
    run.pair.read_record(&written.bytes, random.pick(&FAR))
}

/// A course of drawn length and shape; now and then its containers are those at the end of a word.
fn any_course(random: &mut Random, case: usize) -> Course {
    let mut course = Course::drawn(random);
    if case.is_multiple_of(12) {
        course.n = SIZES[SIZES.len() - 1 - case / 12 % SIZES.len()];
    }
    let shape = random.pick(&SHAPES);
    let events = match random.below(16) {
        0 => 0,
        1 => 600,
        2 => 100 + random.below(200),
        _ => random.below(30),
    };
    let churn = random.below(5);
    course.go_on(random, shape, events, churn);
    course
}

/// A log: valid, with a refused event at its end or in its middle, damaged, with a full table, or random bytes.
fn logs(run: &mut Run, random: &mut Random, case: usize) -> Checked<()> {
    let mut course = any_course(random, case);
    let bytes = match case % 8 {
        0 => Written::new(course.n, &course.events).bytes,
        1..=3 => refused_log(random, &mut course, REFUSED[(case / 8 * 3 + case % 8) % REFUSED.len()]),
        4..=6 => {
            let damage = DAMAGES[(case / 8 * 3 + case % 8) % DAMAGES.len()];
            damaged(random, &Written::new(course.n, &course.events), damage)
        }
        _ if case % 32 == 7 => full_log(random, &mut course),
        _ => random_log(random, case / 8),
    };
    log_case(run, random, course.n, &bytes)
}

/// A log in whose end or middle an event stands that is refused.
fn refused_log(random: &mut Random, course: &mut Course, kind: Refused) -> Vec<u8> {
    if kind.needs_full() {
        fewer_containers(random, course);
        let shape = random.pick(&SHAPES);
        course.fill(random, shape);
    }
    if kind == Refused::Old {
        match random.below(4) {
            0 => *course = Course::new(course.n, Steps::Ones),
            1 | 2 => course.disable_greatest(),
            _ => {}
        }
    }
    let refused = course.refused(random, kind);
    let mut events = course.events.clone();
    events.push(refused);
    if random.once_in(2) {
        let more = random.below(4);
        let shape = random.pick(&SHAPES);
        let from = course.events.len();
        course.go_on(random, shape, more, 2);
        events.extend_from_slice(&course.events[from..]);
    }
    Written::new(course.n, &events).bytes
}

/// Begins the course again with fewer containers where there are many, so that filling the table takes less time; not always.
fn fewer_containers(random: &mut Random, course: &mut Course) {
    if course.n > 24 && !random.once_in(8) {
        *course = Course::new(2 + random.below(20) as u32, random.pick(&[Steps::Ones, Steps::Gaps, Steps::Wide]));
    }
}

/// A log that fills the table, disables one or none, and enables again up to and past 512.
fn full_log(random: &mut Random, course: &mut Course) -> Vec<u8> {
    fewer_containers(random, course);
    let shape = random.pick(&SHAPES);
    course.fill(random, shape);
    if random.once_in(2) {
        course.disable_greatest();
    }
    for _ in 0..random.below(4) {
        course.disable(random);
    }
    course.fill(random, shape);
    let mut events = course.events.clone();
    if random.once_in(2) {
        events.push(course.refused(random, Refused::Full));
    }
    Written::new(course.n, &events).bytes
}

/// Random bytes, few or many.
fn random_log(random: &mut Random, case: usize) -> Vec<u8> {
    let length = [0, 1, 2, 3, 8, 30, 100, 400][case % 8];
    let length = length + random.below(length + 1);
    (0..length).map(|_| if case.is_multiple_of(3) { random.draw() as u8 } else { random.byte() % 8 }).collect()
}

/// A log whose n is read and written, given to a replay in drawn storage and to `tally` with room for the text, too little and just enough.
fn log_case(run: &mut Run, random: &mut Random, n: u32, bytes: &[u8]) -> Checked<()> {
    run.pair.input();
    let room = random.below(6);
    run.pair.write_head(n, &random.bytes(room))?;
    run.pair.read_head(bytes)?;
    let at = random.below(bytes.len() + 2);
    run.pair.decode(bytes, at, random.pick(&WIDTHS))?;
    let mut lent = ample_storage(random, n);
    if random.once_in(8) {
        lent = one_too_short(random, lent, n);
    }
    let mut tracker = Tracker::new(Header::default(), lent);
    let answer = run.pair.replay(&mut tracker, bytes)?;
    if answer.header.containers != 0 {
        tracker_call(run, random, &mut tracker)?;
    }
    tally_case(run, random, bytes)
}

/// The input of `tally`, first with ample room, then with an output whose length lies around that of the text.
fn tally_case(run: &mut Run, random: &mut Random, bytes: &[u8]) -> Checked<()> {
    let out = vec![random.draw() as u8; text_room(bytes)];
    let Some(length) = run.pair.tally(bytes, &out)? else { return Ok(()) };
    let shorter = [0, length - 1, length, length, length + 1, length + 9, random.below(length), length.saturating_sub(20)];
    let out = vec![random.draw() as u8; random.pick(&shorter)];
    run.pair.tally(bytes, &out).map(drop)
}

/// More bytes than the text for this input takes.
fn text_room(bytes: &[u8]) -> usize {
    let first = usize::from(bytes.first().copied().unwrap_or(0));
    let n = if first < 128 { first } else { 256 };
    64 + n * (10 + 4 * n)
}

/// A log cut at every place.
fn cuts(run: &mut Run, random: &mut Random) -> Checked<()> {
    let mut course = Course::drawn(random);
    let shape = random.pick(&SHAPES);
    let events = 2 + random.below(10);
    course.go_on(random, shape, events, 4);
    let bytes = Written::new(course.n, &course.events).bytes;
    for length in 0..=bytes.len() {
        run.pair.input();
        let mut tracker = Tracker::new(Header::default(), ample_storage(random, course.n));
        run.pair.replay(&mut tracker, &bytes[..length])?;
        let out = vec![7; text_room(&bytes)];
        run.pair.tally(&bytes[..length], &out)?;
    }
    Ok(())
}

/// A log whose length lies at the limit of `tally`: valid, with a refused last record, or cut to one byte less.
fn long_logs(run: &mut Run, random: &mut Random, case: usize) -> Checked<()> {
    run.pair.input();
    let length = LIMITS[case % LIMITS.len()];
    let most_enabled = random.pick(&[1, 3, 20, 100]);
    let refused = case % 4 == 3;
    let (_, mut written) = exact_log(random, if refused { length - 4 } else { length }, most_enabled);
    if refused {
        written.event(Event::Disable(19_999));
    }
    if case % 4 == 2 {
        written.bytes.truncate(MOST_BYTES - 1);
    }
    let mut tracker = Tracker::new(Header::default(), ample_storage(random, 256));
    run.pair.replay(&mut tracker, &written.bytes)?;
    tally_case(run, random, &written.bytes)
}

/// Calls on a valid state, with right arguments, at the limits and wrong ones.
fn valid(run: &mut Run, random: &mut Random, case: usize) -> Checked<()> {
    run.pair.input();
    let mut state = run.pool.state(case % STATES);
    match random.below(12) {
        0..=3 => cut_to_need(&mut state),
        4 => lengthen(random, &mut state.lent),
        _ => {}
    }
    let mut tracker = Tracker::new(state.header, state.lent);
    for _ in 0..2 {
        every_call(run, random, &mut tracker, false)?;
        every_call(run, random, &mut tracker, true)?;
    }
    Ok(())
}

/// A valid state of which one clause is broken; those that have no such place are left out.
fn broken(run: &mut Run, random: &mut Random, case: usize) -> Checked<()> {
    let spread = case * 7919 % (run.breaks.len() * STATES);
    let one = run.breaks[spread / STATES];
    let mut state = run.pool.state(spread % STATES);
    if !apply(random, &mut state, one) {
        return Ok(());
    }
    if CLAUSES[1..].contains(&one.clause) && random.once_in(3) {
        cut_to_need(&mut state);
    }
    run.pair.input();
    let mut tracker = Tracker::new(state.header, state.lent);
    every_call(run, random, &mut tracker, false)?;
    if random.once_in(2) {
        every_call(run, random, &mut tracker, true)?;
    }
    Ok(())
}

/// A valid state of which two clauses are broken, now and then in storage that is too short as well.
fn broken_twice(run: &mut Run, random: &mut Random) -> Checked<()> {
    run.pair.input();
    let mut state = run.pool.state(random.below(STATES));
    let n = state.header.containers;
    for _ in 0..2 {
        let one = random.pick(&run.breaks);
        if state.header.containers == n {
            apply(random, &mut state, one);
        }
    }
    if random.once_in(5) {
        state.lent = one_too_short(random, state.lent, n);
    }
    let mut tracker = Tracker::new(state.header, state.lent);
    let wrong = random.once_in(2);
    every_call(run, random, &mut tracker, wrong)
}

/// The storage with one of its lists cut to one less than n containers need, or emptied.
fn one_too_short(random: &mut Random, mut lent: Lent, n: u32) -> Lent {
    let list = random.below(4);
    let length = if random.once_in(4) { 0 } else { lengths(n)[list] - 1 };
    shorten(&mut lent, list, length);
    lent
}

/// Cuts one of the four lists.
fn shorten(lent: &mut Lent, list: usize, length: usize) {
    match list {
        0 => lent.tags.truncate(length),
        1 => lent.policies.truncate(length),
        2 => lent.counts.truncate(length),
        _ => lent.flows.truncate(length),
    }
}

/// Storage one too short in one list or in two, empty, or of the very length, given to all calls, to starting and to a replay.
fn short(run: &mut Run, random: &mut Random, case: usize) -> Checked<()> {
    run.pair.input();
    let n = if random.once_in(2) { random.pick(&SIZES) } else { random.containers() };
    let (header, mut lent) = if random.once_in(2) {
        let state = run.pool.state(random.below(STATES));
        (state.header, state.lent)
    } else {
        (Header { containers: n, ..Header::default() }, storage(random, lengths(n), Content::Few))
    };
    match case % 8 {
        list @ 0..=3 => shorten(&mut lent, list, lengths(header.containers)[list] - 1),
        4 => shorten(&mut lent, case / 8 % 4, 0),
        5 => {
            lent = one_too_short(random, lent, header.containers);
            lent = one_too_short(random, lent, header.containers);
        }
        6 => lent = Lent::default(),
        _ if case % 16 == 15 => lengthen(random, &mut lent),
        _ => {}
    }
    let mut tracker = Tracker::new(header, lent);
    let wrong = random.once_in(3);
    every_call(run, random, &mut tracker, wrong)?;
    let mut bytes = Vec::new();
    let all = [header.containers, header.containers, header.containers, 0, 257, header.containers + 1, random.number()];
    put_number(&mut bytes, random.pick(&all));
    if random.once_in(4) {
        bytes = odd_number(random, n);
    }
    bytes.extend([0, 1, 0, 1]);
    bytes.truncate(bytes.len() - random.pick(&[0, 0, 0, 4, 5]));
    run.pair.replay(&mut tracker, &bytes)?;
    run.pair.start(&mut tracker, random.pick(&all)).map(drop)
}

/// Storage and header of drawn content, with lengths around the need of the header's n.
fn random_states(run: &mut Run, random: &mut Random) -> Checked<()> {
    run.pair.input();
    let n = random.containers();
    let wild = Header { containers: random.number(), count: random.number(), greatest: random.number() };
    let near = Header { containers: n, count: random.below(TABLE + 3) as u32, greatest: random.number() };
    let calm = Header { containers: n, count: random.below(3) as u32, greatest: random.number() };
    let header = random.pick(&[wild, near, calm, calm]);
    let content = random.pick(&[Content::Zero, Content::Few, Content::Any]);
    let mut needed = lengths(n);
    needed.iter_mut().for_each(|length| *length += random.below(4));
    let mut tracker = Tracker::new(header, storage(random, needed, content));
    let wrong = random.once_in(2);
    every_call(run, random, &mut tracker, wrong)
}

/// A list of calls on one tracker, from its start or from a valid state that has come far.
fn sequence(run: &mut Run, random: &mut Random, case: usize) -> Checked<()> {
    run.pair.input();
    let mut tracker = if case % 4 == 3 {
        let state = run.pool.state(case / 4 % STATES);
        Tracker::new(state.header, state.lent)
    } else {
        let n = random.containers();
        let mut tracker = Tracker::new(Header::default(), ample_storage(random, n));
        run.pair.start(&mut tracker, n)?;
        tracker
    };
    let steps = if random.once_in(10) { 200 } else { 10 + random.below(40) };
    let base = tracker.header.containers;
    for _ in 0..steps {
        if random.once_in(60) {
            begin_again(run, random, &mut tracker, base)?;
        } else {
            tracker_call(run, random, &mut tracker)?;
        }
    }
    Ok(())
}

/// Starts anew or replays a log in the same storage, with as many containers as before, fewer, or too many.
fn begin_again(run: &mut Run, random: &mut Random, tracker: &mut Tracker, base: u32) -> Checked<()> {
    let fewer = 1 + random.below(base as usize) as u32;
    let n = random.pick(&[base, base, fewer, fewer, base + 40, 0, 257]);
    if random.once_in(2) {
        return run.pair.start(tracker, n).map(drop);
    }
    let mut course = Course::new(n, Steps::Gaps);
    let shape = random.pick(&SHAPES);
    course.go_on(random, shape, 8, 3);
    let bytes = Written::new(n, &course.events).bytes;
    run.pair.replay(tracker, &bytes).map(drop)
}

/// Enables flows one by one until the table is full, goes past the end, and disables and enables again there.
fn filled(run: &mut Run, random: &mut Random, case: usize) -> Checked<()> {
    run.pair.input();
    let n = [40, 2, 256, 9, 100, 255][(case + case / SHAPES.len()) % 6];
    let mut tracker = Tracker::new(Header::default(), ample_storage(random, n));
    run.pair.start(&mut tracker, n)?;
    let mut course = Course::new(n, Steps::Gaps);
    let shape = SHAPES[case % SHAPES.len()];
    course.fill(random, shape);
    for event in &course.events {
        if let Event::Enable(flow) = event {
            run.pair.enable(&mut tracker, *flow)?;
        }
    }
    for _ in 0..40 {
        if random.once_in(4) {
            tracker_call(run, random, &mut tracker)?;
        } else {
            let flow = enable_argument(random, &tracker, false);
            run.pair.enable(&mut tracker, flow)?;
        }
    }
    Ok(())
}

/// A wide or deep course: built by a replay, its last events done as calls, and the whole as a log.
fn wide(run: &mut Run, random: &mut Random, case: usize) -> Checked<()> {
    run.pair.input();
    let (kind, round) = (WIDE[case % WIDE.len()], case / WIDE.len());
    let sizes = [255, 254, 64 + random.below(193) as u32, 4 + random.below(60) as u32];
    let n = if round < 2 { 256 } else { random.pick(&sizes) };
    let (mut course, last) = wide_course(random, kind, n, round % 2 == 1);
    let mut tracker = Tracker::new(Header::default(), ample_storage(random, n));
    run.pair.replay(&mut tracker, &Written::new(n, &course.events).bytes)?;
    course.enable_ends(random, last);
    if let Some(Event::Enable(flow)) = course.events.last() {
        run.pair.enable(&mut tracker, *flow)?;
    }
    for _ in 0..3 {
        tracker_call(run, random, &mut tracker)?;
    }
    log_case(run, random, n, &Written::new(n, &course.events).bytes)
}

/// Calls on a valid state that was made by hand, first those that leave it as it is.
fn made(run: &mut Run, random: &mut Random, case: usize) -> Checked<()> {
    run.pair.input();
    let state = made_state(random, case);
    let mut tracker = Tracker::new(state.header, state.lent);
    for call in [3, 4, 5, 6, 2, 1, 0] {
        one_call(run, random, &mut tracker, call, false)?;
    }
    every_call(run, random, &mut tracker, true)
}

/// An input that is too long for `tally`, most of them refused early as well; given to `tally` with little room and enough, and to a replay.
fn overlong(run: &mut Run, random: &mut Random, case: usize) -> Checked<()> {
    run.pair.input();
    let bytes = overlong_log(random, case);
    for room in [0, 19, 20, 21, 400] {
        let out = vec![random.draw() as u8; room];
        run.pair.tally(&bytes, &out)?;
    }
    let mut tracker = Tracker::new(Header::default(), ample_storage(random, 4));
    run.pair.replay(&mut tracker, &bytes).map(drop)
}

/// A log of very many events or bytes, complete or with its last record refused.
fn long_replays(run: &mut Run, random: &mut Random, case: usize) -> Checked<()> {
    run.pair.input();
    let bytes = long_replay(random, case);
    let mut tracker = Tracker::new(Header::default(), ample_storage(random, 3));
    run.pair.replay(&mut tracker, &bytes).map(drop)
}

/// A log of as many events as `tally` reads, or nearly so many.
fn many(run: &mut Run, random: &mut Random, case: usize) -> Checked<()> {
    run.pair.input();
    let bytes = many_events(random, case);
    let mut tracker = Tracker::new(Header::default(), ample_storage(random, 256));
    run.pair.replay(&mut tracker, &bytes)?;
    tally_case(run, random, &bytes)
}

/// One of the calls on a tracker, its arguments mostly right.
fn tracker_call(run: &mut Run, random: &mut Random, tracker: &mut Tracker) -> Checked<()> {
    let call = random.pick(&[0, 0, 0, 0, 0, 0, 1, 1, 1, 2, 2, 3, 4, 5, 5, 6]);
    let wrong = random.once_in(4);
    one_call(run, random, tracker, call, wrong)
}

/// All seven calls on a tracker, beginning with a drawn one.
fn every_call(run: &mut Run, random: &mut Random, tracker: &mut Tracker, wrong: bool) -> Checked<()> {
    let first = random.below(7);
    for call in 0..7 {
        one_call(run, random, tracker, (first + call) % 7, wrong)?;
    }
    Ok(())
}

/// One of the seven calls, with arguments that are right or wrong for the tracker as its header and its storage show it.
fn one_call(run: &mut Run, random: &mut Random, tracker: &mut Tracker, call: usize, wrong: bool) -> Checked<()> {
    let n = tracker.header.containers;
    let container = if wrong { random.no_container(n) } else { random.container(n.max(1)) };
    match call {
        0 => {
            let flow = enable_argument(random, tracker, wrong);
            run.pair.enable(tracker, flow).map(drop)
        }
        1 => {
            let number = disable_argument(random, tracker, wrong);
            run.pair.disable(tracker, number).map(drop)
        }
        2 => {
            let (container, policy) = policy_argument(random, tracker, wrong);
            run.pair.add_policy(tracker, container, policy).map(drop)
        }
        3 => run.pair.tags_of(tracker, container),
        4 => run.pair.size_of(tracker, container),
        5 => run.pair.is_legal(tracker, container),
        _ => {
            let need = (n as usize).min(300);
            let right = [need, need, need + 1, need + 5, need + 6, need + 7, need + 100, 1000];
            let short = [need.saturating_sub(1), need.saturating_sub(1), 0, random.below(need.max(1))];
            let length = if wrong { random.pick(&short) } else { random.pick(&right) };
            let out: Vec<u16> = (0..length).map(|_| random.draw() as u16).collect();
            run.pair.rank(tracker, &out)
        }
    }
}

/// A flow to enable: right, or with one or two of its fields wrong.
fn enable_argument(random: &mut Random, tracker: &Tracker, wrong: bool) -> Flow {
    let Header { containers: n, count: _, greatest } = tracker.header;
    let gap = if random.once_in(40) { random.number() } else { 1 + random.below(3) as u32 };
    let number = greatest.saturating_add(gap);
    let (from, to) = if n > 1 && n <= 256 { any_ends(random, n) } else { (0, 1) };
    let right = Flow { number, from, to };
    if !wrong {
        return right;
    }
    let outside = random.no_container(n);
    let old = random.pick(&[0, greatest, greatest / 2]);
    match random.below(8) {
        0 => Flow { from: outside, ..right },
        1 => Flow { to: outside, ..right },
        2 => Flow { from: outside, to: outside, ..right },
        3 => Flow { to: from, ..right },
        4 => Flow { to: from, number: old, ..right },
        5 => Flow { number: old, from: outside, ..right },
        6 => Flow { number: random.number(), ..right },
        _ => Flow { number: old, ..right },
    }
}

/// A number to disable: that of the first, the last or any enabled flow, or one that is not enabled.
fn disable_argument(random: &mut Random, tracker: &Tracker, wrong: bool) -> u32 {
    let flows = &tracker.first.flows;
    let used = (tracker.header.count as usize).min(flows.len());
    if wrong || used == 0 {
        let greatest = tracker.header.greatest;
        let others = [0, greatest, greatest.wrapping_add(1), greatest / 2, random.number()];
        return random.pick(&others);
    }
    let any = random.below(used);
    flows[random.pick(&[0, used - 1, any, any])].number
}

/// A container and a policy set for it: right, or with the container, the set or both wrong; full ones come up as they do.
fn policy_argument(random: &mut Random, tracker: &Tracker, wrong: bool) -> (u32, [u64; 4]) {
    let n = tracker.header.containers;
    let usable = (1..=256).contains(&n) && tracker.first.tags.len() >= 4 * n as usize;
    let container = if usable { random.container(n) } else { 0 };
    let set = if usable { tags(&tracker.first, container) } else { &[1, 0, 0, 0] };
    let policy = right_policy(random, n.min(256), container, set);
    if !wrong {
        return (container, policy);
    }
    let tag = (n as usize + random.below(256)).min(255);
    let mut bad = policy;
    bad[tag / 64] |= 1 << (tag % 64);
    match random.below(3) {
        0 => (random.no_container(n), policy),
        1 => (random.no_container(n), bad),
        _ => (container, bad),
    }
}
