//! The program `bench`: product and the quick implementation in Rust side by side on the same calls, in turns, and how the cost grows.
#![forbid(unsafe_code)]

use compare::inputs::{Random, MOST_BYTES, TABLE};
use compare::logs::{any_ends, Written};
use compare::states::{right_policy, State};
use compare::wrapper::ample;
use fast::Fast;
use interface::{Event, Flow, Header, Implementation, Lent};
use product::Product;
use std::hint::black_box;
use std::process::ExitCode;
use std::time::{Duration, Instant};

/// How often the two take turns; the best turn of each counts.
const ROUNDS: usize = 9;
/// The time that a turn takes at least.
const TURN: Duration = Duration::from_millis(15);

/// The calls that are measured, with all that they need prepared.
enum Work {
    Start(u32),
    Events(State, Vec<Event>),
    Tags(State),
    Size(State),
    Legal(State),
    Rank(State),
    Policies(State, Vec<(u32, [u64; 4])>),
    Replay(Vec<u8>),
    Tally(Vec<u8>),
}

/// A case: its name, the calls or events in it, the work.
struct Case {
    name: String,
    calls: u64,
    work: Work,
}

/// A case of this name.
fn case(name: impl Into<String>, work: Work) -> Case {
    let calls = match &work {
        Work::Events(_, events) => events.len() as u64,
        Work::Policies(_, sets) => sets.len() as u64,
        Work::Tags(state) | Work::Size(state) | Work::Legal(state) => u64::from(state.header.containers),
        Work::Start(_) | Work::Rank(_) | Work::Replay(_) | Work::Tally(_) => 1,
    };
    Case { name: name.into(), calls, work }
}

/// The storage that the work begins with.
fn prepared(work: &Work) -> Lent {
    match work {
        Work::Events(state, _) | Work::Policies(state, _) => state.lent.clone(),
        Work::Tags(state) | Work::Size(state) | Work::Legal(state) | Work::Rank(state) => state.lent.clone(),
        Work::Start(_) | Work::Replay(_) | Work::Tally(_) => ample(),
    }
}

/// Mixes a number into a sum of answers.
fn mix(sum: u64, number: u64) -> u64 {
    sum.wrapping_mul(0x0100_0000_01B3).wrapping_add(number)
}

/// Does the work, and answers a sum of all answers.
fn perform(one: &dyn Implementation, work: &Work, lent: &mut Lent, out: &mut [u8]) -> u64 {
    match work {
        Work::Start(n) => u64::from(one.start(black_box(*n), lent).header.containers),
        Work::Events(state, events) => do_events(one, state.header, lent, events),
        Work::Tags(state) => each(state, |container| one.tags_of(state.header, lent, container).map_or(0, |set| set.iter().fold(0, |sum, word| mix(sum, *word)))),
        Work::Size(state) => each(state, |container| one.size_of(state.header, lent, container).map_or(999, u64::from)),
        Work::Legal(state) => each(state, |container| one.is_legal(state.header, lent, container).map_or(2, u64::from)),
        Work::Rank(state) => {
            let mut order = [0; 256];
            let refusal = one.rank(state.header, lent, &mut order).err().unwrap_or(0);
            order.iter().fold(u64::from(refusal), |sum, place| mix(sum, u64::from(*place)))
        }
        Work::Policies(state, sets) => add_all(one, state.header, lent, sets),
        Work::Replay(bytes) => {
            let answer = one.replay(black_box(bytes), lent);
            mix(mix(mix(u64::from(answer.refusal), answer.byte), answer.events), answer.gain)
        }
        Work::Tally(bytes) => one.tally(black_box(bytes), out).map_or(0, |length| length as u64),
    }
}

/// Asks a question of every container, and answers a sum of the answers.
fn each(state: &State, question: impl Fn(u32) -> u64) -> u64 {
    (0..state.header.containers).fold(0, |sum, container| mix(sum, question(black_box(container))))
}

/// Does the events one by one, and answers a sum of the refusals and gains.
fn do_events(one: &dyn Implementation, header: Header, lent: &mut Lent, events: &[Event]) -> u64 {
    let (mut header, mut sum) = (header, 0);
    for event in events {
        let answer = match event {
            Event::Enable(flow) => one.enable(header, lent, black_box(*flow)),
            Event::Disable(number) => one.disable(header, lent, black_box(*number)),
        };
        header = answer.header;
        sum = mix(mix(sum, u64::from(answer.refusal)), u64::from(answer.gain));
    }
    sum
}

/// Adds the policy sets one by one, and answers a sum of the refusals.
fn add_all(one: &dyn Implementation, header: Header, lent: &mut Lent, sets: &[(u32, [u64; 4])]) -> u64 {
    sets.iter().fold(0, |sum, (container, set)| mix(sum, u64::from(one.add_policy(header, lent, *container, *set).refusal)))
}

/// One turn: the work again and again, only its own time counted; answers the time of one piece of work in nanoseconds.
fn turn(one: &dyn Implementation, work: &Work, out: &mut [u8]) -> f64 {
    let begin = prepared(work);
    let mut lent = begin.clone();
    let (mut spent, mut times) = (Duration::ZERO, 0_u32);
    while spent < TURN {
        lent.clone_from(&begin);
        let now = Instant::now();
        black_box(perform(one, work, &mut lent, out));
        spent += now.elapsed();
        times += 1;
    }
    spent.as_nanos() as f64 / f64::from(times)
}

/// Whether both do the work with the same answers and leave the same storage and text.
fn alike(work: &Work) -> bool {
    let (mut one, mut two) = (prepared(work), prepared(work));
    let mut outs = [vec![0; 300_000], vec![0; 300_000]];
    let sums = [perform(&Product, work, &mut one, &mut outs[0]), perform(&Fast, work, &mut two, &mut outs[1])];
    sums[0] == sums[1] && one == two && outs[0] == outs[1]
}

/// The best turns of both, in nanoseconds for each call; nothing where their answers differ.
fn measured(case: &Case) -> Option<[f64; 2]> {
    if !alike(&case.work) {
        return None;
    }
    let mut out = vec![0; 300_000];
    let mut best = [f64::MAX; 2];
    for round in 0..ROUNDS {
        for who in [round % 2, 1 - round % 2] {
            let one: &dyn Implementation = if who == 0 { &Product } else { &Fast };
            best[who] = best[who].min(turn(one, &case.work, &mut out));
        }
    }
    Some(best.map(|time| time / case.calls as f64))
}

/// A tracker that has just been started.
fn started(n: u32) -> State {
    let mut lent = ample();
    let header = Fast.start(n, &mut lent).header;
    State { header, lent }
}

/// A tracker after these events.
fn after(n: u32, events: &[Event]) -> State {
    let mut lent = ample();
    let header = Fast.replay(&Written::new(n, events).bytes, &mut lent).header;
    State { header, lent }
}

/// Enables flows with these ends, numbered from 1.
fn enables(ends: impl IntoIterator<Item = (u32, u32)>) -> Vec<Event> {
    ends.into_iter().zip(1..).map(|((from, to), number)| Event::Enable(Flow { number, from, to })).collect()
}

/// The ends of a chain of so many flows, from the front or from the back.
fn chain(flows: u32, back: bool) -> Vec<(u32, u32)> {
    let mut ends: Vec<(u32, u32)> = (0..flows).map(|place| (place, place + 1)).collect();
    if back {
        ends.reverse();
    }
    ends
}

/// The ends of a ring of 256 flows, from the front or from the back.
fn ring(back: bool) -> Vec<(u32, u32)> {
    let mut ends: Vec<(u32, u32)> = (0..256).map(|place| (place, (place + 1) % 256)).collect();
    if back {
        ends.reverse();
    }
    ends
}

/// Random ends on n containers.
fn random_ends(n: u32, flows: usize) -> Vec<(u32, u32)> {
    let mut random = Random::new(11, u64::from(n), flows as u64);
    (0..flows).map(|_| any_ends(&mut random, n)).collect()
}

/// Enables and disables a flow again and again beside so many others that are enabled.
fn churn(others: u32, times: u32) -> Work {
    let state = after(256, &enables(random_ends(256, others as usize)));
    let ends = random_ends(256, times as usize);
    let pairs = ends.iter().zip(others + 1..).flat_map(|((from, to), number)| [Event::Enable(Flow { number, from: *from, to: *to }), Event::Disable(number)]);
    Work::Events(state, pairs.collect())
}

/// The policy sets of a full tracker: four for each of the containers.
fn all_policies(state: &State) -> Vec<(u32, [u64; 4])> {
    let mut random = Random::new(12, 0, 0);
    let n = state.header.containers;
    let set = |random: &mut Random, container: u32| right_policy(random, n, container, &state.lent.tags[4 * container as usize..][..4]);
    (0..4 * n).map(|place| (place / 4, set(&mut random, place / 4))).collect()
}

/// A tracker of 256 containers, 512 flows and four policy sets each.
fn full() -> State {
    let mut state = after(256, &enables(random_ends(256, TABLE)));
    for (container, set) in all_policies(&state) {
        Fast.add_policy(state.header, &mut state.lent, container, set);
    }
    state
}

/// A log as long as `tally` takes: the chain or ring given, flows until the table is full, then disables and enables in turn.
fn long_log(beginning: Vec<(u32, u32)>) -> Vec<u8> {
    let filling = random_ends(256, TABLE - beginning.len());
    let mut written = Written::new(256, &enables(beginning.into_iter().chain(filling)));
    let ends = random_ends(256, 3000);
    for ((from, to), number) in ends.into_iter().zip(TABLE as u32 + 1..) {
        if written.bytes.len() + 12 > MOST_BYTES {
            break;
        }
        written.event(Event::Disable(number - TABLE as u32));
        written.event(Event::Enable(Flow { number, from, to }));
    }
    written.bytes
}

/// The cases of the first table.
fn cases() -> Vec<Case> {
    let full_events = enables(random_ends(256, TABLE));
    let empty_policies = after(256, &full_events);
    let sets = all_policies(&empty_policies);
    vec![
        case("start, 256 containers", Work::Start(256)),
        case("ring of 256, front to back", Work::Events(started(256), enables(ring(false)))),
        case("ring of 256, back to front", Work::Events(started(256), enables(ring(true)))),
        case("chain of 256, front to back", Work::Events(started(256), enables(chain(255, false)))),
        case("chain of 256, back to front", Work::Events(started(256), enables(chain(255, true)))),
        case("512 flows with random ends", Work::Events(started(256), full_events)),
        case("enable and disable, 3 others", churn(3, 200)),
        case("enable and disable, 256 others", churn(256, 200)),
        case("enable and disable, 511 others", churn(511, 200)),
        case("four policy sets each, 512 flows", Work::Policies(empty_policies, sets)),
        case("tags_of on a full tracker", Work::Tags(full())),
        case("size_of on a full tracker", Work::Size(full())),
        case("is_legal on a full tracker", Work::Legal(full())),
        case("rank on a full tracker", Work::Rank(full())),
        case("rank on a started tracker", Work::Rank(started(256))),
        case("replay, chain back to front", Work::Replay(long_log(chain(255, true)))),
        case("replay, ring back to front", Work::Replay(long_log(ring(true)))),
        case("replay, random ends", Work::Replay(long_log(Vec::new()))),
        case("tally, chain back to front", Work::Tally(long_log(chain(255, true)))),
        case("tally, random ends", Work::Tally(long_log(Vec::new()))),
    ]
}

/// So many flows on a chain of nine containers, alike ones among them, and one more that brings a tag to its front.
fn growing(n: u32, flows: u32) -> Work {
    let ends: Vec<(u32, u32)> = (0..flows).map(|place| (place % 8, place % 8 + 1)).collect();
    let flow = Flow { number: flows + 1, from: n - 1, to: 0 };
    Work::Events(after(n, &enables(ends)), vec![Event::Enable(flow)])
}

/// The series that show how the cost grows, each with its heading.
fn series() -> Vec<(&'static str, Vec<Case>)> {
    let by_n = [16, 32, 64, 128, 256].map(|n| case(format!("one enable, n {n}"), growing(n, 64)));
    let by_flows = [1, 64, 128, 256, 511].map(|flows| case(format!("one enable, {flows} others"), growing(256, flows)));
    let by_length = [16, 32, 64, 128, 255].map(|flows| case(format!("chain of {flows} flows, back to front"), Work::Events(started(256), enables(chain(flows, true)))));
    vec![
        ("cost of an enable as n grows, 64 flows enabled", by_n.into()),
        ("cost of an enable as the enabled flows grow, n 256", by_flows.into()),
        ("cost of an enable in a chain as the chain grows, n 256", by_length.into()),
    ]
}

/// Prints the row of a case, and answers its ratio; nothing where the answers differ.
fn row(case: &Case, before: Option<[f64; 2]>) -> Option<([f64; 2], f64)> {
    let Some(times) = measured(case) else {
        println!("{:<38} the answers differ", case.name);
        return None;
    };
    let ratio = times[0] / times[1];
    let growth = before.map_or(String::new(), |old| format!("{:>10.2}{:>10.2}", times[0] / old[0], times[1] / old[1]));
    println!("{:<38}{:>7}{:>14.0}{:>14.0}{ratio:>9.2}{growth}", case.name, case.calls, times[0], times[1]);
    Some((times, ratio))
}

/// Prints a table, and puts the greatest ratio and its case in place of a smaller one; answers whether all answers were alike.
fn table(heading: &str, cases: &[Case], growth: bool, greatest: &mut (f64, String)) -> bool {
    println!("{heading}");
    let more = if growth { format!("{:>10}{:>10}", "product x", "fast x") } else { String::new() };
    println!("{:<38}{:>7}{:>14}{:>14}{:>9}{more}", "case", "calls", "product ns", "fast ns", "ratio");
    let (mut all_alike, mut before) = (true, None);
    for case in cases {
        match row(case, before) {
            Some((times, ratio)) => {
                before = growth.then_some(times);
                if ratio > greatest.0 {
                    *greatest = (ratio, case.name.clone());
                }
            }
            None => all_alike = false,
        }
    }
    println!();
    all_alike
}

/// Prints all tables and the greatest ratio.
fn main() -> ExitCode {
    let mut greatest = (0.0, String::new());
    let mut alike = table("nanoseconds for each call, best of the turns", &cases(), false, &mut greatest);
    for (heading, cases) in series() {
        alike &= table(heading, &cases, true, &mut greatest);
    }
    println!("greatest ratio {:.2}: {}", greatest.0, greatest.1);
    if alike {
        ExitCode::SUCCESS
    } else {
        ExitCode::FAILURE
    }
}
