//! Faults that two implementations could have alike and that no comparison of their answers shows: which events join.
use super::events::{answer, drops_alike, forgiven, greatest_falls, missed};
use super::{Written, ALL, CALLS};
use crate::wrapper::{Faulty, Hooks, RIGHT};
use interface::{Answer, Flow, Header, Lent};

/// The faults of this file.
pub fn written() -> Vec<Written> {
    vec![
        ("6 for a number more than one above the greatest", ALL, Hooks { enable: gap_refused, ..RIGHT }),
        ("7 at two enabled flows", ALL, Hooks { enable: full_at_two, ..RIGHT }),
        ("4 for the last container", ALL, Hooks { enable: last_refused, ..RIGHT }),
        ("5 for ends that another flow has", ALL, Hooks { enable: alike_refused, ..RIGHT }),
        ("a self flow is accepted", ALL, Hooks { enable: |f, h, l, x| forgiven(f.right.enable(h, l, x), 5), ..RIGHT }),
        ("an enabled flow is not stored", ALL, Hooks { enable: not_stored, ..RIGHT }),
        ("a flow is disabled twice", ALL, Hooks { disable: disabled_twice, ..RIGHT }),
        ("8 for the first record", ALL, Hooks { disable: |f, h, l, x| missed(f, h, l, x, 0), ..RIGHT }),
        ("a disabled flow stays enabled", ALL, Hooks { disable: stays_enabled, ..RIGHT }),
        ("two alike flows end together", ALL, Hooks { disable: drops_alike, ..RIGHT }),
        ("the greatest number falls", ALL, Hooks { disable: greatest_falls, ..RIGHT }),
        ("container 1 has tag 0 from the start", CALLS, Hooks { start: tag_from_the_start, ..RIGHT }),
        ("adding a set disables the last flow", CALLS, Hooks { add_policy: added_and_disabled, ..RIGHT }),
    ]
}

/// Refuses what the right call accepts, where a condition holds.
fn refuses(f: &Faulty, header: Header, lent: &mut Lent, flow: Flow, number: u32, condition: bool) -> Answer {
    if !condition {
        return f.right.enable(header, lent, flow);
    }
    let given = f.right.enable(header, &mut lent.clone(), flow);
    if given.refusal == 0 { answer(number, header) } else { given }
}

/// Refuses numbers that leave others out.
fn gap_refused(f: &Faulty, header: Header, lent: &mut Lent, flow: Flow) -> Answer {
    refuses(f, header, lent, flow, 6, flow.number.checked_sub(1) > Some(header.greatest))
}

/// Refuses the third flow.
fn full_at_two(f: &Faulty, header: Header, lent: &mut Lent, flow: Flow) -> Answer {
    refuses(f, header, lent, flow, 7, header.count == 2)
}

/// Takes the last container for one too many.
fn last_refused(f: &Faulty, header: Header, lent: &mut Lent, flow: Flow) -> Answer {
    refuses(f, header, lent, flow, 4, flow.to.checked_add(1) == Some(header.containers))
}

/// Refuses a flow whose ends an enabled one has.
fn alike_refused(f: &Faulty, header: Header, lent: &mut Lent, flow: Flow) -> Answer {
    let alike = lent.flows.iter().take(header.count as usize).any(|other| (other.from, other.to) == (flow.from, flow.to));
    refuses(f, header, lent, flow, 5, alike)
}

/// Lets the tags flow and forgets the flow.
fn not_stored(f: &Faulty, header: Header, lent: &mut Lent, flow: Flow) -> Answer {
    let mut given = f.right.enable(header, lent, flow);
    if given.refusal == 0 {
        lent.flows[header.count as usize] = Flow::default();
        given.header.count = header.count;
    }
    given
}

/// Accepts a number that was used and that no enabled flow has any more.
fn disabled_twice(f: &Faulty, header: Header, lent: &mut Lent, number: u32) -> Answer {
    let given = f.right.disable(header, lent, number);
    if (1..=header.greatest).contains(&number) { forgiven(given, 8) } else { given }
}

/// Answers as if the flow were disabled.
fn stays_enabled(f: &Faulty, header: Header, lent: &mut Lent, number: u32) -> Answer {
    let given = f.right.disable(header, &mut lent.clone(), number);
    if given.refusal == 0 { answer(0, header) } else { given }
}

/// Starts with a tag too many.
fn tag_from_the_start(f: &Faulty, n: u32, lent: &mut Lent) -> Answer {
    let given = f.right.start(n, lent);
    if given.refusal == 0 && n > 1 {
        lent.tags[4] |= 1;
    }
    given
}

/// Adds the set, and takes the last flow from the table.
fn added_and_disabled(f: &Faulty, header: Header, lent: &mut Lent, container: u32, policy: [u64; 4]) -> Answer {
    let given = f.right.add_policy(header, lent, container, policy);
    if given.refusal != 0 || header.count == 0 {
        return given;
    }
    let last = lent.flows[header.count as usize - 1].number;
    f.right.disable(given.header, lent, last)
}
