//! What starting and events do in the places of a tracker that is known to be valid.

use crate::refusal::Refusal;
use crate::storage::{Storage, FLOWS};
use crate::tag_set;
use crate::way::Way;
use interface::{Event, Flow, Header};

/// The header of a new tracker: "At the start each holder has its own tag alone."
pub fn start(storage: &mut Storage<'_>) -> Header {
    for (container, set) in storage.tags.iter_mut().enumerate() {
        *set = tag_set::only(container);
    }
    storage.policies.as_flattened_mut().fill([0; 4]);
    storage.counts.fill(0);
    storage.flows.fill(Flow::default());
    Header { containers: storage.tags.len() as u32, count: 0, greatest: 0 }
}

/// The gain of an event; on a refusal nothing is changed.
#[inline]
pub fn apply<W: Way>(
    event: Event,
    header: &mut Header,
    storage: &mut Storage<'_>,
    room: &mut W::Room,
) -> Result<u32, Refusal> {
    match event {
        Event::Enable(flow) => enable::<W>(flow, header, storage, room),
        Event::Disable(number) => disable(number, header, storage),
    }
}

/// The gain of enabling a flow: "4 for from, 4 for to, 5, 6, 7".
pub fn enable<W: Way>(
    flow: Flow,
    header: &mut Header,
    storage: &mut Storage<'_>,
    room: &mut W::Room,
) -> Result<u32, Refusal> {
    let count = header.count as usize;
    if flow.from >= header.containers || flow.to >= header.containers {
        return Err(Refusal::NoSuchContainer);
    }
    if flow.from == flow.to {
        return Err(Refusal::SameContainer);
    }
    if flow.number <= header.greatest {
        return Err(Refusal::OldNumber);
    }
    if count >= FLOWS {
        return Err(Refusal::TableFull);
    }
    storage.flows[count] = flow;
    header.count += 1;
    header.greatest = flow.number;
    Ok(W::propagate(storage.tags, &storage.flows[..=count], room))
}

/// The gain of disabling a flow, 0: "A closing moves the later records down by one." and "It takes no tag away."
pub fn disable(number: u32, header: &mut Header, storage: &mut Storage<'_>) -> Result<u32, Refusal> {
    let enabled = &mut storage.flows[..header.count as usize];
    let Ok(place) = enabled.binary_search_by_key(&number, |flow| flow.number) else {
        return Err(Refusal::NotEnabled);
    };
    let last = enabled.len() - 1;
    enabled.copy_within(place + 1.., place);
    enabled[last] = Flow::default();
    header.count -= 1;
    Ok(0)
}
