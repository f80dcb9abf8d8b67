//! The clauses of the paper's sentence on a sound book, judged one by one, so that a state is known to break just the clause it is meant to break.
use crate::inputs::TABLE;
use interface::{Flow, Header, Lent};

/// The clauses of the sentence.
#[derive(Clone, Copy, Debug, PartialEq, Eq)]
pub enum Clause {
    Containers,
    Count,
    PolicyCount,
    Rising,
    AtLeastOne,
    Greatest,
    FromBelow,
    ToBelow,
    EndsDiffer,
    TagBelow,
    PolicyTagBelow,
    OwnTag,
    Part,
    UnusedRecord,
    UnusedPolicy,
}

/// All clauses that refusal 12 judges (n is judged by 9).
pub const CLAUSES: [Clause; 14] = [
    Clause::Count,
    Clause::PolicyCount,
    Clause::Rising,
    Clause::AtLeastOne,
    Clause::Greatest,
    Clause::FromBelow,
    Clause::ToBelow,
    Clause::EndsDiffer,
    Clause::TagBelow,
    Clause::PolicyTagBelow,
    Clause::OwnTag,
    Clause::Part,
    Clause::UnusedRecord,
    Clause::UnusedPolicy,
];

/// A clause that a state breaks, the container or record at which it does, and the word or field there.
#[derive(Clone, Copy, Debug, PartialEq, Eq)]
pub struct Broken {
    pub clause: Clause,
    pub place: usize,
    pub part: usize,
}

/// Where among its possible places a clause is broken.
#[derive(Clone, Copy, Debug, PartialEq, Eq)]
pub enum Place {
    First,
    Middle,
    Last,
}

/// The three places.
pub const PLACES: [Place; 3] = [Place::First, Place::Middle, Place::Last];

/// Whether a tag is in a set.
pub fn has_tag(set: &[u64], tag: usize) -> bool {
    set[tag / 64] >> (tag % 64) & 1 == 1
}

/// Whether the first set is part of the second.
pub fn is_part(first: &[u64], second: &[u64]) -> bool {
    first.iter().zip(second).all(|(a, b)| a & !b == 0)
}

/// The bits of one word of a set that are tags of n or more.
pub fn beyond(n: usize, word: usize) -> u64 {
    match n.saturating_sub(64 * word) {
        0 => u64::MAX,
        over if over >= 64 => 0,
        over => u64::MAX << over,
    }
}

/// All that a state breaks; its storage is long enough for its containers if these are 1 to 256.
pub fn broken(header: Header, lent: &Lent) -> Vec<Broken> {
    if header.containers == 0 || header.containers > 256 {
        return vec![Broken { clause: Clause::Containers, place: 0, part: 0 }];
    }
    let mut found = Vec::new();
    if header.count > 512 {
        found.push(Broken { clause: Clause::Count, place: 0, part: 0 });
    }
    let used = (header.count as usize).min(TABLE);
    broken_records(header, lent, used, &mut found);
    for container in 0..header.containers as usize {
        broken_sets(header.containers as usize, lent, container, &mut found);
        broken_policies(header.containers as usize, lent, container, &mut found);
    }
    found
}

/// What the records of the table break.
fn broken_records(header: Header, lent: &Lent, used: usize, found: &mut Vec<Broken>) {
    let n = header.containers;
    for (place, flow) in lent.flows[..used].iter().enumerate() {
        let mut add = |clause| found.push(Broken { clause, place, part: 0 });
        if place > 0 && flow.number <= lent.flows[place - 1].number {
            add(Clause::Rising);
        }
        if flow.number == 0 {
            add(Clause::AtLeastOne);
        }
        if flow.number > header.greatest {
            add(Clause::Greatest);
        }
        if flow.from >= n {
            add(Clause::FromBelow);
        }
        if flow.to >= n {
            add(Clause::ToBelow);
        }
        if flow.from == flow.to {
            add(Clause::EndsDiffer);
        }
        if flow.from < n && flow.to < n && !is_part(tags(lent, flow.from), tags(lent, flow.to)) {
            add(Clause::Part);
        }
    }
    for (place, flow) in lent.flows[used..TABLE].iter().enumerate().filter(|(_, flow)| **flow != Flow::default()) {
        let part = if flow.number != 0 { 0 } else { 1 + usize::from(flow.from == 0) };
        found.push(Broken { clause: Clause::UnusedRecord, place: used + place, part });
    }
}

/// The tag set of a container.
pub fn tags(lent: &Lent, container: u32) -> &[u64] {
    &lent.tags[4 * container as usize..][..4]
}

/// What the tag set of a container breaks.
fn broken_sets(n: usize, lent: &Lent, container: usize, found: &mut Vec<Broken>) {
    let set = tags(lent, container as u32);
    for part in (0..4).filter(|word| set[*word] & beyond(n, *word) != 0) {
        found.push(Broken { clause: Clause::TagBelow, place: container, part });
    }
    if !has_tag(set, container) {
        found.push(Broken { clause: Clause::OwnTag, place: container, part: container / 64 });
    }
}

/// What the policy sets of a container break.
fn broken_policies(n: usize, lent: &Lent, container: usize, found: &mut Vec<Broken>) {
    let words = &lent.policies[16 * container..][..16];
    let count = lent.counts[container] as usize;
    if count > 4 {
        found.push(Broken { clause: Clause::PolicyCount, place: container, part: 0 });
    }
    for (part, word) in words.iter().enumerate() {
        if part < 4 * count && word & beyond(n, part % 4) != 0 {
            found.push(Broken { clause: Clause::PolicyTagBelow, place: container, part });
        }
        if part >= 4 * count && *word != 0 {
            found.push(Broken { clause: Clause::UnusedPolicy, place: container, part });
        }
    }
}

/// The first and the last place at which a state could break a clause; nothing where it has no such place.
pub fn possible(header: Header, clause: Clause) -> Option<(usize, usize)> {
    let (count, n) = ((header.count as usize).min(TABLE), header.containers as usize);
    let range = match clause {
        Clause::Containers | Clause::Count => (0, 1),
        Clause::Rising => (1, count),
        Clause::AtLeastOne => (0, count.min(1)),
        Clause::Greatest | Clause::FromBelow | Clause::ToBelow | Clause::EndsDiffer | Clause::Part => (0, count),
        Clause::UnusedRecord => (count, TABLE),
        Clause::PolicyCount | Clause::TagBelow | Clause::PolicyTagBelow | Clause::OwnTag | Clause::UnusedPolicy => (0, n),
    };
    (range.0 < range.1).then(|| (range.0, range.1 - 1))
}

#[cfg(test)]
mod tests {
    use super::*;

    /// The bits beyond n are those of the tags n to 255.
    #[test]
    fn bits_beyond_n() {
        for n in 0..=256 {
            for tag in 0..256 {
                assert_eq!(beyond(n, tag / 64) >> (tag % 64) & 1 == 1, tag >= n, "n {n}, tag {tag}");
            }
        }
    }
}
