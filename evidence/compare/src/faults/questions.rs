//! Faults of the three questions and of the ranking.
use super::{Written, CALLS};
use crate::clauses::is_part;
use crate::wrapper::{Faulty, Hooks, Scope, RIGHT};
use interface::{Header, Lent};

/// Used as a call of its own and within `tally`.
const SEEN: &[Scope] = &[Scope::Calls, Scope::Tally];

/// The faults of this file.
pub fn written() -> Vec<Written> {
    [permission(), sets(), orders(), ranking()].concat()
}

/// Faults of the permission question.
fn permission() -> Vec<Written> {
    vec![
        ("permitted sets are united", CALLS, Hooks { is_legal: united, ..RIGHT }),
        ("no policy set is yes", CALLS, Hooks { is_legal: none_is_yes, ..RIGHT }),
        ("always yes", CALLS, Hooks { is_legal: |f, h, l, c| f.right.is_legal(h, l, c).map(|_| true), ..RIGHT }),
        ("the own tag is not compared", CALLS, Hooks { is_legal: own_not_compared, ..RIGHT }),
        ("part of all sets is asked", CALLS, Hooks { is_legal: part_of_all, ..RIGHT }),
        ("only the first set is compared", CALLS, Hooks { is_legal: |f, h, l, c| judged(f, h, l, c, |set, sets| sets.first().is_some_and(|one| is_part(set, one))), ..RIGHT }),
        ("only the last set is compared", CALLS, Hooks { is_legal: |f, h, l, c| judged(f, h, l, c, |set, sets| sets.last().is_some_and(|one| is_part(set, one))), ..RIGHT }),
        ("the last word is not compared", CALLS, Hooks { is_legal: |f, h, l, c| judged(f, h, l, c, |set, sets| sets.iter().any(|one| is_part(&set[..3], &one[..3]))), ..RIGHT }),
        ("equal sets are asked", CALLS, Hooks { is_legal: |f, h, l, c| judged(f, h, l, c, |set, sets| sets.contains(&set)), ..RIGHT }),
        ("the policy set is asked to be part of the tags", CALLS, Hooks { is_legal: turned_round, ..RIGHT }),
    ]
}

/// Faults of the set and of its size.
fn sets() -> Vec<Written> {
    vec![
        ("the size is that of the first word", CALLS, Hooks { size_of: |f, h, l, c| f.right.tags_of(h, l, c).map(|set| set[0].count_ones()), ..RIGHT }),
        ("the size leaves out the last word", CALLS, Hooks { size_of: three_words, ..RIGHT }),
        ("the size leaves out the own tag", CALLS, Hooks { size_of: |f, h, l, c| f.right.size_of(h, l, c).map(|size| size - 1), ..RIGHT }),
        ("the size wraps at 256", CALLS, Hooks { size_of: |f, h, l, c| f.right.size_of(h, l, c).map(|size| size % 256), ..RIGHT }),
        ("the words of a set come backwards", CALLS, Hooks { tags_of: |f, h, l, c| f.right.tags_of(h, l, c).map(|[a, b, c, d]| [d, c, b, a]), ..RIGHT }),
        ("the container after the last is answered", CALLS, Hooks { tags_of: |f, h, l, c| f.right.tags_of(h, l, if c == h.containers { c.wrapping_sub(1) } else { c }), ..RIGHT }),
        ("containers are taken by their low byte", CALLS, Hooks { size_of: |f, h, l, c| f.right.size_of(h, l, if c > 255 { c % 256 } else { c }), ..RIGHT }),
    ]
}

/// Faults in the order of the refusals.
fn orders() -> Vec<Written> {
    vec![
        ("4 before 12 in tags_of", CALLS, Hooks { tags_of: |f, h, l, c| earlier(f.right.tags_of(h, l, c), h, c, 12), ..RIGHT }),
        ("4 before 12 in size_of", CALLS, Hooks { size_of: |f, h, l, c| earlier(f.right.size_of(h, l, c), h, c, 12), ..RIGHT }),
        ("4 before 12 in is_legal", CALLS, Hooks { is_legal: |f, h, l, c| earlier(f.right.is_legal(h, l, c), h, c, 12), ..RIGHT }),
        ("4 before 9 in tags_of", CALLS, Hooks { tags_of: |f, h, l, c| earlier(f.right.tags_of(h, l, c), h, c, 9), ..RIGHT }),
        ("4 before 9 in size_of", CALLS, Hooks { size_of: |f, h, l, c| earlier(f.right.size_of(h, l, c), h, c, 9), ..RIGHT }),
        ("4 before 9 in is_legal", CALLS, Hooks { is_legal: |f, h, l, c| earlier(f.right.is_legal(h, l, c), h, c, 9), ..RIGHT }),
        ("12 before 9 in tags_of", CALLS, Hooks { tags_of: |f, h, l, c| twelve(f.right.tags_of(h, l, c), h), ..RIGHT }),
        ("12 before 9 in size_of", CALLS, Hooks { size_of: |f, h, l, c| twelve(f.right.size_of(h, l, c), h), ..RIGHT }),
        ("12 before 9 in is_legal", CALLS, Hooks { is_legal: |f, h, l, c| twelve(f.right.is_legal(h, l, c), h), ..RIGHT }),
        ("12 before 9 in rank", CALLS, Hooks { rank: |f, h, l, out| twelve(f.right.rank(h, l, out), h), ..RIGHT }),
        ("10 before 12", CALLS, Hooks { rank: |f, h, l, out| ten(f, h, l, out, 12), ..RIGHT }),
        ("10 before 9", CALLS, Hooks { rank: |f, h, l, out| ten(f, h, l, out, 9), ..RIGHT }),
        ("a count above 512 is bad size", CALLS, Hooks { tags_of: |f, h, l, c| if h.count > 512 { Err(9) } else { f.right.tags_of(h, l, c) }, ..RIGHT }),
    ]
}

/// Faults of the ranking.
fn ranking() -> Vec<Written> {
    vec![
        ("ranking ties the other way", SEEN, Hooks { rank: ties_turned, ..RIGHT }),
        ("ranking with fewest tags first", SEEN, Hooks { rank: fewest_first, ..RIGHT }),
        ("ranking by container alone", SEEN, Hooks { rank: by_container, ..RIGHT }),
        ("rank writes a place past the answer", CALLS, Hooks { rank: place_past, ..RIGHT }),
        ("rank writes at place n + 6", CALLS, Hooks { rank: |f, h, l, out| place_far(f, h, l, out, 6), ..RIGHT }),
        ("rank writes at place n + 99", CALLS, Hooks { rank: |f, h, l, out| place_far(f, h, l, out, 99), ..RIGHT }),
        ("rank clears all places past the answer", CALLS, Hooks { rank: clears_past, ..RIGHT }),
        ("rank leaves out the last place", CALLS, Hooks { rank: last_left_out, ..RIGHT }),
        ("rank refuses an output of just n places", CALLS, Hooks { rank: just_refused, ..RIGHT }),
        ("rank takes n - 1 places for enough", CALLS, Hooks { rank: short_accepted, ..RIGHT }),
        ("rank writes what fits before it refuses", CALLS, Hooks { rank: writes_what_fits, ..RIGHT }),
    ]
}

/// The permission question answered by another rule on the container's set and its policy sets.
fn judged(f: &Faulty, header: Header, lent: &Lent, container: u32, rule: impl Fn(&[u64], Vec<&[u64]>) -> bool) -> Result<bool, u32> {
    let set = f.right.tags_of(header, lent, container)?;
    let used = 4 * lent.counts[container as usize] as usize;
    let sets = lent.policies[16 * container as usize..][..used].chunks(4).collect();
    Ok(rule(&set, sets))
}

/// The set has to be part of all policy sets together.
fn united(f: &Faulty, header: Header, lent: &Lent, container: u32) -> Result<bool, u32> {
    judged(f, header, lent, container, |set, sets| (0..4).all(|word| sets.iter().fold(0, |all, one| all | one[word]) & set[word] == set[word]))
}

/// A container without policy sets may be sent.
fn none_is_yes(f: &Faulty, header: Header, lent: &Lent, container: u32) -> Result<bool, u32> {
    judged(f, header, lent, container, |set, sets| sets.is_empty() || sets.iter().any(|one| is_part(set, one)))
}

/// The container's own tag counts as permitted.
fn own_not_compared(f: &Faulty, header: Header, lent: &Lent, container: u32) -> Result<bool, u32> {
    let own = container as usize;
    judged(f, header, lent, container, |set, sets| {
        let mut others = set.to_vec();
        others[own / 64] &= !(1 << (own % 64));
        sets.iter().any(|one| is_part(&others, one))
    })
}

/// The set has to be part of every policy set, and there has to be one.
fn part_of_all(f: &Faulty, header: Header, lent: &Lent, container: u32) -> Result<bool, u32> {
    judged(f, header, lent, container, |set, sets| !sets.is_empty() && sets.iter().all(|one| is_part(set, one)))
}

/// Answers 4 instead of an earlier refusal where the container is n or more.
fn earlier<T>(given: Result<T, u32>, header: Header, container: u32, refusal: u32) -> Result<T, u32> {
    match given {
        Err(number) if number == refusal && container >= header.containers => Err(4),
        given => given,
    }
}

/// Answers 12 instead of 9 where the count is above 512 as well.
fn twelve<T>(given: Result<T, u32>, header: Header) -> Result<T, u32> {
    match given {
        Err(9) if header.count > 512 => Err(12),
        given => given,
    }
}

/// Answers 10 instead of an earlier refusal where the output is short.
fn ten(f: &Faulty, header: Header, lent: &Lent, out: &mut [u16], refusal: u32) -> Result<(), u32> {
    match f.right.rank(header, lent, out) {
        Err(number) if number == refusal && out.len() < header.containers as usize => Err(10),
        given => given,
    }
}

/// The right ranking, after which a rule sorts the places again by size and container.
fn resorted(f: &Faulty, header: Header, lent: &Lent, out: &mut [u16], key: impl Fn(u32, u16) -> (u32, u16)) -> Result<(), u32> {
    f.right.rank(header, lent, out)?;
    let size = |container: u16| lent.tags[4 * usize::from(container)..][..4].iter().map(|word| word.count_ones()).sum();
    out[..header.containers as usize].sort_by_key(|container| key(size(*container), *container));
    Ok(())
}

/// Among equal sizes the higher number first.
fn ties_turned(f: &Faulty, header: Header, lent: &Lent, out: &mut [u16]) -> Result<(), u32> {
    resorted(f, header, lent, out, |size, container| (256 - size, 256 - container))
}

/// The smallest set first.
fn fewest_first(f: &Faulty, header: Header, lent: &Lent, out: &mut [u16]) -> Result<(), u32> {
    resorted(f, header, lent, out, |size, container| (size, container))
}

/// Rising container, whatever the size.
fn by_container(f: &Faulty, header: Header, lent: &Lent, out: &mut [u16]) -> Result<(), u32> {
    resorted(f, header, lent, out, |_, container| (0, container))
}

/// Writes one place too many where there is one.
fn place_past(f: &Faulty, header: Header, lent: &Lent, out: &mut [u16]) -> Result<(), u32> {
    f.right.rank(header, lent, out)?;
    if let Some(place) = out.get_mut(header.containers as usize) {
        *place = 0;
    }
    Ok(())
}

/// Changes the place so far after the answer where there is one.
fn place_far(f: &Faulty, header: Header, lent: &Lent, out: &mut [u16], far: usize) -> Result<(), u32> {
    f.right.rank(header, lent, out)?;
    if let Some(place) = out.get_mut(header.containers as usize + far) {
        *place ^= 1;
    }
    Ok(())
}

/// Clears all places after the answer.
fn clears_past(f: &Faulty, header: Header, lent: &Lent, out: &mut [u16]) -> Result<(), u32> {
    f.right.rank(header, lent, out)?;
    out[header.containers as usize..].fill(0);
    Ok(())
}

/// Does not write the last place of the answer.
fn last_left_out(f: &Faulty, header: Header, lent: &Lent, out: &mut [u16]) -> Result<(), u32> {
    let last = (header.containers as usize).wrapping_sub(1);
    let before = out.get(last).copied();
    f.right.rank(header, lent, out)?;
    if let Some(before) = before {
        out[last] = before;
    }
    Ok(())
}

/// Accepts an output that lacks one place.
fn short_accepted(f: &Faulty, header: Header, lent: &Lent, out: &mut [u16]) -> Result<(), u32> {
    match f.right.rank(header, lent, out) {
        Err(10) if out.len() + 1 == header.containers as usize => Ok(()),
        given => given,
    }
}

/// Fills a short output as far as it goes.
fn writes_what_fits(f: &Faulty, header: Header, lent: &Lent, out: &mut [u16]) -> Result<(), u32> {
    let given = f.right.rank(header, lent, out);
    if given == Err(10) {
        let mut whole = vec![0; header.containers as usize];
        f.right.rank(header, lent, &mut whole)?;
        let room = out.len();
        out.copy_from_slice(&whole[..room]);
    }
    given
}

/// Asks whether a policy set is part of the tags.
fn turned_round(f: &Faulty, header: Header, lent: &Lent, container: u32) -> Result<bool, u32> {
    judged(f, header, lent, container, |set, sets| sets.iter().any(|one| is_part(one, set)))
}

/// Counts the tags of the first three words.
fn three_words(f: &Faulty, header: Header, lent: &Lent, container: u32) -> Result<u32, u32> {
    f.right.tags_of(header, lent, container).map(|set| set[..3].iter().map(|word| word.count_ones()).sum())
}

/// Refuses an output that has just the places of the answer.
fn just_refused(f: &Faulty, header: Header, lent: &Lent, out: &mut [u16]) -> Result<(), u32> {
    if out.len() == header.containers as usize { f.right.rank(header, lent, &mut []) } else { f.right.rank(header, lent, out) }
}
