//! Tag sets: "A tag set is a record of four 64-bit words; tag t is bit t mod 64 of word t div 64, bit 0 the lowest."

use std::array;

/// A set of tags from 0 to 255.
pub type TagSet = [u64; 4];

/// The set with one tag.
pub fn only(tag: usize) -> TagSet {
    let mut set = [0; 4];
    set[tag / 64] = 1 << (tag % 64);
    set
}

/// The set of all tags that are n or more.
pub fn n_or_more(n: usize) -> TagSet {
    array::from_fn(|word| match n.saturating_sub(64 * word) {
        within @ 0..=63 => u64::MAX << within,
        _ => 0,
    })
}

/// Whether the set has the tag.
#[inline]
pub fn has(set: &TagSet, tag: usize) -> bool {
    set[tag / 64] >> (tag % 64) & 1 == 1
}

/// Whether the set has no tag.
#[inline]
pub fn is_empty(set: &TagSet) -> bool {
    set[0] | set[1] | set[2] | set[3] == 0
}

/// The tags that either set has.
#[inline]
pub fn union(a: &TagSet, b: &TagSet) -> TagSet {
    array::from_fn(|word| a[word] | b[word])
}

/// The tags of both sets.
#[inline]
pub fn common(a: &TagSet, b: &TagSet) -> TagSet {
    array::from_fn(|word| a[word] & b[word])
}

/// Whether no tag is in both sets.
#[inline]
pub fn is_disjoint(a: &TagSet, b: &TagSet) -> bool {
    is_empty(&common(a, b))
}

/// The tags of the first set that the second lacks.
#[inline]
pub fn missing(from: &TagSet, to: &TagSet) -> TagSet {
    array::from_fn(|word| from[word] & !to[word])
}

/// Whether each tag of the first set is in the second.
#[inline]
pub fn is_subset(part: &TagSet, whole: &TagSet) -> bool {
    is_empty(&missing(part, whole))
}

/// "The size of a tag set is the number of ones in its words."
#[inline]
pub fn size(set: &TagSet) -> u32 {
    set.iter().map(|word| word.count_ones()).sum()
}
