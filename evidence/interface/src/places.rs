//! Lists between guard zones: elements of known content that stand before and after the list in the same allocation
//! and are lent to nobody, so that a write one place outside the list is seen.
use crate::Flow;
use std::fmt;
use std::ops::{Deref, DerefMut};

/// The elements of each of the two zones.
pub const ZONE: usize = 8;

/// What can stand in a list between zones.
pub trait Guard: Copy + PartialEq + fmt::Debug {
    /// What every element of a zone holds.
    const GUARD: Self;
}

impl Guard for u8 {
    const GUARD: u8 = 0xA5;
}

impl Guard for u16 {
    const GUARD: u16 = 0xA5A5;
}

impl Guard for u64 {
    const GUARD: u64 = 0xA5A5_A5A5_A5A5_A5A5;
}

impl Guard for Flow {
    const GUARD: Flow = Flow { number: 0xA5A5_A5A5, from: 0xA5A5_A5A5, to: 0xA5A5_A5A5 };
}

/// A list between its zones. A copy has the zones as they are; only a list that is made anew has new ones.
#[derive(Clone)]
pub struct Places<T> {
    whole: Vec<T>,
}

impl<T: Guard> Places<T> {
    /// The list's first place, reached from the whole allocation, so that its zones can be reached from it too.
    pub fn as_ptr(&self) -> *const T {
        self.whole.as_ptr().wrapping_add(ZONE)
    }

    /// The same place, to be written.
    pub fn as_mut_ptr(&mut self) -> *mut T {
        self.whole.as_mut_ptr().wrapping_add(ZONE)
    }

    /// Where the list ends in the allocation.
    fn end(&self) -> usize {
        self.whole.len() - ZONE
    }

    /// Cuts the list to this length where it is longer.
    pub fn truncate(&mut self, length: usize) {
        let end = self.end();
        self.whole.drain(end.min(ZONE + length)..end);
    }

    /// Gives the list this length; what is new holds the value.
    pub fn resize(&mut self, length: usize, value: T) {
        self.truncate(length);
        let (end, more) = (self.end(), length - self.len());
        self.whole.splice(end..end, std::iter::repeat_n(value, more));
    }

    /// Adds a place at the end.
    pub fn push(&mut self, value: T) {
        self.whole.insert(self.end(), value);
    }

    /// The element of a zone nearest to the list that no longer holds its guard, before the start or else past the end.
    #[inline]
    pub fn overrun(&self, name: &str) -> Option<String> {
        let whole = |zone: &[T]| zone.iter().fold(true, |all, one| all & (*one == T::GUARD));
        if whole(&self.whole[..ZONE]) && whole(&self.whole[self.end()..]) { None } else { self.told(name) }
    }

    /// What is told of the zones.
    #[cold]
    fn told(&self, name: &str) -> Option<String> {
        let (before, after) = (&self.whole[..ZONE], &self.whole[self.end()..]);
        if let Some(far) = before.iter().rev().position(|one| *one != T::GUARD) {
            return Some(format!("{} before the start of {name}: {:?}", far + 1, before[ZONE - 1 - far]));
        }
        let far = after.iter().position(|one| *one != T::GUARD)?;
        Some(format!("{} past the end of {name}, place {}: {:?}", far + 1, self.len() + far, after[far]))
    }

    /// Makes the list anew, with new zones, in the allocation that is there.
    pub fn renew(&mut self, list: &[T]) {
        self.whole.clear();
        self.whole.reserve(list.len() + 2 * ZONE);
        self.whole.extend_from_slice(&[T::GUARD; ZONE]);
        self.whole.extend_from_slice(list);
        self.whole.extend_from_slice(&[T::GUARD; ZONE]);
    }
}

impl<T: Guard> From<&[T]> for Places<T> {
    fn from(list: &[T]) -> Places<T> {
        let mut places = Places { whole: Vec::with_capacity(list.len() + 2 * ZONE) };
        places.renew(list);
        places
    }
}

impl<T: Guard> From<Vec<T>> for Places<T> {
    fn from(list: Vec<T>) -> Places<T> {
        Places::from(&list[..])
    }
}

impl<T: Guard> FromIterator<T> for Places<T> {
    fn from_iter<I: IntoIterator<Item = T>>(list: I) -> Places<T> {
        Places::from(list.into_iter().collect::<Vec<T>>())
    }
}

impl<T: Guard> Default for Places<T> {
    fn default() -> Places<T> {
        Places::from(Vec::new())
    }
}

impl<T: Guard> Deref for Places<T> {
    type Target = [T];
    fn deref(&self) -> &[T] {
        &self.whole[ZONE..self.whole.len() - ZONE]
    }
}

impl<T: Guard> DerefMut for Places<T> {
    fn deref_mut(&mut self) -> &mut [T] {
        let end = self.end();
        &mut self.whole[ZONE..end]
    }
}

impl<T: Guard> PartialEq for Places<T> {
    fn eq(&self, other: &Places<T>) -> bool {
        **self == **other
    }
}

impl<T: Guard + Eq> Eq for Places<T> {}

impl<T: Guard> fmt::Debug for Places<T> {
    fn fmt(&self, f: &mut fmt::Formatter<'_>) -> fmt::Result {
        (**self).fmt(f)
    }
}

#[cfg(test)]
mod tests {
    use super::*;

    /// A list as a Vec would be after the same changes, and no zone told as written.
    #[test]
    fn changes_are_those_of_a_list() {
        let (mut list, mut plain) = (Places::from(vec![1_u64, 2, 3]), vec![1_u64, 2, 3]);
        for (length, value) in [(5, 7), (2, 8), (0, 9), (1, 4)] {
            list.resize(length, value);
            plain.resize(length, value);
            list.push(11);
            plain.push(11);
            assert_eq!((&list[..], list.overrun("x")), (&plain[..], None));
            list.truncate(length + 4);
            list.truncate(1);
            plain.truncate(1);
            assert_eq!((&list[..], list.overrun("x")), (&plain[..], None));
        }
    }

    /// Every element of both zones is watched, and stays so when the list is cut or lengthened; no place of the list is.
    #[test]
    fn every_element_of_a_zone_is_watched() {
        for at in 0..3 + 2 * ZONE {
            let mut list = Places::from(vec![1_u16, 2, 3]);
            list.whole[at] = 0;
            let outside = !(ZONE..ZONE + 3).contains(&at);
            assert_eq!(list.overrun("x").is_some(), outside);
            list.truncate(1);
            assert_eq!(list.overrun("x").is_some(), outside);
            list.resize(9, 4);
            list.push(4);
            assert_eq!(list.clone().overrun("x").is_some(), outside);
            assert!(Places::from(&list[..]).overrun("x").is_none());
        }
    }

    /// The nearest written element is told, with its side and its place.
    #[test]
    fn the_nearest_is_told() {
        let mut list = Places::from(vec![7_u8; 4]);
        list.whole[ZONE + 5] = 1;
        assert_eq!(list.overrun("x").unwrap(), "2 past the end of x, place 5: 1");
        list.whole[0] = 2;
        list.whole[ZONE - 2] = 3;
        assert_eq!(list.overrun("x").unwrap(), "2 before the start of x: 3");
    }
}
