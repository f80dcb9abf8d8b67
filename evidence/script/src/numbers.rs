//! The numbers of a line that was understood.

use interface::{Event, Flow};

/// The numbers after a word: as many as the word takes, none larger than the table of words allows.
#[derive(Debug)]
pub struct Numbers(pub Vec<u64>);

impl Numbers {
    /// The number at a place, as the call takes it. It has room there: the table of words says the largest.
    pub fn at<T: TryFrom<u64>>(&self, place: usize) -> T {
        T::try_from(self.0[place]).ok().expect("the table of words allows a number that the call does not take")
    }

    /// The bytes from a place on.
    pub fn bytes(&self, from: usize) -> Vec<u8> {
        (from..self.0.len()).map(|place| self.at(place)).collect()
    }

    /// The set of the tags from a place on: "tag t is bit t mod 64 of word t div 64".
    pub fn set(&self, from: usize) -> [u64; 4] {
        let mut set = [0; 4];
        for tag in self.bytes(from) {
            set[usize::from(tag / 64)] |= 1 << (tag % 64);
        }
        set
    }

    /// The flow whose number, from and to are from a place on.
    pub fn flow(&self, from: usize) -> Flow {
        Flow { number: self.at(from), from: self.at(from + 1), to: self.at(from + 2) }
    }

    /// The event from a place on: a number alone disables, one with two ends enables.
    pub fn event(&self, from: usize) -> Event {
        if self.0.len() == from + 1 {
            Event::Disable(self.at(from))
        } else {
            Event::Enable(self.flow(from))
        }
    }
}
