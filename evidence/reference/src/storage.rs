//! The lent storage: as it comes, and cut to the lengths in use so that nothing beyond them can be read or written.

use crate::refusal::Refusal;
use crate::tag_set::TagSet;
use interface::{Flow, Lent};

/// The most containers that a tracker can have.
pub const CONTAINERS: usize = 256;
/// The records of the flow table.
pub const FLOWS: usize = 512;
/// The policy sets that a container can have.
pub const POLICIES: usize = 4;
/// The words of a tag set.
pub const WORDS: usize = 4;

/// The places for the policy sets of one container, in the order of adding.
pub type Policies = [TagSet; POLICIES];

/// Storage as it is lent, of any length.
pub struct Loan<'a> {
    pub tags: &'a mut [u64],
    pub policies: &'a mut [u64],
    pub counts: &'a mut [u8],
    pub flows: &'a mut [Flow],
}

/// The places of a tracker with n containers, to be changed.
pub struct Storage<'a> {
    pub tags: &'a mut [TagSet],
    pub policies: &'a mut [Policies],
    pub counts: &'a mut [u8],
    pub flows: &'a mut [Flow; FLOWS],
}

/// The places of a tracker with n containers, to be read.
#[derive(Clone, Copy)]
pub struct View<'a> {
    pub tags: &'a [TagSet],
    pub policies: &'a [Policies],
    pub counts: &'a [u8],
    pub flows: &'a [Flow; FLOWS],
}

impl<'a> Loan<'a> {
    /// The whole of the lent lists.
    pub fn of(lent: &'a mut Lent) -> Self {
        Loan {
            tags: &mut lent.tags[..],
            policies: &mut lent.policies[..],
            counts: &mut lent.counts[..],
            flows: &mut lent.flows[..],
        }
    }

    /// The places of a tracker with n containers: "at least 4n words for tag sets, 16n words for permitted sets (four a
    /// holder) and n bytes for their counts".
    pub fn cut(self, n: u32) -> Result<Storage<'a>, Refusal> {
        let n = usable(n)?;
        let tags = self.tags.get_mut(..WORDS * n).ok_or(Refusal::BadSize)?;
        let policies = self.policies.get_mut(..WORDS * POLICIES * n).ok_or(Refusal::BadSize)?;
        let counts = self.counts.get_mut(..n).ok_or(Refusal::BadSize)?;
        let flows = self.flows.first_chunk_mut().ok_or(Refusal::BadSize)?;
        let policies = policies.as_chunks_mut().0.as_chunks_mut().0;
        Ok(Storage { tags: tags.as_chunks_mut().0, policies, counts, flows })
    }
}

impl Storage<'_> {
    /// The same places, to be read.
    pub fn view(&self) -> View<'_> {
        View { tags: self.tags, policies: self.policies, counts: self.counts, flows: self.flows }
    }
}

impl<'a> View<'a> {
    /// The places of a tracker with n containers in lists that are only read.
    pub fn cut(n: u32, lent: &'a Lent) -> Result<Self, Refusal> {
        let n = usable(n)?;
        let tags = lent.tags.get(..WORDS * n).ok_or(Refusal::BadSize)?;
        let policies = lent.policies.get(..WORDS * POLICIES * n).ok_or(Refusal::BadSize)?;
        let counts = lent.counts.get(..n).ok_or(Refusal::BadSize)?;
        let flows = lent.flows.first_chunk().ok_or(Refusal::BadSize)?;
        Ok(View { tags: tags.as_chunks().0, policies: policies.as_chunks().0.as_chunks().0, counts, flows })
    }
}

/// The number of containers, if a tracker can have so many: "n is 0 or above 256" is refused.
fn usable(n: u32) -> Result<usize, Refusal> {
    match n {
        1..=256 => Ok(n as usize),
        _ => Err(Refusal::BadSize),
    }
}
