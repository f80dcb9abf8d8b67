//! What an implementation does in its own way, and the calls of the interface that are answered by it.

use crate::refusal::Refusal;
use crate::storage::View;
use crate::tag_set::TagSet;
use interface::{Flow, Header};

/// The parts that one implementation does plainly and another quickly.
pub trait Way {
    /// What the propagations of a call share.
    type Room;

    /// Room for any number of propagations.
    fn room() -> Self::Room;

    /// Whether the tracker is valid, n and the lengths being known to be right.
    fn is_valid(header: &Header, view: View<'_>) -> bool;

    /// Brings the tag sets to what they are once these flows are enabled, and answers the gain.
    fn propagate(tags: &mut [TagSet], enabled: &[Flow], room: &mut Self::Room) -> u32;

    /// Fills `out` with the containers, "most tags first; among equal sizes the lower number first".
    fn ranking(tags: &[TagSet], out: &mut [u16]);

    /// Writes the text of `tally` for this input at the start of `out` if the whole of it fits, and answers its length.
    fn tally(bytes: &[u8], out: &mut [u8]) -> Result<usize, Refusal>;
}

/// Makes a type that has a `Way` an implementation: each call is handed to the module that answers it.
#[macro_export]
macro_rules! implementation {
    ($name:ty) => {
        const _: () = {
            use interface::{Answer, Event, Flow, Header, Implementation, Lent, Replayed};
            use $crate::refusal::Refusal;
            use $crate::storage::Loan;
            use $crate::way::Way;
            use $crate::{number, question, record, replay, tracker};

            impl Implementation for $name {
                /// A new tracker with n containers.
                fn start(&self, n: u32, lent: &mut Lent) -> Answer {
                    tracker::start(n, Loan::of(lent))
                }

                /// The tracker after a flow is enabled.
                fn enable(&self, header: Header, lent: &mut Lent, flow: Flow) -> Answer {
                    tracker::enable::<Self>(header, Loan::of(lent), flow)
                }

                /// The tracker after the flow of this number is disabled.
                fn disable(&self, header: Header, lent: &mut Lent, number: u32) -> Answer {
                    tracker::disable::<Self>(header, Loan::of(lent), number)
                }

                /// The tracker after a policy set is added to a container.
                fn add_policy(&self, header: Header, lent: &mut Lent, container: u32, policy: [u64; 4]) -> Answer {
                    tracker::add_policy::<Self>(header, Loan::of(lent), container, &policy)
                }

                /// The tag set of a container.
                fn tags_of(&self, header: Header, lent: &Lent, container: u32) -> Result<[u64; 4], u32> {
                    question::tags_of::<Self>(header, lent, container).map_err(Refusal::number)
                }

                /// The size of a container's tag set.
                fn size_of(&self, header: Header, lent: &Lent, container: u32) -> Result<u32, u32> {
                    question::size_of::<Self>(header, lent, container).map_err(Refusal::number)
                }

                /// Whether what a container holds is legal.
                fn is_legal(&self, header: Header, lent: &Lent, container: u32) -> Result<bool, u32> {
                    question::is_legal::<Self>(header, lent, container).map_err(Refusal::number)
                }

                /// All containers, most tags first.
                fn rank(&self, header: Header, lent: &Lent, out: &mut [u16]) -> Result<(), u32> {
                    question::rank::<Self>(header, lent, out).map_err(Refusal::number)
                }

                /// The tracker after a whole log.
                fn replay(&self, bytes: &[u8], lent: &mut Lent) -> Replayed {
                    replay::replay::<Self>(bytes, Loan::of(lent))
                }

                /// The number of at most `width` bits at a position.
                fn decode(&self, bytes: &[u8], at: usize, width: u32) -> Result<(u64, usize), u32> {
                    number::decode(bytes, at, width).map_err(Refusal::number)
                }

                /// The position after a number that was written.
                fn encode(&self, value: u64, out: &mut [u8], at: usize) -> Result<usize, u32> {
                    number::encode(value, out, at).map_err(Refusal::number)
                }

                /// n at the start of a log.
                fn read_head(&self, bytes: &[u8]) -> Result<(u32, usize), u32> {
                    record::read_head(bytes).map_err(Refusal::number)
                }

                /// The position after n that was written.
                fn write_head(&self, n: u32, out: &mut [u8]) -> Result<usize, u32> {
                    record::write_head(n, out).map_err(Refusal::number)
                }

                /// The record at a position.
                fn read_record(&self, bytes: &[u8], at: usize) -> Result<(Event, usize), u32> {
                    record::read(bytes, at).map_err(Refusal::number)
                }

                /// The position after a record that was written.
                fn write_record(&self, event: Event, out: &mut [u8], at: usize) -> Result<usize, u32> {
                    record::write(event, out, at).map_err(Refusal::number)
                }

                /// How many bytes a record takes.
                fn record_len(&self, event: Event) -> usize {
                    record::length(event)
                }

                /// The length of the text of `tally` that was written.
                fn tally(&self, bytes: &[u8], out: &mut [u8]) -> Result<usize, u32> {
                    <Self as Way>::tally(bytes, out).map_err(Refusal::number)
                }
            }
        };
    };
}
