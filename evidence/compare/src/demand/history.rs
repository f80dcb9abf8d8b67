//! The accepted history of a list of calls, found from n and the calls' arguments alone.
use crate::clauses::has_tag;
use crate::inputs::TABLE;
use interface::{Event, Flow};

/// A call of a list: an event, or the adding of a policy set to a container.
#[derive(Clone, Copy, Debug, PartialEq, Eq)]
pub enum Asked {
    Event(Event),
    Add(u32, [u64; 4]),
}

/// What the history of a list has come to: the enabled flows, the greatest number, and beside them what was disabled and
/// how many policy sets each container has.
#[derive(Clone, Debug)]
pub struct History {
    pub n: u32,
    pub greatest: u32,
    pub enabled: Vec<Flow>,
    pub gone: Vec<u32>,
    sets: Vec<u8>,
}

impl History {
    /// The empty history: nothing enabled, greatest number 0.
    pub fn new(n: u32) -> History {
        History { n, greatest: 0, enabled: Vec::new(), gone: Vec::new(), sets: vec![0; n as usize] }
    }

    /// The first refusal after 9 and 12 in the call's order that applies, 0 where none does.
    pub fn refusal(&self, asked: Asked) -> u32 {
        let first = |order: &[(u32, bool)]| order.iter().find(|(_, applies)| *applies).map_or(0, |(number, _)| *number);
        match asked {
            Asked::Event(Event::Enable(flow)) => first(&[
                (4, flow.from >= self.n || flow.to >= self.n),
                (5, flow.from == flow.to),
                (6, flow.number <= self.greatest),
                (7, self.enabled.len() == TABLE),
            ]),
            Asked::Event(Event::Disable(number)) => first(&[(8, !self.is_enabled(number))]),
            Asked::Add(container, _) if container >= self.n => 4,
            Asked::Add(container, set) => first(&[
                (4, (self.n as usize..256).any(|tag| has_tag(&set, tag))),
                (11, self.sets[container as usize] == 4),
            ]),
        }
    }

    /// Takes in a call, and answers its refusal; a refused one changes nothing.
    pub fn take(&mut self, asked: Asked) -> u32 {
        let refusal = self.refusal(asked);
        match asked {
            _ if refusal != 0 => {}
            Asked::Event(Event::Enable(flow)) => {
                self.enabled.push(flow);
                self.greatest = flow.number;
            }
            Asked::Event(Event::Disable(number)) => {
                self.enabled.retain(|flow| flow.number != number);
                self.gone.push(number);
            }
            Asked::Add(container, _) => self.sets[container as usize] += 1,
        }
        refusal
    }

    /// Whether an enabled flow has this number.
    fn is_enabled(&self, number: u32) -> bool {
        self.enabled.iter().any(|flow| flow.number == number)
    }
}

#[cfg(test)]
mod tests {
    use super::*;

    /// An enable.
    fn enable(number: u32, from: u32, to: u32) -> Asked {
        Asked::Event(Event::Enable(Flow { number, from, to }))
    }

    /// The refusals of a list of calls, one by one.
    fn refusals(n: u32, calls: &[Asked]) -> Vec<u32> {
        let mut history = History::new(n);
        calls.iter().map(|asked| history.take(*asked)).collect()
    }

    /// Each refusal of the paper's table is given, in the paper's order, and a refused enable uses up no number.
    #[test]
    fn refusals_of_the_paper() {
        let off = |number| Asked::Event(Event::Disable(number));
        assert_eq!(refusals(3, &[enable(9, 0, 3), enable(9, 3, 3), enable(0, 1, 1), enable(0, 0, 1)]), [4, 4, 5, 6]);
        assert_eq!(refusals(2, &[enable(5, 0, 2), enable(1, 0, 1), enable(1, 0, 1), off(1), off(1), off(0)]), [4, 0, 6, 0, 8, 8]);
        assert_eq!(refusals(2, &[enable(4_294_967_295, 0, 1), enable(4_294_967_295, 1, 0)]), [0, 6]);
        let set = |container, word| Asked::Add(container, [word, 0, 0, 0]);
        assert_eq!(refusals(2, &[set(2, 1), set(1, 4), set(1, 3), Asked::Add(1, [0, 0, 0, 1])]), [4, 4, 0, 4]);
        assert_eq!(refusals(2, &[set(0, 0), set(0, 0), set(0, 0), set(0, 0), set(0, 0), set(0, 4), set(1, 0)])[3..], [0, 11, 4, 0]);
    }

    /// The 512th flow is accepted, the 513th gives 7, and after one disable an enable is accepted.
    #[test]
    fn table_of_the_paper() {
        let mut history = History::new(2);
        assert!((1..=512).all(|number| history.take(enable(number, 0, 1)) == 0));
        let after = [enable(513, 1, 0), Asked::Event(Event::Disable(7)), enable(513, 1, 0)].map(|asked| history.take(asked));
        assert_eq!((after, history.greatest, history.enabled.len()), ([7, 0, 0], 513, 512));
    }
}
