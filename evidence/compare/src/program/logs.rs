//! The logs on which the program is run, made by hand.
use crate::inputs::MOST_BYTES;
use crate::logs::Written;
use interface::{Event, Flow};

/// The example of the paper.
pub const EXAMPLE: [u8; 25] = [5, 0, 1, 2, 3, 0, 2, 0, 1, 1, 2, 0, 3, 1, 2, 1, 1, 1, 3, 0, 4, 3, 4, 1, 4];

/// The text of the example, as the paper has it.
pub const EXAMPLE_TEXT: &str = "4 5 0 1 2 3 4\n3 4 0 1 2 3\n2 3 0 1 2\n1 2 0 1\n0 1 0\nevents 8 gain 10\n";

/// The bytes of the example after which n and each record of it end.
pub const BORDERS: [usize; 9] = [1, 5, 9, 11, 15, 17, 19, 23, 25];

/// A log whose last record is refused: flow 7 is not enabled.
pub const REFUSED: [u8; 7] = [2, 0, 1, 0, 1, 1, 7];

/// A log whose last record is cut.
pub const CUT: [u8; 8] = [3, 0, 1, 0, 1, 0, 2, 1];

/// An event that enables a flow.
fn enable(number: u32, from: u32, to: u32) -> Event {
    Event::Enable(Flow { number, from, to })
}

/// Five containers, and 2,079 times a flow enabled and disabled: with numbers up to 127 these are 6 bytes, with the
/// others 8.
fn pairs() -> Written {
    let events: Vec<Event> = (1..=2079).flat_map(|number| [enable(number, 0, 1), Event::Disable(number)]).collect();
    Written::new(5, &events)
}

/// A valid log of 16,384 bytes, the last record of which adds tags.
pub fn longest() -> Vec<u8> {
    let mut written = pairs();
    written.event(enable(2080, 1, 4));
    written.bytes
}

/// A valid log of 16,385 bytes: the number of the last flow takes a byte more.
pub fn too_long() -> Vec<u8> {
    let mut written = pairs();
    written.event(enable(16_384, 1, 4));
    written.bytes
}

/// 16,385 bytes, of which the first 16,384 are a valid log.
pub fn one_more() -> Vec<u8> {
    let mut bytes = longest();
    bytes.push(0);
    bytes
}

/// So many bytes that begin with a valid log and go on with its bytes.
pub fn going_on(length: usize) -> Vec<u8> {
    longest().into_iter().cycle().take(length).collect()
}

/// The ring of 256: every container has every tag.
pub fn ring() -> Written {
    let events: Vec<Event> = (0..256).map(|from| enable(from + 1, from, (from + 1) % 256)).collect();
    Written::new(256, &events)
}

/// The ring and then a flow enabled and disabled again and again: no text is longer, since the count of its events has
/// four digits.
pub fn longest_text() -> Vec<u8> {
    let mut written = ring();
    for number in 257.. {
        if written.bytes.len() + 8 > MOST_BYTES {
            break;
        }
        written.event(enable(number, 0, 1));
        written.event(Event::Disable(number));
    }
    written.bytes
}

/// A log whose bytes fill up 16,384 and whose last record is refused.
pub fn longest_refused() -> Vec<u8> {
    let mut written = pairs();
    written.event(enable(2079, 1, 4));
    written.bytes
}

/// A log whose bytes fill up 16,384 and whose last record is cut.
pub fn longest_cut() -> Vec<u8> {
    too_long()[..MOST_BYTES].to_vec()
}

#[cfg(test)]
mod tests {
    use super::super::judge::Text;
    use super::*;

    /// The last line of the text for some bytes.
    fn last_line(bytes: &[u8]) -> String {
        let text = Text::of(bytes);
        assert_eq!(text.product, text.reference);
        String::from_utf8(text.product).unwrap().lines().last().unwrap().to_string()
    }

    /// The example's text is the paper's.
    #[test]
    fn the_example_is_the_papers() {
        assert_eq!(Text::of(&EXAMPLE).product, EXAMPLE_TEXT.as_bytes());
        assert_eq!(Text::of(&EXAMPLE).reference, EXAMPLE_TEXT.as_bytes());
    }

    /// The borders of the example are those at which a log ends whole.
    #[test]
    fn borders_are_borders() {
        let whole = |length: &usize| last_line(&EXAMPLE[..*length]).starts_with("events");
        assert_eq!((0..=EXAMPLE.len()).filter(whole).collect::<Vec<_>>(), BORDERS);
    }

    /// The long logs have the lengths and the ends that they are made for.
    #[test]
    fn lengths_and_last_lines() {
        assert_eq!((longest().len(), last_line(&longest())), (16_384, "events 4159 gain 3".to_string()));
        assert_eq!((too_long().len(), last_line(&too_long())), (16_385, "refused 10 at 16384".to_string()));
        assert_eq!((one_more().len(), last_line(&one_more())), (16_385, "refused 10 at 16384".to_string()));
        assert_eq!(
            (longest_refused().len(), last_line(&longest_refused())),
            (16_384, "refused 6 at 16379".to_string())
        );
        assert_eq!((longest_cut().len(), last_line(&longest_cut())), (16_384, "refused 1 at 16379".to_string()));
        assert_eq!(last_line(&REFUSED), "refused 8 at 5");
        assert_eq!(last_line(&CUT), "refused 1 at 5");
        assert_eq!(last_line(&ring().bytes), "events 256 gain 65280");
    }

    /// The longest text is longer than that of the ring by the digit that it is made for.
    #[test]
    fn the_longest_text_is_longer() {
        assert!(longest_text().len() <= MOST_BYTES);
        assert_eq!(Text::of(&longest_text()).product.len(), Text::of(&ring().bytes).product.len() + 1);
    }
}
