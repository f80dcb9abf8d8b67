//! The account of a difference: small, readable, and enough to run that one case again.
use std::fmt;

/// What was found: where the two differ, or where both go against the paper alike.
pub type Difference = Box<Account>;

/// The account of what was found.
#[derive(Clone, Debug, Default)]
pub struct Account {
    /// The call in which it was found.
    pub call: String,
    /// What the call was given.
    pub arguments: String,
    /// The first implementation's answer.
    pub first: String,
    /// The second implementation's answer.
    pub second: String,
    /// The first word, byte or number that differs, or the rule that was not kept.
    pub place: String,
    /// The seed of the run.
    pub seed: u64,
    /// The class of the input and its number in the class.
    pub case: String,
    /// Whether the case did not come to its end.
    pub stopped: bool,
    /// The answers that a whole run must have seen and has not; with these there is no other difference.
    pub unreached: Vec<String>,
}

impl fmt::Display for Account {
    /// Prints the account, one matter a line.
    fn fmt(&self, f: &mut fmt::Formatter<'_>) -> fmt::Result {
        if !self.unreached.is_empty() {
            self.unreached.iter().try_for_each(|line| writeln!(f, "not reached: {line}"))?;
            return write!(f, "no difference with seed {}, but answers that must be seen were not", self.seed);
        }
        writeln!(f, "difference in {}", self.call)?;
        writeln!(f, "  arguments: {}", self.arguments)?;
        writeln!(f, "  first:     {}", self.first)?;
        writeln!(f, "  second:    {}", self.second)?;
        writeln!(f, "  where:     {}", self.place)?;
        write!(f, "  again:     compare --case {} {}", self.seed, self.case)
    }
}

/// The bytes of an input, or their beginning where there are many.
pub fn short_bytes(bytes: &[u8]) -> String {
    let shown: Vec<String> = bytes.iter().take(48).map(|b| b.to_string()).collect();
    let more = if bytes.len() > 48 { format!(" ... ({} bytes)", bytes.len()) } else { String::new() };
    format!("[{}{more}]", shown.join(" "))
}

/// The first place at which two lists differ, with both values; nothing where they are the same.
pub fn first_place<T: PartialEq + fmt::Debug>(name: &str, first: &[T], second: &[T]) -> Option<String> {
    if first.len() != second.len() {
        return Some(format!("length of {name}: {} and {}", first.len(), second.len()));
    }
    if first == second {
        return None;
    }
    let at = first.iter().zip(second).position(|(a, b)| a != b)?;
    Some(format!("{name}[{at}]: {:?} and {:?}", first[at], second[at]))
}

#[cfg(test)]
mod tests {
    use super::*;

    /// The first place is the first one, a length that differs is told, and like lists have none.
    #[test]
    fn first_place_is_the_first() {
        assert_eq!(first_place("x", &[1, 2, 3], &[1, 5, 6]).unwrap(), "x[1]: 2 and 5");
        assert_eq!(first_place("x", &[1], &[1, 2]).unwrap(), "length of x: 1 and 2");
        assert!(first_place("x", &[1, 2], &[1, 2]).is_none());
    }
}
