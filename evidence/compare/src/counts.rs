//! What a run has seen: inputs and calls by class, refusals by call, and what it must have seen to count as a run.

/// The calls that are compared; `Text` stands for the refusal that the text of `tally` names.
#[derive(Clone, Copy, Debug, PartialEq, Eq)]
pub enum Call {
    Start,
    Enable,
    Disable,
    AddPolicy,
    TagsOf,
    SizeOf,
    IsLegal,
    Rank,
    Replay,
    Decode,
    Encode,
    ReadHead,
    WriteHead,
    ReadRecord,
    WriteRecord,
    RecordLen,
    Tally,
    Text,
}

/// How many calls there are.
const CALL_COUNT: usize = 18;

/// All calls, in the order of the table that is printed.
pub const CALLS: [Call; CALL_COUNT] = [
    Call::Start,
    Call::Enable,
    Call::Disable,
    Call::AddPolicy,
    Call::TagsOf,
    Call::SizeOf,
    Call::IsLegal,
    Call::Rank,
    Call::Replay,
    Call::Decode,
    Call::Encode,
    Call::ReadHead,
    Call::WriteHead,
    Call::ReadRecord,
    Call::WriteRecord,
    Call::RecordLen,
    Call::Tally,
    Call::Text,
];

/// The seven calls that judge a tracker that is there already.
pub const ON_TRACKER: [Call; 7] = [Call::Enable, Call::Disable, Call::AddPolicy, Call::TagsOf, Call::SizeOf, Call::IsLegal, Call::Rank];

impl Call {
    /// The name that is printed.
    pub fn name(self) -> &'static str {
        match self {
            Call::Start => "start",
            Call::Enable => "enable",
            Call::Disable => "disable",
            Call::AddPolicy => "add_policy",
            Call::TagsOf => "tags_of",
            Call::SizeOf => "size_of",
            Call::IsLegal => "is_legal",
            Call::Rank => "rank",
            Call::Replay => "replay",
            Call::Decode => "decode",
            Call::Encode => "encode",
            Call::ReadHead => "read_head",
            Call::WriteHead => "write_head",
            Call::ReadRecord => "read_record",
            Call::WriteRecord => "write_record",
            Call::RecordLen => "record_len",
            Call::Tally => "tally",
            Call::Text => "tally, text",
        }
    }

    /// The answers that the paper's order leaves to this call, 0 among them.
    pub fn answers(self) -> &'static [u32] {
        match self {
            Call::Start => &[0, 9],
            Call::Enable => &[0, 4, 5, 6, 7, 9, 12],
            Call::Disable => &[0, 8, 9, 12],
            Call::AddPolicy => &[0, 4, 9, 11, 12],
            Call::TagsOf | Call::SizeOf | Call::IsLegal => &[0, 4, 9, 12],
            Call::Rank => &[0, 9, 10, 12],
            Call::Replay => &[0, 1, 2, 3, 4, 5, 6, 7, 8, 9],
            Call::Decode | Call::ReadHead => &[0, 1, 2],
            Call::ReadRecord => &[0, 1, 2, 3],
            Call::Encode | Call::WriteHead | Call::WriteRecord | Call::Tally => &[0, 10],
            Call::RecordLen => &[0],
            Call::Text => &[0, 1, 2, 3, 4, 5, 6, 7, 8, 9, 10],
        }
    }
}

/// The classes of inputs.
#[derive(Clone, Copy, Debug, PartialEq, Eq)]
pub enum Class {
    Numbers,
    Strings,
    Records,
    Logs,
    Cuts,
    LongLogs,
    Valid,
    Broken,
    BrokenTwice,
    Short,
    Random,
    Sequences,
    Filled,
    Wide,
    Made,
    Overlong,
    LongReplays,
    ManyEvents,
    Demand,
    DemandDrawn,
}

/// How many classes there are.
const CLASS_COUNT: usize = 20;

/// All classes, in the order of the table that is printed.
pub const CLASSES: [Class; CLASS_COUNT] = [
    Class::Numbers,
    Class::Strings,
    Class::Records,
    Class::Logs,
    Class::Cuts,
    Class::LongLogs,
    Class::Valid,
    Class::Broken,
    Class::BrokenTwice,
    Class::Short,
    Class::Random,
    Class::Sequences,
    Class::Filled,
    Class::Wide,
    Class::Made,
    Class::Overlong,
    Class::LongReplays,
    Class::ManyEvents,
    Class::Demand,
    Class::DemandDrawn,
];

impl Class {
    /// The name that is printed and that `--case` takes.
    pub fn name(self) -> &'static str {
        match self {
            Class::Numbers => "numbers",
            Class::Strings => "strings",
            Class::Records => "records",
            Class::Logs => "logs",
            Class::Cuts => "cuts",
            Class::LongLogs => "long-logs",
            Class::Valid => "valid",
            Class::Broken => "broken",
            Class::BrokenTwice => "broken-twice",
            Class::Short => "short",
            Class::Random => "random",
            Class::Sequences => "sequences",
            Class::Filled => "filled",
            Class::Wide => "wide",
            Class::Made => "made",
            Class::Overlong => "overlong",
            Class::LongReplays => "long-replays",
            Class::ManyEvents => "many-events",
            Class::Demand => "demand",
            Class::DemandDrawn => "demand-drawn",
        }
    }
}

/// The class and the number that a case's name stands for.
pub fn case_of(name: &str) -> Option<(Class, u64)> {
    let (class, number) = name.split_once('/')?;
    let class = CLASSES.into_iter().find(|one| one.name() == class)?;
    Some((class, number.parse().ok()?))
}

/// How much a run has seen.
#[derive(Clone, Debug, Default)]
pub struct Counts {
    /// Inputs of each class.
    pub inputs: [u64; CLASS_COUNT],
    /// Calls compared in each class.
    pub calls: [u64; CLASS_COUNT],
    /// Time spent on each class, in nanoseconds.
    pub time: [u64; CLASS_COUNT],
    /// Answers of each number, by class and call.
    pub seen: Vec<[[u64; 13]; CALL_COUNT]>,
    /// Answers 0, 1 and 2 of `decode`, by the width asked for; the last width stands for all above.
    pub widths: Vec<[u64; 3]>,
    /// Answers no and yes to whether a container may be sent.
    pub legal: [u64; 2],
    /// Events held against the paper's sentence: enables as calls, events within replays.
    pub held: [u64; 2],
}

/// The widths of which the answers are counted: 0 to 66, and all above as one.
const WIDTHS: usize = 68;

/// What one class must have seen of one call.
type Demand = (Class, &'static [Call], &'static [u32]);

/// What each class must have seen, so that one that no longer reaches its aim is an error.
const DEMANDS: [Demand; 44] = [
    (Class::Numbers, &[Call::Decode], &[0, 1, 2]),
    (Class::Numbers, &[Call::Encode, Call::WriteHead], &[0, 10]),
    (Class::Numbers, &[Call::ReadHead], &[0, 1, 2]),
    (Class::Numbers, &[Call::RecordLen], &[0]),
    (Class::Strings, &[Call::Decode, Call::ReadHead], &[0, 1, 2]),
    (Class::Strings, &[Call::ReadRecord], &[0, 1, 2, 3]),
    (Class::Records, &[Call::ReadRecord], &[0, 1, 2, 3]),
    (Class::Records, &[Call::WriteRecord], &[0, 10]),
    (Class::Records, &[Call::Decode], &[0, 1, 2]),
    (Class::Records, &[Call::RecordLen], &[0]),
    (Class::Logs, &[Call::Replay], &[0, 1, 2, 3, 4, 5, 6, 7, 8, 9]),
    (Class::Logs, &[Call::Text], &[0, 1, 2, 3, 4, 5, 6, 7, 8, 9]),
    (Class::Logs, &[Call::Tally], &[0, 10]),
    (Class::Logs, &[Call::ReadHead], &[0, 1, 2]),
    (Class::Logs, &[Call::WriteHead], &[0, 10]),
    (Class::Cuts, &[Call::Replay, Call::Text], &[0, 1]),
    (Class::LongLogs, &[Call::Replay], &[0, 1, 8]),
    (Class::LongLogs, &[Call::Text], &[0, 1, 8, 10]),
    (Class::Valid, &[Call::Enable], &[0, 4, 5, 6, 7]),
    (Class::Valid, &[Call::Disable], &[0, 8]),
    (Class::Valid, &[Call::AddPolicy], &[0, 4, 11]),
    (Class::Valid, &[Call::Rank], &[0, 10]),
    (Class::Valid, &[Call::TagsOf, Call::SizeOf, Call::IsLegal], &[0, 4]),
    (Class::Broken, &ON_TRACKER, &[9, 12]),
    (Class::BrokenTwice, &ON_TRACKER, &[9, 12]),
    (Class::Short, &ON_TRACKER, &[9]),
    (Class::Short, &[Call::Start, Call::Replay], &[0, 9]),
    (Class::Random, &ON_TRACKER, &[9, 12]),
    (Class::Sequences, &[Call::Enable], &[0, 4, 5, 6]),
    (Class::Sequences, &[Call::Disable, Call::AddPolicy, Call::Rank, Call::Start, Call::Replay], &[0]),
    (Class::Filled, &[Call::Enable], &[0, 7]),
    (Class::Wide, &[Call::Enable, Call::Replay, Call::Text], &[0]),
    (Class::Made, &[Call::Enable], &[0, 4, 5, 6]),
    (Class::Made, &[Call::Disable, Call::AddPolicy, Call::TagsOf, Call::SizeOf, Call::IsLegal, Call::Rank], &[0]),
    (Class::Overlong, &[Call::Text, Call::Tally], &[10]),
    (Class::Overlong, &[Call::Replay], &[2, 3, 4, 9]),
    (Class::LongReplays, &[Call::Replay], &[0, 1, 3, 8]),
    (Class::ManyEvents, &[Call::Replay, Call::Text], &[0, 1, 3, 8]),
    (Class::Demand, &[Call::Enable], &[0, 4, 5, 6]),
    (Class::Demand, &[Call::Disable], &[0, 8]),
    (Class::Demand, &[Call::AddPolicy], &[0, 4]),
    (Class::DemandDrawn, &[Call::Enable], &[0, 4, 5, 6, 7]),
    (Class::DemandDrawn, &[Call::AddPolicy], &[0, 4, 11]),
    (Class::DemandDrawn, &[Call::Disable, Call::Replay], &[0, 8]),
];

impl Counts {
    /// Nothing seen yet.
    pub fn new() -> Counts {
        Counts { seen: vec![[[0; 13]; CALL_COUNT]; CLASSES.len()], widths: vec![[0; 3]; WIDTHS], ..Counts::default() }
    }

    /// Counts one answer.
    pub fn note(&mut self, class: Class, call: Call, answer: u32) {
        self.calls[class as usize] += u64::from(call != Call::Text);
        self.seen[class as usize][call as usize][answer as usize] += 1;
    }

    /// Counts one answer of `decode` at a width.
    pub fn note_width(&mut self, width: u32, answer: u32) {
        self.widths[(width as usize).min(WIDTHS - 1)][answer as usize] += 1;
    }

    /// How often a call has answered this number, in all classes together.
    pub fn of_call(&self, call: Call, answer: u32) -> u64 {
        self.seen.iter().map(|class| class[call as usize][answer as usize]).sum()
    }

    /// All inputs.
    pub fn all(&self) -> u64 {
        self.inputs.iter().sum()
    }

    /// What should have been seen and was not, one line each.
    pub fn missing(&self) -> Vec<String> {
        let mut lines = Vec::new();
        for call in CALLS {
            for answer in call.answers().iter().filter(|answer| self.of_call(call, **answer) == 0) {
                lines.push(format!("{} never answered {answer}", call.name()));
            }
        }
        for (class, calls, answers) in DEMANDS {
            for (call, answer) in calls.iter().flat_map(|call| answers.iter().map(move |answer| (*call, *answer))) {
                if self.seen[class as usize][call as usize][answer as usize] == 0 {
                    lines.push(format!("class {}: {} never answered {answer}", class.name(), call.name()));
                }
            }
        }
        for (width, answer) in (0..WIDTHS).flat_map(|width| (0..3).map(move |answer| (width, answer))) {
            if self.widths[width][answer] == 0 {
                lines.push(format!("decode at width {width} never answered {answer}"));
            }
        }
        for (held, word) in [(0, "enable"), (1, "event within a replay")] {
            if self.held[held] == 0 {
                lines.push(format!("no {word} was held against the paper's sentence"));
            }
        }
        for (legal, word) in [(0, "no"), (1, "yes")] {
            if self.legal[legal] == 0 {
                lines.push(format!("is_legal never said {word}"));
            }
        }
        lines
    }

    /// The two tables that a run prints: inputs by class, answers by call.
    pub fn tables(&self) -> String {
        let mut text = format!("{:<14}{:>10}{:>12}{:>10}\n", "class", "inputs", "calls", "seconds");
        for class in CLASSES {
            let place = class as usize;
            let seconds = self.time[place] as f64 / 1e9;
            text += &format!("{:<14}{:>10}{:>12}{seconds:>10.2}\n", class.name(), self.inputs[place], self.calls[place]);
        }
        text += &format!("\n{:<13}", "answer");
        text += &(0..13).map(|answer| format!("{answer:>8}")).collect::<String>();
        for call in CALLS {
            text += &format!("\n{:<13}", call.name());
            for answer in 0..13 {
                let possible = call.answers().contains(&answer);
                text += &if possible { format!("{:>8}", self.of_call(call, answer)) } else { format!("{:>8}", "-") };
            }
        }
        text += &format!("\nmay be sent: {} yes, {} no", self.legal[1], self.legal[0]);
        text + &format!("\nheld against the paper's sentence: {} enables, {} events within replays\n", self.held[0], self.held[1])
    }
}

#[cfg(test)]
mod tests {
    use super::*;

    /// A run that saw nothing lacks every answer of every call; one answer seen everywhere is lacking nowhere.
    #[test]
    fn what_was_not_seen_is_missing() {
        let mut counts = Counts::new();
        let all = counts.missing().len();
        let single: usize = CALLS.iter().map(|call| call.answers().len()).sum();
        let demanded: usize = DEMANDS.iter().map(|(_, calls, answers)| calls.len() * answers.len()).sum();
        assert_eq!(all, single + demanded + 3 * WIDTHS + 4);
        counts.note(Class::Broken, Call::Enable, 12);
        assert_eq!(counts.missing().len(), all - 2);
        assert!(!counts.missing().contains(&"enable never answered 12".to_string()));
    }

    /// The name of a case stands for its class and number; other words stand for none.
    #[test]
    fn names_of_cases() {
        assert!(CLASSES.iter().all(|class| case_of(&format!("{}/12", class.name())) == Some((*class, 12))));
        assert!(["logs", "logs/", "logs/x", "other/1"].iter().all(|name| case_of(name).is_none()));
    }

    /// The places of calls and classes in their lists are those that the counts use.
    #[test]
    fn lists_are_in_order() {
        assert!(CALLS.iter().enumerate().all(|(i, call)| *call as usize == i));
        assert!(CLASSES.iter().enumerate().all(|(i, class)| *class as usize == i));
    }
}
