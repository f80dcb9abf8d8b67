//! All executions of a history on few containers: the set of the tables that they come to.
use interface::Flow;

/// A table: bit n·c + t is set where container c has tag t.
pub type Table = u32;

/// The tables of all executions of a history.
#[derive(Clone, Debug)]
pub struct Executions {
    n: usize,
    tables: Vec<Table>,
}

/// The table after a passage: the tags of one container are added to another's.
fn passage(n: usize, table: Table, flow: &Flow) -> Table {
    let from = table >> (n * flow.from as usize) & ((1 << n) - 1);
    table | from << (n * flow.to as usize)
}

impl Executions {
    /// Those of the empty history: nothing can pass, each container has its own tag alone.
    pub fn at_start(n: usize) -> Executions {
        Executions { n, tables: vec![(0..n).map(|container| 1 << (n * container + container)).sum()] }
    }

    /// Goes on to a place at which these flows are enabled: any finite number of passages through them, none too.
    pub fn pass(&mut self, enabled: &[Flow]) {
        let mut seen = vec![false; 1 << (self.n * self.n)];
        self.tables.iter().for_each(|table| seen[*table as usize] = true);
        let mut next = 0;
        while let Some(table) = self.tables.get(next).copied() {
            for after in enabled.iter().map(|flow| passage(self.n, table, flow)) {
                if !std::mem::replace(&mut seen[after as usize], true) {
                    self.tables.push(after);
                }
            }
            next += 1;
        }
    }

    /// How demand 3 fails with this table of the tracker, if it does: each execution has the tracker's table exactly if no
    /// execution has a tag where it has none; and one has the tracker's table.
    pub fn against(&self, tracker: Table) -> Option<String> {
        let most = |x: Table| !self.tables.iter().rev().any(|y| y & !x != 0);
        if let Some(x) = self.tables.iter().find(|x| (**x == tracker) != most(**x)) {
            let word = if *x == tracker { "another execution has more than" } else { "no execution has more than" };
            return Some(format!("{word} {}, the tracker has {}", self.shown(*x), self.shown(tracker)));
        }
        let none = || format!("no execution comes to what the tracker has, {}", self.shown(tracker));
        (!self.tables.contains(&tracker)).then(none)
    }

    /// A table in words: the tags of each container.
    fn shown(&self, table: Table) -> String {
        let n = self.n;
        let tags = |c: usize| (0..n).filter(|t| table >> (n * c + t) & 1 == 1).map(|t| t.to_string()).collect::<Vec<_>>();
        (0..n).map(|c| format!("{{{}}}", tags(c).join(", "))).collect::<Vec<_>>().join(" ")
    }

    /// The table of these sets; nothing where one of them names a tag of n or more.
    pub fn table(&self, sets: &[[u64; 4]]) -> Option<Table> {
        let whole = |set: &[u64; 4]| set[0] >> self.n == 0 && set[1..] == [0; 3];
        let row = |(container, set): (usize, &[u64; 4])| (set[0] as Table) << (self.n * container);
        sets.iter().all(whole).then(|| sets.iter().enumerate().map(row).sum())
    }
}

#[cfg(test)]
mod tests {
    use super::*;

    /// The executions at the end of a history that is given by what is enabled at each place.
    fn executions(n: usize, places: &[&[(u32, u32)]]) -> Executions {
        let mut all = Executions::at_start(n);
        for ends in places {
            let flows: Vec<Flow> = ends.iter().map(|(from, to)| Flow { number: 1, from: *from, to: *to }).collect();
            all.pass(&flows);
        }
        all
    }

    /// Whether demand 3 holds with a tracker that has these tags.
    fn holds(all: &Executions, sets: &[&[u32]]) -> bool {
        let words: Vec<[u64; 4]> = sets.iter().map(|tags| [tags.iter().map(|tag| 1 << tag).sum(), 0, 0, 0]).collect();
        all.against(all.table(&words).expect("tags below n")).is_none()
    }

    /// The paper's samples: the tracker of the paper meets demand 3, one with a tag more or less does not.
    #[test]
    fn samples_of_the_paper() {
        let start = executions(3, &[]);
        assert!(holds(&start, &[&[0], &[1], &[2]]) && !holds(&start, &[&[0], &[0, 1], &[2]]));
        let ended = executions(3, &[&[(1, 2)], &[], &[(0, 1)]]);
        assert!(holds(&ended, &[&[0], &[0, 1], &[1, 2]]));
        assert!(!holds(&ended, &[&[0], &[0, 1], &[0, 1, 2]]) && !holds(&ended, &[&[0], &[0, 1], &[2]]));
        let both = executions(3, &[&[(1, 2)], &[(1, 2), (0, 1)]]);
        assert!(holds(&both, &[&[0], &[0, 1], &[0, 1, 2]]) && !holds(&both, &[&[0], &[0, 1], &[1, 2]]));
        let ring = executions(3, &[&[(0, 1)], &[(0, 1), (1, 2)], &[(0, 1), (1, 2), (2, 0)]]);
        assert!(holds(&ring, &[&[0, 1, 2], &[0, 1, 2], &[0, 1, 2]]));
        let alike = executions(3, &[&[(0, 1)], &[(0, 1), (0, 1)], &[(0, 1)], &[(0, 1), (2, 0)]]);
        assert!(holds(&alike, &[&[0, 2], &[0, 1, 2], &[2]]) && !holds(&alike, &[&[0, 2], &[0, 1], &[2]]));
    }

    /// The executions are as many as are counted by hand: with 1 to 2 ended before 0 to 1 four, with both enabled five.
    #[test]
    fn as_many_as_counted() {
        let count = |n, places: &[&[(u32, u32)]]| executions(n, places).tables.len();
        assert_eq!((count(3, &[]), count(2, &[&[(0, 1)]]), count(2, &[&[(0, 1)], &[(0, 1), (1, 0)]])), (1, 2, 4));
        assert_eq!(count(3, &[&[(1, 2)], &[], &[(0, 1)]]), 4);
        assert_eq!(count(3, &[&[(1, 2)], &[(1, 2), (0, 1)]]), 5);
    }

    /// Sets that name a tag of n or more have no table.
    #[test]
    fn tags_outside_have_no_table() {
        let all = executions(2, &[]);
        assert_eq!(all.table(&[[1, 0, 0, 0], [2, 0, 0, 0]]), Some(0b1001));
        assert_eq!([all.table(&[[5, 0, 0, 0], [2, 0, 0, 0]]), all.table(&[[1, 0, 0, 0], [2, 0, 1, 0]])], [None, None]);
    }
}
