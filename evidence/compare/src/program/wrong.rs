//! Wrong programs: each is built from an edited copy of the repository, and the cases must find that it is wrong.
use super::bench::Bench;
use super::case::Case;
use super::first_wrong;
use crate::faults::programs::Edit;
use std::fs;
use std::io;
use std::path::{Path, PathBuf};
use std::process::Command;

/// The line of the shell that copies what a build needs of the repository: its list of crates, and the crates without
/// what rt keeps in them. (rt begins with what it kept of the same crates here.)
const COPYING: &str = "tar -c --exclude='crates/*/out' crates.txt crates | tar -x -C \"$0\"";
/// Where the program is, from the repository's top.
const PROGRAM: &str = "target/bin/tally";
/// How many copies there are, in each of which one wrong program after the other is built.
const LANES: usize = 2;
/// The command that proves and builds the program, and puts it where it must be. (rt runs it once, on the example.)
pub const BUILDER: [&str; 3] = [
    "sh",
    "-c",
    "cd crates/tally && rt run < stdin && mkdir -p ../../target/bin && cp out/tally ../../target/bin/tally",
];
/// The lines of a failed build that are shown.
const LINES: usize = 12;

/// The repository's top, which is where the program lies in target/bin.
pub fn top_of(program: &Path) -> io::Result<PathBuf> {
    let program = program.canonicalize()?;
    let top = program.ancestors().nth(3).filter(|top| top.join(PROGRAM) == program);
    top.map(Path::to_path_buf).ok_or_else(|| io::Error::other(format!("the program is not {PROGRAM} of a repository")))
}

/// A copy of the repository, which is removed when it is no longer used. It is outside, where rt takes it for no part of
/// the repository.
struct Copy {
    top: PathBuf,
}

impl Copy {
    /// Where the copy of this lane is.
    fn place(lane: usize) -> PathBuf {
        std::env::temp_dir().join(format!("tally-wrong-{}-{lane}", std::process::id()))
    }

    /// Copies what a build needs; the copy of each lane is another.
    fn new(top: &Path, lane: usize) -> io::Result<Copy> {
        let copy = Copy { top: Copy::place(lane) };
        fs::create_dir(&copy.top)?;
        let status = Command::new("sh").args(["-c", COPYING]).arg(&copy.top).current_dir(top).status()?;
        if !status.success() {
            return Err(io::Error::other("the crates could not be copied"));
        }
        Ok(copy)
    }
}

impl Drop for Copy {
    fn drop(&mut self) {
        // Nothing depends on it: what cannot be removed is removed by the next search.
        let _ = fs::remove_dir_all(&self.top);
    }
}

/// What the search for wrong programs is given: the bench of the right program, the words of the command that builds
/// one, and what makes the cases.
#[derive(Clone, Copy)]
pub struct Search<'a> {
    pub bench: &'a Bench,
    pub builder: &'a [&'a str],
    pub cases: fn() -> Vec<Case>,
}

impl Search<'_> {
    /// Builds and tries each wrong program, says for each which case found it, and answers how many were found.
    pub fn find_all(&self, edits: &[Edit], say: &mut dyn FnMut(String)) -> io::Result<usize> {
        let top = top_of(&self.bench.program)?;
        let lanes: Vec<io::Result<Vec<String>>> = std::thread::scope(|scope| {
            let lane = |lane: usize| {
                let top = &top;
                scope.spawn(move || self.look_for_each(&Copy::new(top, lane)?, edits.iter().skip(lane).step_by(LANES)))
            };
            let lanes: Vec<_> = (0..LANES).map(lane).collect();
            lanes.into_iter().map(|lane| lane.join().expect("a lane that ends")).collect()
        });
        let mut lanes = lanes.into_iter().map(|lines| lines.map(Vec::into_iter)).collect::<io::Result<Vec<_>>>()?;
        let mut found = 0;
        for place in 0..edits.len() {
            let line = lanes[place % LANES].next().expect("a line for each wrong program");
            found += usize::from(line.starts_with("found: "));
            say(line);
        }
        Ok(found)
    }

    /// Builds and tries these wrong programs one after the other, and answers a line for each.
    fn look_for_each<'b>(&self, copy: &Copy, edits: impl Iterator<Item = &'b Edit>) -> io::Result<Vec<String>> {
        edits.map(|edit| self.look_for(copy, edit)).collect()
    }

    /// Builds and tries one wrong program; the copy is afterwards as it was. Answers the line about it.
    fn look_for(&self, copy: &Copy, edit: &Edit) -> io::Result<String> {
        let file = copy.top.join(edit.file);
        let source = fs::read_to_string(&file)?;
        let mut edited = source.clone();
        for (old, new) in edit.changes {
            let times = source.matches(old).count();
            if times != 1 {
                return Ok(format!("NOT BUILT: {}: what it replaces is {times} times in {}", edit.name, edit.file));
            }
            edited = edited.replace(old, new);
        }
        fs::write(&file, edited)?;
        let line = self.tried(copy, edit);
        fs::write(&file, source)?;
        line
    }

    /// Builds the edited copy and runs the cases until one finds it.
    fn tried(&self, copy: &Copy, edit: &Edit) -> io::Result<String> {
        if let Some(why) = self.not_built(copy)? {
            return Ok(format!("NOT BUILT: {}\n{why}", edit.name));
        }
        let bench = Bench { program: copy.top.join(PROGRAM), ..self.bench.clone() };
        Ok(match first_wrong(&bench, &(self.cases)()) {
            Some((case, _)) => format!("found: {} by {}", edit.name, case.name),
            None => format!("NOT FOUND: {}", edit.name),
        })
    }

    /// Builds the program of the copy, and answers the last lines of what was said where that fails.
    fn not_built(&self, copy: &Copy) -> io::Result<Option<String>> {
        let program = copy.top.join(PROGRAM);
        if program.exists() {
            fs::remove_file(&program)?;
        }
        let said = Command::new(self.builder[0]).args(&self.builder[1..]).current_dir(&copy.top).output()?;
        if said.status.success() && program.exists() {
            return Ok(None);
        }
        let text = [said.stdout, said.stderr].concat();
        let text = String::from_utf8_lossy(&text);
        let lines: Vec<&str> = text.lines().collect();
        let last = &lines[lines.len().saturating_sub(LINES)..];
        Ok(Some(last.iter().map(|line| format!("  {line}")).collect::<Vec<_>>().join("\n")))
    }
}

#[cfg(test)]
mod tests {
    use super::super::bench::Room;
    use super::super::case::Outcome;
    use super::super::run::run;
    use super::super::setup::Setup;
    use super::*;

    /// What is used for `rt`: it refuses a source with the word FAIL, and else takes the source, a script, as the
    /// program.
    const BUILD: &str = "if grep -q FAIL crates/tally/src/main.rt; then echo not proved; exit 1; fi
if [ -e crates/tally/out/kept ]; then echo copied; exit 1; fi
mkdir -p target/bin && cp crates/tally/src/main.rt target/bin/tally && chmod 755 target/bin/tally
";
    /// What is used for the source: a script that prints one word.
    const SOURCE: &str = "#!/bin/sh\n# a comment\ncat > /dev/null\necho right\n";

    /// A repository with this source, and with something kept that no copy has.
    fn repository() -> io::Result<Room> {
        let room = Room::new()?;
        for folder in ["crates/tally/src", "crates/tally/out", "target/bin"] {
            fs::create_dir_all(room.at(folder))?;
        }
        let files = [
            ("crates.txt", ""),
            ("crates/build", BUILD),
            ("crates/tally/src/main.rt", SOURCE),
            ("crates/tally/out/kept", "kept"),
            (PROGRAM, SOURCE),
        ];
        for (file, text) in files {
            fs::write(room.at(file), text)?;
        }
        Ok(room)
    }

    /// The case that the program prints its word.
    fn prints_right(bench: &Bench) -> Outcome {
        match run(bench, &Setup::piped(&[])) {
            Ok(seen) if seen.output == b"right\n" => Outcome::Right(String::new()),
            other => Outcome::Wrong(format!("{other:?}")),
        }
    }

    /// An edit of the source.
    fn edit(name: &'static str, changes: &'static [(&'static str, &'static str)]) -> Edit {
        Edit { name, file: "crates/tally/src/main.rt", changes }
    }

    /// A wrong program is found, one that is right is named as not found, and one that is not built as that; the
    /// repository stays as it was.
    #[test]
    fn each_wrong_program_is_told_as_what_it_is() {
        let room = repository().unwrap();
        let bench = Bench::new(&room.at(PROGRAM), Path::new("none")).unwrap();
        let cases = || vec![Case::new("its word", prints_right)];
        let search = Search { bench: &bench, builder: &["sh", "crates/build"], cases };
        let edits = [
            edit("another word", &[("echo right", "echo wrong")]),
            edit("another comment", &[("a comment", "another comment")]),
            edit("not provable", &[("a comment", "FAIL")]),
            edit("not there", &[("nowhere", "here")]),
            edit("twice there", &[("a comment", "FAIL"), ("i", "j")]),
            edit("no word", &[("a comment", "no comment"), ("echo right", "true")]),
        ];
        let mut lines = Vec::new();
        assert_eq!(search.find_all(&edits, &mut |line| lines.push(line)).unwrap(), 2);
        let lines_due = [
            "found: another word by its word",
            "NOT FOUND: another comment",
            "NOT BUILT: not provable\n  not proved",
            "NOT BUILT: not there: what it replaces is 0 times in crates/tally/src/main.rt",
            "NOT BUILT: twice there: what it replaces is 2 times in crates/tally/src/main.rt",
            "found: no word by its word",
        ];
        assert_eq!(lines, lines_due);
        assert!((0..LANES).all(|lane| !Copy::place(lane).exists()));
        assert_eq!(fs::read_to_string(room.at("crates/tally/src/main.rt")).unwrap(), SOURCE);
    }

    /// Only a program that lies where the repository has it has a top.
    #[test]
    fn the_top_is_found_by_the_program() {
        let room = repository().unwrap();
        assert_eq!(top_of(&room.at(PROGRAM)).unwrap(), room.path.canonicalize().unwrap());
        assert!(top_of(&room.at("crates/build")).is_err());
    }
}
