//! The commands that make lines, check them and compare the answers.

use std::io::{self, Read, Write};
use std::path::Path;
use std::process::{Command, Stdio};
use std::thread;

use crate::maker::Maker;
use crate::replay::{answer_all, Answer};
use crate::report::{lines_before, shown, Tally};
use crate::state::State;
use crate::watch::Watch;

/// What went wrong in a command.
#[derive(Debug)]
pub enum Failure {
    /// The rules were broken, or the answers differ. The text says how.
    Found(String),
    /// Reading, writing or starting a program failed.
    Io(io::Error),
}

impl From<io::Error> for Failure {
    fn from(error: io::Error) -> Failure {
        Failure::Io(error)
    }
}

/// One random line with all that is known of it.
struct Made<'a> {
    number: u64,
    /// The line without its newline.
    line: &'a [u8],
    has_newline: bool,
    answer: Answer,
    /// The table after the line.
    table: Option<&'a State>,
}

/// Makes this many random lines of this seed, one after the other.
fn for_each_made<E>(
    seed: u64,
    lines: u64,
    mut each: impl FnMut(Made<'_>) -> Result<(), E>,
) -> Result<(), E> {
    let mut maker = Maker::new(seed);
    let mut line = Vec::new();
    for number in 1..=lines {
        let answer = maker.next_line(&mut line);
        let is_without_newline =
            number == lines && !line.is_empty() && maker.leaves_out_last_newline();
        each(Made {
            number,
            line: &line,
            has_newline: !is_without_newline,
            answer,
            table: maker.session().table(),
        })?;
    }
    Ok(())
}

impl Made<'_> {
    /// Writes the line as it is to be read.
    fn write(&self, output: &mut impl Write) -> io::Result<()> {
        output.write_all(self.line)?;
        if self.has_newline {
            output.write_all(b"\n")?;
        }
        Ok(())
    }
}

/// Writes this many random lines of this seed.
pub fn make(seed: u64, lines: u64, mut output: impl Write) -> io::Result<()> {
    for_each_made(seed, lines, |made| made.write(&mut output))?;
    output.flush()
}

/// What the commands tell when nothing was wrong.
#[derive(Clone, Debug, Default)]
pub struct Summary {
    /// How often each answer came.
    pub tally: Tally,
    /// How many tables were opened.
    pub opened: u64,
    /// How many tables got full.
    pub filled: u64,
    /// How many pushes were accepted.
    pub pushes: u64,
    /// The most entries that a log had.
    pub longest_log: usize,
}

impl Summary {
    /// Takes one line into account.
    fn count(&mut self, made: &Made<'_>) {
        self.tally.count(made.answer);
        if let (Answer::Accepted(number), Some(table)) = (made.answer, made.table) {
            self.opened += u64::from(made.line.starts_with(b"O"));
            self.pushes += u64::from(made.line.starts_with(b"C"));
            self.filled += u64::from(number == 255);
            self.longest_log = self.longest_log.max(table.log.len());
        }
    }

    /// All counts in words and as a table.
    pub fn text(&self) -> String {
        format!(
            "tables opened {}, tables filled to 256 records {}, pushes accepted {}, longest log {}\n{}",
            self.opened, self.filled, self.pushes, self.longest_log, self.tally
        )
    }
}

/// Checks this many lines of each seed from 1 to `seeds`.
pub fn check(seeds: u64, lines: u64) -> Result<Summary, Failure> {
    let mut summary = Summary::default();
    for seed in 1..=seeds {
        let mut watch = Watch::new();
        for_each_made(seed, lines, |made| {
            summary.count(&made);
            watch_line(&mut watch, seed, &made)
        })?;
    }
    Ok(summary)
}

/// Lets the watch look at the table after the line.
fn watch_line(watch: &mut Watch, seed: u64, made: &Made<'_>) -> Result<(), Failure> {
    watch
        .after_line(made.line, made.answer, made.table)
        .map_err(|wrong| Failure::Found(violation(seed, made.number, &wrong)))
}

/// The account of a violation. The lines are made once more for it.
fn violation(seed: u64, number: u64, wrong: &str) -> String {
    let mut maker = Maker::new(seed);
    let mut lines = Vec::new();
    let mut answers = Vec::new();
    for _ in 0..number {
        let mut line = Vec::new();
        answers.push(maker.next_line(&mut line).to_string());
        lines.push(line);
    }
    let place = lines.len() - 1;
    let before = lines_before(
        place,
        lines.iter().map(Vec::as_slice),
        answers.iter().map(String::as_bytes),
    );
    format!(
        "violation: {wrong}\nseed {seed}, line {number}\nline:   {}\nanswer: {}\n{before}",
        shown(&lines[place]),
        answers[place],
    )
}

/// Compares the answers of the other program with the own ones for this many
/// lines of each seed from 1 to `seeds`, and checks them too if asked to.
pub fn compare(
    program: &Path,
    seeds: u64,
    lines: u64,
    is_checking: bool,
) -> Result<Summary, Failure> {
    let mut summary = Summary::default();
    for seed in 1..=seeds {
        compare_seed(program, seed, lines, is_checking, &mut summary)?;
    }
    Ok(summary)
}

fn compare_seed(
    program: &Path,
    seed: u64,
    lines: u64,
    is_checking: bool,
    summary: &mut Summary,
) -> Result<(), Failure> {
    let mut input = Vec::new();
    let mut watch = Watch::new();
    for_each_made(seed, lines, |made| {
        summary.count(&made);
        made.write(&mut input)?;
        if is_checking {
            watch_line(&mut watch, seed, &made)?;
        }
        Ok::<(), Failure>(())
    })?;
    let mut own = Vec::new();
    answer_all(input.as_slice(), &mut own)?;
    let theirs = run(program, &input)?;
    if own != theirs.output {
        return Err(Failure::Found(difference(
            seed,
            &input,
            &own,
            &theirs.output,
        )));
    }
    match theirs.trouble {
        Some(trouble) => Err(Failure::Found(format!("seed {seed}: {trouble}\n"))),
        None => Ok(()),
    }
}

/// What a program wrote, and whether it ended badly.
struct Run {
    output: Vec<u8>,
    trouble: Option<String>,
}

/// Runs the program with this input. A thread writes while this one reads, so
/// neither side can wait for the other for ever.
fn run(program: &Path, input: &[u8]) -> io::Result<Run> {
    let mut child = Command::new(program)
        .stdin(Stdio::piped())
        .stdout(Stdio::piped())
        .spawn()?;
    let mut to_child = child.stdin.take().ok_or_else(no_pipe)?;
    let mut from_child = child.stdout.take().ok_or_else(no_pipe)?;
    let mut output = Vec::new();
    let (written, read) = thread::scope(|scope| {
        let writer = scope.spawn(move || to_child.write_all(input));
        let read = from_child.read_to_end(&mut output);
        (writer.join(), read)
    });
    let status = child.wait()?;
    read?;
    let trouble = if !status.success() {
        Some(format!("the other program ended with {status}"))
    } else if !matches!(written, Ok(Ok(()))) {
        Some("the other program didn't read all of its input".to_string())
    } else {
        None
    };
    Ok(Run { output, trouble })
}

fn no_pipe() -> io::Error {
    io::Error::other("no pipe to the other program")
}

/// The account of the first difference.
fn difference(seed: u64, input: &[u8], own: &[u8], theirs: &[u8]) -> String {
    let place = first_difference(own, theirs);
    let answer = |output: &[u8]| match pieces(output).nth(place) {
        Some(piece) => shown(piece),
        None => "(no line)".to_string(),
    };
    let line = match lines_of(input).nth(place) {
        Some(line) => shown(line),
        None => "(the end of the input)".to_string(),
    };
    format!(
        "difference in seed {seed}, line {}\nline:   {line}\nsecond: {}\nother:  {}\n{}\
         to have these lines again: second make {seed} {}\n",
        place + 1,
        answer(own),
        answer(theirs),
        lines_before(place, lines_of(input), lines_of(own)),
        place + 1,
    )
}

/// The place of the first piece that is not the same in both.
fn first_difference(own: &[u8], theirs: &[u8]) -> usize {
    let mut ours = pieces(own);
    let mut others = pieces(theirs);
    let mut place = 0;
    loop {
        match (ours.next(), others.next()) {
            (Some(one), Some(other)) if one == other => place += 1,
            _ => return place,
        }
    }
}

/// The lines with their newlines, so that a missing newline is seen.
fn pieces(output: &[u8]) -> impl Iterator<Item = &[u8]> {
    output.split_inclusive(|&byte| byte == b'\n')
}

/// The lines without their newlines.
fn lines_of(text: &[u8]) -> impl Iterator<Item = &[u8]> {
    pieces(text).map(|piece| piece.strip_suffix(b"\n").unwrap_or(piece))
}

#[cfg(test)]
mod tests {
    use super::*;

    fn made(seed: u64, lines: u64) -> Vec<u8> {
        let mut output = Vec::new();
        make(seed, lines, &mut output).expect("a Vec takes everything");
        output
    }

    #[test]
    fn a_seed_always_gives_the_same_lines() {
        assert_eq!(made(5, 500), made(5, 500));
        assert_ne!(made(5, 500), made(6, 500));
    }

    #[test]
    fn as_many_lines_as_asked_for() {
        for seed in 1..50 {
            let input = made(seed, 40);
            let mut output = Vec::new();
            answer_all(input.as_slice(), &mut output).expect("a Vec takes everything");
            assert_eq!(lines_of(&output).count(), 41, "seed {seed}");
        }
    }

    #[test]
    fn a_longer_run_begins_with_the_shorter_one() {
        for seed in 1..50 {
            let short = made(seed, 40);
            let long = made(seed, 41);
            assert!(long.starts_with(&short), "seed {seed}");
        }
    }

    #[test]
    fn some_last_lines_go_without_newline() {
        let without = (1..100).filter(|&seed| !made(seed, 10).ends_with(b"\n"));
        assert!((10..60).contains(&without.count()));
    }

    #[test]
    fn every_answer_that_a_line_can_cause_comes() {
        let summary = check(10, 3_000).expect("the rules hold");
        assert_eq!(summary.tally.total(), 30_000);
        assert!(summary.filled > 0);
        for number in 1..=17 {
            let count = summary.tally.refused(number);
            assert_eq!(count > 0, number <= 12, "X {number} came {count} times");
        }
    }

    #[test]
    fn the_first_difference_is_found() {
        assert_eq!(first_difference(b"A 0\nU\nL 0\n", b"A 0\nB\nL 0\n"), 1);
        assert_eq!(first_difference(b"A 0\nL 0\n", b"A 0\nL 0"), 1);
        assert_eq!(first_difference(b"A 0\nL 0\n", b"A 0\n"), 1);
        assert_eq!(first_difference(b"L 0\n", b"L 0\nL 0\n"), 1);
    }

    #[test]
    fn the_account_of_a_difference_has_all_parts() {
        let account = difference(3, b"O\nI 0 1\n", b"A 0\nX 6\nL 0\n", b"A 0\nA 1\nL 0\n");
        let parts = [
            "seed 3, line 2",
            "\"I 0 1\"",
            "\"X 6\\n\"",
            "\"A 1\\n\"",
            "A 0    \"O\"",
        ];
        for part in parts {
            assert!(account.contains(part), "{part} in {account}");
        }
    }
}
