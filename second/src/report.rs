//! Counting answers, and telling of a line that went wrong.

use std::fmt;

use crate::refusal::Refusal;
use crate::replay::Answer;

/// How many lines before a wrong one are shown.
const LINES_SHOWN: usize = 20;

/// How many bytes of a line are shown.
const BYTES_SHOWN: usize = 100;

/// How often each answer came.
#[derive(Clone, Debug, Default)]
pub struct Tally {
    accepted: u64,
    short: u64,
    bad: u64,
    refused: [u64; Refusal::HIGHEST + 1],
}

impl Tally {
    /// Counts one answer.
    pub fn count(&mut self, answer: Answer) {
        match answer {
            Answer::Accepted(_) => self.accepted += 1,
            Answer::Short => self.short += 1,
            Answer::Bad => self.bad += 1,
            Answer::Refused(refusal) => self.refused[usize::from(refusal.number())] += 1,
        }
    }

    /// How many answers were counted.
    pub fn total(&self) -> u64 {
        self.accepted + self.short + self.bad + self.refused.iter().sum::<u64>()
    }

    /// How often this refusal number came.
    pub fn refused(&self, number: usize) -> u64 {
        self.refused[number]
    }
}

impl fmt::Display for Tally {
    fn fmt(&self, out: &mut fmt::Formatter<'_>) -> fmt::Result {
        let mut row = |name: &str, count: u64| {
            let share = 100.0 * count as f64 / self.total().max(1) as f64;
            writeln!(out, "{name:<5} {count:>12} {share:>7.2} %")
        };
        row("A", self.accepted)?;
        row("U", self.short)?;
        row("B", self.bad)?;
        for number in 1..=Refusal::HIGHEST {
            row(&format!("X {number}"), self.refused[number])?;
        }
        Ok(())
    }
}

/// A line as it can be shown: odd bytes in escapes, not too long.
pub fn shown(line: &[u8]) -> String {
    if line.len() <= BYTES_SHOWN {
        format!("\"{}\"", line.escape_ascii())
    } else {
        let beginning = &line[..BYTES_SHOWN];
        format!("\"{}\"... ({} bytes)", beginning.escape_ascii(), line.len())
    }
}

/// The lines before the one at this place, with their answers.
pub fn lines_before<'a>(
    place: usize,
    lines: impl Iterator<Item = &'a [u8]>,
    answers: impl Iterator<Item = &'a [u8]>,
) -> String {
    let first = place.saturating_sub(LINES_SHOWN);
    let mut text = format!(
        "the {} lines before it, with their answers:\n",
        place - first
    );
    for (number, (line, answer)) in lines.zip(answers).enumerate().take(place).skip(first) {
        let answer = String::from_utf8_lossy(answer);
        text += &format!("{:>8}  {:<6} {}\n", number + 1, answer, shown(line));
    }
    text
}
