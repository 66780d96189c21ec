//! The replay program: a session that answers lines one by one, and the
//! reading and writing around it.

use std::fmt;
use std::io::{self, BufRead, Write};

use crate::line::{parse, Line, MOST_BYTES};
use crate::record::{RecordNumber, MOST_RECORDS};
use crate::refusal::Refusal;
use crate::state::{Outcome, State};

/// The answer to one line.
#[derive(Clone, Copy, Debug, PartialEq, Eq)]
pub enum Answer {
    /// "`A n` (accepted, record number)."
    Accepted(RecordNumber),
    /// "`U` (short)."
    Short,
    /// "`X n` (refused)."
    Refused(Refusal),
    /// "`B` (not of this form, too long, empty, or anything but a well-formed
    /// `O` before the first accepted one)."
    Bad,
}

impl fmt::Display for Answer {
    fn fmt(&self, out: &mut fmt::Formatter<'_>) -> fmt::Result {
        match self {
            Answer::Accepted(number) => write!(out, "A {number}"),
            Answer::Short => out.write_str("U"),
            Answer::Refused(refusal) => write!(out, "X {}", refusal.number()),
            Answer::Bad => out.write_str("B"),
        }
    }
}

impl From<Result<Outcome, Refusal>> for Answer {
    fn from(result: Result<Outcome, Refusal>) -> Answer {
        match result {
            Ok(Outcome::Accepted(number)) => Answer::Accepted(number),
            Ok(Outcome::Short) => Answer::Short,
            Err(refusal) => Answer::Refused(refusal),
        }
    }
}

/// One run of the replay program: the present table, once one was opened.
#[derive(Clone, Debug, Default)]
pub struct Session {
    table: Option<State>,
}

impl Session {
    /// A run in which nothing was opened yet.
    pub fn new() -> Session {
        Session::default()
    }

    /// The present table.
    pub fn table(&self) -> Option<&State> {
        self.table.as_ref()
    }

    /// Answers a line, given without its newline.
    pub fn answer(&mut self, line: &[u8]) -> Answer {
        match (parse(line), &mut self.table) {
            (Some(Line::Open(set)), present) => match State::open(set) {
                (fresh, Ok(number)) => {
                    *present = Some(fresh);
                    Answer::Accepted(number)
                }
                (_, Err(refusal)) => Answer::Refused(refusal),
            },
            (Some(Line::Propose(proposal)), Some(state)) => state.propose(&proposal).into(),
            (Some(Line::Propose(_)), None) | (None, _) => Answer::Bad,
        }
    }

    /// "At the end it prints `L`, the log's length and its entries, or `L 0`
    /// when nothing was opened." Without its newline.
    pub fn last_line(&self) -> Result<String, Refusal> {
        let mut buffer = [0; MOST_RECORDS];
        let length = match &self.table {
            Some(state) => state.read_log(&mut buffer)?,
            None => 0,
        };
        let mut text = format!("L {length}");
        for entry in &buffer[..length] {
            text.push(' ');
            text.push_str(&entry.to_string());
        }
        Ok(text)
    }
}

/// The beginning of a line whose end has not come yet. It keeps one byte more
/// than a line may have, enough to see that the line is too long.
struct Begun {
    bytes: [u8; MOST_BYTES + 1],
    length: usize,
}

impl Begun {
    fn new() -> Begun {
        Begun {
            bytes: [0; MOST_BYTES + 1],
            length: 0,
        }
    }

    /// Takes as many of these bytes as there is room for.
    fn extend(&mut self, more: &[u8]) {
        let taken = more.len().min(self.bytes.len() - self.length);
        self.bytes[self.length..self.length + taken].copy_from_slice(&more[..taken]);
        self.length += taken;
    }

    fn is_empty(&self) -> bool {
        self.length == 0
    }

    fn bytes(&self) -> &[u8] {
        &self.bytes[..self.length]
    }
}

/// Gives every line of the input to `each`, without its newline and cut after
/// 64 bytes. "A last line without a newline counts if it has a byte." The
/// memory used doesn't depend on the input.
pub fn for_each_line(
    mut input: impl BufRead,
    mut each: impl FnMut(&[u8]) -> io::Result<()>,
) -> io::Result<()> {
    let mut begun = Begun::new();
    loop {
        let chunk = match input.fill_buf() {
            Ok(chunk) => chunk,
            Err(error) if error.kind() == io::ErrorKind::Interrupted => continue,
            Err(error) => return Err(error),
        };
        if chunk.is_empty() {
            break;
        }
        let mut rest = chunk;
        while let Some(end) = rest.iter().position(|&byte| byte == b'\n') {
            begun.extend(&rest[..end]);
            each(begun.bytes())?;
            begun.length = 0;
            rest = &rest[end + 1..];
        }
        begun.extend(rest);
        let used = chunk.len();
        input.consume(used);
    }
    if begun.is_empty() {
        Ok(())
    } else {
        each(begun.bytes())
    }
}

/// Reads all lines, writes all answers, and the last line at the end.
pub fn answer_all(input: impl BufRead, mut output: impl Write) -> io::Result<()> {
    let mut session = Session::new();
    for_each_line(input, |line| writeln!(output, "{}", session.answer(line)))?;
    let last_line = session
        .last_line()
        .map_err(|refusal| io::Error::other(format!("reading the log: {refusal:?}")))?;
    writeln!(output, "{last_line}")?;
    output.flush()
}

#[cfg(test)]
mod tests {
    use super::*;

    fn answers(input: &[u8]) -> String {
        let mut output = Vec::new();
        answer_all(input, &mut output).expect("a Vec takes everything");
        String::from_utf8(output).expect("answers are plain text")
    }

    #[test]
    fn no_input_at_all() {
        assert_eq!(answers(b""), "L 0\n");
    }

    #[test]
    fn only_newlines() {
        assert_eq!(answers(b"\n\n"), "B\nB\nL 0\n");
    }

    #[test]
    fn the_last_line_needs_no_newline() {
        assert_eq!(answers(b"O"), "A 0\nL 0\n");
        assert_eq!(answers(b"O\n"), "A 0\nL 0\n");
        assert_eq!(answers(b"O\n\n"), "A 0\nB\nL 0\n");
        assert_eq!(answers(b"O\n "), "A 0\nB\nL 0\n");
        assert_eq!(answers(b"O\n\0"), "A 0\nB\nL 0\n");
    }

    #[test]
    fn one_answer_for_a_line_of_any_length() {
        for length in [62, 63, 64, 65, 127, 128, 129, 8192, 70_000] {
            let mut input = b"O\n".to_vec();
            input.resize(input.len() + length, b'1');
            assert_eq!(answers(&input), "A 0\nB\nL 0\n", "{length}");
            input.extend(b"\nO 1\n");
            assert_eq!(answers(&input), "A 0\nB\nA 0\nL 0\n", "{length}");
        }
    }

    #[test]
    fn a_good_line_with_a_long_tail_is_bad() {
        let mut input = b"O 7".to_vec();
        input.resize(100, b' ');
        input.extend(b"\nO 7");
        assert_eq!(answers(&input), "B\nA 0\nL 0\n");
    }

    #[test]
    fn pieces_of_any_size_give_the_same() {
        let input = b"O 7\nP 0 3 1\nI 0 500\n\nC 0 3 2\nI 0 4294967296\nO 0\nI 0 4294967295";
        let whole = answers(input);
        assert_eq!(whole, "A 0\nA 1\nA 2\nB\nA 3\nB\nX 1\nA 4\nL 1 2\n");
        for capacity in 1..input.len() {
            let mut output = Vec::new();
            let reader = io::BufReader::with_capacity(capacity, &input[..]);
            answer_all(reader, &mut output).expect("a Vec takes everything");
            assert_eq!(output, whole.as_bytes(), "{capacity}");
        }
    }

    #[test]
    fn before_the_first_accepted_opening() {
        let input = b"P 0 1 1\nO 0\nP 0 1 1\nI 0 1\nR 0 1\nC 0 1 1\nO 65536\nO 1\nP 0 1 1\n";
        assert_eq!(answers(input), "B\nX 1\nB\nB\nB\nB\nB\nA 0\nA 1\nL 0\n");
    }

    #[test]
    fn a_refused_opening_leaves_the_table() {
        let input = b"O 1\nP 0 1 1\nI 0 9\nC 0 1 2\nO 0\nI 0 9\n";
        assert_eq!(answers(input), "A 0\nA 1\nA 2\nA 3\nX 1\nA 4\nL 1 2\n");
    }

    #[test]
    fn an_accepted_opening_begins_anew() {
        let input = b"O 1\nP 0 1 1\nI 0 9\nC 0 1 2\nO 2\nP 1 2 1\n";
        assert_eq!(answers(input), "A 0\nA 1\nA 2\nA 3\nA 0\nA 1\nL 0\n");
    }
}
