//! The lines of the replay program.

use std::fmt;

use crate::nodes::NodeSet;
use crate::state::Proposal;

/// "A line has at most 63 bytes before its newline."
pub const MOST_BYTES: usize = 63;

/// A line that is of the form that the document gives.
#[derive(Clone, Copy, Debug, PartialEq, Eq)]
pub enum Line {
    /// `O set`, or `O` alone, which "opens with 7".
    Open(NodeSet),
    /// One of `P`, `I`, `R` and `C`.
    Propose(Proposal),
}

/// Reads a line, given without its newline. None is for every line that is
/// "not of this form, too long, empty".
pub fn parse(line: &[u8]) -> Option<Line> {
    if line.len() > MOST_BYTES {
        return None;
    }
    let mut parts = line.split(|&byte| byte == b' ');
    let parsed = match parts.next()? {
        b"O" => Line::Open(match parts.next() {
            Some(part) => set(part)?,
            None => NodeSet::new(7),
        }),
        b"P" => Line::Propose(Proposal::Pull {
            caller: number(parts.next()?)?,
            voters: set(parts.next()?)?,
            time: number(parts.next()?)?,
        }),
        b"I" => Line::Propose(Proposal::Invoke {
            caller: number(parts.next()?)?,
            command: number(parts.next()?)?,
        }),
        b"R" => Line::Propose(Proposal::Reconfigure {
            caller: number(parts.next()?)?,
            new_set: set(parts.next()?)?,
        }),
        b"C" => Line::Propose(Proposal::Push {
            caller: number(parts.next()?)?,
            voters: set(parts.next()?)?,
            target: number(parts.next()?)?,
        }),
        _ => return None,
    };
    match parts.next() {
        Some(_) => None,
        None => Some(parsed),
    }
}

/// "Numbers have no sign and no leading zero (0 itself stands) and are at
/// most 4,294,967,295."
pub fn number(part: &[u8]) -> Option<u32> {
    match part {
        [] => None,
        [b'0'] => Some(0),
        [b'0', ..] => None,
        digits => digits.iter().try_fold(0u32, |sum, &digit| {
            let value = digit.is_ascii_digit().then(|| digit - b'0')?;
            sum.checked_mul(10)?.checked_add(u32::from(value))
        }),
    }
}

/// "A set is at most 65535."
pub fn set(part: &[u8]) -> Option<NodeSet> {
    NodeSet::from_number(number(part)?)
}

/// The proposal as a line, without its newline.
impl fmt::Display for Proposal {
    fn fmt(&self, out: &mut fmt::Formatter<'_>) -> fmt::Result {
        match self {
            Proposal::Pull {
                caller,
                voters,
                time,
            } => write!(out, "P {caller} {} {time}", voters.bits()),
            Proposal::Invoke { caller, command } => write!(out, "I {caller} {command}"),
            Proposal::Reconfigure { caller, new_set } => {
                write!(out, "R {caller} {}", new_set.bits())
            }
            Proposal::Push {
                caller,
                voters,
                target,
            } => write!(out, "C {caller} {} {target}", voters.bits()),
        }
    }
}

#[cfg(test)]
mod tests {
    use super::*;

    #[test]
    fn numbers_at_their_limits() {
        let good: [(&str, u32); 8] = [
            ("0", 0),
            ("1", 1),
            ("10", 10),
            ("65535", 65535),
            ("65536", 65536),
            ("999999999", 999_999_999),
            ("4294967294", 4_294_967_294),
            ("4294967295", 4_294_967_295),
        ];
        for (text, value) in good {
            assert_eq!(number(text.as_bytes()), Some(value), "{text}");
        }
    }

    #[test]
    fn what_is_no_number() {
        let bad: [&[u8]; 22] = [
            b"",
            b"00",
            b"01",
            b"007",
            b"+0",
            b"+1",
            b"-0",
            b"-1",
            b"4294967296",
            b"4294967305",
            b"5000000000",
            b"9999999999",
            b"42949672950",
            b"18446744073709551615",
            b"18446744073709551617",
            b"1a",
            b"0x1",
            b"1.0",
            b"1e3",
            b"1\r",
            b"1\0",
            b"\xd9\xa1",
        ];
        for text in bad {
            assert_eq!(number(text), None, "{}", text.escape_ascii());
        }
    }

    #[test]
    fn sets_at_their_limit() {
        assert_eq!(set(b"0"), Some(NodeSet::EMPTY));
        assert_eq!(set(b"65535"), Some(NodeSet::EVERY));
        assert_eq!(set(b"65536"), None);
        assert_eq!(set(b"4294967295"), None);
        assert_eq!(set(b"065"), None);
    }

    #[test]
    fn lines_of_the_form() {
        let seven = NodeSet::new(7);
        assert_eq!(parse(b"O"), Some(Line::Open(seven)));
        assert_eq!(parse(b"O 7"), Some(Line::Open(seven)));
        assert_eq!(parse(b"O 0"), Some(Line::Open(NodeSet::EMPTY)));
        assert_eq!(
            parse(b"P 4294967295 65535 4294967295"),
            Some(Line::Propose(Proposal::Pull {
                caller: u32::MAX,
                voters: NodeSet::EVERY,
                time: u32::MAX,
            }))
        );
        assert_eq!(
            parse(b"C 1 2 3"),
            Some(Line::Propose(Proposal::Push {
                caller: 1,
                voters: NodeSet::new(2),
                target: 3,
            }))
        );
    }

    #[test]
    fn a_line_that_is_written_is_read_as_the_same() {
        let proposals = [
            Proposal::Pull {
                caller: 16,
                voters: NodeSet::new(9),
                time: 0,
            },
            Proposal::Invoke {
                caller: 0,
                command: u32::MAX,
            },
            Proposal::Reconfigure {
                caller: 3,
                new_set: NodeSet::EMPTY,
            },
            Proposal::Push {
                caller: 2,
                voters: NodeSet::EVERY,
                target: 256,
            },
        ];
        for proposal in proposals {
            let text = proposal.to_string();
            assert_eq!(parse(text.as_bytes()), Some(Line::Propose(proposal)));
        }
    }

    #[test]
    fn lines_not_of_the_form() {
        let bad: [&[u8]; 33] = [
            b"",
            b" ",
            b"  ",
            b"O ",
            b" O",
            b"O  7",
            b"O 7 ",
            b" O 7",
            b"O 7 7",
            b"O7",
            b"o 7",
            b"OO 7",
            b"O\t7",
            b"O 7\r",
            b"O\r",
            b"O\0",
            b"O 07",
            b"O +7",
            b"O 65536",
            b"O 4294967296",
            b"P",
            b"P 0 3",
            b"P 0 3 ",
            b"P 0 3 1 1",
            b"P 0 65536 1",
            b"P 0 3 4294967296",
            b"I 0",
            b"I 0 1 2",
            b"R 0",
            b"R 0 65536",
            b"C 0 3",
            b"X 0 3 1",
            b"\xff\xfe",
        ];
        for line in bad {
            assert_eq!(parse(line), None, "{}", line.escape_ascii());
        }
    }
}
