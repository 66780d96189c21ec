//! What the document states with examples, and what only a state built by
//! hand can show.

use second::nodes::{Node, NodeSet};
use second::record::{Kind, Rank, Record, RecordNumber};
use second::refusal::Refusal;
use second::replay::{answer_all, Session};
use second::state::{Outcome, Proposal, State};

/// The whole output for this input.
fn output(input: &str) -> String {
    let mut output = Vec::new();
    answer_all(input.as_bytes(), &mut output).expect("a Vec takes everything");
    String::from_utf8(output).expect("answers are plain text")
}

/// Runs lines given with their answers, and hands back the table.
fn run(lines: &[(&str, &str)]) -> State {
    let mut session = Session::new();
    for (line, expected) in lines {
        let answer = session.answer(line.as_bytes()).to_string();
        assert_eq!(answer, *expected, "answer to {line}");
    }
    session.table().expect("a table was opened").clone()
}

fn set(bits: u16) -> NodeSet {
    NodeSet::new(bits)
}

fn parents(state: &State) -> Vec<RecordNumber> {
    state.records.iter().map(|record| record.parent).collect()
}

fn record(parent: RecordNumber, caller: u32, time: u32, version: u8, kind: Kind) -> Record {
    Record {
        parent,
        caller: Node::from_number(caller),
        time,
        version,
        members: set(7),
        kind,
    }
}

const COMMAND: Kind = Kind::Command { command: 0 };

const EXAMPLE: [(&str, &str); 14] = [
    ("O 7", "A 0"),
    ("P 0 3 1", "A 1"),
    ("I 0 500", "A 2"),
    ("I 0 501", "A 3"),
    ("C 0 3 2", "A 4"),
    ("R 0 15", "A 5"),
    ("C 0 9 5", "U"),
    ("C 0 11 5", "A 6"),
    ("P 2 6 2", "U"),
    ("I 0 502", "A 7"),
    ("C 0 11 7", "X 5"),
    ("P 2 7 2", "X 5"),
    ("P 2 7 3", "A 8"),
    ("I 0 1", "X 6"),
];

mod worked_example {
    use super::*;

    #[test]
    fn whole_output() {
        let input: String = EXAMPLE.map(|(line, _)| format!("{line}\n")).concat();
        let answers: String = EXAMPLE.map(|(_, answer)| format!("{answer}\n")).concat();
        assert_eq!(output(&input), answers + "L 3 2 3 5\n");
    }

    #[test]
    fn record_4_stands_between_2_and_3_and_record_8_is_under_7() {
        let state = run(&EXAMPLE);
        assert_eq!(parents(&state), [0, 0, 1, 4, 2, 3, 5, 6, 7]);
        assert_eq!(state.clocks[..4], [3, 3, 3, 1]);
    }
}

mod marked_cases {
    use super::*;

    #[test]
    fn all_eleven() {
        const COMMIT: bool = true;
        const OTHER: bool = false;
        let rank = |time, version, is_commit| Rank {
            time,
            version,
            is_commit,
        };
        let cases = [
            (set(11).is_majority_of(set(15)), true),
            (set(9).is_majority_of(set(15)), false),
            (set(3).is_majority_of(set(7)), true),
            (set(1).is_majority_of(set(1)), true),
            (set(7).is_one_step_from(set(15)), true),
            (set(7).is_one_step_from(set(5)), true),
            (set(7).is_one_step_from(set(7)), false),
            (set(7).is_one_step_from(set(13)), false),
            (rank(1, 2, OTHER) > rank(1, 1, COMMIT), true),
            (rank(1, 1, COMMIT) > rank(1, 1, OTHER), true),
            (rank(2, 0, OTHER) > rank(1, 9, COMMIT), true),
        ];
        for (place, (is, should)) in cases.into_iter().enumerate() {
            assert_eq!(is, should, "case {place}");
        }
    }

    #[test]
    fn ranks_come_from_records() {
        let voters = set(3);
        let high = record(0, 0, 1, 2, COMMAND).rank();
        let commit = record(0, 0, 1, 1, Kind::Commit { voters }).rank();
        let low = record(0, 0, 1, 1, COMMAND).rank();
        let election = record(0, 0, 2, 0, Kind::Election { voters }).rank();
        assert!(election > high && high > commit && commit > low);
        assert_eq!(low, record(0, 0, 1, 1, Kind::Change).rank());
    }
}

mod shortcuts {
    use super::*;

    #[test]
    fn a_change_before_the_first_commit_of_a_term() {
        run(&[("O 15", "A 0"), ("P 0 7 1", "A 1"), ("R 0 31", "X 11")]);
        run(&[
            ("O 15", "A 0"),
            ("P 0 7 1", "A 1"),
            ("I 0 1", "A 2"),
            ("R 0 31", "X 11"),
            ("C 0 7 2", "A 3"),
            ("R 0 31", "A 4"),
            ("C 0 7 4", "A 5"),
            ("P 0 7 2", "A 6"),
            ("R 0 15", "X 11"),
        ]);
    }

    #[test]
    fn the_old_member_set_for_a_changes_own_push() {
        run(&EXAMPLE[..7]);
        // The other way round: 3 is a majority of 7, but not of 15.
        run(&[
            ("O 15", "A 0"),
            ("P 0 7 1", "A 1"),
            ("I 0 1", "A 2"),
            ("C 0 3 2", "U"),
            ("C 0 7 2", "A 3"),
            ("R 0 7", "A 4"),
            ("C 0 3 4", "A 5"),
        ]);
    }

    #[test]
    fn a_commit_hung_beside_the_next_command() {
        let state = run(&[
            ("O 7", "A 0"),
            ("P 0 3 1", "A 1"),
            ("I 0 1", "A 2"),
            ("I 0 2", "A 3"),
            ("I 0 3", "A 4"),
            ("C 0 3 2", "A 5"),
            ("C 0 5 4", "A 6"),
        ]);
        assert_eq!(parents(&state), [0, 0, 1, 5, 3, 2, 4]);
        let path: Vec<RecordNumber> = state.path(6).map(|(number, _)| number).collect();
        assert_eq!(path, [6, 4, 3, 5, 2, 1, 0]);
        assert_eq!(state.log, [2, 3, 4]);
    }

    #[test]
    fn voters_of_an_election_taken_as_holding_it() {
        let state = run(&[
            ("O 7", "A 0"),
            ("P 0 1 1", "U"),
            ("P 0 3 2", "A 1"),
            ("I 0 1", "A 2"),
            ("P 0 3 3", "A 3"),
            ("P 1 6 4", "A 4"),
        ]);
        assert_eq!(state.at(3).parent, 2);
        assert_eq!(state.at(4).parent, 0);
    }

    #[test]
    fn a_number_forced_into_range() {
        run(&[
            ("O 65535", "A 0"),
            ("P 16 1 1", "X 2"),
            ("P 16 32768 1", "X 2"),
            ("P 31 32768 1", "X 2"),
            ("P 4294967295 32768 1", "X 2"),
            ("P 15 32768 1", "U"),
        ]);
    }
}

mod refusals {
    use super::*;

    #[test]
    fn pull_in_order() {
        run(&[
            ("O 7", "A 0"),
            ("P 16 0 0", "X 2"),
            ("P 0 0 0", "X 3"),
            ("P 0 14 0", "X 3"),
            ("P 0 9 0", "X 5"),
            ("P 0 9 1", "X 4"),
            ("P 0 1 1", "U"),
            ("P 0 3 1", "X 5"),
            ("P 0 3 4294967295", "A 1"),
            ("P 0 3 4294967295", "X 5"),
        ]);
    }

    #[test]
    fn invoke_in_order() {
        run(&[
            ("O 7", "A 0"),
            ("I 16 1", "X 2"),
            ("I 0 1", "X 6"),
            ("P 0 3 1", "A 1"),
            ("I 1 1", "X 6"),
            ("I 0 1", "A 2"),
            ("P 0 1 2", "U"),
            ("I 0 1", "X 6"),
        ]);
    }

    #[test]
    fn reconfigure_in_order() {
        run(&[
            ("O 7", "A 0"),
            ("R 16 0", "X 2"),
            ("R 0 0", "X 1"),
            ("R 0 2", "X 6"),
            ("P 0 3 1", "A 1"),
            ("R 0 6", "X 3"),
            ("R 0 7", "X 9"),
            ("R 0 31", "X 9"),
            ("R 0 13", "X 9"),
            ("R 0 15", "X 11"),
            ("I 0 1", "A 2"),
            ("C 0 3 2", "A 3"),
            ("R 0 15", "A 4"),
            ("R 0 15", "X 9"),
            ("R 0 31", "X 10"),
            ("P 0 3 2", "U"),
            ("R 0 31", "X 6"),
            ("P 0 11 3", "A 5"),
            ("R 0 31", "X 10"),
            ("I 0 1", "A 6"),
            ("R 0 31", "X 10"),
            ("C 0 7 6", "A 7"),
            ("R 0 31", "A 8"),
        ]);
    }

    #[test]
    fn push_in_order() {
        run(&[
            ("O 7", "A 0"),
            ("C 16 0 9", "X 2"),
            ("C 0 0 9", "X 6"),
            ("P 0 3 1", "A 1"),
            ("I 0 1", "A 2"),
            ("I 0 2", "A 3"),
            ("C 0 0 4", "X 7"),
            ("C 0 0 4294967295", "X 7"),
            ("C 0 0 65538", "X 7"),
            ("C 0 0 0", "X 7"),
            ("C 0 0 1", "X 7"),
            ("C 0 6 2", "X 3"),
            ("C 0 9 2", "X 4"),
            ("C 0 1 2", "U"),
            ("C 0 3 3", "A 4"),
            ("C 0 0 2", "X 8"),
            ("C 0 0 3", "X 8"),
            ("C 0 0 4", "X 7"),
            ("I 0 3", "A 5"),
            ("P 2 4 2", "U"),
            ("C 0 13 5", "X 4"),
            ("C 0 5 5", "X 5"),
            ("P 0 3 3", "A 6"),
            ("C 0 3 5", "X 7"),
        ]);
    }

    #[test]
    fn a_full_table() {
        let mut session = Session::new();
        session.answer(b"O 7");
        session.answer(b"P 0 7 1");
        for number in 2..256 {
            let answer = session.answer(b"I 0 1").to_string();
            assert_eq!(answer, format!("A {number}"));
        }
        let state = session.table().expect("a table was opened").clone();
        let head = state.at(255);
        assert_eq!(head.version, 254);
        for (line, answer) in [
            ("I 0 1", "X 12"),
            ("I 1 1", "X 6"),
            ("R 0 15", "X 11"),
            ("C 0 7 255", "X 12"),
            ("C 0 6 255", "X 3"),
            ("P 1 7 2", "X 12"),
            ("P 1 7 1", "X 5"),
        ] {
            assert_eq!(
                session.answer(line.as_bytes()).to_string(),
                answer,
                "{line}"
            );
            assert_eq!(session.table(), Some(&state), "{line}");
        }
        assert_eq!(session.answer(b"C 0 1 255").to_string(), "U");
        assert_eq!(session.answer(b"P 1 2 2").to_string(), "U");
        let after = session.table().expect("a table was opened");
        assert_eq!(after.clocks[..4], [1, 2, 1, 0]);
        assert_eq!(after.records, state.records);
        assert_eq!(session.last_line(), Ok("L 0".to_string()));
    }

    #[test]
    fn a_refused_opening_hands_back_the_table_of_set_1() {
        let (state, answer) = State::open(NodeSet::EMPTY);
        assert_eq!(answer, Err(Refusal::EmptySet));
        assert_eq!((state, Ok(0)), State::open(set(1)));
    }
}

mod built_by_hand {
    use super::*;

    const INVOKE: Proposal = Proposal::Invoke {
        caller: 0,
        command: 1,
    };

    fn push(caller: u32, voters: u16, target: u32) -> Proposal {
        Proposal::Push {
            caller,
            voters: set(voters),
            target,
        }
    }

    #[test]
    fn a_version_at_its_end() {
        let mut state = run(&EXAMPLE[..2]);
        state.records[1].version = 255;
        let before = state.clone();
        assert_eq!(state.propose(&INVOKE), Err(Refusal::VersionAtItsEnd));
        assert_eq!(state, before);
        for _ in 2..256 {
            let voters = set(3);
            let number = state.records.len() as u32;
            let election = record(0, 1, 1, 0, Kind::Election { voters });
            state.records.push(Record {
                members: set(7),
                time: 1,
                caller: Node::from_number(1 + number % 2),
                ..election
            });
        }
        state.clocks[2] = 1;
        assert!(state.is_table());
        assert_eq!(state.propose(&INVOKE), Err(Refusal::VersionAtItsEnd));
        state.records[1].version = 254;
        assert_eq!(state.propose(&INVOKE), Err(Refusal::NoPlaceLeft));
    }

    #[test]
    fn the_lowest_number_of_equal_ones_is_latest() {
        let voters = set(7);
        let mut state = run(&EXAMPLE[..2]);
        state
            .records
            .push(record(0, 0, 1, 0, Kind::Election { voters }));
        assert_eq!(state.propose(&INVOKE), Ok(Outcome::Accepted(3)));
        assert_eq!(state.at(3).parent, 1);
    }

    /// Two branches: node 0 holds a command of time 1 that it could commit
    /// alone, nodes 1 and 2 have committed one of time 2.
    fn two_branches() -> State {
        let mut state = run(&[
            ("O 7", "A 0"),
            ("P 0 3 1", "A 1"),
            ("I 0 1", "A 2"),
            ("P 1 6 2", "A 3"),
            ("I 1 1", "A 4"),
            ("C 1 6 4", "A 5"),
        ]);
        state.records[2].members = set(1);
        state
    }

    #[test]
    fn the_latest_commit_off_the_targets_path() {
        let mut state = two_branches();
        let before = state.clone();
        assert!(state.is_table());
        let refused = Err(Refusal::LatestCommitOffPath);
        assert_eq!(state.propose(&push(0, 1, 2)), refused);
        assert_eq!(state, before);
        // It is only given with a majority, and after 5.
        state.records[2].members = set(9);
        assert_eq!(state.propose(&push(0, 1, 2)), Ok(Outcome::Short));
        state.records[2].members = set(3);
        assert_eq!(state.propose(&push(0, 3, 2)), Err(Refusal::ClockTooLate));
    }

    #[test]
    fn seventeen_comes_before_twelve() {
        let mut state = two_branches();
        while state.records.len() < 256 {
            state.records.push(record(0, 0, 1, 0, Kind::Change));
        }
        let refused = Err(Refusal::LatestCommitOffPath);
        assert_eq!(state.propose(&push(0, 1, 2)), refused);
    }

    #[test]
    fn what_is_no_table() {
        let good = run(&EXAMPLE[..8]);
        assert!(good.is_table());
        let spoilers: [fn(&mut State); 26] = [
            |state| state.records.clear(),
            |state| state.records.resize(257, *state.at(1)),
            |state| state.records[0].members = set(0),
            |state| state.records[0].members = set(3),
            |state| state.records[0].kind = Kind::Commit { voters: set(3) },
            |state| state.records[0].kind = Kind::Change,
            |state| state.records[0].time = 1,
            |state| state.records[0].version = 1,
            |state| state.records[0].parent = 1,
            |state| state.records[0].caller = Node::from_number(0),
            |state| state.records[1].caller = None,
            |state| state.records[5].members = set(0),
            |state| state.records[6].parent = 7,
            |state| state.records[6].parent = 6,
            |state| state.records[1].parent = 2,
            |state| state.records[5].version = 2,
            |state| state.records[6].version = 2,
            |state| state.clocks[0] = 0,
            |state| state.clocks[1] = 0,
            |state| state.clocks[3] = 0,
            |state| state.records[3].parent = 2,
            |state| state.records[3].parent = 1,
            |state| state.log.clear(),
            |state| state.log.reverse(),
            |state| state.log.push(7),
            |state| state.log = vec![2, 3, 6],
        ];
        for (place, spoil) in spoilers.into_iter().enumerate() {
            let mut state = good.clone();
            spoil(&mut state);
            assert!(!state.is_table(), "spoiler {place}");
            assert_sixteen_everywhere(state);
        }
    }

    fn assert_sixteen_everywhere(mut state: State) {
        let before = state.clone();
        let refused = Err(Refusal::NoTable);
        let proposals = [
            Proposal::Pull {
                caller: 16,
                voters: set(0),
                time: 0,
            },
            Proposal::Invoke {
                caller: 16,
                command: 0,
            },
            Proposal::Reconfigure {
                caller: 16,
                new_set: set(0),
            },
            push(16, 0, 999),
        ];
        for proposal in proposals {
            assert_eq!(state.propose(&proposal), refused);
        }
        assert_eq!(state, before);
        assert_eq!(state.read_log_length(), Err(Refusal::NoTable));
        assert_eq!(state.read_log_entry(999), Err(Refusal::NoTable));
        assert_eq!(state.read_record(999), Err(Refusal::NoTable));
        assert_eq!(state.read_clock(16), Err(Refusal::NoTable));
        assert_eq!(state.read_log(&mut []), Err(Refusal::NoTable));
    }

    #[test]
    fn clocks_ahead_and_odd_voters_are_allowed() {
        let mut state = run(&EXAMPLE[..8]);
        state.clocks = [u32::MAX; 16];
        state.records[1].kind = Kind::Election { voters: set(0) };
        state.records[4].kind = Kind::Commit { voters: set(0) };
        assert!(state.is_table());
    }

    #[test]
    fn a_full_table_is_a_table() {
        let mut state = run(&EXAMPLE[..2]);
        state.records.resize(256, *state.at(1));
        assert!(state.is_table());
    }
}

mod reading {
    use super::*;

    #[test]
    fn everything() {
        let state = run(&EXAMPLE);
        assert_eq!(state.read_log_length(), Ok(3));
        assert_eq!(state.read_log_entry(0), Ok(2));
        assert_eq!(state.read_log_entry(2), Ok(5));
        assert_eq!(state.read_log_entry(3), Err(Refusal::NothingToRead));
        assert_eq!(state.read_record(8), Ok(*state.at(8)));
        assert_eq!(state.read_record(9), Err(Refusal::NothingToRead));
        assert_eq!(state.read_record(u32::MAX), Err(Refusal::NothingToRead));
        assert_eq!(state.read_clock(3), Ok(1));
        assert_eq!(state.read_clock(15), Ok(0));
        assert_eq!(state.read_clock(16), Err(Refusal::NothingToRead));
    }

    #[test]
    fn a_lent_buffer() {
        let state = run(&EXAMPLE);
        let mut small = [9; 2];
        assert_eq!(state.read_log(&mut small), Err(Refusal::BufferTooSmall));
        assert_eq!(small, [9; 2]);
        let mut large = [9; 5];
        assert_eq!(state.read_log(&mut large), Ok(3));
        assert_eq!(large, [2, 3, 5, 9, 9]);
    }
}
