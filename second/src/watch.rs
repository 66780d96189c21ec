//! The check after every line, by means of its own. Nothing here asks the
//! functions that [`crate::state`] tests and judges with. Where those walk up
//! by parents, this goes down by children.

use crate::line::{parse, Line};
use crate::nodes::{Node, NodeSet};
use crate::record::{Kind, Record, RecordNumber};
use crate::replay::Answer;
use crate::state::{Proposal, State};

/// Watches the states that lines lead to.
#[derive(Clone, Debug, Default)]
pub struct Watch {
    before: Option<State>,
    tree: Tree,
}

impl Watch {
    /// A watch before the first line.
    pub fn new() -> Watch {
        Watch::default()
    }

    /// Looks at the state after a line was answered. What is wrong is said in
    /// words.
    pub fn after_line(
        &mut self,
        line: &[u8],
        answer: Answer,
        after: Option<&State>,
    ) -> Result<(), String> {
        check_answer(answer)?;
        if let Some(after) = after {
            self.tree.grow(after)?;
            check_table(after, &self.tree)?;
        }
        check_step(line, answer, self.before.as_ref(), after)?;
        self.remember(after);
        Ok(())
    }

    /// Keeps a copy of the state, in the same memory as far as it goes.
    fn remember(&mut self, after: Option<&State>) {
        match (&mut self.before, after) {
            (Some(before), Some(after)) => {
                before.clocks = after.clocks;
                before.records.clone_from(&after.records);
                before.log.clone_from(&after.log);
            }
            (before, after) => *before = after.cloned(),
        }
    }
}

/// Fails with these words if it does not hold.
fn demand(holds: bool, wrong: &str) -> Result<(), String> {
    if holds {
        Ok(())
    } else {
        Err(wrong.to_string())
    }
}

/// 16 and 17 never come from a fresh table, and no line causes 13 to 15.
fn check_answer(answer: Answer) -> Result<(), String> {
    match answer {
        Answer::Refused(refusal) => demand(
            refusal.can_come_from_a_line(),
            "an answer came that no line can cause",
        ),
        _ => Ok(()),
    }
}

/// What is read afresh from the records: their tree from record 0 downwards.
#[derive(Clone, Debug, Default)]
struct Tree {
    children: Vec<Vec<RecordNumber>>,
    /// Records still to be gone down from, with how many records are above
    /// them on their path and how many commits are.
    waiting: Vec<(RecordNumber, usize, usize)>,
    /// The path to where the walk is.
    path: Vec<RecordNumber>,
    /// How many records the walk came to.
    reached: usize,
    /// How many commits there are.
    commits: usize,
    /// The most commits on the path to any commit.
    most_commits: usize,
    /// The path to that commit, record 0 first.
    path_to_deepest: Vec<RecordNumber>,
}

impl Tree {
    /// Reads the tree of these records.
    fn grow(&mut self, state: &State) -> Result<(), String> {
        let records = &state.records;
        demand(
            (1..=256).contains(&records.len()),
            "there are not 1 to 256 records",
        )?;
        self.list_children(records)?;
        self.go_down(records);
        demand(
            self.reached == records.len(),
            "a record has no path to record 0",
        )
    }

    fn list_children(&mut self, records: &[Record]) -> Result<(), String> {
        self.children.resize_with(records.len(), Vec::new);
        self.children.iter_mut().for_each(Vec::clear);
        for (number, record) in records.iter().enumerate().skip(1) {
            match self.children.get_mut(usize::from(record.parent)) {
                Some(children) => children.push(number as RecordNumber),
                None => return Err(format!("the parent of record {number} doesn't exist")),
            }
        }
        Ok(())
    }

    fn go_down(&mut self, records: &[Record]) {
        self.reached = 0;
        self.commits = 0;
        self.most_commits = 0;
        self.path.clear();
        self.waiting.clear();
        self.waiting.push((0, 0, 0));
        while let Some((number, records_above, commits_above)) = self.waiting.pop() {
            self.reached += 1;
            self.path.truncate(records_above);
            self.path.push(number);
            let mut commits_here = commits_above;
            if let Kind::Commit { .. } = records[usize::from(number)].kind {
                commits_here += 1;
                self.commits += 1;
                if commits_here > self.most_commits {
                    self.most_commits = commits_here;
                    self.path_to_deepest.clone_from(&self.path);
                }
            }
            for &child in &self.children[usize::from(number)] {
                self.waiting.push((child, records_above + 1, commits_here));
            }
        }
    }
}

/// Every part of what the document calls a table.
fn check_table(state: &State, tree: &Tree) -> Result<(), String> {
    check_record_zero(&state.records[0])?;
    for (number, record) in state.records.iter().enumerate().skip(1) {
        check_other_record(&state.records, record)
            .map_err(|wrong| format!("record {number} {wrong}"))?;
    }
    for node in Node::all() {
        check_clock(state, node)?;
    }
    demand(
        tree.most_commits == tree.commits,
        "not all commits lie on one path",
    )?;
    check_deepest_is_latest(state, tree)?;
    check_log(state, tree)
}

fn check_record_zero(zero: &Record) -> Result<(), String> {
    let is_right = zero.parent == 0
        && zero.caller.is_none()
        && zero.time == 0
        && zero.version == 0
        && zero.members != NodeSet::EMPTY
        && zero.kind
            == Kind::Commit {
                voters: zero.members,
            };
    demand(is_right, "record 0 is not as opening makes it")
}

fn check_other_record(records: &[Record], record: &Record) -> Result<(), String> {
    let parent = &records[usize::from(record.parent)];
    demand(record.caller.is_some(), "has no caller")?;
    demand(record.members != NodeSet::EMPTY, "has no members")?;
    demand(
        is_above(record, parent),
        "has a parent that is not strictly lower",
    )
}

/// The order "above", spelled out.
fn is_above(higher: &Record, lower: &Record) -> bool {
    let is_commit = |record: &Record| matches!(record.kind, Kind::Commit { .. });
    if higher.time != lower.time {
        higher.time > lower.time
    } else if higher.version != lower.version {
        higher.version > lower.version
    } else {
        is_commit(higher) && !is_commit(lower)
    }
}

/// No clock is less than the time of a record that its node holds or called.
fn check_clock(state: &State, node: Node) -> Result<(), String> {
    let clock = state.clocks[node.index()];
    let is_behind = |record: &&Record| {
        let holds_it = match record.kind {
            Kind::Commit { voters } => voters.contains(node),
            _ => false,
        };
        record.time > clock && (holds_it || record.caller == Some(node))
    };
    match state.records.iter().find(is_behind) {
        Some(record) => Err(format!(
            "the clock of node {} is behind time {}",
            node.number(),
            record.time
        )),
        None => Ok(()),
    }
}

/// The commit at the end of the one path is the latest.
fn check_deepest_is_latest(state: &State, tree: &Tree) -> Result<(), String> {
    let deepest = tree
        .path_to_deepest
        .last()
        .map(|&number| &state.records[usize::from(number)])
        .ok_or("there is no commit")?;
    let is_later =
        |record: &Record| matches!(record.kind, Kind::Commit { .. }) && is_above(record, deepest);
    demand(
        !state.records.iter().any(is_later),
        "the latest commit is not the last on the path",
    )
}

/// "The kept log equals the one read afresh from the records."
fn check_log(state: &State, tree: &Tree) -> Result<(), String> {
    let afresh = tree.path_to_deepest.iter().filter(|&&number| {
        matches!(
            state.records[usize::from(number)].kind,
            Kind::Command { .. } | Kind::Change
        )
    });
    demand(
        afresh.eq(&state.log),
        "the log is not the one that the records give",
    )
}

/// What may have become of the state before the line.
fn check_step(
    line: &[u8],
    answer: Answer,
    before: Option<&State>,
    after: Option<&State>,
) -> Result<(), String> {
    match (answer, parse(line), before, after) {
        (Answer::Refused(_) | Answer::Bad, _, before, after) => {
            demand(before == after, "a refused line changed the state")
        }
        (Answer::Accepted(number), Some(Line::Open(_)), _, Some(after)) => {
            check_fresh(number, after)
        }
        (Answer::Accepted(number), Some(Line::Propose(proposal)), Some(before), Some(after)) => {
            check_clocks(&proposal, before, after)?;
            check_added(&proposal, number, before, after)
        }
        (Answer::Short, Some(Line::Propose(proposal)), Some(before), Some(after)) => {
            check_clocks(&proposal, before, after)?;
            check_short(&proposal, before, after)
        }
        _ => Err("a line was taken that can't be".to_string()),
    }
}

/// "An accepted `O` begins a fresh table."
fn check_fresh(number: RecordNumber, after: &State) -> Result<(), String> {
    demand(
        number == 0
            && after.records.len() == 1
            && after.log.is_empty()
            && after.clocks.iter().all(|&clock| clock == 0),
        "an accepted opening gave no fresh table",
    )
}

/// The clocks of the voters become the time, those of others stay. None goes
/// back.
fn check_clocks(proposal: &Proposal, before: &State, after: &State) -> Result<(), String> {
    let mut expected = before.clocks;
    let (voters, time) = match *proposal {
        Proposal::Pull { voters, time, .. } => (voters, time),
        Proposal::Push { voters, target, .. } => match before.records.get(target as usize) {
            Some(record) => (voters, record.time),
            None => return Err("a push had no target".to_string()),
        },
        Proposal::Invoke { .. } | Proposal::Reconfigure { .. } => (NodeSet::EMPTY, 0),
    };
    for voter in voters {
        expected[voter.index()] = time;
    }
    demand(expected == after.clocks, "the wrong clocks changed")?;
    let mut pairs = before.clocks.iter().zip(&after.clocks);
    demand(pairs.all(|(old, new)| old <= new), "a clock went back")
}

/// A short vote, which is one of a pull or a push, leaves records and log.
fn check_short(proposal: &Proposal, before: &State, after: &State) -> Result<(), String> {
    let is_vote = matches!(proposal, Proposal::Pull { .. } | Proposal::Push { .. });
    demand(is_vote, "this can't be short")?;
    demand(
        before.records == after.records && before.log == after.log,
        "a short vote changed more than clocks",
    )
}

/// One record more, with the next number. Others stay, but for the parents
/// that a push moves. The log only grows, and only by a push.
fn check_added(
    proposal: &Proposal,
    number: RecordNumber,
    before: &State,
    after: &State,
) -> Result<(), String> {
    demand(
        usize::from(number) == before.records.len()
            && after.records.len() == before.records.len() + 1,
        "the number of the added record is not the next one",
    )?;
    let added = &after.records[usize::from(number)];
    let target = matches!(proposal, Proposal::Push { .. }).then_some(added.parent);
    for (old, new) in before.records.iter().zip(&after.records) {
        let mut expected = *old;
        if Some(old.parent) == target {
            expected.parent = number;
        }
        demand(
            expected == *new,
            "another record changed, or the wrong parent",
        )?;
    }
    demand(
        after.log.starts_with(&before.log),
        "the beginning of the log changed",
    )?;
    match target {
        Some(target) => demand(
            after.log.len() > before.log.len() && after.log.last() == Some(&target),
            "a push didn't bring its target to the log",
        ),
        None => demand(
            after.log.len() == before.log.len(),
            "the log grew without a push",
        ),
    }
}

#[cfg(test)]
mod tests {
    use super::*;
    use crate::refusal::Refusal;
    use crate::replay::Session;

    const LINES: [&str; 9] = [
        "O 7", "P 0 3 1", "I 0 500", "I 0 501", "C 0 3 2", "R 0 15", "C 0 9 5", "C 0 11 5",
        "P 2 7 2",
    ];

    /// Runs the lines, with a change made by hand to the last state.
    fn watch(lines: &[&str], spoil: impl Fn(&mut State)) -> Result<(), String> {
        let mut session = Session::new();
        let mut watch = Watch::new();
        for (place, line) in lines.iter().enumerate() {
            let answer = session.answer(line.as_bytes());
            let mut state = session.table().cloned();
            if let (true, Some(state)) = (place + 1 == lines.len(), &mut state) {
                spoil(state);
            }
            watch.after_line(line.as_bytes(), answer, state.as_ref())?;
        }
        Ok(())
    }

    #[test]
    fn good_states_pass() {
        for end in 1..=LINES.len() {
            assert_eq!(watch(&LINES[..end], |_| ()), Ok(()));
        }
    }

    #[test]
    fn spoiled_states_are_seen() {
        let spoilers: [fn(&mut State); 12] = [
            |state| state.records.clear(),
            |state| state.records[0].members = NodeSet::new(3),
            |state| state.records[0].time = 1,
            |state| state.records[1].caller = None,
            |state| state.records[2].members = NodeSet::EMPTY,
            |state| state.records[2].parent = 300,
            |state| state.records[2].parent = 3,
            |state| state.records[3].parent = 2,
            |state| state.clocks[1] = 0,
            |state| state.clocks[9] = 1,
            |state| state.log.truncate(1),
            |state| state.log.push(1),
        ];
        for (place, spoil) in spoilers.into_iter().enumerate() {
            assert!(watch(&LINES, spoil).is_err(), "spoiler {place}");
        }
    }

    #[test]
    fn commits_on_two_branches_are_seen() {
        let wrong = watch(&LINES[..8], |state| state.records[6].parent = 1);
        assert_eq!(wrong, Err("not all commits lie on one path".to_string()));
    }

    #[test]
    fn answers_that_cannot_come_are_seen() {
        let (state, _) = State::open(NodeSet::new(7));
        for refusal in [Refusal::NoTable, Refusal::LatestCommitOffPath] {
            let mut watch = Watch::new();
            assert_eq!(
                watch.after_line(b"O", Answer::Accepted(0), Some(&state)),
                Ok(())
            );
            let answer = Answer::Refused(refusal);
            assert!(watch.after_line(b"I 0 1", answer, Some(&state)).is_err());
        }
    }
}
