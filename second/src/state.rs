//! What the referee holds, the test whether it is a table, the four
//! proposals, and reading.
//!
//! Every proposal goes the same three steps. The state is tested. The
//! proposal is judged, which only looks. What was judged is carried out. A
//! refusal can only come from the first two steps, and so it leaves
//! everything as it was.

use crate::nodes::{Node, NodeSet, NODE_COUNT};
use crate::record::{Kind, Record, RecordNumber, MOST_RECORDS, RECORD_ZERO};
use crate::refusal::Refusal;

/// Clocks, records and log. "A state can be built by hand", so everything is
/// open, and nothing is taken for granted before the test.
#[derive(Clone, Debug, PartialEq, Eq)]
pub struct State {
    /// "A clock for each node."
    pub clocks: [u32; NODE_COUNT],
    /// The records, each at the place of its number.
    pub records: Vec<Record>,
    /// "The log: a list of record numbers, oldest first."
    pub log: Vec<RecordNumber>,
}

/// One of "the four proposals". The caller is a bare number, since it may be
/// over 15, and so is the target, since it may be no record.
#[derive(Clone, Copy, Debug, PartialEq, Eq)]
pub enum Proposal {
    /// "Pull (caller, voters, time)."
    Pull {
        /// Who wants to lead.
        caller: u32,
        /// Who votes.
        voters: NodeSet,
        /// The time of the election.
        time: u32,
    },
    /// "Invoke (caller, command)."
    Invoke {
        /// Who adds the command.
        caller: u32,
        /// The command.
        command: u32,
    },
    /// "Reconfigure (caller, new set)."
    Reconfigure {
        /// Who adds the change.
        caller: u32,
        /// The members from then on.
        new_set: NodeSet,
    },
    /// "Push (caller, voters, target)."
    Push {
        /// Who commits.
        caller: u32,
        /// Who votes.
        voters: NodeSet,
        /// The number of the record to commit.
        target: u32,
    },
}

/// What comes of a proposal that is not refused.
#[derive(Clone, Copy, Debug, PartialEq, Eq)]
pub enum Outcome {
    /// A record was added. This is its number.
    Accepted(RecordNumber),
    /// The voters were no majority. Only their clocks changed.
    Short,
}

/// What a judged proposal is to do: set clocks, add a record, or both.
struct Ruling {
    voters: NodeSet,
    voters_clock: u32,
    added: Option<Record>,
}

impl Ruling {
    /// No clock changes, one record is added.
    fn adding(record: Record) -> Ruling {
        Ruling {
            voters: NodeSet::EMPTY,
            voters_clock: 0,
            added: Some(record),
        }
    }
}

/// Opening.
impl State {
    /// Opens with this set. Refused, "it hands back the fresh table of set 1
    /// beside its number".
    pub fn open(members: NodeSet) -> (State, Result<RecordNumber, Refusal>) {
        if members.is_empty() {
            (State::fresh(NodeSet::new(1)), Err(Refusal::EmptySet))
        } else {
            (State::fresh(members), Ok(RECORD_ZERO))
        }
    }

    /// The fresh table of this set: all clocks 0, record 0, an empty log.
    fn fresh(members: NodeSet) -> State {
        State {
            clocks: [0; NODE_COUNT],
            records: vec![Record::opening(members)],
            log: Vec::new(),
        }
    }
}

/// The words that the rules use.
impl State {
    /// This node's clock.
    pub fn clock(&self, node: Node) -> u32 {
        self.clocks[node.index()]
    }

    /// The record with this number. It has to exist.
    pub fn at(&self, number: RecordNumber) -> &Record {
        &self.records[usize::from(number)]
    }

    /// All records with their numbers, lowest first.
    pub fn numbered(&self) -> impl Iterator<Item = (RecordNumber, &Record)> {
        (RECORD_ZERO..).zip(&self.records)
    }

    /// The latest of the records that are wanted: the highest in the order
    /// "above", and "of several equal ones the lowest number".
    fn latest(&self, wanted: impl Fn(RecordNumber, &Record) -> bool) -> Option<RecordNumber> {
        let mut latest = None;
        for (number, record) in self.numbered() {
            if wanted(number, record) {
                let rank = record.rank();
                if latest.is_none_or(|(_, highest)| rank > highest) {
                    latest = Some((number, rank));
                }
            }
        }
        latest.map(|(number, _)| number)
    }

    /// The latest commit.
    pub fn latest_commit(&self) -> Option<RecordNumber> {
        self.latest(|_, record| record.is_commit())
    }

    /// Who holds the record with this number: "record 0 is held by every
    /// node", for the others see [`Record::holders`].
    fn holders(number: RecordNumber, record: &Record) -> NodeSet {
        if number == RECORD_ZERO {
            NodeSet::EVERY
        } else {
            record.holders()
        }
    }

    /// "The base is the latest record held by any voter." There is one for
    /// any voters at all, since record 0 is held by every node.
    pub fn base(&self, voters: NodeSet) -> Option<RecordNumber> {
        self.latest(|number, record| !(State::holders(number, record) & voters).is_empty())
    }

    /// "A node leads when the latest record that it called has a time equal
    /// to its clock. That record is its head."
    pub fn head(&self, node: Node) -> Option<RecordNumber> {
        self.latest(|_, record| record.is_called_by(node))
            .filter(|&number| self.at(number).time == self.clock(node))
    }

    /// "From a record by parents to record 0, both included."
    pub fn path(&self, from: RecordNumber) -> Path<'_> {
        Path {
            records: &self.records,
            next: Some(from),
        }
    }

    /// Whether the record's path has an open change: "a change on a record's
    /// path with no commit between it and that record". The search "leaves
    /// the path at the first commit or change it meets, going up".
    pub fn has_open_change(&self, number: RecordNumber) -> bool {
        self.path(number)
            .map(|(_, record)| record.kind)
            .find(|kind| matches!(kind, Kind::Change | Kind::Commit { .. }))
            .is_some_and(|kind| kind == Kind::Change)
    }

    /// Whether the record's path has a commit with the record's time.
    pub fn has_commit_of_its_time(&self, number: RecordNumber) -> bool {
        let time = self.at(number).time;
        self.path(number)
            .any(|(_, record)| record.is_commit() && record.time == time)
    }
}

/// A walk along a path, from a record up to record 0. It ends on any table,
/// because there every parent is lower in the order "above".
#[derive(Clone, Debug)]
pub struct Path<'a> {
    records: &'a [Record],
    next: Option<RecordNumber>,
}

impl<'a> Iterator for Path<'a> {
    type Item = (RecordNumber, &'a Record);

    fn next(&mut self) -> Option<Self::Item> {
        let number = self.next?;
        let record = &self.records[usize::from(number)];
        self.next = (number != RECORD_ZERO).then_some(record.parent);
        Some((number, record))
    }
}

/// The test whether the state "is a **table**". One function for each part
/// of that sentence. The later ones rely on the earlier ones.
impl State {
    /// "It is a table when all of this holds."
    pub fn is_table(&self) -> bool {
        self.has_1_to_256_records()
            && self.record_zero_is_as_opening_makes_it()
            && self.every_other_record_is_in_order()
            && self.no_clock_is_behind()
            && self.latest_commit().is_some_and(|latest| {
                self.all_commits_lie_on_the_path_of(latest) && self.log_is_on_the_path_of(latest)
            })
    }

    /// "It has 1 to 256 records."
    fn has_1_to_256_records(&self) -> bool {
        (1..=MOST_RECORDS).contains(&self.records.len())
    }

    /// "Record 0 is as opening makes it", which takes a non-empty set.
    fn record_zero_is_as_opening_makes_it(&self) -> bool {
        let zero = &self.records[0];
        !zero.members.is_empty() && *zero == Record::opening(zero.members)
    }

    /// "Every other record has a caller from 0 to 15, a non-empty member set
    /// and a parent that exists and is strictly lower in the order 'above'."
    fn every_other_record_is_in_order(&self) -> bool {
        self.records[1..].iter().all(|record| {
            record.caller.is_some()
                && !record.members.is_empty()
                && self
                    .records
                    .get(usize::from(record.parent))
                    .is_some_and(|parent| parent.rank() < record.rank())
        })
    }

    /// "No clock is less than the time of a record that its node holds or
    /// called." Record 0 is held by every node, but at time 0 no clock is
    /// less. Records of one time mostly stand together, so the nodes that are
    /// behind a time are kept for the next record.
    fn no_clock_is_behind(&self) -> bool {
        let mut time = 0;
        let mut behind = NodeSet::EMPTY;
        self.records[1..].iter().all(|record| {
            if record.time != time {
                time = record.time;
                behind = self.nodes_behind(time);
            }
            (record.holders_and_caller() & behind).is_empty()
        })
    }

    /// The nodes whose clock is less than this time.
    fn nodes_behind(&self, time: u32) -> NodeSet {
        Node::all()
            .filter(|&node| self.clock(node) < time)
            .collect()
    }

    /// "All commits lie on one path." Parents are strictly lower, so if there
    /// is such a path, then that of the latest commit is one.
    fn all_commits_lie_on_the_path_of(&self, latest: RecordNumber) -> bool {
        let commits = self.records.iter().filter(|record| record.is_commit());
        let on_path = self.path(latest).filter(|(_, record)| record.is_commit());
        on_path.count() == commits.count()
    }

    /// "The log is the commands and changes on the path of the latest commit,
    /// oldest first." A path goes to older ones, so the log is held against
    /// it from its end.
    fn log_is_on_the_path_of(&self, latest: RecordNumber) -> bool {
        self.path(latest)
            .filter(|(_, record)| record.is_command_or_change())
            .map(|(number, _)| number)
            .eq(self.log.iter().rev().copied())
    }

    /// "All others, reading included, give 16 before anything else."
    fn demand_table(&self) -> Result<(), Refusal> {
        Refusal::NoTable.when(!self.is_table())
    }
}

/// The four proposals.
impl State {
    /// Tests the state, judges the proposal and carries it out.
    pub fn propose(&mut self, proposal: &Proposal) -> Result<Outcome, Refusal> {
        self.demand_table()?;
        let ruling = match *proposal {
            Proposal::Pull {
                caller,
                voters,
                time,
            } => self.judge_pull(caller, voters, time),
            Proposal::Invoke { caller, command } => self.judge_invoke(caller, command),
            Proposal::Reconfigure { caller, new_set } => self.judge_reconfigure(caller, new_set),
            Proposal::Push {
                caller,
                voters,
                target,
            } => self.judge_push(caller, voters, target),
        }?;
        Ok(self.carry_out(ruling))
    }

    /// "Pull: 2, 3, 5, 4, 12."
    fn judge_pull(&self, caller: u32, voters: NodeSet, time: u32) -> Result<Ruling, Refusal> {
        let caller = caller_node(caller)?;
        Refusal::CallerLeftOut.when(!voters.contains(caller))?;
        Refusal::ClockTooLate.when(voters.into_iter().any(|voter| self.clock(voter) >= time))?;
        let parent = self.base(voters).unwrap_or(RECORD_ZERO);
        let members = self.at(parent).members;
        Refusal::VoterNotMember.when(!voters.is_subset_of(members))?;
        let added = self.vote(voters, members, || {
            Ok(Record {
                parent,
                caller: Some(caller),
                time,
                version: 0,
                members,
                kind: Kind::Election { voters },
            })
        })?;
        Ok(Ruling {
            voters,
            voters_clock: time,
            added,
        })
    }

    /// "Invoke: 2, 6, 13, 12."
    fn judge_invoke(&self, caller: u32, command: u32) -> Result<Ruling, Refusal> {
        let caller = caller_node(caller)?;
        let head = self.demand_head(caller)?;
        let members = self.at(head).members;
        self.judge_addition(caller, head, members, Kind::Command { command })
    }

    /// "Reconfigure: 2, 1, 6, 3, 9, 10, 11, 13, 12."
    fn judge_reconfigure(&self, caller: u32, new_set: NodeSet) -> Result<Ruling, Refusal> {
        let caller = caller_node(caller)?;
        Refusal::EmptySet.when(new_set.is_empty())?;
        let head = self.demand_head(caller)?;
        let members = self.at(head).members;
        Refusal::CallerLeftOut.when(!new_set.contains(caller))?;
        Refusal::NotOneStep.when(!new_set.is_one_step_from(members))?;
        Refusal::OpenChange.when(self.has_open_change(head))?;
        Refusal::NoCommitOfHeadsTime.when(!self.has_commit_of_its_time(head))?;
        self.judge_addition(caller, head, new_set, Kind::Change)
    }

    /// "Push: 2, 6, 7, 8, 3, 4, 5, 17, 12."
    fn judge_push(&self, caller: u32, voters: NodeSet, target: u32) -> Result<Ruling, Refusal> {
        let caller = caller_node(caller)?;
        self.demand_head(caller)?;
        let (number, target) = self.demand_target(caller, target)?;
        Refusal::AlreadyCommitted.when(self.is_already_committed(caller, target))?;
        Refusal::CallerLeftOut.when(!voters.contains(caller))?;
        Refusal::VoterNotMember.when(!voters.is_subset_of(target.members))?;
        let is_past = |voter| self.clock(voter) > target.time;
        Refusal::ClockTooLate.when(voters.into_iter().any(is_past))?;
        let added = self.vote(voters, target.members, || {
            let latest = self.latest_commit();
            let is_on_path = self
                .path(number)
                .any(|(on_path, _)| Some(on_path) == latest);
            Refusal::LatestCommitOffPath.when(!is_on_path)?;
            Ok(Record {
                parent: number,
                caller: Some(caller),
                time: target.time,
                version: target.version,
                members: target.members,
                kind: Kind::Commit { voters },
            })
        })?;
        Ok(Ruling {
            voters,
            voters_clock: target.time,
            added,
        })
    }

    /// The record that the vote adds with a majority, for which there must be
    /// a place, or nothing without one: "a short vote needs no place".
    fn vote(
        &self,
        voters: NodeSet,
        members: NodeSet,
        record: impl FnOnce() -> Result<Record, Refusal>,
    ) -> Result<Option<Record>, Refusal> {
        if !voters.is_majority_of(members) {
            return Ok(None);
        }
        let record = record()?;
        self.demand_place()?;
        Ok(Some(record))
    }

    /// What invoke and reconfigure have in common: they add under the head
    /// with "the head's time" and "version one more", and end with 13, 12.
    fn judge_addition(
        &self,
        caller: Node,
        parent: RecordNumber,
        members: NodeSet,
        kind: Kind,
    ) -> Result<Ruling, Refusal> {
        let head = self.at(parent);
        let version = head
            .version
            .checked_add(1)
            .ok_or(Refusal::VersionAtItsEnd)?;
        self.demand_place()?;
        Ok(Ruling::adding(Record {
            parent,
            caller: Some(caller),
            time: head.time,
            version,
            members,
            kind,
        }))
    }

    /// 6: "the caller doesn't lead". Otherwise its head.
    fn demand_head(&self, caller: Node) -> Result<RecordNumber, Refusal> {
        self.head(caller).ok_or(Refusal::CallerDoesNotLead)
    }

    /// 7: "the target is no record, or no command or change, or has another
    /// caller, or a time other than the caller's clock". Otherwise the target.
    fn demand_target(&self, caller: Node, target: u32) -> Result<(RecordNumber, &Record), Refusal> {
        RecordNumber::try_from(target)
            .ok()
            .and_then(|number| Some((number, self.records.get(usize::from(number))?)))
            .filter(|(_, record)| {
                record.is_command_or_change()
                    && record.is_called_by(caller)
                    && record.time == self.clock(caller)
            })
            .ok_or(Refusal::WrongTarget)
    }

    /// 8: "a commit of this caller and time has a version at or past the
    /// target's".
    fn is_already_committed(&self, caller: Node, target: &Record) -> bool {
        self.records.iter().any(|record| {
            record.is_commit()
                && record.is_called_by(caller)
                && record.time == target.time
                && record.version >= target.version
        })
    }

    /// 12: "a record is to be added and 256 exist".
    fn demand_place(&self) -> Result<(), Refusal> {
        Refusal::NoPlaceLeft.when(self.records.len() >= MOST_RECORDS)
    }

    /// Sets the voters' clocks and adds the record, if there is one to add.
    fn carry_out(&mut self, ruling: Ruling) -> Outcome {
        for voter in ruling.voters {
            self.clocks[voter.index()] = ruling.voters_clock;
        }
        match ruling.added {
            Some(record) => Outcome::Accepted(self.add(record)),
            None => Outcome::Short,
        }
    }

    /// Adds the record with the next number. A commit moves its target's
    /// children and lengthens the log first.
    fn add(&mut self, record: Record) -> RecordNumber {
        let number = self.records.len() as RecordNumber;
        if record.is_commit() {
            self.lengthen_log(record.parent);
            self.move_children(record.parent, number);
        }
        self.records.push(record);
        number
    }

    /// "The log gains the commands and changes on the path from the former
    /// latest commit down to the target."
    fn lengthen_log(&mut self, target: RecordNumber) {
        let former = self.latest_commit();
        let mut gained: Vec<RecordNumber> = self
            .path(target)
            .take_while(|&(number, _)| Some(number) != former)
            .filter(|(_, record)| record.is_command_or_change())
            .map(|(number, _)| number)
            .collect();
        gained.reverse();
        self.log.append(&mut gained);
    }

    /// "Every former child of the target becomes a child of the commit; no
    /// other parent moves."
    fn move_children(&mut self, target: RecordNumber, commit: RecordNumber) {
        for record in &mut self.records {
            if record.parent == target {
                record.parent = commit;
            }
        }
    }
}

/// 2: "the caller's number is over 15". Otherwise the node.
fn caller_node(caller: u32) -> Result<Node, Refusal> {
    Node::from_number(caller).ok_or(Refusal::CallerOver15)
}

/// Reading: "16 before anything else", then "14 or 15".
impl State {
    /// The log's length.
    pub fn read_log_length(&self) -> Result<usize, Refusal> {
        self.demand_table()?;
        Ok(self.log.len())
    }

    /// One entry of the log, "counted from 0".
    pub fn read_log_entry(&self, place: u32) -> Result<RecordNumber, Refusal> {
        self.demand_table()?;
        read(&self.log, place)
    }

    /// One record.
    pub fn read_record(&self, number: u32) -> Result<Record, Refusal> {
        self.demand_table()?;
        read(&self.records, number)
    }

    /// One clock.
    pub fn read_clock(&self, node: u32) -> Result<u32, Refusal> {
        self.demand_table()?;
        read(&self.clocks, node)
    }

    /// "The log copied as 32-bit numbers to a lent buffer, with its length as
    /// the answer; further places of the buffer keep what they had."
    pub fn read_log(&self, buffer: &mut [u32]) -> Result<usize, Refusal> {
        self.demand_table()?;
        Refusal::BufferTooSmall.when(buffer.len() < self.log.len())?;
        for (place, &entry) in buffer.iter_mut().zip(&self.log) {
            *place = u32::from(entry);
        }
        Ok(self.log.len())
    }
}

/// 14: "no log entry, no record or no clock has that number".
fn read<T: Copy>(list: &[T], place: u32) -> Result<T, Refusal> {
    usize::try_from(place)
        .ok()
        .and_then(|place| list.get(place).copied())
        .ok_or(Refusal::NothingToRead)
}
