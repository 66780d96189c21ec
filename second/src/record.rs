//! Records: what one is, and how they are ordered.

use crate::nodes::{Node, NodeSet};

/// "At most 256 records, numbered from 0 in the order of creation."
pub type RecordNumber = u16;

/// The most records that a table can have.
pub const MOST_RECORDS: usize = 256;

/// The number of the record that opening makes.
pub const RECORD_ZERO: RecordNumber = 0;

/// "One of four kinds": "kind and data are one thing".
#[derive(Clone, Copy, Debug, PartialEq, Eq)]
pub enum Kind {
    /// "Election (with its voters)."
    Election {
        /// Those who gave their vote.
        voters: NodeSet,
    },
    /// "Command (with a 32-bit number)."
    Command {
        /// The command itself.
        command: u32,
    },
    /// "Change (its member set is the new one)."
    Change,
    /// "Commit (with its voters)."
    Commit {
        /// Those who hold what was committed.
        voters: NodeSet,
    },
}

/// "A record has a parent, a caller, a time, a version (0 to 255), a member
/// set, and one of four kinds."
#[derive(Clone, Copy, Debug, PartialEq, Eq)]
pub struct Record {
    /// The number of the record that this one hangs under.
    pub parent: RecordNumber,
    /// Who called it. Only record 0 is to have none.
    pub caller: Option<Node>,
    /// The time, the first thing that records are ordered by.
    pub time: u32,
    /// The version, the second thing that records are ordered by.
    pub version: u8,
    /// The member set.
    pub members: NodeSet,
    /// The kind with its data.
    pub kind: Kind,
}

/// "Records are ordered by time, then by version, then a commit above a
/// record that is no commit." The fields stand in just this order.
#[derive(Clone, Copy, Debug, PartialEq, Eq, PartialOrd, Ord)]
pub struct Rank {
    /// First the time.
    pub time: u32,
    /// Then the version.
    pub version: u8,
    /// Then whether it is a commit.
    pub is_commit: bool,
}

impl Record {
    /// "Record 0 is made by opening with a non-empty set G: a commit, time 0,
    /// version 0, voters G, members G. Its parent is itself."
    pub fn opening(members: NodeSet) -> Record {
        Record {
            parent: RECORD_ZERO,
            caller: None,
            time: 0,
            version: 0,
            members,
            kind: Kind::Commit { voters: members },
        }
    }

    /// The record's place in the order "above".
    pub fn rank(&self) -> Rank {
        Rank {
            time: self.time,
            version: self.version,
            is_commit: self.is_commit(),
        }
    }

    /// Whether it is a commit.
    pub fn is_commit(&self) -> bool {
        matches!(self.kind, Kind::Commit { .. })
    }

    /// Whether it is a command or a change: what can be pushed and what the
    /// log is made of.
    pub fn is_command_or_change(&self) -> bool {
        matches!(self.kind, Kind::Command { .. } | Kind::Change)
    }

    /// Whether this node called it. "No node is its caller" of record 0.
    pub fn is_called_by(&self, node: Node) -> bool {
        self.caller == Some(node)
    }

    /// The caller as a number: that of record 0 "reads as 16".
    pub fn caller_number(&self) -> u32 {
        self.caller.map_or(16, Node::number)
    }

    /// The caller as a set of one node, or of none.
    fn caller_set(&self) -> NodeSet {
        self.caller.map_or(NodeSet::EMPTY, NodeSet::only)
    }

    /// "An election, command or change is held by its caller alone. A commit
    /// is held by its voters." What the document says of record 0 depends on
    /// the number and is not said here.
    pub fn holders(&self) -> NodeSet {
        match self.kind {
            Kind::Commit { voters } => voters,
            Kind::Election { .. } | Kind::Command { .. } | Kind::Change => self.caller_set(),
        }
    }

    /// The nodes that hold or called this record.
    pub fn holders_and_caller(&self) -> NodeSet {
        self.holders() | self.caller_set()
    }
}

#[cfg(test)]
mod tests {
    use super::*;

    fn record(kind: Kind) -> Record {
        Record {
            parent: 0,
            caller: Node::from_number(3),
            time: 1,
            version: 0,
            members: NodeSet::new(0b1111),
            kind,
        }
    }

    #[test]
    fn voters_of_an_election_do_not_hold_it() {
        let voters = NodeSet::new(0b1110);
        let caller_alone = NodeSet::new(0b1000);
        assert_eq!(record(Kind::Election { voters }).holders(), caller_alone);
        assert_eq!(record(Kind::Command { command: 9 }).holders(), caller_alone);
        assert_eq!(record(Kind::Change).holders(), caller_alone);
        assert_eq!(record(Kind::Commit { voters }).holders(), voters);
    }

    #[test]
    fn the_caller_of_record_zero_reads_as_sixteen() {
        let zero = Record::opening(NodeSet::new(7));
        assert_eq!(zero.caller_number(), 16);
        assert!(Node::all().all(|node| !zero.is_called_by(node)));
        assert_eq!(record(Kind::Change).caller_number(), 3);
    }
}
