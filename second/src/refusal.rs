//! The refusal numbers.

/// Why something is refused. The number of each is its place in the
/// document's table of refusal numbers.
///
/// Which of them a line of the replay program can cause:
///
/// * 1 to 12: every one.
/// * 13 never. A version rises by one only with a record that is added. In
///   one term a head of version v needs v commands or changes, the election
///   above them and record 0, so v + 2 records. With 256 places v is at most
///   254, and then 12 is what comes.
/// * 14 and 15 never. They belong to reading, and no line reads.
/// * 16 and 17 never. Every state that lines lead to comes from a fresh
///   table, and "from a fresh table 16 and 17 never occur".
#[derive(Clone, Copy, Debug, PartialEq, Eq)]
pub enum Refusal {
    /// "The set to open with, or the new set, is empty."
    EmptySet = 1,
    /// "The caller's number is over 15."
    CallerOver15 = 2,
    /// "The caller is not among the voters, or not in the new set."
    CallerLeftOut = 3,
    /// "A voter is not a member (pull: of the base; push: of the target)."
    VoterNotMember = 4,
    /// "Pull: a voter's clock is at or past the time; push: a voter's clock
    /// is past the target's time."
    ClockTooLate = 5,
    /// "The caller doesn't lead."
    CallerDoesNotLead = 6,
    /// "The target is no record, or no command or change, or has another
    /// caller, or a time other than the caller's clock."
    WrongTarget = 7,
    /// "A commit of this caller and time has a version at or past the
    /// target's."
    AlreadyCommitted = 8,
    /// "The new set is not one step from the head's members."
    NotOneStep = 9,
    /// "The head's path has an open change (R2)."
    OpenChange = 10,
    /// "The head's path has no commit with the head's time (R3)."
    NoCommitOfHeadsTime = 11,
    /// "A record is to be added and 256 exist."
    NoPlaceLeft = 12,
    /// "The head's version is 255."
    VersionAtItsEnd = 13,
    /// "Reading: no log entry, no record or no clock has that number."
    NothingToRead = 14,
    /// "Reading: the lent buffer has fewer places than the log."
    BufferTooSmall = 15,
    /// "The state handed in is no table."
    NoTable = 16,
    /// "Push with a majority: the latest commit isn't on the target's path."
    LatestCommitOffPath = 17,
}

impl Refusal {
    /// The highest refusal number.
    pub const HIGHEST: usize = 17;

    /// The number that the document gives this refusal.
    pub fn number(self) -> u8 {
        self as u8
    }

    /// Whether a line of the replay program can cause this refusal.
    pub fn can_come_from_a_line(self) -> bool {
        self.number() <= 12
    }

    /// Refuses with this number if the condition holds.
    pub fn when(self, condition: bool) -> Result<(), Refusal> {
        if condition {
            Err(self)
        } else {
            Ok(())
        }
    }
}
