//! Random lines. They are made by looking at the present table, so that most
//! of them nearly succeed: many do, many are short, and many fail by just one
//! condition.

use crate::nodes::{Node, NodeSet};
use crate::random::Random;
use crate::record::{RecordNumber, MOST_RECORDS};
use crate::replay::{Answer, Session};
use crate::state::{Proposal, State};
use crate::wild;

/// Numbers over 15 that a careless program might take for a node.
const CALLERS_OVER_15: [u32; 9] = [16, 17, 31, 32, 255, 256, 65_535, 65_536, u32::MAX];

/// Makes lines and answers them in a session of its own, to know the table
/// that the next line meets.
#[derive(Clone, Debug)]
pub struct Maker {
    random: Random,
    session: Session,
    temper: Temper,
    lines_left: u32,
}

impl Maker {
    /// The maker of this seed. Half of the seeds begin with lines before the
    /// first opening.
    pub fn new(seed: u64) -> Maker {
        let mut random = Random::new(seed);
        let lines_left = if random.percent(50) {
            random.between(1, 8)
        } else {
            0
        };
        Maker {
            temper: Temper::pick(&mut random),
            session: Session::new(),
            lines_left,
            random,
        }
    }

    /// The session in which the lines made so far were answered.
    pub fn session(&self) -> &Session {
        &self.session
    }

    /// Puts the next line, without its newline, in place of what `line` had,
    /// and answers it.
    pub fn next_line(&mut self, line: &mut Vec<u8>) -> Answer {
        line.clear();
        self.compose(line);
        debug_assert!(!line.contains(&b'\n'));
        self.session.answer(line)
    }

    /// Whether the last line is to go without its newline. This asks a copy of
    /// the random stream, so that a longer run begins with the same lines.
    pub fn leaves_out_last_newline(&self) -> bool {
        self.random.clone().percent(30)
    }

    /// Whether the table has as many records as it can have. The session then
    /// goes on for about fifty lines.
    fn is_full(&self) -> bool {
        let table = self.session.table();
        table.is_some_and(|state| state.records.len() == MOST_RECORDS)
    }

    fn compose(&mut self, line: &mut Vec<u8>) {
        if self.lines_left == 0 {
            self.temper = Temper::pick(&mut self.random);
            self.lines_left = self.temper.length;
            line.extend(opening(&mut self.random).bytes());
            return;
        }
        self.lines_left -= 1;
        if self.is_full() && self.random.below(50) == 0 {
            self.lines_left = 0;
        }
        let refused_openings = if self.session.table().is_some() {
            150
        } else {
            8
        };
        if self.random.below(refused_openings) == 0 {
            line.extend(b"O 0");
            return;
        }
        let stand_in = State::open(NodeSet::new(7)).0;
        let mut proposer = Proposer {
            state: self.session.table().unwrap_or(&stand_in),
            random: &mut self.random,
            temper: &self.temper,
        };
        let proposal = proposer.proposal();
        if self.random.percent(self.temper.wild) {
            wild::compose(&mut self.random, &proposal.to_string(), line);
        } else {
            line.extend(proposal.to_string().bytes());
        }
    }
}

/// A line that opens a table.
fn opening(random: &mut Random) -> String {
    let lowest_nodes = |count: u32| (1u32 << count) - 1;
    let set = match random.below(10) {
        0 => return "O".to_string(),
        1 | 2 => 7,
        3 => 1 << random.below(16),
        4 | 5 => lowest_nodes(random.between(2, 6)),
        6 => lowest_nodes(random.between(7, 16)),
        7 | 8 => 1 << random.below(16) | 1 << random.below(16) | 1 << random.below(16),
        _ => random.between(1, 65_535),
    };
    format!("O {set}")
}

/// How times rise from one pull to the next.
#[derive(Clone, Copy, Debug, PartialEq, Eq)]
enum Times {
    Close,
    Jumping,
    NearTheEnd,
}

/// What the lines of one session are like. Numbers are percents, if nothing
/// else is said.
#[derive(Clone, Debug)]
struct Temper {
    /// How many lines the session has after its opening.
    length: u32,
    /// The weights of pull, invoke, reconfigure and push.
    weights: [u32; 4],
    /// How often a good proposal is spoiled.
    spoiled: u32,
    /// How often a line is wild.
    wild: u32,
    /// How often a vote is made short.
    short: u32,
    /// How often an older leader is taken although there is a newer one.
    old_leaders: u32,
    /// How times rise.
    times: Times,
}

impl Temper {
    fn pick(random: &mut Random) -> Temper {
        let mut temper = Temper {
            length: random.between(20, 200),
            weights: [12, 35, 10, 35],
            spoiled: 20,
            wild: 3,
            short: 20,
            old_leaders: 30,
            times: Times::Close,
        };
        match random.below(10) {
            0 => temper.length = random.between(1, 20),
            1 | 2 => {
                // Leaders come and go.
                temper.weights = [35, 25, 10, 30];
                temper.old_leaders = 60;
            }
            3 | 4 => {
                // Member sets that change all the time.
                temper.weights = [12, 12, 35, 40];
                temper.spoiled = 8;
                temper.length = random.between(50, 500);
            }
            5 | 6 => {
                // The table gets full, and lines go on coming.
                temper.weights = [5, 55, 8, 30];
                temper.spoiled = 10;
                temper.wild = 1;
                temper.short = 5;
                temper.length = random.between(350, 700);
            }
            7 => {
                // Nearly every line has something wrong with it.
                temper.weights = [20, 15, 25, 40];
                temper.spoiled = 60;
            }
            8 => temper.wild = 40,
            _ => {}
        }
        temper.times = match random.below(12) {
            0 | 1 => Times::Jumping,
            2 => Times::NearTheEnd,
            _ => Times::Close,
        };
        temper
    }
}

/// Makes one proposal for one state.
struct Proposer<'a> {
    state: &'a State,
    random: &'a mut Random,
    temper: &'a Temper,
}

impl Proposer<'_> {
    fn proposal(&mut self) -> Proposal {
        let mut proposal = self.good_proposal();
        if self.random.percent(self.temper.spoiled) {
            proposal = self.spoil(proposal);
            // With two things wrong, the order of the conditions shows.
            if self.random.percent(30) {
                proposal = self.spoil(proposal);
            }
        }
        proposal
    }

    /// A proposal that is meant to be accepted, or to be short.
    fn good_proposal(&mut self) -> Proposal {
        let Some(leader) = self.leader() else {
            return if self.random.percent(90) {
                self.pull()
            } else {
                let node = self.any_node();
                self.invoke(node)
            };
        };
        match self.random.weighted(&self.temper.weights) {
            0 => self.pull(),
            1 => self.invoke(leader),
            2 => self.reconfigure(leader),
            _ => self.push(leader),
        }
    }
}

/// Looking around.
impl Proposer<'_> {
    fn any_node(&mut self) -> Node {
        self.any_of(NodeSet::EVERY)
    }

    /// One node of a set, or of all sixteen if the set is empty.
    fn any_of(&mut self, set: NodeSet) -> Node {
        let set = if set.is_empty() { NodeSet::EVERY } else { set };
        let skipped = self.random.below(set.len()) as usize;
        set.into_iter().nth(skipped).expect("skips fewer than all")
    }

    fn any_record(&mut self) -> RecordNumber {
        self.random.index(self.state.records.len()) as RecordNumber
    }

    /// All nodes that lead.
    fn leaders(&self) -> NodeSet {
        let called = self.state.records.iter();
        called
            .filter_map(|record| Some((record.caller?, record.time)))
            .filter(|&(caller, time)| self.state.clock(caller) == time)
            .map(|(caller, _)| caller)
            .collect()
    }

    /// A leader: most often the one with the latest clock.
    fn leader(&mut self) -> Option<Node> {
        let leaders = self.leaders();
        if leaders.is_empty() {
            None
        } else if self.random.percent(self.temper.old_leaders) {
            Some(self.any_of(leaders))
        } else {
            leaders
                .into_iter()
                .max_by_key(|&node| self.state.clock(node))
        }
    }

    fn latest_clock(&self, nodes: NodeSet) -> u32 {
        let clocks = nodes.into_iter().map(|node| self.state.clock(node));
        clocks.max().unwrap_or(0)
    }

    /// Voters for a vote among `members`: the caller and others from `pool`,
    /// most often enough of them.
    fn gather(&mut self, caller: Node, pool: NodeSet, members: NodeSet) -> NodeSet {
        let majority = members.len() / 2 + 1;
        let wanted = if self.random.percent(self.temper.short) {
            self.random.between(1, majority) - 1
        } else {
            match self.random.below(4) {
                0 => members.len(),
                1 => self.random.between(majority, members.len().max(majority)),
                _ => majority,
            }
        };
        let mut voters = NodeSet::only(caller);
        let mut others = pool - voters;
        while voters.len() < wanted && !others.is_empty() {
            let other = NodeSet::only(self.any_of(others));
            voters = voters | other;
            others = others - other;
        }
        voters
    }
}

/// Proposals that are meant well.
impl Proposer<'_> {
    fn pull(&mut self) -> Proposal {
        if self.random.percent(20) {
            return self.probe();
        }
        let near = match self.random.below(8) {
            0 => NodeSet::EVERY,
            1 | 2 => {
                let number = self.any_record();
                self.state.at(number).members
            }
            _ => {
                let number = self.state.latest_commit().unwrap_or(0);
                self.state.at(number).members
            }
        };
        let caller = self.any_of(near);
        let members = self.members_of_base(NodeSet::only(caller));
        let pool = if self.random.percent(40) {
            members - self.leaders()
        } else {
            members
        };
        let mut voters = self.gather(caller, pool, members);
        if self.random.percent(75) {
            voters = (voters & self.members_of_base(voters)) | NodeSet::only(caller);
        }
        Proposal::Pull {
            caller: caller.number(),
            voters,
            time: self.later_time(voters),
        }
    }

    /// A pull with no other voter, at the caller's clock or just past it. It
    /// shows what the clock is.
    fn probe(&mut self) -> Proposal {
        let caller = self.any_node();
        let clock = self.state.clock(caller);
        Proposal::Pull {
            caller: caller.number(),
            voters: NodeSet::only(caller),
            time: clock.saturating_add(self.random.below(2)),
        }
    }

    fn members_of_base(&self, voters: NodeSet) -> NodeSet {
        let base = self.state.base(voters).unwrap_or(0);
        self.state.at(base).members
    }

    /// A time that is past the voters' clocks, as long as there is one.
    fn later_time(&mut self, voters: NodeSet) -> u32 {
        if self.random.percent(8) {
            let node = self.any_of(voters);
            return self.state.clock(node).saturating_add(1);
        }
        let watched = if self.random.percent(20) {
            NodeSet::EVERY
        } else {
            voters
        };
        let latest = self.latest_clock(watched);
        let step = match self.temper.times {
            Times::NearTheEnd if latest < u32::MAX - 60 => {
                return u32::MAX - self.random.below(60);
            }
            Times::Jumping if self.random.percent(40) => {
                self.random.word() >> self.random.below(32)
            }
            _ if self.random.percent(80) => 1,
            _ => self.random.between(1, 4),
        };
        latest.saturating_add(step.max(1))
    }

    fn invoke(&mut self, caller: Node) -> Proposal {
        let command = match self.random.below(8) {
            0 => self
                .random
                .pick(&[0, 65_535, 65_536, u32::MAX - 1, u32::MAX]),
            1 | 2 => self.random.word(),
            _ => self.random.below(1000),
        };
        Proposal::Invoke {
            caller: caller.number(),
            command,
        }
    }

    /// A change by one node. When the rules R2 or R3 stand against it, what
    /// helps is mostly done first.
    fn reconfigure(&mut self, caller: Node) -> Proposal {
        let Some(head) = self.state.head(caller) else {
            return self.pull();
        };
        let is_hindered =
            self.state.has_open_change(head) || !self.state.has_commit_of_its_time(head);
        if is_hindered && self.random.percent(70) {
            return self.push(caller);
        }
        let members = self.state.at(head).members;
        let others = NodeSet::EVERY - NodeSet::only(caller);
        let is_to_grow = self.random.percent(if members.len() < 5 { 65 } else { 35 });
        let candidates = if is_to_grow {
            others - members
        } else {
            others & members
        };
        let moved = if candidates.is_empty() {
            self.any_of(others)
        } else {
            self.any_of(candidates)
        };
        Proposal::Reconfigure {
            caller: caller.number(),
            new_set: members ^ NodeSet::only(moved),
        }
    }

    /// A push of something that this leader can still commit. If there is
    /// nothing, a command is added.
    fn push(&mut self, caller: Node) -> Proposal {
        let Some(target) = self.target(caller) else {
            return self.invoke(caller);
        };
        let record = self.state.at(target);
        let in_time: NodeSet = record
            .members
            .into_iter()
            .filter(|&member| self.state.clock(member) <= record.time)
            .collect();
        let pool = if self.random.percent(85) {
            in_time
        } else {
            record.members
        };
        Proposal::Push {
            caller: caller.number(),
            voters: self.gather(caller, pool, record.members),
            target: u32::from(target),
        }
    }

    fn target(&mut self, caller: Node) -> Option<RecordNumber> {
        let clock = self.state.clock(caller);
        let mut open = Vec::new();
        let mut committed_version = 0;
        for (number, record) in self.state.numbered() {
            if record.is_called_by(caller) && record.time == clock {
                if record.is_command_or_change() {
                    open.push(number);
                } else if record.is_commit() {
                    committed_version = committed_version.max(record.version);
                }
            }
        }
        open.retain(|&number| self.state.at(number).version > committed_version);
        let latest = *open.last()?;
        Some(match self.random.below(10) {
            0..=4 => latest,
            5..=6 => open[0],
            _ => self.random.pick(&open),
        })
    }
}

/// Proposals with something wrong.
impl Proposer<'_> {
    /// Changes one thing, most often so that just one condition fails.
    fn spoil(&mut self, proposal: Proposal) -> Proposal {
        match proposal {
            Proposal::Pull {
                caller,
                voters,
                time,
            } => self.spoil_pull(caller, voters, time),
            Proposal::Invoke { caller, command } => Proposal::Invoke {
                caller: self.wrong_caller(caller),
                command,
            },
            Proposal::Reconfigure { caller, new_set } => self.spoil_reconfigure(caller, new_set),
            Proposal::Push {
                caller,
                voters,
                target,
            } => self.spoil_push(caller, voters, target),
        }
    }

    fn wrong_caller(&mut self, caller: u32) -> u32 {
        match self.random.below(6) {
            0 => self.random.pick(&CALLERS_OVER_15),
            1 => caller.wrapping_add(16),
            2 => caller.wrapping_add(256 * self.random.between(1, 3)),
            _ => self.any_node().number(),
        }
    }

    fn spoil_pull(&mut self, caller: u32, voters: NodeSet, time: u32) -> Proposal {
        let mut caller = caller;
        let mut voters = voters;
        let mut time = time;
        match self.random.below(10) {
            0 | 1 => caller = self.wrong_caller(caller),
            2 | 3 => voters = self.voters_without(caller, voters),
            4 => voters = voters | NodeSet::only(self.any_node()),
            5 => voters = voters | self.outsiders(self.members_of_base(voters)),
            6 | 7 => time = self.latest_clock(voters),
            8 => {
                time = self
                    .random
                    .pick(&[0, time.saturating_sub(2), time.wrapping_add(1)])
            }
            _ => voters = self.odd_set(),
        }
        Proposal::Pull {
            caller,
            voters,
            time,
        }
    }

    fn spoil_reconfigure(&mut self, caller: u32, new_set: NodeSet) -> Proposal {
        let mut caller = caller;
        let mut new_set = new_set;
        match self.random.below(9) {
            0 | 1 => caller = self.wrong_caller(caller),
            2 => new_set = NodeSet::EMPTY,
            3 => new_set = self.voters_without(caller, new_set),
            4 | 5 => new_set = new_set ^ NodeSet::only(self.any_node()),
            6 => {
                let head = Node::from_number(caller).and_then(|node| self.state.head(node));
                new_set = head.map_or(new_set, |head| self.state.at(head).members);
            }
            7 => {
                let number = self.any_record();
                new_set = self.state.at(number).members;
            }
            _ => new_set = self.odd_set(),
        }
        Proposal::Reconfigure { caller, new_set }
    }

    fn spoil_push(&mut self, caller: u32, voters: NodeSet, target: u32) -> Proposal {
        let mut caller = caller;
        let mut voters = voters;
        let mut target = target;
        match self.random.below(14) {
            0 | 1 => caller = self.wrong_caller(caller),
            2 | 3 => voters = self.voters_without(caller, voters),
            4 => voters = voters | NodeSet::only(self.any_node()),
            5 => {
                let members = self.state.records.get(target as usize);
                let members = members.map_or(voters, |record| record.members);
                voters = voters | self.outsiders(members);
            }
            6 | 7 => voters = self.voters_with_the_latest(voters, target),
            8 => voters = self.odd_set(),
            9 | 10 => target = self.committed_target(caller).unwrap_or(target),
            11 => target = self.own_target(caller).unwrap_or(target),
            12 => target = u32::from(self.any_record()),
            _ => target = self.wrong_target(),
        }
        Proposal::Push {
            caller,
            voters,
            target,
        }
    }

    /// The set without the caller.
    fn voters_without(&self, caller: u32, voters: NodeSet) -> NodeSet {
        Node::from_number(caller).map_or(voters, |node| voters - NodeSet::only(node))
    }

    /// One node that is not in this set, if there is one.
    fn outsiders(&mut self, members: NodeSet) -> NodeSet {
        let outside = NodeSet::EVERY - members;
        if outside.is_empty() {
            outside
        } else {
            NodeSet::only(self.any_of(outside))
        }
    }

    /// The voters and that member of the target whose clock is the latest.
    fn voters_with_the_latest(&self, voters: NodeSet, target: u32) -> NodeSet {
        let Some(record) = self.state.records.get(target as usize) else {
            return voters;
        };
        let members = record.members.into_iter();
        match members.max_by_key(|&member| self.state.clock(member)) {
            Some(latest) => voters | NodeSet::only(latest),
            None => voters,
        }
    }

    fn odd_set(&mut self) -> NodeSet {
        let bits = self.random.word() as u16;
        NodeSet::new(self.random.pick(&[0, u16::MAX, 1, 0x8000, bits]))
    }

    /// A command or change of this caller, committed or not, of any time.
    fn own_target(&mut self, caller: u32) -> Option<u32> {
        let node = Node::from_number(caller)?;
        let own: Vec<RecordNumber> = self
            .state
            .numbered()
            .filter(|(_, record)| record.is_called_by(node) && record.is_command_or_change())
            .map(|(number, _)| number)
            .collect();
        (!own.is_empty()).then(|| u32::from(self.random.pick(&own)))
    }

    /// A command or change of this caller and its present time that a commit
    /// has already reached. Every other time it is the last one.
    fn committed_target(&mut self, caller: u32) -> Option<u32> {
        let node = Node::from_number(caller)?;
        let clock = self.state.clock(node);
        let own = || {
            let numbered = self.state.numbered();
            numbered.filter(|(_, record)| record.is_called_by(node) && record.time == clock)
        };
        let commits = own().filter(|(_, record)| record.is_commit());
        let reached = commits.map(|(_, record)| record.version).max()?;
        let committed: Vec<RecordNumber> = own()
            .filter(|(_, record)| record.is_command_or_change() && record.version <= reached)
            .map(|(number, _)| number)
            .collect();
        let last = *committed.last()?;
        Some(u32::from(if self.random.percent(50) {
            last
        } else {
            self.random.pick(&committed)
        }))
    }

    fn wrong_target(&mut self) -> u32 {
        let count = self.state.records.len() as u32;
        let odd = [
            count,
            count + 1,
            255,
            256,
            257,
            65_536,
            65_536 + count - 1,
            u32::MAX,
        ];
        self.random.pick(&odd)
    }
}
