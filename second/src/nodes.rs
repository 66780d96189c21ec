//! Nodes, sets of nodes, and the two questions that are asked of sets.

use std::ops::{BitAnd, BitOr, BitXor, Sub};

/// "Nodes 0 to 15."
pub const NODE_COUNT: usize = 16;

/// One of the sixteen nodes. No other number can be made into one.
#[derive(Clone, Copy, Debug, PartialEq, Eq, PartialOrd, Ord)]
pub struct Node(u8);

impl Node {
    /// The node with this number, if the number is from 0 to 15.
    pub fn from_number(number: u32) -> Option<Node> {
        match u8::try_from(number) {
            Ok(small) if usize::from(small) < NODE_COUNT => Some(Node(small)),
            _ => None,
        }
    }

    /// The node's number, 0 to 15.
    pub fn number(self) -> u32 {
        u32::from(self.0)
    }

    /// The node's place in an array of sixteen.
    pub fn index(self) -> usize {
        usize::from(self.0)
    }

    /// All sixteen nodes, lowest first.
    pub fn all() -> Members {
        NodeSet::EVERY.into_iter()
    }
}

/// "A set of nodes is a 16-bit number in which node i is worth 2^i."
#[derive(Clone, Copy, Debug, Default, PartialEq, Eq)]
pub struct NodeSet(u16);

impl NodeSet {
    /// The set without any node.
    pub const EMPTY: NodeSet = NodeSet(0);

    /// The set of all sixteen nodes.
    pub const EVERY: NodeSet = NodeSet(u16::MAX);

    /// The set that this 16-bit number stands for.
    pub const fn new(bits: u16) -> NodeSet {
        NodeSet(bits)
    }

    /// "A set is at most 65535": larger numbers stand for no set.
    pub fn from_number(number: u32) -> Option<NodeSet> {
        u16::try_from(number).ok().map(NodeSet)
    }

    /// The set with this node alone.
    pub fn only(node: Node) -> NodeSet {
        NodeSet(1 << node.0)
    }

    /// The 16-bit number of this set.
    pub fn bits(self) -> u16 {
        self.0
    }

    /// How many nodes are in the set.
    pub fn len(self) -> u32 {
        self.0.count_ones()
    }

    /// Whether no node is in the set.
    pub fn is_empty(self) -> bool {
        self.0 == 0
    }

    /// Whether this node is in the set.
    pub fn contains(self, node: Node) -> bool {
        self.0 >> node.0 & 1 == 1
    }

    /// Whether every node of this set is in the other.
    pub fn is_subset_of(self, other: NodeSet) -> bool {
        (self - other).is_empty()
    }

    /// "A set S is a majority of members C when twice the number of nodes in
    /// both exceeds the number in C."
    pub fn is_majority_of(self, members: NodeSet) -> bool {
        2 * (self & members).len() > members.len()
    }

    /// "C and D differ in exactly one node."
    pub fn is_one_step_from(self, other: NodeSet) -> bool {
        (self ^ other).len() == 1
    }
}

impl BitAnd for NodeSet {
    type Output = NodeSet;

    fn bitand(self, other: NodeSet) -> NodeSet {
        NodeSet(self.0 & other.0)
    }
}

impl BitOr for NodeSet {
    type Output = NodeSet;

    fn bitor(self, other: NodeSet) -> NodeSet {
        NodeSet(self.0 | other.0)
    }
}

impl BitXor for NodeSet {
    type Output = NodeSet;

    fn bitxor(self, other: NodeSet) -> NodeSet {
        NodeSet(self.0 ^ other.0)
    }
}

impl Sub for NodeSet {
    type Output = NodeSet;

    fn sub(self, other: NodeSet) -> NodeSet {
        NodeSet(self.0 & !other.0)
    }
}

impl FromIterator<Node> for NodeSet {
    fn from_iter<I: IntoIterator<Item = Node>>(nodes: I) -> NodeSet {
        nodes
            .into_iter()
            .fold(NodeSet::EMPTY, |set, node| set | NodeSet::only(node))
    }
}

impl IntoIterator for NodeSet {
    type Item = Node;
    type IntoIter = Members;

    fn into_iter(self) -> Members {
        Members(self.0)
    }
}

/// The nodes of a set, lowest first.
#[derive(Clone, Debug)]
pub struct Members(u16);

impl Iterator for Members {
    type Item = Node;

    fn next(&mut self) -> Option<Node> {
        if self.0 == 0 {
            return None;
        }
        let lowest = self.0.trailing_zeros() as u8;
        self.0 &= self.0 - 1;
        Some(Node(lowest))
    }
}

#[cfg(test)]
mod tests {
    use super::*;

    #[test]
    fn only_sixteen_numbers_are_nodes() {
        let numbers = [0, 1, 15, 16, 17, 255, 256, 271, 65536, u32::MAX];
        let nodes = numbers.map(|number| Node::from_number(number).map(Node::number));
        assert_eq!(nodes[..3], [Some(0), Some(1), Some(15)]);
        assert!(nodes[3..].iter().all(Option::is_none));
    }

    #[test]
    fn a_set_gives_its_nodes_lowest_first() {
        let numbers: Vec<u32> = NodeSet::new(0b1000_0000_0010_1001)
            .into_iter()
            .map(Node::number)
            .collect();
        assert_eq!(numbers, [0, 3, 5, 15]);
        assert_eq!(Node::all().count(), NODE_COUNT);
        assert_eq!(Node::all().collect::<NodeSet>(), NodeSet::EVERY);
    }

    #[test]
    fn nobody_is_no_majority() {
        assert!(!NodeSet::EMPTY.is_majority_of(NodeSet::EMPTY));
        assert!(!NodeSet::EVERY.is_majority_of(NodeSet::EMPTY));
        assert!(!NodeSet::EMPTY.is_majority_of(NodeSet::new(1)));
        assert!(!NodeSet::new(0x00ff).is_majority_of(NodeSet::EVERY));
        assert!(NodeSet::new(0x01ff).is_majority_of(NodeSet::EVERY));
    }

    #[test]
    fn only_nodes_in_both_count_for_a_majority() {
        assert!(!NodeSet::new(0b1111_1001).is_majority_of(NodeSet::new(0b0111)));
        assert!(NodeSet::new(0b1111_1011).is_majority_of(NodeSet::new(0b0111)));
    }
}
