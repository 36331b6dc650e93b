//! A proof: numbered nodes and the sink.

use crate::clause::Clause;
use std::collections::BTreeMap;

/// "Nodes are given and resolution records". Numbers in `left` and `right`
/// name nodes; `line` names a rule line.
#[derive(Clone, Debug, PartialEq, Eq)]
pub enum Node {
    Given {
        line: usize,
        clause: Clause,
    },
    Step {
        pivot: u8,
        left: usize,
        right: usize,
        clause: Clause,
    },
}

impl Node {
    pub fn clause(&self) -> &Clause {
        match self {
            Node::Given { clause, .. } | Node::Step { clause, .. } => clause,
        }
    }

    /// The places of this node that name another, so a parent named on both
    /// sides comes twice.
    pub fn parents(&self) -> Vec<usize> {
        match *self {
            Node::Given { .. } => vec![],
            Node::Step { left, right, .. } => vec![left, right],
        }
    }

    /// The same node under another numbering.
    pub fn renumbered(&self, new: impl Fn(usize) -> usize) -> Node {
        match self.clone() {
            Node::Step {
                pivot,
                left,
                right,
                clause,
            } => Node::Step {
                pivot,
                left: new(left),
                right: new(right),
                clause,
            },
            given => given,
        }
    }
}

#[derive(Clone, Debug, PartialEq, Eq)]
pub struct Proof {
    pub nodes: BTreeMap<usize, Node>,
    pub sink: usize,
}

impl Proof {
    /// "Uses of a node are the places naming it in the trimmed sheet, so one
    /// step naming it twice counts two."
    pub fn uses(&self) -> BTreeMap<usize, usize> {
        let mut uses: BTreeMap<usize, usize> = self.nodes.keys().map(|&n| (n, 0)).collect();
        for parent in self.nodes.values().flat_map(Node::parents) {
            *uses.entry(parent).or_default() += 1;
        }
        uses
    }

    pub fn steps(&self) -> usize {
        let is_step = |node: &&Node| matches!(node, Node::Step { .. });
        self.nodes.values().filter(is_step).count()
    }

    pub fn conclusion(&self) -> &Clause {
        self.nodes[&self.sink].clause()
    }
}
