use crate::proof::{Node, Proof};
use std::cmp::Reverse;
use std::collections::{BTreeMap, BTreeSet};

/// Top-down pebbling of source document 002: "At each turn, of the unplaced nodes
/// whose parents are all placed, take the one after which most nodes can be dropped
/// at once; ties go to the smallest number, as nodes were numbered when the order
/// began."
pub fn top_down(pressed: &Proof) -> Vec<usize> {
    top_down_by(pressed, |turn, node| {
        (turn.dropped_after(node).len(), Reverse(node))
    })
}

/// The same turns, each of which takes what ranks highest, so that the tests can
/// tell wrong rankings.
pub fn top_down_by<R: Ord>(pressed: &Proof, rank: impl Fn(&Turn, usize) -> R) -> Vec<usize> {
    let mut turn = Turn::first(pressed);
    while let Some(&node) = turn.ready.iter().max_by_key(|&&node| rank(&turn, node)) {
        turn.place(node);
    }
    turn.placed
}

/// What is known at a turn.
pub struct Turn<'a> {
    pressed: &'a Proof,
    placed: Vec<usize>,
    /// The unplaced nodes whose parents are all placed.
    ready: BTreeSet<usize>,
    /// For each node the unplaced steps that name it.
    waiting: BTreeMap<usize, BTreeSet<usize>>,
}

impl<'a> Turn<'a> {
    fn first(pressed: &'a Proof) -> Turn<'a> {
        let mut waiting: BTreeMap<usize, BTreeSet<usize>> = BTreeMap::new();
        let mut ready = BTreeSet::new();
        for (&number, node) in &pressed.nodes {
            waiting.entry(number).or_default();
            for parent in node.parents() {
                waiting.entry(parent).or_default().insert(number);
            }
            if let Node::Given { .. } = node {
                ready.insert(number);
            }
        }
        Turn {
            pressed,
            placed: vec![],
            ready,
            waiting,
        }
    }

    /// The node's distinct parents.
    pub fn parents(&self, node: usize) -> BTreeSet<usize> {
        self.pressed.nodes[&node].parents().into_iter().collect()
    }

    /// What can be dropped at once after an unplaced node: its distinct parents all
    /// of whose naming steps are then placed. The sink is no parent.
    pub fn dropped_after(&self, node: usize) -> BTreeSet<usize> {
        let only_one = |parent: &usize| self.waiting[parent].len() == 1;
        self.parents(node).into_iter().filter(only_one).collect()
    }

    fn place(&mut self, node: usize) {
        self.ready.remove(&node);
        self.placed.push(node);
        for parent in self.parents(node) {
            self.waiting.entry(parent).or_default().remove(&node);
        }
        for &step in &self.waiting[&node] {
            let is_placed = |parent: &usize| self.placed.contains(parent);
            if self.parents(step).iter().all(is_placed) {
                self.ready.insert(step);
            }
        }
    }
}
