//! A valid proof under construction, with the rule table it needs.

use crate::clause::{resolve, Clause, Literal};
use crate::edition::Edition;
use crate::proof::Node;
use crate::record::Record;
use crate::rng::Rng;

#[derive(Clone, Default)]
pub struct Draft {
    pub nodes: Vec<Node>,
    pub rules: Vec<Clause>,
}

impl Draft {
    /// Adds a given node. Mostly an existing line with this clause serves, but
    /// tables may say the same thing on two lines.
    pub fn give(&mut self, rng: &mut Rng, clause: Clause) -> usize {
        let known = self.rules.iter().position(|rule| *rule == clause);
        let line = known.filter(|_| rng.chance(80)).unwrap_or_else(|| {
            self.rules.push(clause.clone());
            self.rules.len() - 1
        });
        self.nodes.push(Node::Given { line, clause });
        self.nodes.len() - 1
    }

    /// Adds a clause, with at most `room` new nodes: a given node, or a derived
    /// one if it holds a variable both ways. Where there is no room for that, a
    /// given node with as much of it as may be.
    pub fn add(&mut self, rng: &mut Rng, edition: Edition, clause: &Clause, room: usize) -> usize {
        if !clause.holds_both_ways() {
            self.give(rng, clause.clone())
        } else if room < nodes_for(clause) {
            self.give(rng, clause.one_way())
        } else {
            self.derive(rng, edition, clause)
        }
    }

    /// Adds two given nodes and the step that makes the clause of them, on a
    /// variable that it lacks. Of a variable that it holds both ways, each given
    /// node has one literal.
    pub fn derive(&mut self, rng: &mut Rng, edition: Edition, clause: &Clause) -> usize {
        let pivot = rng.pick(&clause.lacking(edition));
        let mut left = Clause::default().with(Literal::Plus(pivot));
        let mut right = Clause::default().with(Literal::Minus(pivot));
        let all = 0..edition.variables();
        let swapped: Vec<bool> = all.map(|_| rng.chance(50)).collect();
        for literal in clause.literals() {
            let is_plus = matches!(literal, Literal::Plus(_));
            if is_plus != swapped[usize::from(literal.variable())] {
                left = left.with(literal);
            } else {
                right = right.with(literal);
            }
        }
        let left = self.give(rng, left);
        let right = self.give(rng, right);
        self.resolve(pivot, left, right)
    }

    /// Adds a step, which must be possible.
    pub fn resolve(&mut self, pivot: u8, left: usize, right: usize) -> usize {
        let clause = resolve(pivot, self.clause(left), self.clause(right));
        self.nodes.push(Node::Step {
            pivot,
            left,
            right,
            clause,
        });
        self.nodes.len() - 1
    }

    pub fn can_resolve(&self, pivot: u8, left: usize, right: usize) -> bool {
        self.clause(left).holds(Literal::Plus(pivot))
            && self.clause(right).holds(Literal::Minus(pivot))
    }

    /// The nodes that no step names; the last one is always among them.
    pub fn unused(&self) -> Vec<usize> {
        let mut is_used = vec![false; self.nodes.len()];
        for parent in self.nodes.iter().flat_map(Node::parents) {
            is_used[parent] = true;
        }
        (0..self.nodes.len()).filter(|&n| !is_used[n]).collect()
    }

    pub fn clause(&self, number: usize) -> &Clause {
        self.nodes[number].clause()
    }

    /// The same proof with its nodes in another order, which must put parents
    /// before children.
    pub fn reordered(&self, order: &[usize]) -> Draft {
        let mut new = vec![0; order.len()];
        for (at, &old) in order.iter().enumerate() {
            new[old] = at;
        }
        let nodes = order
            .iter()
            .map(|&old| self.nodes[old].renumbered(|parent| new[parent]));
        Draft {
            nodes: nodes.collect(),
            rules: self.rules.clone(),
        }
    }

    /// The same proof, but that a rule line which is named holds a variable both
    /// ways. All else is still good.
    pub fn with_a_rule_both_ways(&self, rng: &mut Rng, edition: Edition) -> Draft {
        let line_of = |node: &Node| match node {
            Node::Given { line, .. } => Some(*line),
            Node::Step { .. } => None,
        };
        let lines: Vec<usize> = self.nodes.iter().filter_map(line_of).collect();
        let line = rng.pick(&lines);
        let clause = &self.rules[line];
        let held: Vec<u8> = clause.literals().map(Literal::variable).collect();
        let v = match held.is_empty() {
            true => rng.below(edition.variables().into()) as u8,
            false => rng.pick(&held),
        };
        self.with_rule(line, clause.with(Literal::Plus(v)).with(Literal::Minus(v)))
    }

    /// The same proof with another clause on a rule line, in which the old one lies.
    pub fn with_rule(&self, line: usize, clause: Clause) -> Draft {
        let mut draft = Draft {
            nodes: vec![],
            rules: self.rules.clone(),
        };
        draft.rules[line] = clause;
        for node in &self.nodes {
            match *node {
                Node::Given { line, .. } => {
                    let clause = draft.rules[line].clone();
                    draft.nodes.push(Node::Given { line, clause });
                }
                Node::Step {
                    pivot, left, right, ..
                } => drop(draft.resolve(pivot, left, right)),
            }
        }
        draft
    }

    pub fn sheet(&self, edition: Edition) -> Vec<u8> {
        let records = self.nodes.iter().cloned().map(Record::Node);
        records.flat_map(|record| record.write(edition)).collect()
    }

    pub fn rule_table(&self, edition: Edition) -> Vec<u8> {
        let lines = self.rules.iter();
        lines.flat_map(|clause| clause.write(edition)).collect()
    }
}

/// How many nodes a clause takes: a given one, or two and a step if it holds a
/// variable both ways.
pub fn nodes_for(clause: &Clause) -> usize {
    match clause.holds_both_ways() {
        true => 3,
        false => 1,
    }
}
