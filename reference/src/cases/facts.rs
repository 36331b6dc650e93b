//! Proofs that prove small facts early and use them everywhere.

use crate::cases::backward::split;
use crate::cases::draft::Draft;
use crate::cases::shapes::{clause, literal};
use crate::clause::{Clause, Literal};
use crate::edition::Edition;
use crate::rng::Rng;
use std::cmp::Reverse;
use std::collections::BTreeSet;

/// A fact is a clause of one literal, and may be proved by earlier ones. Now and
/// then two of them say the same, or the opposite. The rest of the proof is a tree
/// with facts above its leaves, each level on a variable of its own, so that
/// recycling leaves most of it.
pub fn facts(rng: &mut Rng, edition: Edition, size: usize) -> Draft {
    let (few, most) = (rng.between(1, 4), rng.between(1, 3));
    Grower::new(rng, most, 0).grow(rng, edition, few, size)
}

/// The same with facts that hold if earlier ones do: their clauses have opposites
/// of those beside their own literal. Whoever names such a fact names the earlier
/// ones after it.
pub fn lemmas(rng: &mut Rng, edition: Edition, size: usize) -> Draft {
    let (few, most) = (rng.between(2, 6), rng.between(2, 5));
    Grower::new(rng, most, 85).grow(rng, edition, few, size)
}

struct Fact {
    node: usize,
    literal: Literal,
    /// The earlier facts whose opposites it holds.
    rest: Vec<usize>,
    /// With so many steps, at most, it and what it brings are resolved away.
    steps: usize,
}

struct Grower {
    draft: Draft,
    facts: Vec<Fact>,
    /// How many steps with facts a leaf may take.
    most: usize,
    /// How likely a fact is to hold the opposite of an earlier one, and those that
    /// bring most to be named first.
    rest_percent: usize,
    share_percent: usize,
}

impl Grower {
    fn new(rng: &mut Rng, most: usize, rest_percent: usize) -> Grower {
        Grower {
            draft: Draft::default(),
            facts: vec![],
            most,
            rest_percent,
            share_percent: rng.pick(&[0, 50]),
        }
    }

    /// Facts are on a few variables of their own, or on any.
    fn grow(mut self, rng: &mut Rng, edition: Edition, few: usize, size: usize) -> Draft {
        let mut levels: Vec<u8> = (0..edition.variables()).collect();
        rng.shuffle(&mut levels);
        levels.truncate(16);
        let own = match rng.chance(80) {
            true => levels.split_off(levels.len() - few),
            false => levels.clone(),
        };
        let facts = rng.between(2, 6);
        while self.facts.len() < facts && self.draft.nodes.len() + 3 <= size / 2 {
            match self.facts.iter().rposition(|fact| !fact.rest.is_empty()) {
                Some(at) if rng.chance(20) => self.free(at),
                _ => self.prove_fact(rng, &own),
            }
        }
        let width = rng.pick(&[0, 0, 0, 1, 2]);
        let goal = clause(rng, &own, width).one_way();
        let budget = size - self.draft.nodes.len();
        self.prove(rng, goal, &levels, budget);
        self.draft
    }

    /// A fact without the rest of an earlier one, by the facts that it hangs on.
    fn free(&mut self, at: usize) {
        let Fact { node, literal, .. } = self.facts[at];
        let rest = self.facts[at].rest.iter().copied().collect();
        let node = self.resolve_away(node, rest, &Clause::default().with(literal));
        self.facts.push(Fact {
            node,
            literal,
            rest: vec![],
            steps: 1,
        });
    }

    fn prove_fact(&mut self, rng: &mut Rng, own: &[u8]) {
        let earlier = (!self.facts.is_empty()).then(|| rng.below(self.facts.len()));
        let literal = match (rng.below(10), earlier) {
            (0..=1, Some(at)) => self.facts[at].literal,
            (2..=3, Some(at)) => self.facts[at].literal.opposite(),
            _ => literal(rng, own),
        };
        let kept = Clause::default().with(literal);
        let all = 0..self.facts.len();
        let rest: Vec<usize> = all.filter(|_| rng.chance(self.rest_percent)).collect();
        let (kept, rest) = self.with_opposites(kept, &rest, 2);
        let most = rng.below(3);
        let node = self.give(rng, &kept, most);
        let steps = 1 + rest.iter().map(|&at| self.facts[at].steps).sum::<usize>();
        self.facts.push(Fact {
            node,
            literal,
            rest,
            steps,
        });
    }

    /// Proves exactly `goal`, which holds no variable both ways, with at most
    /// `budget` new nodes.
    fn prove(&mut self, rng: &mut Rng, goal: Clause, levels: &[u8], budget: usize) -> usize {
        let mut nodes = self.draft.nodes.iter();
        let known = nodes.position(|node| *node.clause() == goal);
        if let Some(number) = known.filter(|_| rng.chance(self.share_percent)) {
            return number;
        }
        let lacks = |&v: &u8| !goal.literals().any(|literal| literal.variable() == v);
        match levels.iter().position(lacks) {
            Some(at) if budget > rng.between(2, 3 + self.most) => {
                let (pivot, above) = (levels[at], &levels[at + 1..]);
                let (left, right) = split(rng, &goal, pivot);
                let half = rng.between((budget - 1) / 3, (budget - 1) / 2);
                let left = self.prove(rng, left, above, half.max(1));
                let right = self.prove(rng, right, above, budget - 1 - half.max(1));
                self.draft.resolve(pivot, left, right)
            }
            _ => self.give(rng, &goal, self.most.min(budget - 1)),
        }
    }

    /// Gives the clause with the opposites of some facts, on variables that it lacks,
    /// and resolves them away, with at most so many steps.
    fn give(&mut self, rng: &mut Rng, clause: &Clause, most: usize) -> usize {
        let mut facts: Vec<usize> = (0..self.facts.len()).collect();
        rng.shuffle(&mut facts);
        if rng.chance(self.rest_percent) {
            facts.sort_by_key(|&at| Reverse(self.facts[at].rest.len()));
        }
        let (given, named) = self.with_opposites(clause.clone(), &facts, most);
        let node = self.draft.give(rng, given);
        self.resolve_away(node, named.into_iter().collect(), clause)
    }

    /// Resolves a node with these facts, and with those that they hang on, until only
    /// what is to be kept is left.
    fn resolve_away(&mut self, node: usize, mut facts: BTreeSet<usize>, kept: &Clause) -> usize {
        let mut node = node;
        // a fact brings only opposites of earlier ones
        while let Some(at) = facts.pop_last() {
            let fact = &self.facts[at];
            let brought = fact.literal.opposite();
            if self.draft.clause(node).holds(brought) && !kept.holds(brought) {
                facts.extend(&fact.rest);
                let (left, right) = match fact.literal {
                    Literal::Plus(_) => (fact.node, node),
                    Literal::Minus(_) => (node, fact.node),
                };
                node = self.draft.resolve(brought.variable(), left, right);
            }
        }
        node
    }

    /// The clause with the opposites of those of the facts, in this order, whose
    /// variables it lacks, as far as so many steps go; and which these are.
    fn with_opposites(
        &self,
        mut clause: Clause,
        facts: &[usize],
        mut steps: usize,
    ) -> (Clause, Vec<usize>) {
        let mut named = vec![];
        for &at in facts {
            let fact = &self.facts[at];
            let held = clause.holds(fact.literal) || clause.holds(fact.literal.opposite());
            if fact.steps <= steps && !held {
                clause = clause.with(fact.literal.opposite());
                steps -= fact.steps;
                named.push(at);
            }
        }
        (clause, named)
    }
}
