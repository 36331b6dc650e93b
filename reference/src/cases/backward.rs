//! Proofs grown from the conclusion up to given clauses.

use crate::cases::draft::{nodes_for, Draft};
use crate::cases::shapes::clause;
use crate::clause::{Clause, Literal};
use crate::edition::Edition;
use crate::rng::Rng;

/// Grows from the conclusion upwards: trees, irregular when variables are few,
/// with some nodes shared when the same clause is wanted again.
pub fn backward(rng: &mut Rng, edition: Edition, variables: &[u8], size: usize) -> Draft {
    let goal_width = rng.pick(&[0, 0, 1, 3]);
    let mut goal = clause(rng, variables, goal_width);
    if size < nodes_for(&goal) {
        goal = goal.one_way();
    }
    let mut grower = Grower {
        edition,
        draft: Draft::default(),
        variables,
        share_percent: rng.pick(&[0, 10, 60]),
        lopsided_percent: rng.pick(&[0, 50, 100]),
    };
    grower.prove(rng, goal, size);
    grower.draft
}

struct Grower<'a> {
    edition: Edition,
    draft: Draft,
    variables: &'a [u8],
    share_percent: usize,
    lopsided_percent: usize,
}

impl Grower<'_> {
    /// Proves exactly `goal` with at most `budget` new nodes, which must be enough
    /// for it.
    fn prove(&mut self, rng: &mut Rng, goal: Clause, budget: usize) -> usize {
        if rng.chance(self.share_percent) {
            let known = self.draft.nodes.iter().position(|n| *n.clause() == goal);
            if let Some(number) = known {
                return number;
            }
        }
        let Some(plan) = self.plan(rng, &goal, budget) else {
            return self.draft.add(rng, self.edition, &goal, budget);
        };
        let left = self.prove(rng, plan.left, plan.left_budget);
        let right = self.prove(rng, plan.right, budget - 1 - plan.left_budget);
        self.draft.resolve(plan.pivot, left, right)
    }

    /// Two goals that the budget is enough for, if some are found.
    fn plan(&self, rng: &mut Rng, goal: &Clause, budget: usize) -> Option<Plan> {
        for _ in 0..8 {
            let pivot = rng.pick(self.variables);
            let (left, right) = split(rng, goal, pivot);
            let least = nodes_for(&left);
            let most = budget.saturating_sub(1 + nodes_for(&right));
            if least <= most {
                let left_budget = if rng.chance(self.lopsided_percent) {
                    rng.pick(&[least, most])
                } else {
                    rng.between(least, most)
                };
                return Some(Plan {
                    pivot,
                    left,
                    right,
                    left_budget,
                });
            }
        }
        None
    }
}

/// A step to a goal, and how many nodes its left premise may take.
struct Plan {
    pivot: u8,
    left: Clause,
    right: Clause,
    left_budget: usize,
}

/// Two clauses that resolve on `pivot` to exactly `goal`. The left one can't
/// bring +pivot into the result and the right one can't bring -pivot.
pub(super) fn split(rng: &mut Rng, goal: &Clause, pivot: u8) -> (Clause, Clause) {
    let mut left = Clause::default().with(Literal::Plus(pivot));
    let mut right = Clause::default().with(Literal::Minus(pivot));
    for literal in goal.literals() {
        let side = match literal {
            Literal::Plus(v) if v == pivot => 1,
            Literal::Minus(v) if v == pivot => 0,
            _ => rng.below(3),
        };
        if side != 1 {
            left = left.with(literal);
        }
        if side != 0 {
            right = right.with(literal);
        }
    }
    (left, right)
}
