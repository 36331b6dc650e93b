//! Proofs grown from the given clauses down to a conclusion.

use crate::cases::draft::Draft;
use crate::cases::shapes::clause;
use crate::clause::Clause;
use crate::edition::Edition;
use crate::rng::Rng;

/// Grows from the given clauses: chains, trees and shared nodes, depending on
/// which nodes are preferred as parents. Wide clauses can be resolved almost
/// anywhere, which makes dense proofs.
pub fn forward(rng: &mut Rng, edition: Edition, variables: &[u8], size: usize) -> Draft {
    let wide = (2 * variables.len()).min(48);
    let width = rng.pick(&[1, 2, 3, 4, wide, wide]);
    let pool_size = rng.between(2, 12);
    let pool: Vec<Clause> = (0..pool_size)
        .map(|_| clause(rng, variables, width))
        .collect();
    let given_percent = rng.pick(&[5, 20, 45]);
    let taste = Taste {
        last_percent: rng.pick(&[0, 50, 95]),
        unused_percent: rng.pick(&[0, 60, 95]),
    };
    let mut draft = Draft::default();
    while draft.nodes.len() < size {
        let step = if rng.chance(given_percent) {
            None
        } else {
            taste.find_step(rng, &draft, variables)
        };
        match step {
            Some((pivot, left, right)) => draft.resolve(pivot, left, right),
            None => {
                let clause = &pool[rng.below(pool.len())];
                draft.add(rng, edition, clause, size - draft.nodes.len())
            }
        };
    }
    draft
}

/// Which parents `forward` likes: the last node, or nodes nobody uses yet.
struct Taste {
    last_percent: usize,
    unused_percent: usize,
}

impl Taste {
    fn find_step(
        &self,
        rng: &mut Rng,
        draft: &Draft,
        variables: &[u8],
    ) -> Option<(u8, usize, usize)> {
        let last = draft.nodes.len().checked_sub(1)?;
        let unused = draft.unused();
        for _ in 0..40 {
            let one = if rng.chance(self.last_percent) {
                last
            } else if rng.chance(self.unused_percent) {
                rng.pick(&unused)
            } else {
                rng.between(0, last)
            };
            let other = if rng.chance(15) {
                one
            } else {
                rng.between(0, last)
            };
            let pivot = rng.pick(variables);
            if draft.can_resolve(pivot, one, other) {
                return Some((pivot, one, other));
            }
            if draft.can_resolve(pivot, other, one) {
                return Some((pivot, other, one));
            }
        }
        None
    }
}
