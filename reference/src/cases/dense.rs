//! Proofs from derived clauses with variables both ways, in which nearly any two
//! nodes resolve.

use crate::cases::draft::Draft;
use crate::cases::shapes::literal;
use crate::clause::{Clause, Literal};
use crate::edition::Edition;
use crate::rng::Rng;

/// Clauses with many variables both ways and pivots that recur late, so that
/// little is cut and sharing survives into the pressed proof, where the order
/// of premises then hangs on their uses.
pub fn lattice(rng: &mut Rng, edition: Edition, size: usize) -> Draft {
    let mut variables: Vec<u8> = (0..edition.variables()).collect();
    rng.shuffle(&mut variables);
    variables.truncate(rng.between(8, 20));
    let base: Clause = variables.iter().flat_map(both_ways).collect();
    let bases = rng.between(1, 3).min(size.div_ceil(3));
    let mut draft = Draft::default();
    for _ in 0..bases {
        let missing = literal(rng, &variables);
        let room = size - draft.nodes.len();
        draft.add(rng, edition, &base.without(missing), room);
    }
    let same_percent = rng.pick(&[0, 20, 40]);
    while draft.nodes.len() < size {
        let count = draft.nodes.len();
        let unused = draft.unused();
        let one = rng.pick(&unused);
        let other = if rng.chance(same_percent) {
            one
        } else {
            count - 1 - rng.below(count.min(6))
        };
        let pivots = (0..variables.len()).map(|at| variables[(count + at) % variables.len()]);
        let mut pivots = pivots.filter(|&pivot| draft.can_resolve(pivot, one, other));
        match pivots.next() {
            Some(pivot) => draft.resolve(pivot, one, other),
            None => draft.add(rng, edition, &base, size - count),
        };
    }
    draft
}

fn both_ways(&variable: &u8) -> [Literal; 2] {
    [Literal::Plus(variable), Literal::Minus(variable)]
}

/// A derived clause with variables both ways, resolved with itself again and
/// again: as deep as a sheet can be, with parents named twice.
pub fn tower(rng: &mut Rng, edition: Edition, variables: &[u8], size: usize) -> Draft {
    // one variable is left to derive it on
    let most = usize::from(edition.variables()) - 1;
    let variables = &variables[..variables.len().min(most)];
    let base: Clause = variables.iter().flat_map(both_ways).collect();
    let same_percent = rng.pick(&[100, 100, 50, 0]);
    let mut draft = Draft::default();
    let first = draft.add(rng, edition, &base, size);
    while draft.nodes.len() < size && draft.clause(first).holds_both_ways() {
        let last = draft.nodes.len() - 1;
        let other = if rng.chance(same_percent) {
            last
        } else {
            rng.between(first, last)
        };
        let pivot = rng.pick(variables);
        if rng.chance(50) {
            draft.resolve(pivot, last, other);
        } else {
            draft.resolve(pivot, other, last);
        }
    }
    draft
}
