//! Proofs that end in a chain whose left premises are given.

use crate::cases::dense::lattice;
use crate::cases::draft::Draft;
use crate::cases::facts::{facts, lemmas};
use crate::cases::shapes::shuffled;
use crate::clause::{Clause, Literal};
use crate::edition::Edition;
use crate::proof::Node;
use crate::rng::Rng;

/// A proof of another shape, and below it a chain. Bottom-up the chain's given nodes
/// are placed before all else and held to the end. So mostly the top-down order has
/// the smaller peak, whatever its turns come to in the rest of the proof.
pub fn hanging(rng: &mut Rng, edition: Edition, size: usize) -> Draft {
    let links = rng.between(1, 6).min(size.saturating_sub(1) / 2);
    let shape = rng.pick(&[facts, lemmas, lattice]);
    let mut draft = shape(rng, edition, size - 2 * links);
    if rng.chance(50) {
        draft = shuffled(rng, &draft);
    }
    let all = draft.nodes.iter().map(Node::clause);
    let all = all.fold(Clause::default(), |all, clause| all.joined(clause));
    let mut free = all.lacking(edition);
    rng.shuffle(&mut free);
    free.truncate(links);
    if let Some(&first) = free.first() {
        draft = with_literal(rng, &draft, Literal::Minus(first));
    }
    for (at, &pivot) in free.iter().enumerate() {
        let above = draft.nodes.len() - 1;
        let next = free.get(at + 1).map(|&v| Literal::Minus(v));
        let given = [Literal::Plus(pivot)].into_iter().chain(next).collect();
        let given = draft.give(rng, given);
        draft.resolve(pivot, given, above);
    }
    draft
}

/// The same proof with a literal more, on a variable that it lacks, in a given clause
/// above the sink and in all clauses between.
fn with_literal(rng: &mut Rng, draft: &Draft, literal: Literal) -> Draft {
    let mut node = draft.nodes.last().expect("a proof has a sink");
    while let &Node::Step { left, right, .. } = node {
        node = &draft.nodes[rng.pick(&[left, right])];
    }
    let &Node::Given { line, .. } = node else {
        unreachable!("the way up ends at a given node");
    };
    draft.with_rule(line, draft.rules[line].with(literal))
}
