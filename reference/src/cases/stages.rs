//! Proofs that stay as deep as they are made, whatever the recycling.

use crate::cases::draft::Draft;
use crate::clause::{Clause, Literal};
use crate::edition::Edition;
use crate::rng::Rng;

/// How the chains have their given nodes. Shared: one node for a variable, which
/// every stage names. Held: each step names one of its own, on the left, which is
/// placed before all that lies above the step and is held until then.
#[derive(Clone, Copy, PartialEq, Eq)]
pub enum Givens {
    Shared,
    Held,
}

/// A proof of up to so many nodes, and of nearly as many. Each stage takes {+u}
/// to {+w}: a chain of steps goes from {+u} by the chain's variables to {+z},
/// and then {-u,-z,+w} is resolved with {+u} and with {+z}. What both uses of
/// {+u} allow has none of the chain's variables, so that the stage above resolves
/// on them again and nothing is cut. All variables of the stages differ.
pub fn stages(edition: Edition, size: usize, givens: Givens) -> Draft {
    let (chain, stages) = lengths(edition, size, givens);
    let mut maker = Maker {
        draft: Draft::default(),
        rng: Rng::new(0, 0),
        shared: vec![],
        givens,
        chain,
    };
    let of_stage = |stage: usize| (chain + 1 + stage) as u8;
    let mut last = maker.give(&[Literal::Plus(of_stage(0))]);
    for stage in 0..stages {
        last = maker.stage(last, of_stage(stage), of_stage(stage + 1));
    }
    maker.draft
}

/// The variables of a chain and the number of stages with which the proof is
/// deepest.
fn lengths(edition: Edition, size: usize, givens: Givens) -> (usize, usize) {
    let variables = usize::from(edition.variables());
    let stages = |chain: usize| {
        let (once, each) = match givens {
            Givens::Shared => (1 + chain, chain + 5),
            Givens::Held => (1, 2 * chain + 5),
        };
        (size.saturating_sub(once) / each).min(variables - chain - 2)
    };
    let deepest = (1..variables - 2).max_by_key(|&chain| stages(chain) * (chain + 2));
    let chain = deepest.expect("an edition has variables");
    (chain, stages(chain))
}

struct Maker {
    draft: Draft,
    rng: Rng,
    shared: Vec<usize>,
    givens: Givens,
    /// The chain's variables are those below, and the one that it ends with.
    chain: usize,
}

impl Maker {
    fn give(&mut self, literals: &[Literal]) -> usize {
        let clause: Clause = literals.iter().copied().collect();
        self.draft.give(&mut self.rng, clause)
    }

    fn stage(&mut self, from: usize, u: u8, w: u8) -> usize {
        let z = self.chain as u8;
        let first = self.give(&[Literal::Minus(u), self.held(0)]);
        let mut last = self.draft.resolve(u, from, first);
        for variable in 0..z {
            let given = self.chain_given(variable);
            last = match self.held(variable) {
                Literal::Plus(v) => self.draft.resolve(v, last, given),
                Literal::Minus(v) => self.draft.resolve(v, given, last),
            };
        }
        let rule = self.give(&[Literal::Minus(u), Literal::Minus(z), Literal::Plus(w)]);
        let rest = self.draft.resolve(u, from, rule);
        self.draft.resolve(z, last, rest)
    }

    /// The literal by which a chain's clause holds a variable: negative where the
    /// given node is to be the left premise.
    fn held(&self, variable: u8) -> Literal {
        match self.givens {
            Givens::Held if usize::from(variable) < self.chain => Literal::Minus(variable),
            _ => Literal::Plus(variable),
        }
    }

    /// What takes a chain from a variable to the next.
    fn chain_given(&mut self, variable: u8) -> usize {
        let known = self.shared.get(usize::from(variable)).copied();
        known.unwrap_or_else(|| {
            let literals = [self.held(variable).opposite(), self.held(variable + 1)];
            let given = self.give(&literals);
            if self.givens == Givens::Shared {
                self.shared.push(given);
            }
            given
        })
    }
}

/// A proof of up to so many nodes in which two steps name every derived one: of
/// {+v} and {+w} each level makes {+v'} and {+w'}, the one by v and then w, the
/// other the other way round. Of what the two hand to {+v}, or to {+w}, only its
/// own literal is common to both, so that two pairs of variables are enough.
pub fn ladder(size: usize) -> Draft {
    let mut draft = Draft::default();
    let mut rng = Rng::new(0, 0);
    let mut give = |draft: &mut Draft, clause: &[Literal]| {
        draft.give(&mut rng, clause.iter().copied().collect())
    };
    let pairs = [[0, 1], [2, 3]];
    let rules = [[0, 1], [1, 0]].map(|[from, to]| {
        let [v, w] = pairs[from].map(Literal::Minus);
        pairs[to].map(|made: u8| give(&mut draft, &[v, w, Literal::Plus(made)]))
    });
    let [mut one, mut other] = pairs[0].map(|v| give(&mut draft, &[Literal::Plus(v)]));
    let end = pairs.map(|pair| give(&mut draft, &pair.map(Literal::Minus)));
    let levels = size.saturating_sub(draft.nodes.len() + 2) / 4;
    for level in 0..levels {
        let ([v, w], [first, second]) = (pairs[level % 2], rules[level % 2]);
        let rest = draft.resolve(v, one, first);
        let made = draft.resolve(w, other, rest);
        let rest = draft.resolve(w, other, second);
        (one, other) = (made, draft.resolve(v, one, rest));
    }
    let [v, w] = pairs[levels % 2];
    let rest = draft.resolve(v, one, end[levels % 2]);
    draft.resolve(w, other, rest);
    draft
}
