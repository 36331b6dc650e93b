use crate::clause::{Clause, Literal};
use crate::passes::lower::{come_back, cut, Low, Lowered};
use crate::passes::rebuild::Rebuilt;
use crate::proof::{Node, Proof};
use std::collections::BTreeMap;

/// What is known of a node at its turn.
pub struct Turn<'a> {
    pub node: usize,
    /// The literals that its uses are on, one for each place.
    pub uses: &'a [Literal],
    /// "its rebuilt clause".
    pub clause: &'a Clause,
    pub d: &'a Clause,
}

/// LowerUnivalents of source document 001, of what step 4 leaves.
pub fn lower_univalents(proof: &Proof) -> Lowered {
    lower_by(proof, lowers)
}

/// "Rising numbers, rebuilding on the way, with a set D, empty at first [...] Its
/// uses are cut and the opposite of l joins D. At the end the lowered ones come back,
/// last lowered first". By any rule for which are lowered, so that the tests can
/// tell wrong ones and the coverage table can look at each turn.
pub fn lower_by(proof: &Proof, mut rule: impl FnMut(&Turn) -> Option<Literal>) -> Lowered {
    let uses = literals_of_uses(proof);
    let (mut rebuilt, mut d, mut low) = (Rebuilt::default(), Clause::default(), vec![]);
    for (&node, of) in &proof.nodes {
        rebuilt.turn(node, of, cut(of, &low));
        let turn = Turn {
            node,
            uses: &uses[&node],
            clause: rebuilt.clause(node),
            d: &d,
        };
        if let Some(literal) = rule(&turn) {
            d = d.with(literal.opposite());
            low.push(Low { node, literal });
        }
    }
    low.reverse();
    come_back(proof, rebuilt, low)
}

/// "a node with two or more uses, all on one and the same literal l, is lowered if
/// its rebuilt clause holds l, the rest of that clause lies in D, and neither l nor
/// its opposite is in D."
pub fn lowers(turn: &Turn) -> Option<Literal> {
    let (&l, others) = turn.uses.split_first()?;
    let univalent = !others.is_empty() && others.iter().all(|other| *other == l);
    let fits = turn.clause.holds(l) && turn.clause.without(l).is_within(turn.d);
    let is_new = !turn.d.holds(l) && !turn.d.holds(l.opposite());
    (univalent && fits && is_new).then_some(l)
}

/// For each node the literals that its uses are on: the pivot's positive literal
/// where it is a left parent, and the negative one where it is a right parent.
pub fn literals_of_uses(proof: &Proof) -> BTreeMap<usize, Vec<Literal>> {
    let mut uses: BTreeMap<usize, Vec<Literal>> =
        proof.nodes.keys().map(|&node| (node, vec![])).collect();
    for node in proof.nodes.values() {
        if let &Node::Step {
            pivot, left, right, ..
        } = node
        {
            let sides = [(left, Literal::Plus(pivot)), (right, Literal::Minus(pivot))];
            for (parent, literal) in sides {
                uses.entry(parent).or_default().push(literal);
            }
        }
    }
    uses
}
