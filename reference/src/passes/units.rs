use crate::passes::lower::{come_back, cut, Low, Lowered};
use crate::passes::rebuild::rebuild;
use crate::proof::Proof;

/// LowerUnits of source document 001, of what step 4 leaves: "Uses of collected
/// nodes are cut; the rebuild rule of 01 follows, over all nodes. Then, in order of
/// collection", they come back.
pub fn lower_units(proof: &Proof) -> Lowered {
    let units = collect(proof);
    let cuts = proof.nodes.iter();
    let cuts = cuts.map(|(&number, node)| (number, cut(node, &units)));
    come_back(proof, rebuild(proof, &cuts.collect()), units)
}

/// "From the sink down by number, collect each node whose clause is a single
/// literal, that has two or more uses, and whose literal's opposite hasn't been
/// collected."
fn collect(proof: &Proof) -> Vec<Low> {
    let uses = proof.uses();
    let mut units: Vec<Low> = vec![];
    for (&node, of) in proof.nodes.iter().rev() {
        let mut literals = of.clause().literals();
        let (Some(literal), None) = (literals.next(), literals.next()) else {
            continue;
        };
        let opposite = |unit: &Low| unit.literal == literal.opposite();
        if uses[&node] >= 2 && !units.iter().any(opposite) {
            units.push(Low { node, literal });
        }
    }
    units
}
