use crate::clause::{Clause, Literal};
use crate::passes::rebuild::Cuts;
use crate::plan::Recycling;
use crate::proof::{Node, Proof};
use std::collections::BTreeMap;

#[derive(Clone, Copy, Debug, PartialEq, Eq)]
pub enum Edge {
    Left,
    Right,
}

/// What recycling finds out about a reached node: its set S, and the edge that
/// is cut if it is a step with a cut.
#[derive(Clone, Debug, PartialEq, Eq)]
pub struct Visit {
    pub s: Clause,
    pub cut: Option<Edge>,
}

pub type Visits = BTreeMap<usize, Visit>;

/// "From the sink down by number, each reached node has a set S. The sink is
/// reached, and so is each parent on an uncut edge of a reached step." Document
/// 02 (v): "From now on the sink's S is its clause."
pub fn recycle(trimmed: &Proof, recycling: Recycling) -> Visits {
    let uses = trimmed.uses();
    // For each node that is reached: what each edge hands it. Parents have
    // smaller numbers, so all of it is there when the node's turn comes.
    let mut handed = BTreeMap::from([(trimmed.sink, vec![trimmed.conclusion().clone()])]);
    let mut visits = Visits::new();
    for (&number, node) in trimmed.nodes.iter().rev() {
        let Some(sets) = handed.remove(&number) else {
            continue;
        };
        let s = match recycling {
            Recycling::Reset => reset(uses[&number], &sets),
            Recycling::Intersection => intersection(&sets),
        };
        let cut = cut(node, &s);
        let visit = Visit { s, cut };
        for (parent, set) in uncut_edges(node, &visit) {
            handed.entry(parent).or_default().push(set);
        }
        visits.insert(number, visit);
    }
    visits
}

/// "A node with two or more uses has S empty. Otherwise S comes from its only
/// use."
fn reset(uses: usize, handed: &[Clause]) -> Clause {
    match (uses, handed) {
        (0 | 1, [only]) => only.clone(),
        _ => Clause::default(),
    }
}

/// "a node's S is the intersection over all its uncut edges from reached steps of
/// what each would hand it."
fn intersection(handed: &[Clause]) -> Clause {
    let common = handed.iter().cloned().reduce(|s, set| s.common(&set));
    common.expect("a reached node is handed a set")
}

/// "At a step with pivot p: if -p is in S, the left edge is cut [...]; else if
/// +p is in S, the right edge is cut".
fn cut(node: &Node, s: &Clause) -> Option<Edge> {
    match *node {
        Node::Step { pivot, .. } if s.holds(Literal::Minus(pivot)) => Some(Edge::Left),
        Node::Step { pivot, .. } if s.holds(Literal::Plus(pivot)) => Some(Edge::Right),
        _ => None,
    }
}

/// What the rebuild is told: "reached nodes only", and their cuts.
pub fn cuts(visits: &Visits) -> Cuts {
    visits.iter().map(|(&n, visit)| (n, visit.cut)).collect()
}

/// "the left edge is cut and the right parent gets S; [...] the right edge is
/// cut and the left parent gets S; else left gets S with +p, right gets S with
/// -p."
pub fn uncut_edges(node: &Node, visit: &Visit) -> Vec<(usize, Clause)> {
    let &Node::Step {
        pivot, left, right, ..
    } = node
    else {
        return vec![];
    };
    match visit.cut {
        Some(Edge::Left) => vec![(right, visit.s.clone())],
        Some(Edge::Right) => vec![(left, visit.s.clone())],
        None => vec![
            (left, visit.s.with(Literal::Plus(pivot))),
            (right, visit.s.with(Literal::Minus(pivot))),
        ],
    }
}
