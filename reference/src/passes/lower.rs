use crate::clause::{resolve, Literal};
use crate::passes::rebuild::Rebuilt;
use crate::passes::recycle::Edge;
use crate::proof::{Node, Proof};
use std::collections::BTreeMap;

/// A node that is lowered, and the literal on which it comes back.
#[derive(Clone, Copy, Debug, PartialEq, Eq)]
pub struct Low {
    pub node: usize,
    pub literal: Literal,
}

/// What a lowered node that comes back does to the conclusion.
#[derive(Clone, Copy, Debug, PartialEq, Eq)]
pub enum Return {
    Stays,
    Concludes,
    NewStep,
}

/// What lowering leaves behind. The new steps are among the nodes, and not in
/// `rebuilt`.
pub struct Lowered {
    /// In the order in which they come back.
    pub low: Vec<Low>,
    pub rebuilt: Rebuilt,
    pub returns: Vec<Return>,
    pub nodes: BTreeMap<usize, Node>,
    pub conclusion: usize,
}

/// Of a step the edge that leads to a lowered node.
pub fn cut(node: &Node, low: &[Low]) -> Option<Edge> {
    let &Node::Step { left, right, .. } = node else {
        return None;
    };
    let [left, right] = [left, right].map(|parent| low.iter().any(|of| of.node == parent));
    match (left, right) {
        (false, false) => None,
        (true, false) => Some(Edge::Left),
        (false, true) => Some(Edge::Right),
        (true, true) => unreachable!("of opposite literals one is lowered"),
    }
}

/// The return of the lowered nodes, in this order, to what the rebuild made of
/// the rest.
pub fn come_back(proof: &Proof, rebuilt: Rebuilt, low: Vec<Low>) -> Lowered {
    let mut lowered = Lowered {
        returns: vec![],
        nodes: rebuilt.nodes.clone(),
        conclusion: rebuilt.stand_ins[&proof.sink],
        low,
        rebuilt,
    };
    // Parents are smaller, so that the sink is the largest so far.
    let mut number = proof.sink + 1;
    for low in lowered.low.clone() {
        let returned = lowered.bring_back(low, number);
        number += usize::from(returned == Return::NewStep);
        lowered.returns.push(returned);
    }
    lowered
}

impl Lowered {
    /// Document 02 (i): "if the conclusion lacks the opposite of l it stays; else if
    /// the rebuilt unit lacks l, that unit becomes the conclusion; else resolve the
    /// two on l's variable, the unit on the left if l is positive, else on the right,
    /// the new step numbered above all so far." And (xi): "the lowered ones come
    /// back [...] by the three-way rule of (i)."
    fn bring_back(&mut self, Low { node, literal }: Low, number: usize) -> Return {
        let back = self.rebuilt.stand_ins[&node];
        let clause = |number: usize| self.nodes[&number].clause();
        if !clause(self.conclusion).holds(literal.opposite()) {
            return Return::Stays;
        }
        if !clause(back).holds(literal) {
            self.conclusion = back;
            return Return::Concludes;
        }
        let (left, right) = match literal {
            Literal::Plus(_) => (back, self.conclusion),
            Literal::Minus(_) => (self.conclusion, back),
        };
        let pivot = literal.variable();
        let step = Node::Step {
            pivot,
            left,
            right,
            clause: resolve(pivot, clause(left), clause(right)),
        };
        self.nodes.insert(number, step);
        self.conclusion = number;
        Return::NewStep
    }
}
