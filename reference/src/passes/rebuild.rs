use crate::clause::{resolve, Clause, Literal};
use crate::passes::recycle::Edge;
use crate::proof::{Node, Proof};
use std::collections::BTreeMap;

/// The nodes to rebuild, and of each step that is cut the edge.
pub type Cuts = BTreeMap<usize, Option<Edge>>;

/// Why a step got the stand-in it has.
#[derive(Clone, Copy, Debug, PartialEq, Eq)]
pub enum Why {
    Given,
    Cut,
    LeftLacksPivot,
    RightLacksPivot,
    NewStep,
}

#[derive(Clone, Default)]
pub struct Rebuilt {
    pub nodes: BTreeMap<usize, Node>,
    pub stand_ins: BTreeMap<usize, usize>,
    pub why: BTreeMap<usize, Why>,
}

/// "Rebuild, rising numbers, reached nodes only."
pub fn rebuild(proof: &Proof, cuts: &Cuts) -> Rebuilt {
    let mut rebuilt = Rebuilt::default();
    for (&number, &cut) in cuts {
        rebuilt.turn(number, &proof.nodes[&number], cut);
    }
    rebuilt
}

impl Rebuilt {
    /// "A given node stands for itself. A cut step is replaced by its kept parent's
    /// stand-in." The parents have had their turns.
    pub fn turn(&mut self, number: usize, node: &Node, cut: Option<Edge>) {
        let (stand_in, why) = match (node, cut) {
            (Node::Given { .. }, _) => {
                self.nodes.insert(number, node.clone());
                (number, Why::Given)
            }
            (Node::Step { right, .. }, Some(Edge::Left)) => (self.stand_ins[right], Why::Cut),
            (Node::Step { left, .. }, Some(Edge::Right)) => (self.stand_ins[left], Why::Cut),
            (Node::Step { .. }, None) => self.rebuild_step(number, node),
        };
        self.stand_ins.insert(number, stand_in);
        self.why.insert(number, why);
    }

    /// The clause of the node's stand-in.
    pub fn clause(&self, number: usize) -> &Clause {
        self.nodes[&self.stand_ins[&number]].clause()
    }

    /// "Otherwise: left stand-in lacks +p, take it; else right lacks -p, take
    /// that; else a new step, which keeps the old one's number, pivot and
    /// sides."
    fn rebuild_step(&mut self, number: usize, old: &Node) -> (usize, Why) {
        let &Node::Step {
            pivot, left, right, ..
        } = old
        else {
            unreachable!("only steps are rebuilt");
        };
        let (left_clause, right_clause) = (self.clause(left), self.clause(right));
        let (left, right) = (self.stand_ins[&left], self.stand_ins[&right]);
        if !left_clause.holds(Literal::Plus(pivot)) {
            return (left, Why::LeftLacksPivot);
        }
        if !right_clause.holds(Literal::Minus(pivot)) {
            return (right, Why::RightLacksPivot);
        }
        let new_step = Node::Step {
            pivot,
            left,
            right,
            clause: resolve(pivot, left_clause, right_clause),
        };
        self.nodes.insert(number, new_step);
        (number, Why::NewStep)
    }
}
