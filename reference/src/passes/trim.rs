use crate::proof::{Node, Proof};
use std::collections::{BTreeMap, BTreeSet};

/// "Keep what the sink reaches through parents."
/// "Trim again from the sink's stand-in."
pub fn trim(nodes: &BTreeMap<usize, Node>, sink: usize) -> Proof {
    let mut kept = BTreeSet::new();
    let mut waiting = vec![sink];
    while let Some(number) = waiting.pop() {
        if kept.insert(number) {
            waiting.extend(nodes[&number].parents());
        }
    }
    let nodes = kept.iter().map(|n| (*n, nodes[n].clone())).collect();
    Proof { nodes, sink }
}
