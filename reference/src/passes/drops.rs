use crate::proof::Proof;
use crate::record::Record;
use std::collections::BTreeMap;

/// "Right after the record that uses a node last comes its drop; two drops go
/// by rising number in the pressed sheet. The sink is never dropped."
pub fn with_drops(pressed: &Proof, order: &[usize]) -> Vec<Record> {
    let new: BTreeMap<usize, usize> = order.iter().enumerate().map(|(at, &n)| (n, at)).collect();
    let nodes = order
        .iter()
        .map(|old| pressed.nodes[old].renumbered(|parent| new[&parent]));
    let nodes: Vec<_> = nodes.collect();

    // Later users overwrite earlier ones, and a parent named twice by one step
    // still has a single last user, hence a single drop.
    let mut last_user = BTreeMap::new();
    for (user, node) in nodes.iter().enumerate() {
        for parent in node.parents() {
            last_user.insert(parent, user);
        }
    }

    let mut records = vec![];
    for (number, node) in nodes.into_iter().enumerate() {
        records.push(Record::Node(node));
        let dropped = last_user.iter().filter(|(_, &user)| user == number);
        records.extend(dropped.map(|(&node, _)| Record::Drop { node }));
    }
    records
}

/// "Peak is the largest number of nodes held after any record."
pub fn peak(records: &[Record]) -> usize {
    let mut held = 0;
    let mut peak = 0;
    for record in records {
        match record {
            Record::Node(_) => held += 1,
            Record::Drop { .. } => held -= 1,
        }
        peak = peak.max(held);
    }
    peak
}
