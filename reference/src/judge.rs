//! Whether one record is good, given what came before it.

use crate::clause::{resolve, Clause, Literal};
use crate::edition::Edition;
use crate::proof::Node;
use crate::record::Record;
use std::collections::BTreeSet;

/// What came of a node number that a record names.
pub enum Named {
    NotEarlier,
    Dropped,
    Held(Clause),
}

/// What the judge knows besides the bytes of the record.
pub struct Around<'a> {
    pub edition: Edition,
    pub rules: &'a [u8],
    pub is_press: bool,
    pub named: &'a dyn Fn(usize) -> Named,
    pub every_slot_holds_a_node: bool,
}

/// The numbers that a record can get, in the order in which they are tried:
/// document 01's order, "18 is tried right after 12", and 17 "after 14 and before
/// 15".
pub const TRIED: [u32; 12] = [6, 7, 8, 9, 10, 11, 12, 18, 13, 14, 17, 15];

/// "the first bad record answers", with the first number that applies.
pub fn judge(bytes: &[u8], faults: &BTreeSet<u32>) -> Result<Record, u32> {
    match TRIED.iter().find(|&number| faults.contains(number)) {
        Some(&number) => Err(number),
        None => Ok(Record::read(bytes).expect("a faultless record reads")),
    }
}

/// All numbers of the table that apply, so that no order of checking is hidden
/// in the code.
pub fn faults(bytes: &[u8], around: &Around) -> BTreeSet<u32> {
    let Some(record) = Record::read(bytes) else {
        return BTreeSet::from([6]);
    };
    let mut faults = BTreeSet::new();
    if record
        .zero_bytes(around.edition)
        .iter()
        .any(|&at| bytes[at] != 0)
    {
        faults.insert(7);
    }
    match record {
        Record::Node(node) => {
            if around.every_slot_holds_a_node {
                faults.insert(15);
            }
            faults.extend(node_faults(&node, around));
        }
        Record::Drop { node } => {
            if around.is_press {
                faults.insert(6);
            }
            faults.extend(naming_fault(&(around.named)(node)));
        }
    }
    faults
}

fn node_faults(node: &Node, around: &Around) -> BTreeSet<u32> {
    match node {
        Node::Given { line, clause } => given_faults(*line, clause, around),
        Node::Step {
            pivot,
            left,
            right,
            clause,
        } => {
            let left = (around.named)(*left);
            let right = (around.named)(*right);
            let mut faults = step_faults(*pivot, &left, &right, clause);
            // "8 pivot over 63"; "pivots up to 127" in the wide edition
            if *pivot >= around.edition.variables() {
                faults.insert(8);
            }
            faults
        }
    }
}

/// "13 rule line beyond the table", "14 given clause differs from its rule line",
/// 17 "holding a variable both ways".
fn given_faults(line: usize, clause: &Clause, around: &Around) -> BTreeSet<u32> {
    let mut lines = around.rules.chunks_exact(around.edition.line_bytes());
    let mut faults = match lines.nth(line) {
        None => BTreeSet::from([13]),
        Some(rule) if Clause::read(rule) != *clause => BTreeSet::from([14]),
        Some(_) => BTreeSet::new(),
    };
    if clause.holds_both_ways() {
        faults.insert(17);
    }
    faults
}

/// "11 +p missing on the left or -p on the right",
/// "12 now means that the written clause lacks a literal of the result; a new 18
/// means that it lacks none but has at least one too many."
fn step_faults(pivot: u8, left: &Named, right: &Named, written: &Clause) -> BTreeSet<u32> {
    let mut faults = BTreeSet::new();
    faults.extend(naming_fault(left));
    faults.extend(naming_fault(right));
    if let (Named::Held(left), Named::Held(right)) = (left, right) {
        if !left.holds(Literal::Plus(pivot)) || !right.holds(Literal::Minus(pivot)) {
            faults.insert(11);
        }
        let result = resolve(pivot, left, right);
        if !result.is_within(written) {
            faults.insert(12);
        } else if *written != result {
            faults.insert(18);
        }
    }
    faults
}

/// "9 named node isn't earlier", "10 named node was dropped".
fn naming_fault(named: &Named) -> Option<u32> {
    match named {
        Named::NotEarlier => Some(9),
        Named::Dropped => Some(10),
        Named::Held(_) => None,
    }
}
