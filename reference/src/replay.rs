//! The replay.

use crate::clause::Clause;
use crate::edition::Edition;
use crate::judge::{faults, judge, Around, Named};
use crate::lengths::check_inputs;
use crate::proof::Node;
use crate::record::Record;
use crate::refusal::Refusal;
use std::collections::BTreeSet;

/// "each with a node number, two sets and a mark of whether it's in use; a free
/// slot is all zero." The default slot is the free one.
#[derive(Clone, Copy, Debug, Default, PartialEq, Eq)]
pub struct Slot {
    pub used: bool,
    pub node: usize,
    pub positive: u128,
    pub negative: u128,
}

impl Slot {
    pub fn clause(&self) -> Clause {
        Clause::from_numbers(self.positive, self.negative)
    }
}

/// "one small running tally [...]: next node, held, peak, steps."
#[derive(Clone, Copy, Debug, Default, PartialEq, Eq)]
pub struct Tally {
    pub next: usize,
    pub held: usize,
    pub peak: usize,
    pub steps: usize,
}

/// "An accepted replay returns the conclusion, the nodes, the steps it took and
/// the peak it reached."
#[derive(Clone, Copy, Debug, PartialEq, Eq)]
pub struct Replayed {
    pub positive: u128,
    pub negative: u128,
    pub nodes: usize,
    pub steps: usize,
    pub peak: usize,
}

pub fn replay(
    edition: Edition,
    sheet: &[u8],
    rules: &[u8],
    slots: &mut [Slot],
) -> Result<Replayed, Refusal> {
    replay_watched(edition, sheet, rules, slots, |_, _| ())
}

/// The replay, showing the tally and the slots after every record taken.
///
/// "A replay refused by 1 to 4 leaves the slots alone; every other replay,
/// accepted too, ends with all slots free and zero." "What slots [...] held
/// before a call never matters", hence the clearing at the start.
pub fn replay_watched(
    edition: Edition,
    sheet: &[u8],
    rules: &[u8],
    slots: &mut [Slot],
    watch: impl FnMut(&Tally, &[Slot]),
) -> Result<Replayed, Refusal> {
    check_inputs(edition, sheet.len(), rules.len(), edition.replay_records())?;
    slots.fill(Slot::default());
    let answer = replay_records(edition, sheet, rules, slots, watch);
    slots.fill(Slot::default());
    answer
}

/// "16: at the end the last node isn't held"; "16 reports the count of
/// records."
fn replay_records(
    edition: Edition,
    sheet: &[u8],
    rules: &[u8],
    slots: &mut [Slot],
    mut watch: impl FnMut(&Tally, &[Slot]),
) -> Result<Replayed, Refusal> {
    let mut tally = Tally::default();
    for (record, bytes) in sheet.chunks_exact(edition.record_bytes()).enumerate() {
        step(edition, &mut tally, slots, bytes, rules)
            .map_err(|number| Refusal { number, record })?;
        watch(&tally, slots);
    }
    let last = tally.next.checked_sub(1).and_then(|node| find(slots, node));
    let Some(at) = last else {
        let record = sheet.len() / edition.record_bytes();
        return Err(Refusal { number: 16, record });
    };
    Ok(Replayed {
        positive: slots[at].positive,
        negative: slots[at].negative,
        nodes: tally.next,
        steps: tally.steps,
        peak: tally.peak,
    })
}

/// One record. "A refused record changes neither tally nor slots".
pub fn step(
    edition: Edition,
    tally: &mut Tally,
    slots: &mut [Slot],
    bytes: &[u8],
    rules: &[u8],
) -> Result<(), u32> {
    match judge(bytes, &step_faults(edition, tally, slots, bytes, rules))? {
        Record::Node(node) => put(tally, slots, &node),
        Record::Drop { node } => free(tally, slots, node),
    }
    Ok(())
}

/// All numbers of the table that apply to this record now.
pub fn step_faults(
    edition: Edition,
    tally: &Tally,
    slots: &[Slot],
    bytes: &[u8],
    rules: &[u8],
) -> BTreeSet<u32> {
    let named = |node: usize| match find(slots, node) {
        _ if node >= tally.next => Named::NotEarlier,
        Some(at) => Named::Held(slots[at].clause()),
        None => Named::Dropped,
    };
    let around = Around {
        edition,
        rules,
        is_press: false,
        named: &named,
        every_slot_holds_a_node: slots.iter().all(|slot| slot.used),
    };
    faults(bytes, &around)
}

/// "A node takes the lowest free slot".
fn put(tally: &mut Tally, slots: &mut [Slot], node: &Node) {
    let lowest_free = slots.iter_mut().find(|slot| !slot.used);
    *lowest_free.expect("15 was ruled out") = Slot {
        used: true,
        node: tally.next,
        positive: node.clause().positive(),
        negative: node.clause().negative(),
    };
    tally.next += 1;
    tally.held += 1;
    tally.peak = tally.peak.max(tally.held);
    tally.steps += usize::from(matches!(node, Node::Step { .. }));
}

/// "a drop zeroes its slot."
fn free(tally: &mut Tally, slots: &mut [Slot], node: usize) {
    let at = find(slots, node).expect("9 and 10 were ruled out");
    slots[at] = Slot::default();
    tally.held -= 1;
}

fn find(slots: &[Slot], node: usize) -> Option<usize> {
    slots.iter().position(|slot| slot.used && slot.node == node)
}
