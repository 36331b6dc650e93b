//! The press.

use crate::edition::Edition;
use crate::judge::{faults, judge, Around, Named};
use crate::lengths::{check_inputs, check_room};
use crate::passes::drops::peak;
use crate::passes::lower::Lowered;
use crate::passes::order::{ordered, Order, Ordered};
use crate::passes::rebuild::{rebuild, Rebuilt};
use crate::passes::recycle::{cuts, recycle, Visits};
use crate::passes::trim::trim;
use crate::passes::units::lower_units;
use crate::passes::univalents::lower_univalents;
use crate::plan::{Lowering, Plan};
use crate::proof::{Node, Proof};
use crate::record::Record;
use crate::refusal::Refusal;
use std::collections::{BTreeMap, BTreeSet};

/// "An accepted press returns conclusion, record count, node count, step count
/// (resolution records), peak and number of marked lines." And of the two orders,
/// "the answer says which it was".
#[derive(Clone, Copy, Debug, PartialEq, Eq)]
pub struct Pressed {
    pub positive: u128,
    pub negative: u128,
    pub records: usize,
    pub nodes: usize,
    pub steps: usize,
    pub peak: usize,
    pub marked: usize,
    pub order: Order,
}

/// What every pass left behind, kept so that tests and the coverage table can
/// look inside a press.
pub struct Passes {
    pub input: Proof,
    pub trimmed: Proof,
    pub visits: Visits,
    pub rebuilt: Rebuilt,
    /// What step 4 leaves.
    pub recycled: Proof,
    pub lowered: Option<Lowered>,
    pub pressed: Proof,
    pub bottom_up: Vec<usize>,
    pub top_down: Vec<usize>,
    pub emitted: Order,
    pub records: Vec<Record>,
}

impl Passes {
    /// The order that is emitted.
    pub fn order(&self) -> &[usize] {
        match self.emitted {
            Order::BottomUp => &self.bottom_up,
            Order::TopDown => &self.top_down,
        }
    }
}

/// "A refused press changes neither output nor marks." Both are written only
/// once nothing can be refused any more.
pub fn press(
    plan: Plan,
    sheet: &[u8],
    rules: &[u8],
    out: &mut [u8],
    marks: &mut [u8],
) -> Result<Pressed, Refusal> {
    let edition = plan.edition;
    check_inputs(edition, sheet.len(), rules.len(), edition.press_records())?;
    check_room(edition, sheet.len(), rules.len(), out.len(), marks.len())?;
    let passes = run_passes(plan, read_proof(edition, sheet, rules)?);
    let core = core(&passes.records);

    let records = passes.records.iter();
    let bytes: Vec<u8> = records.flat_map(|record| record.write(edition)).collect();
    out[..bytes.len()].copy_from_slice(&bytes);
    let lines = rules.len() / edition.line_bytes();
    for (line, mark) in marks.iter_mut().enumerate().take(lines) {
        *mark = u8::from(core.contains(&line));
    }
    let conclusion = passes.pressed.conclusion();
    Ok(Pressed {
        positive: conclusion.positive(),
        negative: conclusion.negative(),
        records: passes.records.len(),
        nodes: passes.pressed.nodes.len(),
        steps: passes.pressed.steps(),
        peak: peak(&passes.records),
        marked: core.len(),
        order: passes.emitted,
    })
}

/// "Then records in order: the first bad record answers". A good sheet has no
/// drops here, so a record's number is its node's number.
pub fn read_proof(edition: Edition, sheet: &[u8], rules: &[u8]) -> Result<Proof, Refusal> {
    let mut nodes: BTreeMap<usize, Node> = BTreeMap::new();
    for (record, bytes) in sheet.chunks_exact(edition.record_bytes()).enumerate() {
        match judge(bytes, &record_faults(edition, &nodes, bytes, rules)) {
            Err(number) => return Err(Refusal { number, record }),
            Ok(Record::Node(node)) => nodes.insert(record, node),
            Ok(Record::Drop { .. }) => unreachable!("the press refuses kind 3"),
        };
    }
    let sink = nodes.len() - 1;
    Ok(Proof { nodes, sink })
}

/// All numbers of the table that apply to this record after these nodes.
pub fn record_faults(
    edition: Edition,
    earlier: &BTreeMap<usize, Node>,
    bytes: &[u8],
    rules: &[u8],
) -> BTreeSet<u32> {
    let named = |number: usize| match earlier.get(&number) {
        Some(node) => Named::Held(node.clause().clone()),
        None => Named::NotEarlier,
    };
    let around = Around {
        edition,
        rules,
        is_press: true,
        named: &named,
        every_slot_holds_a_node: false,
    };
    faults(bytes, &around)
}

/// "How a sheet is pressed", steps 1 to 6, by the passes chosen.
pub fn run_passes(plan: Plan, input: Proof) -> Passes {
    let trimmed = trim(&input.nodes, input.sink);
    let visits = recycle(&trimmed, plan.recycling);
    let rebuilt = rebuild(&trimmed, &cuts(&visits));
    let recycled = trim(&rebuilt.nodes, rebuilt.stand_ins[&trimmed.sink]);
    let lowered = match plan.lowering {
        Lowering::Nothing => None,
        Lowering::Units => Some(lower_units(&recycled)),
        Lowering::Univalents => Some(lower_univalents(&recycled)),
    };
    let pressed = match &lowered {
        None => recycled.clone(),
        Some(lowered) => trim(&lowered.nodes, lowered.conclusion),
    };
    let Ordered {
        bottom_up,
        top_down,
        emitted,
        records,
    } = ordered(&pressed);
    Passes {
        input,
        trimmed,
        visits,
        rebuilt,
        recycled,
        lowered,
        pressed,
        bottom_up,
        top_down,
        emitted,
        records,
    }
}

/// "The core is the set of rule lines of the emitted given records."
fn core(records: &[Record]) -> BTreeSet<usize> {
    let line = |record: &Record| match record {
        Record::Node(Node::Given { line, .. }) => Some(*line),
        _ => None,
    };
    records.iter().filter_map(line).collect()
}
