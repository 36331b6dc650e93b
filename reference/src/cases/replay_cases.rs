//! Cases for the replay.

use crate::cases::damage::{noise, spoil_length, spoil_records, spoil_rule_table, stir_records};
use crate::cases::draft::Draft;
use crate::cases::drop_damage::spoil_drops;
use crate::cases::{shapes, Case, Size};
use crate::edition::Edition;
use crate::plan::Plan;
use crate::press::{read_proof, run_passes};
use crate::record::Record;
use crate::replay::{replay_watched, Slot};
use crate::rng::Rng;

/// With its drops, a sheet has nearly twice as many records.
const SMALL_NODES: usize = 9;

pub fn draw(rng: &mut Rng, edition: Edition, size: Size) -> Case {
    let small = size == Size::Small;
    let nodes = size.nodes(rng, edition, SMALL_NODES);
    let draft = shapes::draw(rng, edition, nodes);
    let mut rules = draft.rule_table(edition);
    let mut sheet = base_sheet(rng, edition, &draft);
    if rng.chance(25) {
        spoil_drops(rng, edition, &mut sheet);
    }
    if rng.chance(25) {
        spoil_records(rng, edition, &mut sheet, &rules);
    }
    if rng.chance(3) {
        stir_records(rng, edition, &mut sheet);
    }
    if rng.chance(3) {
        sheet = noise(rng, edition, nodes.min(16));
    }
    if rng.chance(7) {
        spoil_rule_table(rng, edition, &mut rules, small);
    }
    if rng.chance(9) {
        spoil_length(rng, edition, edition.replay_records(), &mut sheet, small);
    }
    let slots = draw_slots(rng, edition, &sheet, &rules);
    Case::Replay {
        edition,
        sheet,
        rules,
        slots,
    }
}

/// A pressed sheet, by the program's passes, if the press takes the draft, a sheet without drops, or a
/// sheet whose nodes are dropped some time after their last use.
fn base_sheet(rng: &mut Rng, edition: Edition, draft: &Draft) -> Vec<u8> {
    let proof = read_proof(edition, &draft.sheet(edition), &draft.rule_table(edition));
    match (rng.below(10), proof) {
        (0..=5, Ok(proof)) => {
            let records = run_passes(Plan::program_in(edition), proof).records;
            records.iter().flat_map(|r| r.write(edition)).collect()
        }
        (6, _) => draft.sheet(edition),
        _ => loosely_dropped(rng, edition, draft),
    }
}

fn loosely_dropped(rng: &mut Rng, edition: Edition, draft: &Draft) -> Vec<u8> {
    let last = draft.nodes.len() - 1;
    let patience = rng.pick(&[0, 1, 5]);
    let mut drops_after: Vec<Vec<usize>> = vec![vec![]; draft.nodes.len()];
    for node in 0..last {
        let names_it = |user: &usize| draft.nodes[*user].parents().contains(&node);
        let last_use = (node..=last).rev().find(names_it).unwrap_or(node);
        let at = last_use + rng.between(0, patience);
        if at <= last && rng.chance(85) {
            drops_after[at].push(node);
        }
    }
    let mut sheet = vec![];
    for (node, mut drops) in draft.nodes.iter().zip(drops_after) {
        sheet.extend(Record::Node(node.clone()).write(edition));
        rng.shuffle(&mut drops);
        let drop = |&node: &usize| Record::Drop { node }.write(edition);
        sheet.extend(drops.iter().flat_map(drop));
    }
    sheet
}

/// Slots around the number that the sheet needs as far as it is good.
fn draw_slots(rng: &mut Rng, edition: Edition, sheet: &[u8], rules: &[u8]) -> usize {
    let mut ample = vec![Slot::default(); sheet.len() / edition.record_bytes()];
    let mut peak = 0;
    // Only the peak on the way matters, also when the sheet is refused.
    let _ = replay_watched(edition, sheet, rules, &mut ample, |tally, _| {
        peak = tally.peak;
    });
    match rng.below(20) {
        0..=12 => peak,
        13..=14 => peak.saturating_sub(1),
        15 => 0,
        16 => 1,
        17 => rng.between(0, peak),
        _ => peak + rng.between(1, 6),
    }
}
