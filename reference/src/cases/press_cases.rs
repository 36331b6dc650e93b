//! Cases for the press.

use crate::cases::damage::{noise, spoil_length, spoil_records, spoil_rule_table, stir_records};
use crate::cases::{shapes, Case, Size};
use crate::edition::Edition;
use crate::plan::{Lowering, Plan, Recycling};
use crate::rng::Rng;

const SMALL_NODES: usize = 16;

/// Each kind of trouble is drawn by itself, so that they also meet in one case.
pub fn draw(rng: &mut Rng, edition: Edition, size: Size) -> Case {
    let small = size == Size::Small;
    let nodes = size.nodes(rng, edition, SMALL_NODES);
    let draft = shapes::draw(rng, edition, nodes);
    let mut sheet = draft.sheet(edition);
    let mut rules = draft.rule_table(edition);
    if rng.chance(30) {
        spoil_records(rng, edition, &mut sheet, &rules);
    }
    if rng.chance(4) {
        stir_records(rng, edition, &mut sheet);
    }
    if rng.chance(3) {
        sheet = noise(rng, edition, nodes.min(16));
    }
    if rng.chance(8) {
        spoil_rule_table(rng, edition, &mut rules, small);
    }
    if rng.chance(9) {
        spoil_length(rng, edition, edition.press_records(), &mut sheet, small);
    }
    let (room, marks) = draw_room(rng, edition, sheet.len(), rules.len());
    let plan = Plan {
        edition,
        recycling: rng.pick(&Recycling::ALL),
        lowering: rng.pick(&Lowering::ALL),
    };
    Case::Press {
        plan,
        sheet,
        rules,
        room,
        marks,
    }
}

/// Room and marks just enough, ample, one short or far short.
fn draw_room(rng: &mut Rng, edition: Edition, sheet: usize, rules: usize) -> (usize, usize) {
    let (records, lines) = (sheet / edition.record_bytes(), rules / edition.line_bytes());
    let needed = edition.room(records.max(1));
    let room = around(rng, needed);
    (room, around(rng, lines))
}

fn around(rng: &mut Rng, needed: usize) -> usize {
    match rng.below(100) {
        0..=59 => needed,
        60..=92 => needed + rng.between(1, 60),
        93..=97 => needed.saturating_sub(1),
        _ => rng.below(needed + 1),
    }
}
