//! Valid proofs of many shapes.

use crate::cases::backward::backward;
use crate::cases::dense::{lattice, tower};
use crate::cases::draft::Draft;
use crate::cases::facts::{facts, lemmas};
use crate::cases::forward::forward;
use crate::cases::hanging::hanging;
use crate::cases::woven::woven;
use crate::clause::{Clause, Literal};
use crate::edition::Edition;
use crate::rng::Rng;

/// A valid proof of exactly `size` nodes, but that now and then a rule line that
/// it names holds a variable both ways.
pub fn draw(rng: &mut Rng, edition: Edition, size: usize) -> Draft {
    let draft = valid(rng, edition, size);
    match rng.chance(4) {
        true => draft.with_a_rule_both_ways(rng, edition),
        false => draft,
    }
}

fn valid(rng: &mut Rng, edition: Edition, size: usize) -> Draft {
    let variables = draw_variables(rng, edition);
    let depth_wanted = size == edition.press_records() && rng.chance(15);
    let shape = if depth_wanted { 34 } else { rng.below(39) };
    let mut draft = match shape {
        0..=5 => forward(rng, edition, &variables, size),
        6..=11 => backward(rng, edition, &variables, size),
        12..=14 => woven(rng, edition, &variables, size),
        15..=20 => facts(rng, edition, size),
        21..=29 => lemmas(rng, edition, size),
        30..=33 => lattice(rng, edition, size),
        34 => tower(rng, edition, &variables, size),
        _ => hanging(rng, edition, size),
    };
    pad(rng, &variables, &mut draft, size);
    if rng.chance(40) {
        draft = shuffled(rng, &draft);
    }
    add_rule_lines(rng, edition, &variables, &mut draft);
    draft
}

/// Few variables make pivots recur along paths, so that recycling cuts; where
/// they lie among all is drawn too, with the ends made likely.
fn draw_variables(rng: &mut Rng, edition: Edition) -> Vec<u8> {
    let most = edition.variables();
    let count = rng.pick(&[1, 2, 2, 3, 3, 4, 5, 8, most.into()]);
    let mut all: Vec<u8> = (0..most).collect();
    rng.shuffle(&mut all);
    if rng.chance(30) {
        all.sort_by_key(|v| !matches!(v % 64, 0 | 7 | 8 | 31 | 32 | 63));
    }
    // variables at the same place of the two halves of a wide set
    if edition == Edition::Wide && rng.chance(30) {
        let place = all[0] % 64;
        all.sort_by_key(|v| v % 64 != place);
    }
    all.truncate(count);
    all
}

pub fn literal(rng: &mut Rng, variables: &[u8]) -> Literal {
    let variable = rng.pick(variables);
    if rng.chance(50) {
        Literal::Plus(variable)
    } else {
        Literal::Minus(variable)
    }
}

/// Literals are drawn one by one, so a variable may come both ways.
pub fn clause(rng: &mut Rng, variables: &[u8], width: usize) -> Clause {
    (0..width).map(|_| literal(rng, variables)).collect()
}

/// Fills up to `size` with given nodes nobody uses, keeping the sink last.
fn pad(rng: &mut Rng, variables: &[u8], draft: &mut Draft, size: usize) {
    let grown = draft.nodes.len();
    while draft.nodes.len() < size {
        let unused = clause(rng, variables, 2);
        draft.give(rng, unused.one_way());
    }
    let mut order: Vec<usize> = (0..draft.nodes.len()).collect();
    order[grown - 1..].rotate_left(1);
    *draft = draft.reordered(&order);
}

/// Another order of the same nodes, parents still before children, the sink
/// still last.
pub(super) fn shuffled(rng: &mut Rng, draft: &Draft) -> Draft {
    let sink = draft.nodes.len() - 1;
    let mut waiting: Vec<usize> = (0..sink).collect();
    rng.shuffle(&mut waiting);
    let mut placed = vec![false; draft.nodes.len()];
    let mut order = vec![];
    while !waiting.is_empty() {
        let is_ready = |&n: &usize| draft.nodes[n].parents().iter().all(|&p| placed[p]);
        let at = waiting.iter().position(is_ready);
        let number = waiting.swap_remove(at.expect("a proof has no cycle"));
        placed[number] = true;
        order.push(number);
    }
    order.push(sink);
    draft.reordered(&order)
}

/// Rule lines nobody names, now and then as many as the table may have.
fn add_rule_lines(rng: &mut Rng, edition: Edition, variables: &[u8], draft: &mut Draft) {
    let room = edition.table_lines() - draft.rules.len();
    let more = if draft.nodes.len() > 16 && rng.chance(5) {
        room
    } else {
        room.min(rng.pick(&[0, 0, 0, 1, 3]))
    };
    for _ in 0..more {
        draft.rules.push(clause(rng, variables, 2));
    }
}
