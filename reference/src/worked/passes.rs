//! "Slips that look right", and what the passes can come to.

use super::{press, press_by_each, press_lowering, press_sheet};
use crate::cases::stages::{stages, Givens};
use crate::edition::Edition;
use crate::plan::{Lowering, Recycling};
use crate::sheets::lowering::*;
use crate::sheets::orders::*;
use crate::sheets::recycling::*;
use crate::sheets::telling::*;
use crate::sheets::univalents::*;
use crate::sheets::Worked;
use crate::stream::Entry;

/// By each recycling, and in the wide edition by the program's: the passes are the
/// same, and so the stream stays short.
fn presses<const N: usize>(edition: Edition, sheets: [Worked; N]) -> Vec<Entry> {
    let press = |worked: Worked| match edition {
        Edition::Narrow => press_by_each(&worked),
        Edition::Wide => vec![press_sheet(&worked.in_edition(edition))],
    };
    sheets.into_iter().flat_map(press).collect()
}

pub fn slips(edition: Edition) -> Vec<Entry> {
    let sheets = [
        mirrored(),
        shared_reset(),
        hands_on(),
        twice_again(),
        unmarked(),
    ];
    presses(edition, sheets)
}

pub fn stand_ins(edition: Edition) -> Vec<Entry> {
    presses(edition, [both_lack(), twice_after()])
}

/// "Of two premises the one with more uses in the pressed proof goes first;
/// equal: left."
pub fn orders(edition: Edition) -> Vec<Entry> {
    presses(edition, [heavier_right(), places(), second_trim()])
}

/// The rest of what the definitions compute, which hangs on no variable.
pub fn cuts() -> Vec<Entry> {
    let sheets = [
        right_cut(),
        left_cut(),
        either_way(),
        cut_use(),
        unreached_use(),
    ];
    presses(Edition::Narrow, sheets)
}

/// "Shared nodes keep what all uses allow." One sheet is pressed by each recycling in
/// both editions.
pub fn recyclings(edition: Edition) -> Vec<Entry> {
    let by_each = press_by_each(&reset_shorter().in_edition(edition));
    [presses(edition, [all_allow(), keeps_common()]), by_each].concat()
}

/// Presses by this lowering: by the reset, and by the intersection.
fn lowering(lowering: Lowering, reset: &[Worked], intersection: &[Worked]) -> Vec<Entry> {
    let press = |recycling| move |worked: &Worked| press_lowering(worked, recycling, lowering);
    let reset = reset.iter().map(press(Recycling::Reset));
    let intersection = intersection.iter().map(press(Recycling::Intersection));
    reset.chain(intersection).collect()
}

/// "Lower the units." In the wide edition only what is about its variables.
pub fn units(edition: Edition) -> Vec<Entry> {
    let (reset, intersection) = match edition {
        Edition::Narrow => (
            vec![needless(), sharper(), twice_again()],
            vec![
                everywhere(),
                within(),
                opposites(),
                again(),
                stays(),
                once(),
                merged(),
                fewer(),
                third_trim(),
            ],
        ),
        Edition::Wide => (vec![], vec![high_everywhere(), one_in_each_half()]),
    };
    lowering(Lowering::Units, &reset, &intersection)
}

/// "Lower the univalents." In the wide edition only what is about its variables.
pub fn univalents(edition: Edition) -> Vec<Entry> {
    let (reset, intersection) = match edition {
        Edition::Narrow => (
            vec![twice_again()],
            vec![
                after(),
                rest_outside(),
                on_two_literals(),
                opposites(),
                stays(),
                as_rebuilt(),
                lacks_it(),
                fewer(),
            ],
        ),
        Edition::Wide => (vec![], vec![high_after(), one_in_each_half()]),
    };
    lowering(Lowering::Univalents, &reset, &intersection)
}

/// How many nodes the long chain has: of these 20 are held bottom-up and 4 top-down.
const LONG: usize = 40;

/// "Work out both orders and emit the one with the smaller peak; equal: the old one."
/// In the wide edition only what is about its variables.
pub fn two_orders(edition: Edition) -> Vec<Entry> {
    if edition == Edition::Wide {
        return lowering(Lowering::Nothing, &[], &[high_left_givens()]);
    }
    let sheets = [
        left_givens(),
        equal_peaks(),
        early_given(),
        still_needed(),
        two_dropped(),
    ];
    let mut entries = lowering(Lowering::Nothing, &[named_twice()], &sheets);
    let long = stages(edition, LONG, Givens::Held);
    let (sheet, rules) = (long.sheet(edition), long.rule_table(edition));
    entries.push(press(edition, &sheet, &rules));
    entries
}
