//! The proved library against the second program: answers, reports, and every
//! byte of the memory lent and around it.

use crate::lent::Lent;
use crate::library::{self, numbers, NO_EDITION, PRESS_WORDS, REPLAY_WORDS};
use reference::cases::{draw, Case, Size};
use reference::edition::Edition;
use reference::passes::order::Order;
use reference::plan::{Lowering, Plan, Recycling};
use reference::press::{press, Pressed};
use reference::refusal::Refusal;
use reference::replay::{replay, Replayed, Slot};
use reference::rng::Rng;

/// What differs, in words.
pub type Difference = String;

/// What was compared.
#[derive(Default)]
pub struct Count {
    pub pressed: usize,
    pub replayed: usize,
    pub refused: usize,
    /// How many of them named the wide edition.
    pub wide: usize,
    /// How many of the presses that were accepted named the reset, the units, and
    /// the univalents.
    pub reset: usize,
    pub units: usize,
    pub univalents: usize,
    /// How many of them came out in the top-down order.
    pub top_down: usize,
}

/// The two words of a set, the variables under 64 in the first.
fn halves(set: u128) -> [u64; 2] {
    [set as u64, (set >> 64) as u64]
}

/// The words that a press's answer fills a report with.
pub fn press_words(answer: &Result<Pressed, Refusal>) -> [u64; PRESS_WORDS] {
    match answer {
        Err(refusal) => [refusal.record as u64, 0, 0, 0, 0, 0, 0, 0, 0, 0, 0],
        Ok(done) => {
            let [positive, positive_high] = halves(done.positive);
            let [negative, negative_high] = halves(done.negative);
            [
                0,
                positive,
                negative,
                done.records as u64,
                done.nodes as u64,
                done.steps as u64,
                done.peak as u64,
                done.marked as u64,
                positive_high,
                negative_high,
                done.order.number().into(),
            ]
        }
    }
}

pub fn replay_words(answer: &Result<Replayed, Refusal>) -> [u64; REPLAY_WORDS] {
    match answer {
        Err(refusal) => [refusal.record as u64, 0, 0, 0, 0, 0, 0, 0],
        Ok(done) => {
            let [positive, positive_high] = halves(done.positive);
            let [negative, negative_high] = halves(done.negative);
            [
                0,
                positive,
                negative,
                done.nodes as u64,
                done.steps as u64,
                done.peak as u64,
                positive_high,
                negative_high,
            ]
        }
    }
}

fn code<T>(answer: &Result<T, Refusal>) -> u32 {
    answer.as_ref().err().map_or(0, |refusal| refusal.number)
}

/// The report of a call: as many of the words as fit, the rest as it was.
fn filled(before: &Lent, words: &[u64]) -> Lent {
    let mut report = before.clone();
    for (place, word) in report.words().iter_mut().zip(words) {
        *place = *word;
    }
    report
}

fn same<T: PartialEq>(what: &str, ours: &T, theirs: &T) -> Result<(), Difference> {
    if ours == theirs {
        return Ok(());
    }
    Err(format!("not alike: {what}"))
}

fn same_code(ours: u32, theirs: u32) -> Result<(), Difference> {
    same(
        &format!("the answer ({ours}, not {theirs})"),
        &ours,
        &theirs,
    )
}

/// One press, with a report of this many words. The pressed sheet is handed
/// back if there is one.
pub fn press_alike(
    rng: &mut Rng,
    plan: Plan,
    sheet: &[u8],
    rules: &[u8],
    (room, marks): (usize, usize),
    report: usize,
) -> Result<Option<(Vec<u8>, Pressed)>, Difference> {
    let mut out = Lent::of_bytes(rng, room);
    let mut marks = Lent::of_bytes(rng, marks);
    let mut report = Lent::of_words(rng, report);
    let (mut their_out, mut their_marks) = (out.clone(), marks.clone());
    let theirs = press(plan, sheet, rules, their_out.bytes(), their_marks.bytes());
    let their_report = filled(&report, &press_words(&theirs));

    let ours = library::press(
        numbers(plan),
        sheet,
        rules,
        out.bytes(),
        marks.bytes(),
        report.words(),
    );
    same_code(ours, code(&theirs))?;
    same("the report", &report, &their_report)?;
    same("the output", &out, &their_out)?;
    same("the marks", &marks, &their_marks)?;
    let pressed = theirs.ok();
    let length = |done: &Pressed| done.records * plan.edition.record_bytes();
    Ok(pressed.map(|done| (out.bytes()[..length(&done)].to_vec(), done)))
}

/// One replay, with a report of this many words.
pub fn replay_alike(
    rng: &mut Rng,
    edition: Edition,
    sheet: &[u8],
    rules: &[u8],
    slots: usize,
    report: usize,
) -> Result<Result<Replayed, Refusal>, Difference> {
    let mut row = Lent::of_slots(rng, slots);
    let mut report = Lent::of_words(rng, report);
    let before = row.clone();
    let theirs = replay(edition, sheet, rules, &mut vec![Slot::default(); slots]);
    let their_report = filled(&report, &replay_words(&theirs));

    let number = edition.number().into();
    let ours = library::replay(number, sheet, rules, row.slots(), report.words());
    let their_row = match code(&theirs) {
        1..=4 => before,
        _ => before.with_free_slots(),
    };
    same_code(ours, code(&theirs))?;
    same("the report", &report, &their_report)?;
    same("the row of slots", &row, &their_row)?;
    Ok(theirs)
}

/// A press with a number that names nothing, which is answered so: nothing is
/// touched, the report neither.
pub fn unnamed_press(
    rng: &mut Rng,
    numbers: [u32; 3],
    answer: u32,
    sheet: &[u8],
    rules: &[u8],
) -> Result<(), Difference> {
    let mut out = Lent::of_bytes(rng, 2 * sheet.len());
    let mut marks = Lent::of_bytes(rng, rules.len());
    let mut report = Lent::of_words(rng, PRESS_WORDS);
    let before = (out.clone(), marks.clone(), report.clone());
    let pressed = library::press(
        numbers,
        sheet,
        rules,
        out.bytes(),
        marks.bytes(),
        report.words(),
    );
    same_code(pressed, answer)?;
    same("the memory lent", &(out, marks, report), &before)
}

/// The same of a replay, which is told an edition alone.
pub fn unnamed_replay(
    rng: &mut Rng,
    number: u32,
    sheet: &[u8],
    rules: &[u8],
) -> Result<(), Difference> {
    let mut row = Lent::of_slots(rng, 3);
    let mut report = Lent::of_words(rng, REPLAY_WORDS);
    let before = (row.clone(), report.clone());
    let replayed = library::replay(number, sheet, rules, row.slots(), report.words());
    same_code(replayed, NO_EDITION)?;
    same("the memory lent", &(row, report), &before)
}

/// The pressed output replayed at the peak and one below.
fn pressed_alike(
    rng: &mut Rng,
    edition: Edition,
    out: &[u8],
    rules: &[u8],
    done: &Pressed,
) -> Result<(), Difference> {
    let at_peak = replay_alike(rng, edition, out, rules, done.peak, REPLAY_WORDS)?;
    let expected = Replayed {
        positive: done.positive,
        negative: done.negative,
        nodes: done.nodes,
        steps: done.steps,
        peak: done.peak,
    };
    same("the replay at the peak", &at_peak, &Ok(expected))?;
    let below = replay_alike(rng, edition, out, rules, done.peak - 1, REPLAY_WORDS)?;
    same("the replay one below the peak", &code(&below), &15)
}

/// The case of this index under this seed, and if it is a press that is
/// accepted, the replays of its output.
pub fn case_alike(seed: u64, index: u64, count: &mut Count) -> Result<(), Difference> {
    // not the stream that the case is drawn from
    let mut rng = Rng::new(!seed, index);
    let words = rng.below(PRESS_WORDS + 2);
    let case = draw(seed, index, Size::Any);
    count.wide += usize::from(case.edition() == Edition::Wide);
    match case {
        Case::Press {
            plan,
            sheet,
            rules,
            room,
            marks,
        } => {
            let lent = (room, marks);
            match press_alike(&mut rng, plan, &sheet, &rules, lent, words)? {
                None => count.refused += 1,
                Some((out, done)) => {
                    pressed_alike(&mut rng, plan.edition, &out, &rules, &done)?;
                    count.pressed += 1;
                    count.reset += usize::from(plan.recycling == Recycling::Reset);
                    count.units += usize::from(plan.lowering == Lowering::Units);
                    count.univalents += usize::from(plan.lowering == Lowering::Univalents);
                    count.top_down += usize::from(done.order == Order::TopDown);
                }
            }
        }
        Case::Replay {
            edition,
            sheet,
            rules,
            slots,
        } => match replay_alike(&mut rng, edition, &sheet, &rules, slots, words)? {
            Err(_) => count.refused += 1,
            Ok(_) => count.replayed += 1,
        },
    }
    Ok(())
}
