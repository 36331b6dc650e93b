//! Cases and their answers as lines of text.
//!
//! Each case is a block of lines that ends with an empty line. Words are
//! separated by single spaces. An edition is `narrow` or `wide`, a recycling
//! `reset` or `intersection`, a lowering `nothing`, `units` or `univalents`, an order
//! `bottom-up` or `top-down`. Byte strings are lower-case hex, `-` if empty; sets are
//! numbers whose bit v is variable v, of 16 hex digits, or 32 in the wide edition; all
//! else is decimal.
//!
//! ```text
//! press <edition> <recycling> <lowering> <sheet> <rules> <bytes of room> <bytes of marks>
//! = ok <positive> <negative> records R nodes N steps S peak P marked M order <order>
//! out <the emitted records>
//! marks <one byte for each rule line>
//!
//! replay <edition> <sheet> <rules> <slots>
//! = ok <positive> <negative> nodes N steps S peak P
//! ```
//!
//! A refusal is `= refused <number> <record>`, with no `out` and no `marks`.
//! With `--trace`, after the answer of a replay comes one line for each record
//! taken (so none for a refused record):
//! `tally <next> <held> <peak> <steps> slots` and then a word for each slot,
//! `-` if free and `<node>:<positive>:<negative>` if in use.

use crate::cases::Case;
use crate::edition::Edition;
use crate::plan::Plan;
use crate::press::{press, Pressed};
use crate::refusal::Refusal;
use crate::replay::{replay_watched, Replayed, Slot, Tally};

/// The block of one case, without the empty line that ends it.
pub fn block(case: &Case, with_trace: bool) -> String {
    match case {
        Case::Press {
            plan,
            sheet,
            rules,
            room,
            marks,
        } => press_block(*plan, sheet, rules, *room, *marks),
        Case::Replay {
            edition,
            sheet,
            rules,
            slots,
        } => replay_block(*edition, sheet, rules, *slots, with_trace),
    }
}

fn press_block(plan: Plan, sheet: &[u8], rules: &[u8], room: usize, marks: usize) -> String {
    let edition = plan.edition;
    let told = format!("{} {}", edition.word(), passes_words(plan));
    let question = format!(
        "press {told} {} {} {room} {marks}\n",
        hex(sheet),
        hex(rules)
    );
    let mut out = vec![0; room];
    let mut marks = vec![0; marks];
    question
        + &match press(plan, sheet, rules, &mut out, &mut marks) {
            Err(refusal) => refused(&refusal),
            Ok(pressed) => {
                out.truncate(pressed.records * edition.record_bytes());
                marks.truncate(rules.len() / edition.line_bytes());
                let ok = pressed_line(edition, &pressed);
                format!("{ok}out {}\nmarks {}\n", hex(&out), hex(&marks))
            }
        }
}

fn replay_block(
    edition: Edition,
    sheet: &[u8],
    rules: &[u8],
    slots: usize,
    with_trace: bool,
) -> String {
    let inputs = format!("{} {} {}", edition.word(), hex(sheet), hex(rules));
    let question = format!("replay {inputs} {slots}\n");
    let mut trace = String::new();
    let mut slots = vec![Slot::default(); slots];
    let answer = replay_watched(edition, sheet, rules, &mut slots, |tally, slots| {
        if with_trace {
            trace += &trace_line(edition, tally, slots);
        }
    });
    question
        + &match answer {
            Err(refusal) => refused(&refusal),
            Ok(replayed) => replayed_line(edition, &replayed),
        }
        + &trace
}

/// The words for the passes chosen.
pub(crate) fn passes_words(plan: Plan) -> String {
    format!("{} {}", plan.recycling.word(), plan.lowering.word())
}

pub(crate) fn refused(refusal: &Refusal) -> String {
    format!("= refused {} {}\n", refusal.number, refusal.record)
}

/// A digit for each four of the edition's variables.
fn set(edition: Edition, number: u128) -> String {
    let digits = usize::from(edition.variables()) / 4;
    format!("{number:0digits$x}")
}

pub(crate) fn pressed_line(edition: Edition, pressed: &Pressed) -> String {
    format!(
        "= ok {} {} records {} nodes {} steps {} peak {} marked {} order {}\n",
        set(edition, pressed.positive),
        set(edition, pressed.negative),
        pressed.records,
        pressed.nodes,
        pressed.steps,
        pressed.peak,
        pressed.marked,
        pressed.order.word()
    )
}

pub(crate) fn replayed_line(edition: Edition, replayed: &Replayed) -> String {
    format!(
        "= ok {} {} nodes {} steps {} peak {}\n",
        set(edition, replayed.positive),
        set(edition, replayed.negative),
        replayed.nodes,
        replayed.steps,
        replayed.peak
    )
}

pub(crate) fn trace_line(edition: Edition, tally: &Tally, slots: &[Slot]) -> String {
    let slots: String = slots.iter().map(|slot| slot_word(edition, slot)).collect();
    let Tally {
        next,
        held,
        peak,
        steps,
    } = tally;
    format!("tally {next} {held} {peak} {steps} slots{slots}\n")
}

fn slot_word(edition: Edition, slot: &Slot) -> String {
    if slot.used {
        let [positive, negative] = [slot.positive, slot.negative].map(|s| set(edition, s));
        format!(" {}:{positive}:{negative}", slot.node)
    } else {
        " -".to_string()
    }
}

pub(crate) fn hex(bytes: &[u8]) -> String {
    if bytes.is_empty() {
        return "-".to_string();
    }
    bytes.iter().map(|byte| format!("{byte:02x}")).collect()
}
