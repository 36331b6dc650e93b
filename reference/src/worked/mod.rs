//! The worked sheets (`sheets`) and changed ones, as cases of a stream. What is
//! to be printed of them comes from the press and the replay of this program.

mod listed;
mod passes;
mod records;
mod wide;

use crate::cases::Case;
use crate::edition::Edition;
use crate::plan::{Lowering, Plan, Recycling};
use crate::sheets::starred::pair;
use crate::sheets::{sheet, Worked};
use crate::stream::Entry;

pub fn entries() -> Vec<Entry> {
    let both = Edition::ALL.into_iter().flat_map(of_both);
    both.chain(passes::cuts()).chain(wide::entries()).collect()
}

/// Of these replays only the answers are shown.
fn unshown(entries: Vec<Entry>) -> Vec<Entry> {
    let hide = |entry| Entry {
        shown: false,
        ..entry
    };
    entries.into_iter().map(hide).collect()
}

/// The cases that both editions have. Not all of the many replays are shown, so
/// that the stream stays short: of the wide edition only those of "Sheets to try".
fn of_both(edition: Edition) -> Vec<Entry> {
    let shown = |entries| match edition {
        Edition::Narrow => entries,
        Edition::Wide => unshown(entries),
    };
    [
        listed::presses(edition),
        listed::replays(edition),
        listed::pivot_and_forward(edition),
        listed::limits(edition),
        shown(records::lengths(edition)),
        shown(records::fields(edition)),
        unshown(records::bytes_of_a_drop(edition)),
        shown(records::full_row(edition)),
        shown(records::results(edition)),
        shown(records::rule_lines(edition)),
        shown(records::both_ways(edition)),
        shown(records::drops(edition)),
        shown(records::ends(edition)),
        shown(records::drops_for_the_press(edition)),
        passes::slips(edition),
        passes::stand_ins(edition),
        passes::orders(edition),
        passes::recyclings(edition),
        passes::units(edition),
        passes::univalents(edition),
        passes::two_orders(edition),
    ]
    .concat()
}

fn press_sheet(worked: &Worked) -> Entry {
    press(worked.edition, &worked.sheet(), &worked.table())
}

/// A press by each recycling.
fn press_by_each(worked: &Worked) -> Vec<Entry> {
    let by = |recycling| press_lowering(worked, recycling, Plan::PROGRAM.lowering);
    Recycling::ALL.map(by).to_vec()
}

fn press_lowering(worked: &Worked, recycling: Recycling, lowering: Lowering) -> Entry {
    let plan = worked.plan(recycling, lowering);
    press_by(plan, &worked.sheet(), &worked.table())
}

fn replay_sheet(worked: &Worked, slots: usize) -> Entry {
    replay(worked.edition, &worked.sheet(), &worked.table(), slots)
}

fn both_of(worked: &Worked, slots: usize) -> Vec<Entry> {
    both(worked.edition, &worked.sheet(), &worked.table(), slots)
}

/// What is pressed once is pressed by the program's passes.
fn press(edition: Edition, sheet: &[u8], rules: &[u8]) -> Entry {
    press_by(Plan::program_in(edition), sheet, rules)
}

/// A press with room and marks to spare.
fn press_by(plan: Plan, sheet: &[u8], rules: &[u8]) -> Entry {
    let edition = plan.edition;
    let records = sheet.len() / edition.record_bytes();
    let room = edition.room(records.max(1)) + 7;
    let marks = rules.len() / edition.line_bytes() + 7;
    press_lent(plan, sheet, rules, room, marks)
}

fn press_in(edition: Edition, sheet: &[u8], rules: &[u8], room: usize, marks: usize) -> Entry {
    press_lent(Plan::program_in(edition), sheet, rules, room, marks)
}

fn press_lent(plan: Plan, sheet: &[u8], rules: &[u8], room: usize, marks: usize) -> Entry {
    let (sheet, rules) = (sheet.to_vec(), rules.to_vec());
    Entry {
        case: Case::Press {
            plan,
            sheet,
            rules,
            room,
            marks,
        },
        shown: false,
    }
}

/// A replay of which each record is shown.
fn replay(edition: Edition, sheet: &[u8], rules: &[u8], slots: usize) -> Entry {
    let (sheet, rules) = (sheet.to_vec(), rules.to_vec());
    Entry {
        case: Case::Replay {
            edition,
            sheet,
            rules,
            slots,
        },
        shown: true,
    }
}

/// A replay that is too long to be shown.
fn long_replay(edition: Edition, sheet: &[u8], rules: &[u8], slots: usize) -> Entry {
    Entry {
        shown: false,
        ..replay(edition, sheet, rules, slots)
    }
}

fn both(edition: Edition, sheet: &[u8], rules: &[u8], slots: usize) -> Vec<Entry> {
    vec![
        press(edition, sheet, rules),
        replay(edition, sheet, rules, slots),
    ]
}

/// What the press makes of a good sheet.
fn pressed(worked: &Worked) -> Vec<u8> {
    let Plan {
        recycling,
        lowering,
        ..
    } = Plan::PROGRAM;
    let records = worked.pressed(recycling, lowering);
    sheet(worked.edition, &records.expect("the sheet is good"))
}

/// *pair* with some of its bytes changed: record, place, byte.
fn pair_with(edition: Edition, changes: &[(usize, usize, u8)]) -> Vec<u8> {
    let mut sheet = pair().in_edition(edition).sheet();
    for &(record, at, byte) in changes {
        sheet[record * edition.record_bytes() + at] = byte;
    }
    sheet
}
