//! "Sheets to try", in the order of document 01.

use super::{
    both, both_of, long_replay, press, press_in, press_sheet, pressed, replay, replay_sheet,
};
use crate::edition::Edition;
use crate::sheets::starred::*;
use crate::sheets::{given, rules, sheet, step, Worked};
use crate::stream::Entry;

pub fn presses(edition: Edition) -> Vec<Entry> {
    let of = |worked: Worked| press_sheet(&worked.in_edition(edition));
    pressable().into_iter().map(of).collect()
}

pub fn replays(edition: Edition) -> Vec<Entry> {
    let out = |worked: Worked, slots: usize| {
        let worked = worked.in_edition(edition);
        replay(edition, &pressed(&worked), &worked.table(), slots)
    };
    let sheet = |worked: Worked, slots| replay_sheet(&worked.in_edition(edition), slots);
    vec![
        // pair's output, replayed: with three slots, with two, with none
        out(pair(), 3),
        out(pair(), 2),
        out(pair(), 0),
        out(irregular(), 3),
        sheet(early_drop(), 2),
        sheet(gone(), 1),
    ]
}

pub fn pivot_and_forward(edition: Edition) -> Vec<Entry> {
    let of = |worked: Worked| both_of(&worked.in_edition(edition), 3);
    let table = pair().in_edition(edition).table();
    // pivot: 63 is accepted, also by the press (`presses`), 64 is refused
    let mut entries = vec![replay_sheet(&pivot().in_edition(edition), 3)];
    entries.extend(of(pivot_64()));
    // forward: the left parent, the right one, both, the largest number
    entries.extend(of(forward()));
    for (left, right) in [(0, 2), (2, 2), (0xFFFF, 1)] {
        let forward = [given(0, "+0"), given(1, "-0"), step(0, left, right, "")];
        entries.extend(both(edition, &sheet(edition, &forward), &table, 3));
    }
    entries
}

/// Long sheets and tables, only where they are at a limit or just over it.
pub fn limits(edition: Edition) -> Vec<Entry> {
    let (pair_sheet, pair_rules) = pair().in_edition(edition).bytes();
    let table = rules(edition, &["+0"]);
    let zeros = |count: usize| vec![0; count * edition.record_bytes()];
    let lines = |count: usize| {
        let idle = vec![0; (count - 2) * edition.line_bytes()];
        [pair_rules.clone(), idle].concat()
    };
    let (most, longest) = (edition.press_records(), edition.replay_records());
    let (room, table_lines) = (edition.room(3), edition.table_lines());
    let ample = edition.room(most) + 60;
    let press_in =
        |sheet: &[u8], rules: &[u8], room, marks| press_in(edition, sheet, rules, room, marks);
    // good records would be long: that a record answers shows that 3 doesn't
    let full = match edition {
        Edition::Narrow => sheet(edition, &vec![given(0, "+0"); most]),
        Edition::Wide => zeros(most),
    };
    vec![
        // as many as may be are not refused by 3, one more is, with a table
        // that is 4; so for the replay
        press(edition, &full, &table),
        press_in(&zeros(most + 1), &table[1..], ample, 8),
        long_replay(edition, &zeros(longest), &table, longest),
        long_replay(edition, &zeros(longest + 1), &table[1..], longest + 1),
        // 1 comes before 3
        press_in(&zeros(most + 1)[1..], &table[1..], ample, 8),
        // for three records, room of 120 bytes is enough, 119 is 5
        press_in(&pair_sheet, &pair_rules, room, 2),
        press_in(&pair_sheet, &pair_rules, room - 1, 2),
        // a mark for each rule line is enough, one less is 5
        press_in(&pair_sheet, &pair_rules, room, 1),
        // 1,024 lines are not refused by 4, 1,025 are
        press(edition, &pair_sheet, &lines(table_lines)),
        press_in(&pair_sheet, &lines(table_lines + 1), room, table_lines + 60),
    ]
}
