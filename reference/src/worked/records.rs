//! The table under "When the gate stays shut", its order, and drop records.

use super::{both, both_of, pair_with, press, press_in, pressed, replay, replay_sheet};
use crate::edition::{Edition, SETS};
use crate::record::Record;
use crate::sheets::starred::{lone, pair, twice};
use crate::sheets::telling::*;
use crate::sheets::{dropped, given, rules, sheet, step, Worked};
use crate::stream::Entry;

/// "Checks 1 to 5 come first, in number order, and report record 0."
pub fn lengths(edition: Edition) -> Vec<Entry> {
    let (pair_sheet, pair_rules) = pair().in_edition(edition).bytes();
    let ragged_rules = &pair_rules[..pair_rules.len() - 1];
    let both = |sheet: &[u8], rules: &[u8]| both(edition, sheet, rules, 3);
    [
        // 1, with a table that is 4
        both(&pair_sheet[..pair_sheet.len() - 1], ragged_rules),
        // 2, with a table that is 4
        both(&[], ragged_rules),
        vec![
            // 4, with no room
            press_in(edition, &pair_sheet, ragged_rules, 0, 0),
            // 5, with a bad record
            press_in(
                edition,
                &pair_with(edition, &[(0, 0, 9)]),
                &pair_rules,
                0,
                0,
            ),
        ],
        // 4: no whole number of lines
        both(&pair_sheet, ragged_rules),
        // an empty table passes 4, and every given is then 13
        both(&pair_sheet, &[]),
    ]
    .concat()
}

/// "The first bad record answers", with the first number that applies.
pub fn fields(edition: Edition) -> Vec<Entry> {
    let table = pair().in_edition(edition).table();
    let [positive_end, negative_end] = [1, 2].map(|n| SETS + n * edition.set_bytes() - 1);
    let spoilt: [&[(usize, usize, u8)]; 25] = [
        // 6: kinds 0, 4 and 255
        &[(1, 0, 0)],
        &[(1, 0, 4)],
        &[(1, 0, 255)],
        // 7: each byte of a given and of a step that must be zero
        &[(0, 1, 1)],
        &[(0, 2, 1)],
        &[(0, 3, 1)],
        &[(0, 4, 1)],
        &[(1, 5, 1)],
        &[(2, 6, 1)],
        &[(2, 7, 1)],
        // 8; 11: +p missing on the left, -p on the right
        &[(2, 1, 255)],
        &[(2, 1, 1)],
        &[(2, 2, 1)],
        &[(2, 4, 0)],
        // 18: a literal too many
        &[(2, negative_end, 0x80)],
        &[(2, 8, 1)],
        // 13, which keeps 14 from being looked at
        &[(0, 6, 2)],
        &[(1, 7, 1)],
        // 14
        &[(0, 6, 1)],
        &[(1, positive_end, 1)],
        // two bad records; one record that is bad in several ways
        &[(1, 8, 1), (2, 0, 0)],
        &[(2, 8, 1), (2, 1, 200), (2, 2, 9)],
        &[(2, 8, 1), (2, 4, 2)],
        &[(2, 8, 1), (2, 4, 0)],
        &[(1, 5, 1), (1, 6, 9)],
    ];
    let of = |changes: &&[_]| both(edition, &pair_with(edition, changes), &table, 3);
    spoilt.iter().flat_map(of).collect()
}

/// 15 comes after all the others: bad records in a full row, and a good one.
pub fn full_row(edition: Edition) -> Vec<Entry> {
    let table = pair().in_edition(edition).table();
    let of = |changes: &[(usize, usize, u8)], slots: usize| {
        replay(edition, &pair_with(edition, changes), &table, slots)
    };
    vec![
        of(&[(0, 6, 1)], 0),
        of(&[(2, 8, 1)], 2),
        of(&[(2, 0, 9)], 2),
        of(&[], 2),
    ]
}

/// What is wrong with a clause: a literal lost, one added, both.
pub fn results(edition: Edition) -> Vec<Entry> {
    let of = |worked: Worked| both_of(&worked.in_edition(edition), 9);
    let mut entries: Vec<Entry> = wrong_results().into_iter().flat_map(of).collect();
    // a full row does not hide 18
    entries.push(replay_sheet(&added().in_edition(edition), 2));
    entries
}

pub fn rule_lines(edition: Edition) -> Vec<Entry> {
    let sheet = |records: &[Record]| sheet(edition, records);
    let rules = |lines: &[&str]| rules(edition, lines);
    let both = |sheet: &[u8], rules: &[u8], slots| both(edition, sheet, rules, slots);
    let both_lines = rules(&["+0", "+0", "-0 +1", "-0 -1"]);
    let empty = || given(0, "");
    [
        // a line of zeros is the empty clause: its slot is all zero but for the mark of use
        both(&sheet(&[empty()]), &rules(&[""]), 1),
        vec![replay(
            edition,
            &sheet(&[empty(), empty(), dropped(0)]),
            &rules(&[""]),
            2,
        )],
        // two lines with one clause count twice; two given records of one line once
        both(&sheet(&naming(0, 1)), &both_lines, 7),
        both(&sheet(&naming(1, 1)), &both_lines, 7),
    ]
    .concat()
}

/// Two given records of {+0}, of these lines, both of which the press keeps.
fn naming(one: usize, other: usize) -> [Record; 7] {
    [
        given(one, "+0"),
        given(2, "-0 +1"),
        step(0, 0, 1, "+1"),
        given(other, "+0"),
        given(3, "-0 -1"),
        step(0, 3, 4, "-1"),
        step(1, 2, 5, ""),
    ]
}

/// A given clause that holds a variable both ways, whatever else it holds: 17,
/// after 13 and 14 and before 15. A derived clause may, and so may a line that no
/// record names.
pub fn both_ways(edition: Edition) -> Vec<Entry> {
    let both = |records: &[Record], lines: &[&str]| {
        both(edition, &sheet(edition, records), &rules(edition, lines), 2)
    };
    let both_of = |worked: Worked, slots| both_of(&worked.in_edition(edition), slots);
    let replay_sheet = |worked: Worked, slots| replay_sheet(&worked.in_edition(edition), slots);
    let among = [given(0, "+1 -2"), given(1, "+0 +2 -62 +63 -63")];
    let beyond = [given(1, "+0 -0")];
    [
        both_of(twice(), 2),
        both(&among, &["+1 -2", "+0 +2 -62 +63 -63"]),
        both(&beyond, &["+0 -0"]),
        both_of(both_ways_differs(), 0),
        both_of(both_ways_in_full_row(), 1),
        vec![
            replay_sheet(both_ways_in_full_row(), 2),
            replay_sheet(twice(), 0),
        ],
        both_of(both_ways_unused(), 3),
        vec![replay_sheet(twice_again(), 5)],
    ]
    .concat()
}

fn plus() -> Record {
    given(0, "+0")
}

fn minus() -> Record {
    given(1, "-0")
}

fn replayed(edition: Edition, records: &[Record], slots: usize) -> Entry {
    let table = pair().in_edition(edition).table();
    replay(edition, &sheet(edition, records), &table, slots)
}

/// Dropped nodes that are named.
pub fn drops(edition: Edition) -> Vec<Entry> {
    let replayed = |records: &[Record], slots| replayed(edition, records, slots);
    vec![
        // a first record that is a drop; a drop of the next node
        replayed(&[dropped(0)], 2),
        replayed(&[plus(), dropped(1)], 2),
        // a drop of a dropped node
        replayed(&[plus(), minus(), dropped(0), dropped(0)], 2),
        // one parent dropped and the other not earlier is 9
        replayed(&[plus(), minus(), dropped(0), step(0, 0, 7, "")], 2),
        replayed(&[plus(), minus(), dropped(1), step(0, 7, 1, "")], 2),
        // a step with a dropped right parent
        replayed(&[plus(), minus(), dropped(1), step(0, 0, 1, "")], 2),
    ]
}

/// 16 looks at the last node, and reports the count of records. A drop needs no
/// slot, and a dropped node's slot is used again.
pub fn ends(edition: Edition) -> Vec<Entry> {
    let replayed = |records: &[Record], slots| replayed(edition, records, slots);
    vec![
        replayed(&[plus(), dropped(0), plus(), dropped(1), plus()], 1),
        replayed(&[plus(), dropped(0), plus(), dropped(1)], 1),
        replayed(&[plus(), minus(), dropped(0)], 2),
        replayed(&[plus(), minus(), dropped(1)], 2),
    ]
}

/// A drop is 6 for the press, malformed too. So is a pressed sheet, unless it
/// has one record.
pub fn drops_for_the_press(edition: Edition) -> Vec<Entry> {
    let table = pair().in_edition(edition).table();
    let dropping = sheet(edition, &[plus(), minus(), dropped(0)]);
    let out = |worked: Worked| pressed(&worked.in_edition(edition));
    let sheets = [dropping, out(pair()), out(lone())];
    let mut entries: Vec<Entry> = sheets.iter().map(|s| press(edition, s, &table)).collect();
    entries.extend(both_of(&bad_drop().in_edition(edition), 2));
    entries
}

/// Each byte of a drop that must be zero.
pub fn bytes_of_a_drop(edition: Edition) -> Vec<Entry> {
    let pair = pair().in_edition(edition);
    let size = edition.record_bytes();
    let of = |at: usize| {
        let mut spoilt = pressed(&pair);
        spoilt[3 * size + at] = 0x80;
        replay(edition, &spoilt, &pair.table(), 3)
    };
    (1..2).chain(4..size).map(of).collect()
}
