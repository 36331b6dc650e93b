//! The proved library on the sample shelf: its press, and the replay of what that
//! writes against each rule table of the shelf's page.

use harness::library::{self, Slot};
use reference::plan::Plan;
use reference::shelf::{changes, Shelf};
use std::fs;
use std::path::Path;

const NARROW: u32 = 0;
/// What is printed of a replay on the page.
fn said(sheet: &[u8], rules: &[u8], slots: usize) -> String {
    let mut row = vec![Slot::default(); slots];
    let mut report = [0];
    match library::replay(NARROW, sheet, rules, &mut row, &mut report) {
        0 => "accepted".to_string(),
        number => format!("{number} at {}", report[0]),
    }
}

#[test]
fn the_technician_may_change_the_lamps_line() {
    let folder = Path::new(env!("CARGO_MANIFEST_DIR")).join("../shelf");
    let file = |name: &str| fs::read_to_string(folder.join(name)).unwrap();
    let shelf = Shelf::read(&file("shelf.txt")).unwrap();
    let (sheet, rules) = (shelf.sheet(), shelf.rules());
    let (mut out, mut marks, mut report) = (vec![0; 2 * sheet.len()], [7; 9], [0; 8]);
    let plan = library::numbers(Plan::PROGRAM);
    let code = library::press(plan, &sheet, &rules, &mut out, &mut marks, &mut report);
    assert_eq!((code, marks), (0, [1, 1, 1, 1, 1, 1, 0, 1, 1]));
    let (records, peak) = (report[3] as usize, report[6] as usize);
    let pressed = &out[..24 * records];
    let rows = changes(&file("README.md"));
    assert_eq!(rows.len(), 9);
    for row in rows {
        let rules = shelf.rules_with(row.line, &row.words).unwrap();
        let answers = [peak, peak - 1].map(|slots| said(pressed, &rules, slots));
        assert_eq!(answers, row.answers, "line {}", row.line);
    }
}
