//! The sample shelf: the committed files, what its page says of them, and how a
//! shelf is told.

mod common;

use common::{press_ok, replay_answer};
use reference::program;
use reference::shelf::{changes, Shelf};
use std::fs;
use std::path::{Path, PathBuf};

fn committed() -> PathBuf {
    Path::new(env!("CARGO_MANIFEST_DIR")).join("../shelf")
}

fn told() -> Shelf {
    Shelf::read(&fs::read_to_string(committed().join("shelf.txt")).unwrap()).unwrap()
}

#[test]
fn the_files_are_what_the_text_tells() {
    let file = |name: &str| fs::read(committed().join(name)).unwrap();
    assert_eq!(file("rules.bin"), told().rules());
    assert_eq!(file("sheet.bin"), told().sheet());
}

#[test]
fn the_page_lists_both_sheets() {
    let page = fs::read_to_string(committed().join("README.md")).unwrap();
    let shelf = told();
    for sheet in [shelf.sheet(), shelf.pressed().unwrap()] {
        let listing = shelf.listing(&sheet);
        let indented: String = listing.lines().map(|l| format!("    {l}\n")).collect();
        assert!(page.contains(&indented), "not on the page:\n{listing}");
    }
}

#[test]
fn the_page_says_what_is_printed() {
    let dir = PathBuf::from(env!("CARGO_TARGET_TMPDIR")).join("shelf");
    fs::create_dir_all(&dir).unwrap();
    let shelf = told();
    fs::write(dir.join("rules.bin"), shelf.rules()).unwrap();
    fs::write(dir.join("sheet.bin"), shelf.sheet()).unwrap();
    let line = program::run(&dir);
    assert_eq!(line, "ok records 31 nodes 16 steps 8 peak 5 core 8");
    let pressed = fs::read(dir.join("pressed.bin")).unwrap();
    assert_eq!(Some(pressed), shelf.pressed());
    let page = fs::read_to_string(committed().join("README.md")).unwrap();
    assert!(page.contains(&format!("    {line}\n")));
}

/// What the replay of the pressed sheet answers.
fn said(rules: &[u8], slots: usize) -> String {
    match replay_answer(&told().pressed().unwrap(), rules, slots) {
        Ok(_) => "accepted".to_string(),
        Err((number, record)) => format!("{number} at {record}"),
    }
}

/// An unmarked line, or one more, changes nothing, and each row of the page's
/// table has the answers that the replay gives.
#[test]
fn the_page_says_what_the_technician_may_change() {
    let shelf = told();
    let done = press_ok(&shelf.sheet(), &shelf.rules());
    assert_eq!(done.core, [0, 1, 2, 3, 4, 5, 7, 8]);
    let page = fs::read_to_string(committed().join("README.md")).unwrap();
    let rows = changes(&page);
    assert_eq!(rows.len(), 9);
    for row in rows {
        let rules = shelf.rules_with(row.line, &row.words).unwrap();
        let peak = done.pressed.peak;
        let answers = |rules: &[u8]| [peak, peak - 1].map(|slots| said(rules, slots));
        assert_eq!(answers(&rules), row.answers, "line {}", row.line);
        let same = answers(&shelf.rules()) == row.answers;
        assert_eq!(same, !done.core.contains(&row.line));
    }
}

/// Without the lamp's line those after it move up.
#[test]
fn the_lamps_line_is_not_to_be_taken_out() {
    let mut rules = told().rules();
    rules.drain(6 * 16..7 * 16);
    assert_eq!(said(&rules, 5), "13 at 0");
}

#[test]
fn a_line_that_tells_nothing_is_named() {
    let why = |text: &str| Shelf::read(text).err().unwrap();
    let cases = [
        ("variables a\nrule r +b", "line 2: b is no variable"),
        (
            "variables a\nrule r a",
            "line 2: a has neither + nor - in front",
        ),
        ("given n r", "line 1: r is not told before"),
        ("rule r\n\nrule r", "line 3: r is told twice"),
        (
            "rule r\ngiven n r\nstep m a n n",
            "line 3: a is no variable",
        ),
        ("# words\nrules r", "line 2: no line of this form"),
    ];
    for (text, expected) in cases {
        assert_eq!(why(text), expected);
    }
    let names: Vec<String> = (0..65).map(|v| format!("v{v}")).collect();
    let text = format!("variables {}", names.join(" "));
    assert_eq!(why(&text), "line 1: over 64 words");
}

#[test]
fn a_shelf_without_a_proof_is_not_pressed() {
    assert_eq!(Shelf::read("variables a").unwrap().pressed(), None);
}
