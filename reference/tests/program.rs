//! The small program, by the line it answers and the file it leaves.

mod common;

use common::*;
use reference::program::run;
use std::fs;
use std::path::PathBuf;

/// A fresh directory with these two files in it.
fn directory(name: &str, sheet: Option<&[u8]>, rules: Option<&[u8]>) -> PathBuf {
    let dir = PathBuf::from(env!("CARGO_TARGET_TMPDIR")).join(name);
    let _ = fs::remove_dir_all(&dir);
    fs::create_dir_all(&dir).unwrap();
    for (file, bytes) in [("sheet.bin", sheet), ("rules.bin", rules)] {
        if let Some(bytes) = bytes {
            fs::write(dir.join(file), bytes).unwrap();
        }
    }
    dir
}

#[test]
fn pair_is_pressed() {
    let (sheet, rules) = pair().bytes();
    let dir = directory("pair", Some(&sheet), Some(&rules));
    assert_eq!(run(&dir), "ok records 5 nodes 3 steps 1 peak 3 core 2");
    let pressed = fs::read(dir.join("pressed.bin")).unwrap();
    assert_eq!(pressed, press_ok(&sheet, &rules).out);
}

#[test]
fn a_longer_old_file_is_replaced() {
    let (sheet, rules) = pair().bytes();
    let dir = directory("replaced", Some(&sheet), Some(&rules));
    fs::write(dir.join("pressed.bin"), [OLD; 500]).unwrap();
    run(&dir);
    assert_eq!(fs::read(dir.join("pressed.bin")).unwrap().len(), 120);
}

#[test]
fn refusals_leave_the_file_alone() {
    let rules = pair().table();
    let late = sheet(&[given(0, "+0"), given(1, "-0"), step(0, 2, 1, "")]);
    let long = vec![0; 1025 * 24];
    let longer = vec![0; 100_000 * 24 + 5];
    let pair = pair().sheet();
    let cases: [(&[u8], &[u8], &str); 6] = [
        (&late, &rules, "refused 9 at 2"),
        (&long, &rules, "refused 3"),
        (&longer, &rules, "refused 1"),
        (&[], &rules, "refused 2"),
        (&pair, &long[..1025 * 11], "refused 4"),
        (&pair, &vec![0; 100_000 * 16], "refused 4"),
    ];
    for (at, (sheet, rules, line)) in cases.into_iter().enumerate() {
        let dir = directory(&format!("refused{at}"), Some(sheet), Some(rules));
        fs::write(dir.join("pressed.bin"), "old").unwrap();
        assert_eq!(run(&dir), line);
        assert_eq!(fs::read(dir.join("pressed.bin")).unwrap(), b"old");
    }
}

#[test]
fn files_that_cannot_be_read_or_written() {
    let (sheet, rules) = pair().bytes();
    let neither = directory("neither", None, None);
    assert_eq!(run(&neither), "unreadable rules.bin");
    let no_sheet = directory("no_sheet", None, Some(&rules));
    assert_eq!(run(&no_sheet), "unreadable sheet.bin");
    let no_rules = directory("no_rules", Some(&sheet), None);
    fs::create_dir(no_rules.join("rules.bin")).unwrap();
    assert_eq!(run(&no_rules), "unreadable rules.bin");
    let blocked = directory("blocked", Some(&sheet), Some(&rules));
    fs::create_dir(blocked.join("pressed.bin")).unwrap();
    assert_eq!(run(&blocked), "unwritable pressed.bin");
}
