//! Sheets of the wide edition with variables that the narrow one does not have.

use super::{given, step, Worked};
use crate::edition::Edition;
use crate::record::Record;

fn wide(name: &'static str, rules: &[&'static str], records: &[Record]) -> Worked {
    Worked::new(name, rules, records).in_edition(Edition::Wide)
}

/// The pair on variable 127: "pivots up to 127".
pub fn pivot_127() -> Worked {
    pair_on_127("pivot127", 127)
}

/// The same with pivot byte 128: 8.
pub fn pivot_128() -> Worked {
    pair_on_127("pivot128", 128)
}

/// The same with the pivot that lies at the same place of the low half: 11.
pub fn pivot_low() -> Worked {
    pair_on_127("pivotLow", 63)
}

fn pair_on_127(name: &'static str, pivot: u8) -> Worked {
    let records = [given(0, "+127"), given(1, "-127"), step(pivot, 0, 1, "")];
    wide(name, &["+127", "-127"], &records)
}

/// *irregular* on variables 64, 127 and 0, of which two lie at the same place of
/// the two halves of a set.
pub fn high_irregular() -> Worked {
    let rules = ["+64 +127", "-64 +0", "+64 -127", "-64", "-0"];
    let records = [
        given(0, "+64 +127"),
        given(1, "-64 +0"),
        step(64, 0, 1, "+127 +0"),
        given(2, "+64 -127"),
        step(127, 2, 3, "+64 +0"),
        given(3, "-64"),
        step(64, 4, 5, "+0"),
        given(4, "-0"),
        step(0, 6, 7, ""),
    ];
    wide("high_irregular", &rules, &records)
}

/// A pivot of the low half whose place in the high half stays, and the reverse.
pub fn halves() -> Worked {
    let rules = ["+1 +65", "-1 -65"];
    let records = [
        given(0, "+1 +65"),
        given(1, "-1 -65"),
        step(1, 0, 1, "+65 -65"),
        step(65, 0, 1, "+1 -1"),
    ];
    wide("halves", &rules, &records)
}

/// {+0,+64} and {-0,+127} on 0, with this clause written.
fn high_result(name: &'static str, clause: &str) -> Worked {
    let records = [
        given(0, "+0 +64"),
        given(1, "-0 +127"),
        step(0, 0, 1, clause),
    ];
    wide(name, &["+0 +64", "-0 +127"], &records)
}

/// The literals over 63 are kept.
pub fn high_kept() -> Worked {
    high_result("high_kept", "+64 +127")
}

/// One of them is lost: 12.
pub fn high_lost() -> Worked {
    high_result("high_lost", "+64")
}

/// One is added, of the high half of the negative set: 18.
pub fn high_added() -> Worked {
    high_result("high_added", "+64 +127 -64")
}

/// One is lost, and the one at its place in the low half is added: 12.
pub fn high_moved() -> Worked {
    high_result("high_moved", "+0 +127")
}

/// A given clause that differs from its rule line in the high half only: 14.
pub fn high_given() -> Worked {
    wide("high_given", &["+0 -100"], &[given(0, "+0 -101")])
}

/// A given clause that holds a variable over 63 both ways: 17.
pub fn high_both_ways() -> Worked {
    wide(
        "high_both_ways",
        &["+0 +100 -100"],
        &[given(0, "+0 +100 -100")],
    )
}

/// A given clause with the two variables of one place, each one way: taken.
pub fn high_one_way() -> Worked {
    wide("high_one_way", &["+36 -100"], &[given(0, "+36 -100")])
}

/// Bytes that both editions accept: three nodes in the wide one, five in the
/// narrow one, with other conclusions. "The caller names the edition; bytes
/// never decide it."
pub fn either_edition() -> Worked {
    let rules = [
        "-0 -49",
        "+64 +113",
        "+0 +49 +50 -64 -112 -113 -114",
        "-0 -50",
        "+64 +112 +115",
    ];
    let records = [0, 2, 4].map(|line| given(line, rules[line]));
    wide("either_edition", &rules, &records)
}
