//! Sheets that tell the two orders apart, the choice between them, and the top-down
//! order from orders that look like it.

use super::{given, step, Worked};
use crate::edition::Edition;

/// A chain whose left premises are given. Bottom-up all four are placed before the
/// chain begins, and six nodes are held; top-down each is placed where it is
/// needed, and three are held. Ties that go to the largest number, or by the places
/// of the bottom-up order, place them early too.
fn left_givens_on(name: &'static str, [u, v, w, x]: [u8; 4], rules: &[&'static str]) -> Worked {
    let records = [
        given(0, rules[0]),
        given(1, rules[1]),
        step(u, 1, 0, &format!("-{v}")),
        given(2, rules[2]),
        step(v, 3, 2, &format!("-{w}")),
        given(3, rules[3]),
        step(w, 5, 4, &format!("-{x}")),
        given(4, rules[4]),
        step(x, 7, 6, ""),
    ];
    Worked::new(name, rules, &records)
}

pub fn left_givens() -> Worked {
    let rules = ["-0", "+0 -1", "+1 -2", "+2 -3", "+3"];
    left_givens_on("left_givens", [0, 1, 2, 3], &rules)
}

/// *leftGivens* on variables at one place of the halves, and at their ends.
pub fn high_left_givens() -> Worked {
    let rules = ["-0", "+0 -64", "+64 -63", "+63 -127", "+127"];
    left_givens_on("high_left_givens", [0, 64, 63, 127], &rules).in_edition(Edition::Wide)
}

/// Both orders hold three nodes, and place the two given ones otherwise. The old one
/// is emitted.
pub fn equal_peaks() -> Worked {
    let records = [given(0, "-0"), given(1, "+0"), step(0, 1, 0, "")];
    Worked::new("equal_peaks", &["-0", "+0"], &records)
}

/// Top-down the given {-1} is placed by its number, long before it is needed, and
/// four nodes are held; bottom-up three are.
pub fn early_given() -> Worked {
    let rules = ["+0", "-1", "-0 +1"];
    let records = [
        given(0, "+0"),
        given(1, "-1"),
        given(2, "-0 +1"),
        step(0, 0, 2, "+1"),
        step(1, 3, 1, ""),
    ];
    Worked::new("early_given", &rules, &records)
}

/// Once nodes 0 and 1 are placed node 3 can be, but both of its parents are still
/// needed: nothing can be dropped after it, and node 2 has the smaller number. The
/// peak is 4. Where parents count that are still needed, node 3 is placed first, and
/// the peak is 5, as it is bottom-up.
pub fn still_needed() -> Worked {
    let rules = ["+0", "-0 +1", "-1 -2", "-1 +2"];
    let records = [
        given(0, "+0"),
        given(1, "-0 +1"),
        given(2, "-1 -2"),
        step(0, 0, 1, "+1"),
        step(1, 1, 2, "-0 -2"),
        step(0, 0, 4, "-2"),
        given(3, "-1 +2"),
        step(1, 3, 6, "+2"),
        step(2, 7, 5, ""),
    ];
    Worked::new("still_needed", &rules, &records)
}

/// Once node 4 is placed, one node can be dropped after node 5 and two after node 6,
/// so that node 6 is placed first. Where it only counts whether any can be, node 5
/// has the smaller number.
pub fn two_dropped() -> Worked {
    let rules = ["+0 -1", "+2 -3", "-0 -1", "+1 -2", "+3"];
    let records = [
        given(0, "+0 -1"),
        given(1, "+2 -3"),
        given(2, "-0 -1"),
        given(3, "+1 -2"),
        step(1, 3, 2, "-0 -2"),
        step(2, 1, 4, "-0 -3"),
        step(1, 3, 0, "+0 -2"),
        step(2, 1, 6, "+0 -3"),
        step(0, 7, 5, "-3"),
        given(4, "+3"),
        step(3, 9, 8, ""),
    ];
    Worked::new("two_dropped", &rules, &records)
}

/// By the reset. Node 5 names node 3 on both sides. After it one node can be
/// dropped, after node 6 two, so that node 6 is placed first. Where both places
/// count, node 5 has the smaller number. Where a node that has two uses left never
/// counts, node 4 is placed before node 5. The last step is there to give node 8 two
/// uses, and with them an empty S.
pub fn named_twice() -> Worked {
    let rules = ["+0 +1 +2", "+1 -2 -3", "-0 -1", "+3"];
    let records = [
        given(0, "+0 +1 +2"),
        given(1, "+1 -2 -3"),
        given(2, "-0 -1"),
        step(1, 0, 2, "+0 -0 +2"),
        given(3, "+3"),
        step(0, 3, 3, "+0 -0 +2"),
        step(1, 1, 2, "-0 -2 -3"),
        step(2, 5, 6, "+0 -0 -3"),
        step(3, 4, 7, "+0 -0"),
        step(0, 8, 8, "+0 -0"),
    ];
    Worked::new("named_twice", &rules, &records)
}
