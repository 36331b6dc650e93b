//! Sheets that tell lowering the units from passes that look like it.

use super::{given, step, Worked};
use crate::edition::Edition;

/// Two facts, {+u} on the left and {-v} on the right, each used twice.
fn facts_on(name: &'static str, [u, v, w]: [u8; 3], rules: &[&'static str]) -> Worked {
    let records = [
        given(0, rules[0]),
        given(1, rules[1]),
        given(2, rules[2]),
        step(u, 0, 2, &format!("+{v} +{w}")),
        step(v, 3, 1, &format!("+{w}")),
        given(3, rules[3]),
        step(u, 0, 5, &format!("+{v} -{w}")),
        step(v, 6, 1, &format!("-{w}")),
        step(w, 4, 7, ""),
    ];
    Worked::new(name, rules, &records)
}

/// Five steps become three: the given clauses are resolved first, and then {-1}
/// comes back, as it is collected first, and {+0}.
pub fn everywhere() -> Worked {
    let rules = ["+0", "-1", "-0 +1 +2", "-0 +1 -2"];
    facts_on("everywhere", [0, 1, 2], &rules)
}

/// Node 2 is collected, and so is node 0, by which it is derived: it comes back as
/// {-1,+0}, which brings -1 for node 0 to resolve away. The other way round -1
/// would be left.
pub fn within() -> Worked {
    let rules = ["+1", "-1 +0", "-0 +2", "-0 -1 -2"];
    let records = [
        given(0, "+1"),
        given(1, "-1 +0"),
        step(1, 0, 1, "+0"),
        given(2, "-0 +2"),
        given(3, "-0 -1 -2"),
        step(0, 2, 3, "+2"),
        step(0, 2, 4, "-1 -2"),
        step(1, 0, 6, "-2"),
        step(2, 5, 7, ""),
    ];
    Worked::new("within", &rules, &records)
}

/// {-0} is collected first, and {+0} stays where it is.
pub fn opposites() -> Worked {
    let rules = ["+0", "-0", "-0 +1", "-0 +2", "+0 -1 +3", "+0 -2 -3"];
    let records = [
        given(0, "+0"),
        given(1, "-0"),
        given(2, "-0 +1"),
        step(0, 0, 2, "+1"),
        given(3, "-0 +2"),
        step(0, 0, 4, "+2"),
        given(4, "+0 -1 +3"),
        step(0, 6, 1, "-1 +3"),
        step(1, 3, 7, "+3"),
        given(5, "+0 -2 -3"),
        step(0, 9, 1, "-2 -3"),
        step(2, 5, 10, "-3"),
        step(3, 8, 11, ""),
    ];
    Worked::new("opposites", &rules, &records)
}

/// Nodes 4 and 0 are both {+0}, and are collected with node 2 between them. All
/// come back by a step: node 2 brings -0 again.
pub fn again() -> Worked {
    let rules = [
        "+0", "-0 +1", "-1 +0", "-0 +3", "-0 -3 +4", "-0 -2 -4", "-1 +2",
    ];
    let records = [
        given(0, "+0"),
        given(1, "-0 +1"),
        step(0, 0, 1, "+1"),
        given(2, "-1 +0"),
        step(1, 2, 3, "+0"),
        given(3, "-0 +3"),
        step(0, 4, 5, "+3"),
        given(4, "-0 -3 +4"),
        step(0, 4, 7, "-3 +4"),
        step(3, 6, 8, "+4"),
        given(5, "-0 -2 -4"),
        step(0, 0, 10, "-2 -4"),
        step(4, 9, 11, "-2"),
        given(6, "-1 +2"),
        step(1, 2, 13, "+2"),
        step(2, 14, 12, ""),
    ];
    Worked::new("again", &rules, &records)
}

/// {+0} by two lines, and both nodes are collected. The one of line 1 comes back,
/// and then the conclusion lacks -0 and stays.
pub fn stays() -> Worked {
    let rules = ["+0", "+0", "-0 +1 +2", "-0 -1 +2", "-0 +1 -2", "-0 -1 -2"];
    let records = [
        given(0, "+0"),
        given(1, "+0"),
        given(2, "-0 +1 +2"),
        step(0, 0, 2, "+1 +2"),
        given(3, "-0 -1 +2"),
        step(0, 0, 4, "-1 +2"),
        step(1, 3, 5, "+2"),
        given(4, "-0 +1 -2"),
        step(0, 1, 7, "+1 -2"),
        given(5, "-0 -1 -2"),
        step(0, 1, 9, "-1 -2"),
        step(1, 8, 10, "-2"),
        step(2, 6, 11, ""),
    ];
    Worked::new("stays", &rules, &records)
}

/// By the reset: below the uses of {+0} its opposite is resolved away in any case,
/// so that the conclusion lacks -0 and the unit is not needed.
pub fn needless() -> Worked {
    let rules = [
        "+0",
        "-0 +1 +5",
        "-0 +4 +5",
        "-0 -1 -4 +2",
        "-0 -1 -4 -2",
        "+0 +5",
    ];
    let records = [
        given(0, "+0"),
        given(1, "-0 +1 +5"),
        step(0, 0, 1, "+1 +5"),
        given(2, "-0 +4 +5"),
        step(0, 0, 3, "+4 +5"),
        given(3, "-0 -1 -4 +2"),
        step(1, 2, 5, "-0 -4 +2 +5"),
        step(4, 4, 6, "-0 +2 +5"),
        given(4, "-0 -1 -4 -2"),
        step(1, 2, 8, "-0 -4 -2 +5"),
        step(4, 4, 9, "-0 -2 +5"),
        step(2, 7, 10, "-0 +5"),
        given(5, "+0 +5"),
        step(0, 12, 11, "+5"),
    ];
    Worked::new("needless", &rules, &records)
}

/// By the reset: the conclusion {+0} holds the opposite of a unit, and comes out
/// empty.
pub fn sharper() -> Worked {
    let rules = ["-0", "+0 +1", "+0 -2", "-1 +2 +3", "+0 -1 +2 -3"];
    let records = [
        given(0, "-0"),
        given(1, "+0 +1"),
        step(0, 1, 0, "+1"),
        given(2, "+0 -2"),
        step(0, 3, 0, "-2"),
        given(3, "-1 +2 +3"),
        step(1, 2, 5, "+2 +3"),
        step(2, 6, 4, "+3"),
        given(4, "+0 -1 +2 -3"),
        step(1, 2, 8, "+0 +2 -3"),
        step(2, 9, 4, "+0 -3"),
        step(3, 7, 10, "+0"),
    ];
    Worked::new("sharper", &rules, &records)
}

/// Units with one use: nothing is lowered.
pub fn once() -> Worked {
    let rules = ["+0", "-0 +1", "-1"];
    let records = [
        given(0, "+0"),
        given(1, "-0 +1"),
        step(0, 0, 1, "+1"),
        given(2, "-1"),
        step(1, 2, 3, ""),
    ];
    Worked::new("once", &rules, &records)
}

/// Node 0 has one use in the sheet. By the intersection it stands for node 4 after
/// step 3, and has two. By the reset node 4 is left, and is lowered.
pub fn merged() -> Worked {
    let rules = ["-0", "+0 +1", "-0 -1", "+0 +2", "+0 -2"];
    let records = [
        given(0, "-0"),
        given(1, "+0 +1"),
        step(0, 1, 0, "+1"),
        given(2, "-0 -1"),
        step(1, 2, 3, "-0"),
        given(3, "+0 +2"),
        step(0, 5, 4, "+2"),
        given(4, "+0 -2"),
        step(0, 7, 4, "-2"),
        step(2, 6, 8, ""),
    ];
    Worked::new("merged", &rules, &records)
}

/// Node 0 has two uses in the sheet, but node 2 is out of reach after step 4, and
/// one is left: nothing is lowered.
pub fn fewer() -> Worked {
    let rules = ["+0", "-0 +1 -2", "-1 +2", "+3", "-0 -2 -3"];
    let records = [
        given(0, "+0"),
        given(1, "-0 +1 -2"),
        step(0, 0, 1, "+1 -2"),
        given(2, "-1 +2"),
        given(3, "+3"),
        given(4, "-0 -2 -3"),
        step(0, 0, 5, "-2 -3"),
        step(3, 4, 6, "-2"),
        step(2, 3, 7, "-1"),
        step(1, 2, 8, "-2"),
    ];
    Worked::new("fewer", &rules, &records)
}

/// Nodes 2 and 3 are both {+0}, and node 3 comes back, so that node 2 is not
/// needed. With its use of node 0 that one would have more uses than node 15, and
/// would be placed first.
pub fn third_trim() -> Worked {
    let rules = [
        "+0 -5", "+5", "+0", "-0 +1", "-0 -1 +2", "-0 -2 +4", "-0 +3 -4", "-3 +5", "-0 -3",
    ];
    let records = [
        given(0, "+0 -5"),
        given(1, "+5"),
        step(5, 1, 0, "+0"),
        given(2, "+0"),
        given(3, "-0 +1"),
        step(0, 3, 4, "+1"),
        given(4, "-0 -1 +2"),
        step(0, 3, 6, "-1 +2"),
        step(1, 5, 7, "+2"),
        given(5, "-0 -2 +4"),
        step(0, 2, 9, "-2 +4"),
        step(2, 8, 10, "+4"),
        given(6, "-0 +3 -4"),
        step(0, 2, 12, "+3 -4"),
        step(4, 11, 13, "+3"),
        given(7, "-3 +5"),
        step(5, 15, 0, "+0 -3"),
        given(8, "-0 -3"),
        step(0, 16, 17, "-3"),
        step(3, 14, 18, ""),
    ];
    Worked::new("thirdTrim", &rules, &records)
}

/// A step less, and a node more is held.
pub fn higher_peak() -> Worked {
    let rules = ["+0", "-1", "-0 +2", "-0 +1 -2"];
    let records = [
        given(0, "+0"),
        given(1, "-1"),
        given(2, "-0 +2"),
        step(0, 0, 2, "+2"),
        given(3, "-0 +1 -2"),
        step(0, 0, 4, "+1 -2"),
        step(1, 5, 1, "-2"),
        step(2, 3, 6, ""),
    ];
    Worked::new("higherPeak", &rules, &records)
}

/// *everywhere* on variables 0, 64 and 127: {+0} and {-64} lie at one place of the
/// halves and are no opposites.
pub fn high_everywhere() -> Worked {
    let rules = ["+0", "-64", "-0 +64 +127", "-0 +64 -127"];
    facts_on("high_everywhere", [0, 64, 127], &rules).in_edition(Edition::Wide)
}

/// Node 0 is used twice and has a literal in each half: it is no unit.
pub fn one_in_each_half() -> Worked {
    let records = [
        given(0, "+0 +64"),
        given(1, "-0 +1"),
        step(0, 0, 1, "+1 +64"),
        given(2, "-0 -1"),
        step(0, 0, 3, "-1 +64"),
        step(1, 2, 4, "+64"),
    ];
    let rules = ["+0 +64", "-0 +1", "-0 -1"];
    Worked::new("oneInEachHalf", &rules, &records).in_edition(Edition::Wide)
}
