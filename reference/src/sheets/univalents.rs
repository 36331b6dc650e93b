//! Sheets that tell lowering the univalents from lowering the units, and from
//! passes that look like it. Most sheets of `lowering` do so too.

use super::{given, step, Worked};
use crate::edition::Edition;

/// {-u} and {+v,+u}, each used twice. Once {-u} is lowered, the rest of the other
/// lies in D.
fn after_on(name: &'static str, [u, v, w]: [u8; 3], rules: &[&'static str]) -> Worked {
    let records = [
        given(0, rules[0]),
        given(1, rules[1]),
        given(2, rules[2]),
        step(v, 1, 2, &format!("+{u} +{w}")),
        step(u, 3, 0, &format!("+{w}")),
        given(3, rules[3]),
        step(v, 1, 5, &format!("+{u} -{w}")),
        step(u, 6, 0, &format!("-{w}")),
        step(w, 4, 7, ""),
    ];
    Worked::new(name, rules, &records)
}

/// Five steps become three, where lowering the units leaves four. Node 1 comes
/// back before node 0: the other way round the conclusion would lack +0 when node
/// 0 does, and +0 would be left.
pub fn after() -> Worked {
    let rules = ["-0", "+0 +1", "-1 +2", "-1 -2"];
    after_on("after", [0, 1, 2], &rules)
}

/// *after* on variables 64, 0 and 127: what D holds and what is left of node 1 lie
/// at one place of the halves with its own literal.
pub fn high_after() -> Worked {
    let rules = ["-64", "+64 +0", "-0 +127", "-0 -127"];
    after_on("high_after", [64, 0, 127], &rules).in_edition(Edition::Wide)
}

/// Node 0 is used twice on -0, and +2 is not in D: nothing is lowered.
pub fn rest_outside() -> Worked {
    let rules = ["-0 +2", "+0 +1", "+0 -1"];
    let records = [
        given(0, "-0 +2"),
        given(1, "+0 +1"),
        step(0, 1, 0, "+1 +2"),
        given(2, "+0 -1"),
        step(0, 3, 0, "-1 +2"),
        step(1, 2, 4, "+2"),
    ];
    Worked::new("rest_outside", &rules, &records)
}

/// Node 0 is lowered, and -1 is in D. Node 1 is used twice on +0, as a left parent,
/// and once on -1, as a right one: it is not lowered.
pub fn on_two_literals() -> Worked {
    let rules = ["+1", "+0 -1", "+1 +3", "-0 +3", "-0 +2", "-0 -2 -3"];
    let records = [
        given(0, "+1"),
        given(1, "+0 -1"),
        given(2, "+1 +3"),
        step(1, 2, 1, "+0 +3"),
        given(3, "-0 +3"),
        step(0, 3, 4, "+3"),
        given(4, "-0 +2"),
        step(0, 1, 6, "-1 +2"),
        step(1, 0, 7, "+2"),
        given(5, "-0 -2 -3"),
        step(0, 1, 9, "-1 -2 -3"),
        step(1, 0, 10, "-2 -3"),
        step(2, 8, 11, "-3"),
        step(3, 5, 12, ""),
    ];
    Worked::new("on_two_literals", &rules, &records)
}

/// Nodes 0 and 1 are lowered, and with node 1 node 3 loses +1: its stand-in is
/// node 2, and that of node 5 too. Node 5 had +4, which is not in D. As rebuilt it
/// is {-0,+2}, and is lowered on +2. Nothing needs +4 then, and the conclusion
/// loses it.
pub fn as_rebuilt() -> Worked {
    let rules = ["-1", "+0 +1", "-0 +2", "-1 +4", "-0 -2 +3", "+1 -2 -3"];
    let records = [
        given(0, "-1"),
        given(1, "+0 +1"),
        given(2, "-0 +2"),
        step(0, 1, 2, "+1 +2"),
        given(3, "-1 +4"),
        step(1, 3, 4, "+2 +4"),
        given(4, "-0 -2 +3"),
        step(0, 1, 6, "+1 -2 +3"),
        step(1, 7, 0, "-2 +3"),
        step(2, 5, 8, "+3 +4"),
        given(5, "+1 -2 -3"),
        step(1, 10, 0, "-2 -3"),
        step(2, 5, 11, "-3 +4"),
        step(3, 9, 12, "+4"),
    ];
    Worked::new("as_rebuilt", &rules, &records)
}

/// Nodes 3 and 5 have node 2 for a stand-in, as in *asRebuilt*. Node 5 is used on
/// +2, which {-0} lacks: it is not lowered, and node 10 is resolved with {-0}. A
/// pass that lowers it ends with {-0} for the conclusion, and has a step more.
pub fn lacks_it() -> Worked {
    let rules = [
        "-1",
        "+0 +1",
        "-0",
        "-1 +2",
        "-0 +1 -2 +3",
        "+0",
        "-0 -2 -3",
    ];
    let records = [
        given(0, "-1"),
        given(1, "+0 +1"),
        given(2, "-0"),
        step(0, 1, 2, "+1"),
        given(3, "-1 +2"),
        step(1, 3, 4, "+2"),
        given(4, "-0 +1 -2 +3"),
        step(1, 6, 0, "-0 -2 +3"),
        step(2, 5, 7, "-0 +3"),
        given(5, "+0"),
        step(0, 9, 8, "+3"),
        given(6, "-0 -2 -3"),
        step(0, 1, 11, "+1 -2 -3"),
        step(1, 12, 0, "-2 -3"),
        step(2, 5, 13, "-3"),
        step(3, 10, 14, ""),
    ];
    Worked::new("lacks_it", &rules, &records)
}
