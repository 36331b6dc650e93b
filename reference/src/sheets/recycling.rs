//! Sheets that the two recyclings press apart, in both directions, and that tell
//! the intersection from passes that look like it.

use super::{given, step, Worked};

/// Node 4 has two uses, of which one is cut. The other hands it {+0}, which cuts
/// node 3: the reset leaves four steps and the intersection three. Four are left
/// too where the cut edge counts and hands over S.
pub fn all_allow() -> Worked {
    let records = [
        given(0, "+0 +1"),
        given(1, "-0 -1"),
        given(2, "+0 -1"),
        step(0, 2, 1, "-1"),
        step(1, 0, 3, "+0"),
        given(3, "-0 +1"),
        step(0, 4, 5, "+1"),
        step(1, 6, 1, "-0"),
        step(0, 4, 7, ""),
    ];
    let rules = ["+0 +1", "-0 -1", "+0 -1", "-0 +1"];
    Worked::new("all_allow", &rules, &records)
}

/// The other way round: the reset leaves one step, the intersection two.
pub fn reset_shorter() -> Worked {
    let rules = ["+1", "+0 -2", "-0 -1 -2", "+0 +2 +3", "-0", "+2 -3"];
    let records = [
        given(0, "+1"),
        given(1, "+0 -2"),
        given(2, "-0 -1 -2"),
        step(1, 0, 2, "-0 -2"),
        given(3, "+0 +2 +3"),
        given(4, "-0"),
        step(0, 1, 5, "-2"),
        given(5, "+2 -3"),
        step(2, 7, 6, "-3"),
        step(3, 4, 8, "+0 +2"),
        step(2, 9, 6, "+0"),
        step(0, 10, 3, "-2"),
    ];
    Worked::new("reset_shorter", &rules, &records)
}

/// Node 4 is handed {-0,+1,-2} and {-0,-1,-2}, which have -0 and -2 in common: -0
/// cuts node 3, and 1 must not cut node 4. A pass that empties S, joins the sets
/// or takes one of them presses otherwise, and all but the first end in a clause
/// that does not follow.
pub fn keeps_common() -> Worked {
    let rules = ["-0 -1", "+0", "-0 +1 -2", "+0 +1", "+0 -1"];
    let records = [
        given(0, "-0 -1"),
        given(1, "+0"),
        given(2, "-0 +1 -2"),
        step(0, 1, 2, "+1 -2"),
        step(1, 3, 0, "-0 -2"),
        given(3, "+0 +1"),
        given(4, "+0 -1"),
        step(0, 5, 4, "+1 -2"),
        step(0, 6, 4, "-1 -2"),
        step(1, 7, 8, "-2"),
    ];
    Worked::new("keeps_common", &rules, &records)
}

/// Node 3 has two uses, and the edge from node 6 is cut. What it would hand over,
/// {+0,-1} or with its side of the pivot {+0,-0,-1}, lacks the +1 by which node 3
/// is cut.
pub fn cut_use() -> Worked {
    let rules = ["+1", "+0 +1", "-0 -1", "+0 -1"];
    let records = [
        given(0, "+1"),
        given(1, "+0 +1"),
        given(2, "-0 -1"),
        step(1, 0, 2, "-0"),
        step(0, 1, 3, "+1"),
        given(3, "+0 -1"),
        step(0, 5, 3, "-1"),
        step(1, 1, 6, "+0"),
        step(0, 7, 2, "-1"),
        step(1, 4, 8, ""),
    ];
    Worked::new("cut_use", &rules, &records)
}

/// Node 3 has two uses, and node 4, which is one of them, is not reached: its only
/// use is cut. Node 5 hands node 3 {+3,-5}, and +3 cuts it. A step that is not
/// reached has no S; as if it were empty it would hand over {-5}.
pub fn unreached_use() -> Worked {
    let rules = ["-3 -5", "+3", "+3 +5", "-3 +5"];
    let records = [
        given(0, "-3 -5"),
        given(1, "+3"),
        given(2, "+3 +5"),
        step(3, 1, 0, "-5"),
        step(5, 2, 3, "+3"),
        step(5, 2, 3, "+3"),
        step(3, 4, 0, "-5"),
        given(3, "-3 +5"),
        step(5, 7, 6, "-3"),
        step(3, 5, 8, ""),
    ];
    Worked::new("unreached_use", &rules, &records)
}
