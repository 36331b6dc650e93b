//! Sheets for what the starred ones do not tell apart: "Slips that look right",
//! and what the passes and the checks can come to.

use super::starred::{irregular, pair};
use super::{dropped, given, step, Worked};

/// The right premise of a step has two uses and the left one has one.
pub fn heavier_right() -> Worked {
    let records = [
        given(0, "-0"),
        given(1, "+0 +1"),
        given(2, "+0 -1"),
        step(0, 1, 0, "+1"),
        step(0, 2, 0, "-1"),
        step(1, 3, 4, ""),
    ];
    Worked::new("heavier_right", &["-0", "+0 +1", "+0 -1"], &records)
}

/// The right edge of a step is cut, and the kept parent is not node 0.
pub fn right_cut() -> Worked {
    let rules = ["-2", "+0 +1", "-0 +2", "+0 -1", "-0"];
    let records = [
        given(0, "-2"),
        given(1, "+0 +1"),
        given(2, "-0 +2"),
        step(0, 1, 2, "+1 +2"),
        given(3, "+0 -1"),
        step(1, 3, 4, "+0 +2"),
        given(4, "-0"),
        step(0, 5, 6, "+2"),
        step(2, 7, 0, ""),
    ];
    Worked::new("right_cut", &rules, &records)
}

/// The left edge of a step is cut.
pub fn left_cut() -> Worked {
    let rules = ["-2", "+0 +2", "-0 +1", "-0 -1", "+0"];
    let records = [
        given(0, "-2"),
        given(1, "+0 +2"),
        given(2, "-0 +1"),
        step(0, 1, 2, "+1 +2"),
        given(3, "-0 -1"),
        step(1, 3, 4, "-0 +2"),
        given(4, "+0"),
        step(0, 6, 5, "+2"),
        step(2, 7, 0, ""),
    ];
    Worked::new("left_cut", &rules, &records)
}

/// Both stand-ins of a step lack its pivot: the left one is taken.
pub fn both_lack() -> Worked {
    let rules = ["+0 -1 +2", "+0", "-2", "-0 +1 -2"];
    let records = [
        given(0, "+0 -1 +2"),
        given(1, "+0"),
        given(2, "-2"),
        given(3, "-0 +1 -2"),
        step(0, 1, 3, "+1 -2"),
        step(2, 0, 2, "+0 -1"),
        step(1, 4, 5, "+0 -2"),
    ];
    Worked::new("both_lack", &rules, &records)
}

/// A step that names one node on both sides only once it is rebuilt.
pub fn twice_after() -> Worked {
    let records = [
        given(0, "-0 -1 +2"),
        given(1, "+0 +1 -2"),
        step(1, 1, 0, "+0 -0 +2 -2"),
        step(2, 0, 2, "+0 -0 -1 +2"),
        step(0, 1, 2, "+0 +1 +2 -2"),
        step(0, 3, 2, "+0 -0 -1 +2 -2"),
        step(2, 0, 5, "+0 -0 -1 +2"),
        step(0, 4, 6, "+0 +1 -1 +2 -2"),
        step(1, 7, 6, "+0 -0 -1 +2 -2"),
    ];
    Worked::new("twice_after", &["-0 -1 +2", "+0 +1 -2"], &records)
}

/// Once it is rebuilt, a node that names node 3 is out of the sink's reach. With
/// it node 3 would have more uses than node 2, and would be placed first.
pub fn second_trim() -> Worked {
    let rules = ["+0 +1 +2", "-1 -2", "+0 +2", "-0"];
    let records = [
        given(0, "+0 +1 +2"),
        given(1, "-1 -2"),
        given(2, "+0 +2"),
        given(3, "-0"),
        step(0, 2, 3, "+2"),
        step(0, 0, 3, "+1 +2"),
        step(2, 4, 1, "-1"),
        step(1, 5, 6, "+2"),
    ];
    Worked::new("second_trim", &rules, &records)
}

/// Node 2 is used by two steps on different sides of pivot 0: a set carried
/// into it would cut it, and so would what the two hand over joined, or one of
/// the two.
pub fn shared_reset() -> Worked {
    let records = [
        given(0, "+0 +1"),
        given(1, "-0 +1"),
        step(0, 0, 1, "+1"),
        given(2, "+0 -1"),
        step(1, 2, 3, "+0"),
        given(3, "-0 -1"),
        step(1, 2, 5, "-0"),
        step(0, 4, 6, ""),
    ];
    let rules = ["+0 +1", "-0 +1", "+0 -1", "-0 -1"];
    Worked::new("shared_reset", &rules, &records)
}

/// A drop of which a byte that must be zero is not: 6 for the press, 7 for the
/// replay.
pub fn bad_drop() -> Worked {
    let records = [given(0, "+0"), dropped(0)];
    Worked {
        spoilt: Some((1, 5, 1)),
        ..Worked::new("bad_drop", &["+0"], &records)
    }
}

/// A given record that names a line beyond the table: in a full row its own
/// number, not 15.
pub fn bad_in_full_row() -> Worked {
    let records = [given(0, "+0"), given(7, "+0")];
    Worked::new("bad_in_full_row", &["+0"], &records)
}

/// The left parent isn't earlier and the right one was dropped: 9, not 10.
pub fn both_names() -> Worked {
    let records = [given(0, "+0"), dropped(0), step(0, 5, 0, "")];
    Worked::new("both_names", &["+0"], &records)
}

/// The mirror image of *irregular*: every pivot literal turned round.
pub fn mirrored() -> Worked {
    let rules = ["-0 -1", "+0 -2", "-0 +1", "+0", "+2"];
    let records = [
        given(0, "-0 -1"),
        given(1, "+0 -2"),
        step(0, 1, 0, "-1 -2"),
        given(2, "-0 +1"),
        step(1, 3, 2, "-0 -2"),
        given(3, "+0"),
        step(0, 5, 4, "-2"),
        given(4, "+2"),
        step(2, 7, 6, ""),
    ];
    Worked::new("mirrored", &rules, &records)
}

/// Nodes 2 and 0 of the pressed sheet have as many children, but node 2, which a
/// step names twice, has more uses.
pub fn places() -> Worked {
    let rules = ["+0 -1 -2 -3", "-0 +1 +2 +3"];
    let records = [
        given(0, "+0 -1 -2 -3"),
        given(1, "-0 +1 +2 +3"),
        step(0, 0, 1, "+1 -1 +2 -2 +3 -3"),
        step(1, 2, 2, "+1 -1 +2 -2 +3 -3"),
        step(3, 3, 0, "+0 +1 -1 +2 -2 -3"),
        step(1, 1, 2, "-0 +1 +2 -2 +3 -3"),
        step(2, 5, 4, "+0 -0 +1 -1 +2 -2 +3 -3"),
        step(2, 6, 6, "+0 -0 +1 -1 +2 -2 +3 -3"),
    ];
    Worked::new("places", &rules, &records)
}

/// A cut step hands its S on, so that the next step on the same pivot is cut as
/// well: on the left edge here.
pub fn hands_on() -> Worked {
    let records = [
        given(0, "-0 -1"),
        given(1, "+0 +1"),
        step(0, 1, 0, "+1 -1"),
        step(1, 1, 2, "+0 +1"),
        step(1, 3, 2, "+0 +1"),
    ];
    Worked::new("handsOn", &["-0 -1", "+0 +1"], &records)
}

/// Steps that each name the node before on both sides: it is dropped once. The
/// sink's left edge is cut, and the node on its right still has two uses.
pub fn twice_again() -> Worked {
    let either = |left, right| step(0, left, right, "+0 -0");
    let records = [
        given(0, "+0 +1"),
        given(1, "-0 -1"),
        step(1, 0, 1, "+0 -0"),
        either(2, 2),
        either(3, 3),
    ];
    Worked::new("twice_again", &["+0 +1", "-0 -1"], &records)
}

/// A derived conclusion that holds a variable both ways, which is the pivot of
/// the last step: "If it holds p both ways, 01's order (-p first) decides."
pub fn either_way() -> Worked {
    let rules = ["+0 +1", "-0 -1", "+0 +2", "-0 -2"];
    let records = [
        given(0, "+0 +1"),
        given(1, "-0 -1"),
        step(1, 0, 1, "+0 -0"),
        given(2, "+0 +2"),
        given(3, "-0 -2"),
        step(2, 3, 4, "+0 -0"),
        step(0, 2, 5, "+0 -0"),
    ];
    Worked::new("either_way", &rules, &records)
}

/// A given record of a line of its own that nothing uses.
pub fn unmarked() -> Worked {
    let records = [
        given(0, "+0"),
        given(1, "-0"),
        given(2, "+5"),
        step(0, 0, 1, ""),
    ];
    Worked::new("unmarked", &["+0", "-0", "+5"], &records)
}

/// *irregular*, whose record 2 has another clause than {+1,+2}.
fn irregular_with(name: &'static str, clause: &str) -> Worked {
    let mut worked = irregular();
    worked.records[2] = step(0, 0, 1, clause);
    Worked { name, ..worked }
}

/// A literal of the result is lost: 12.
pub fn lost() -> Worked {
    irregular_with("lost", "+1")
}

/// A literal is added to the result: 18.
pub fn added() -> Worked {
    irregular_with("added", "+1 +2 -7")
}

/// One is lost and one is added: 12.
pub fn lost_and_added() -> Worked {
    irregular_with("lost_and_added", "+1 -7")
}

pub fn wrong_results() -> [Worked; 3] {
    [lost(), added(), lost_and_added()]
}

/// A given clause that holds a variable both ways and differs from its rule line:
/// 14, not 17.
pub fn both_ways_differs() -> Worked {
    Worked::new("both_ways_differs", &["+0"], &[given(0, "+0 -0")])
}

/// A given clause that holds a variable both ways: in a full row 17, not 15.
pub fn both_ways_in_full_row() -> Worked {
    let records = [given(0, "+0"), given(1, "-0 +7 -7")];
    Worked::new("both_ways_in_full_row", &["+0", "-0 +7 -7"], &records)
}

/// *pair*, whose table also has a line that holds a variable both ways. No record
/// names it, and nothing is refused.
pub fn both_ways_unused() -> Worked {
    let rules = ["+0", "-0", "+5 -5"];
    Worked::new("both_ways_unused", &rules, &pair().records)
}
