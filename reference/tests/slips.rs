//! "Slips that look right", each with a sheet that tells it from the rule.

mod common;

use common::*;
use reference::clause::Literal;
use reference::passes::bottom_up::bottom_up;
use reference::passes::rebuild::Why;
use reference::passes::recycle::Edge;
use reference::press::Passes;
use reference::proof::{Node, Proof};
use reference::record::Record;

/// By the recycling of document 01.
fn passes_of(worked: &Worked) -> Passes {
    passes_by(Reset, worked)
}

#[test]
fn the_kept_side_of_a_cut() {
    let (sheet, rules) = irregular().bytes();
    let done = press_ok(&sheet, &rules);
    assert_eq!((done.pressed.positive, done.pressed.negative), (0, 0));
    let passes = passes_of(&irregular());
    assert_eq!(passes.visits[&2].cut, Some(Edge::Right));
    assert_eq!(passes.visits[&2].s, clause("+0 +1 +2"));
    assert_eq!(passes.rebuilt.stand_ins[&2], 0);
}

#[test]
fn a_left_edge_cut() {
    let (input, table) = mirrored().bytes();
    let done = press_ok(&input, &table);
    // top-down: bottom-up {+0} comes first, and the peak is 4
    let expected = [
        given(0, "-0 -1"),
        given(2, "-0 +1"),
        step(1, 1, 0, "-0"),
        dropped(0),
        dropped(1),
        given(3, "+0"),
        step(0, 3, 2, ""),
        dropped(2),
        dropped(3),
    ];
    assert_eq!(done.out, sheet(&expected));
    assert_eq!(done.core, [0, 2, 3]);
    assert_eq!(done.pressed.peak, 3);
}

/// Node 2 is used by two steps on different sides of pivot 0, so nothing above
/// it may be cut on 0: its S is empty although both uses would hand over a 0.
#[test]
fn s_is_not_carried_into_a_node_used_twice() {
    let (input, table) = shared_reset().bytes();
    let passes = passes_of(&shared_reset());
    assert!(passes.visits.values().all(|visit| visit.cut.is_none()));
    assert!(passes.visits[&2].s.is_empty());
    let done = press_ok(&input, &table);
    assert_eq!((done.pressed.nodes, done.pressed.steps), (8, 4));
    assert_eq!(done.core, [0, 1, 2, 3]);
}

#[test]
fn no_step_is_rebuilt_without_its_pivot() {
    let passes = passes_of(&irregular());
    assert_eq!(passes.rebuilt.why[&8], Why::LeftLacksPivot);
    assert_eq!(passes.rebuilt.stand_ins[&8], 6);
}

/// "the right parent gets S", "the left parent gets S": a cut step hands its S
/// on, so that the next step on the same pivot is cut as well.
#[test]
fn a_cut_step_hands_its_s_on() {
    let passes = passes_of(&hands_on());
    for number in [4, 3] {
        assert_eq!(passes.visits[&number].cut, Some(Edge::Right));
        assert_eq!(passes.visits[&number].s, clause("+0 +1"));
        assert_eq!(passes.rebuilt.stand_ins[&number], 1);
    }
    assert_eq!(passes.records, [given(1, "+0 +1")]);
}

/// "Cuts don't lower uses": node 3 is named twice by node 4, where one edge is
/// cut, and still counts as used twice, so node 3 itself isn't cut on 0.
#[test]
fn cuts_do_not_lower_uses() {
    let passes = passes_of(&twice_again());
    assert_eq!(passes.visits[&4].cut, Some(Edge::Left));
    assert!(passes.visits[&3].s.is_empty());
    assert_eq!(passes.visits[&3].cut, None);
    assert_eq!(passes.rebuilt.stand_ins[&4], 3);
}

#[test]
fn a_twice_named_parent_is_dropped_once() {
    let again = twice_again();
    let done = press_worked(Reset, &again);
    let mut expected = again.records[..4].to_vec();
    expected.splice(3..3, [dropped(0), dropped(1)]);
    expected.push(dropped(2));
    assert_eq!(done.out, sheet(&expected));
}

/// "If it holds p both ways, 01's order (-p first) decides": the left edge is
/// cut, and lines 2 and 3 stay. With +p first they would be lines 0 and 1.
#[test]
fn minus_is_tried_before_plus() {
    let either = either_way();
    let passes = passes_of(&either);
    assert_eq!(passes.visits[&6].cut, Some(Edge::Left));
    assert_eq!(passes.visits[&6].s, clause("+0 -0"));
    let done = press_ok(&either.sheet(), &either.table());
    assert_eq!(done.core, [2, 3]);
    assert_eq!(done.pressed.steps, 1);
}

#[test]
fn marks_are_of_the_pressed_sheet() {
    let (sheet, rules) = irregular().bytes();
    assert_eq!(press_ok(&sheet, &rules).core, [0, 2, 3]);
}

/// The right premise of node 3 has two uses and the left one has one, so the
/// right one is placed first.
#[test]
fn more_uses_go_first() {
    let passes = passes_of(&heavier_right());
    assert_eq!(passes.bottom_up, [0, 1, 3, 2, 4, 5]);
}

/// "one step naming it twice counts two".
#[test]
fn uses_count_places_and_not_children() {
    let passes = passes_of(&places());
    let uses = passes.pressed.uses();
    assert_eq!((uses[&2], uses[&1]), (3, 2));
    assert_eq!(passes.bottom_up, [0, 1, 2, 5, 3, 4, 6]);
}

#[test]
fn the_second_trim_lowers_uses() {
    let passes = passes_of(&second_trim());
    let untrimmed = Proof {
        nodes: passes.rebuilt.nodes.clone(),
        sink: passes.pressed.sink,
    };
    assert_eq!(passes.bottom_up[..2], [2, 3]);
    assert_eq!(bottom_up(&untrimmed)[..2], [3, 2]);
}

/// "left stand-in lacks +p, take it; else right lacks -p, take that": where
/// both lack it, the left one is taken.
#[test]
fn the_left_stand_in_is_tested_first() {
    let passes = passes_of(&both_lack());
    let clause_of = |number| passes.rebuilt.nodes[&passes.rebuilt.stand_ins[number]].clause();
    let both_lack = |step: &usize| match &passes.trimmed.nodes[step] {
        Node::Step {
            pivot, left, right, ..
        } => {
            passes.visits[step].cut.is_none()
                && !clause_of(left).holds(Literal::Plus(*pivot))
                && !clause_of(right).holds(Literal::Minus(*pivot))
                && passes.rebuilt.stand_ins[left] != passes.rebuilt.stand_ins[right]
        }
        Node::Given { .. } => false,
    };
    assert!(passes.visits.keys().any(both_lack));
}

#[test]
fn a_rebuilt_step_may_name_one_node_twice() {
    let done = passes_of(&twice_after());
    let twice = |node: &Record| matches!(node, Record::Node(Node::Step { left, right, .. }) if left == right);
    assert!(!twice_after().records.iter().any(twice));
    assert!(done.records.iter().any(twice));
}
