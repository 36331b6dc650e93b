//! Document 02 (vii), "Shared nodes keep what all uses allow", and what holds of
//! both recyclings.

mod common;

use common::recycling::*;
use common::*;
use reference::cases::shapes;
use reference::cases::stages::{ladder, stages, Givens};
use reference::clause::Clause;
use reference::passes::recycle::{uncut_edges, Edge};
use reference::press::Passes;
use reference::proof::Node;
use std::collections::BTreeMap;

/// The sets S that recycling finds, of some nodes.
fn sets<const N: usize>(passes: &Passes, nodes: [usize; N]) -> [Clause; N] {
    nodes.map(|node| passes.visits[&node].s.clone())
}

fn cuts(passes: &Passes) -> Vec<(usize, Edge)> {
    let cut = passes.visits.iter();
    cut.filter_map(|(&node, visit)| visit.cut.map(|edge| (node, edge)))
        .collect()
}

fn steps(worked: &Worked) -> [usize; 2] {
    Recycling::ALL.map(|recycling| passes_by(recycling, worked).pressed.steps())
}

#[test]
fn a_shared_node_keeps_what_its_uncut_edge_hands_it() {
    let passes = passes_by(Intersection, &all_allow());
    let by_hand = ["", "-0", "-0 +1", "+0", "+0 -1"].map(clause);
    assert_eq!(sets(&passes, [8, 7, 6, 4, 3]), by_hand);
    assert_eq!(cuts(&passes), [(3, Edge::Right), (6, Edge::Left)]);
    let stand_ins = [3, 6].map(|node| passes.rebuilt.stand_ins[&node]);
    assert_eq!(stand_ins, [2, 5]);
    assert_eq!(passes.bottom_up, [0, 2, 4, 5, 1, 7, 8]);
    let reset = passes_by(Reset, &all_allow());
    assert_eq!(sets(&reset, [4, 3]), ["", "-1"].map(clause));
    assert_eq!(cuts(&reset), [(6, Edge::Left)]);
}

#[test]
fn a_shared_node_keeps_what_two_edges_have_in_common() {
    let passes = passes_by(Intersection, &keeps_common());
    let by_hand = ["-2", "-1 -2", "+1 -2", "-0 -2", "-0 +1 -2"].map(clause);
    assert_eq!(sets(&passes, [9, 8, 7, 4, 3]), by_hand);
    assert_eq!(cuts(&passes), [(3, Edge::Left)]);
}

/// Opposite literals have nothing in common: node 2 of this sheet is handed
/// {+0,+1} and {-0,+1}.
#[test]
fn a_literal_of_one_edge_is_not_kept() {
    let passes = passes_by(Intersection, &shared_reset());
    assert_eq!(passes.visits[&2].s, clause("+1"));
    assert!(cuts(&passes).is_empty());
}

/// Node 4 hands node 3 {-0,+1}, and the edge from node 6 to it is cut.
#[test]
fn cut_edges_do_not_count() {
    let passes = passes_by(Intersection, &cut_use());
    let by_hand = ["", "+1", "+0 -1", "-0 +1"].map(clause);
    assert_eq!(sets(&passes, [9, 4, 6, 3]), by_hand);
    let expected = [(3, Edge::Right), (6, Edge::Right), (7, Edge::Left)];
    assert_eq!(cuts(&passes), expected);
}

#[test]
fn edges_from_unreached_steps_do_not_count() {
    let passes = passes_by(Intersection, &unreached_use());
    assert!(!passes.visits.contains_key(&4));
    assert_eq!(passes.visits[&3].s, clause("+3 -5"));
    assert_eq!(passes.visits[&3].cut, Some(Edge::Right));
}

/// "Keep the old pass selectable": neither is the better one on every sheet.
#[test]
fn the_recyclings_part_in_both_directions() {
    assert_eq!(steps(&all_allow()), [4, 3]);
    assert_eq!(steps(&reset_shorter()), [1, 2]);
    assert_eq!(steps(&keeps_common()), [5, 4]);
    assert_eq!(steps(&cut_use()), [4, 2]);
    assert_eq!(steps(&unreached_use()), [4, 2]);
    assert_eq!(reset_shorter().records.len(), 12);
}

/// The presses of random proofs by this recycling.
fn random(recycling: Recycling) -> impl Iterator<Item = Passes> {
    random_passes(21, 2000, recycling, Nothing, shapes::draw)
}

/// What each uncut edge of a reached step hands to the node that it leads to.
fn handed(passes: &Passes) -> BTreeMap<usize, Vec<Clause>> {
    let mut handed: BTreeMap<usize, Vec<Clause>> = BTreeMap::new();
    for (number, visit) in &passes.visits {
        for (parent, set) in uncut_edges(&passes.trimmed.nodes[number], visit) {
            handed.entry(parent).or_default().push(set);
        }
    }
    handed
}

/// A literal is in S exactly if every edge that counts hands it over.
#[test]
fn s_is_the_intersection() {
    for passes in random(Intersection) {
        for (node, sets) in handed(&passes) {
            let s = &passes.visits[&node].s;
            assert!(sets.iter().all(|set| s.is_within(set)));
            let mut first = sets[0].literals();
            assert!(first.all(|l| s.holds(l) == sets.iter().all(|set| set.holds(l))));
        }
    }
}

#[test]
fn a_node_with_one_use_gets_what_it_is_handed_by_either() {
    for passes in Recycling::ALL.into_iter().flat_map(random) {
        let uses = passes.trimmed.uses();
        for (node, sets) in handed(&passes) {
            if uses[&node] == 1 {
                assert_eq!(passes.visits[&node].s, sets[0]);
            }
        }
    }
}

/// Without shared nodes there is nothing to choose.
#[test]
fn a_tree_is_pressed_alike() {
    let mut trees = 0;
    for (reset, intersection) in random(Reset).zip(random(Intersection)) {
        if reset.trimmed.uses().values().all(|&uses| uses < 2) {
            assert_eq!(reset.visits, intersection.visits);
            assert_eq!(reset.records, intersection.records);
            trees += 1;
        }
    }
    assert!(trees > 200);
}

/// "the new clause has no literal outside the old one and S."
#[test]
fn a_new_clause_lies_in_the_old_one_and_s() {
    for passes in Recycling::ALL.into_iter().flat_map(random) {
        for (node, visit) in &passes.visits {
            let new = passes.rebuilt.nodes[&passes.rebuilt.stand_ins[node]].clause();
            let old = passes.trimmed.nodes[node].clause();
            assert!(new.is_within(&old.joined(&visit.s)));
        }
    }
}

/// A step adds its pivot's literals to S only where S has neither.
#[test]
fn s_holds_no_variable_both_ways_unless_the_conclusion_does() {
    for passes in Recycling::ALL.into_iter().flat_map(random) {
        if !passes.input.conclusion().holds_both_ways() {
            let mut visits = passes.visits.values();
            assert!(visits.all(|visit| !visit.s.holds_both_ways()));
        }
    }
}

fn names_twice(node: &Node) -> bool {
    matches!(node, Node::Step { left, right, .. } if left == right)
}

/// From the sink's own clause on, what every edge hands over holds the parent's
/// clause. So a step that names one node on both sides has its pivot in S, and no
/// step that is rebuilt names one node twice.
#[test]
fn by_the_intersection_s_holds_the_clause() {
    let mut named_twice = 0;
    for passes in random(Intersection) {
        for (node, visit) in &passes.visits {
            let old = &passes.trimmed.nodes[node];
            assert!(old.clause().is_within(&visit.s));
            if names_twice(old) {
                assert_eq!(visit.cut, Some(Edge::Left));
                named_twice += 1;
            }
        }
        assert!(!passes.pressed.nodes.values().any(names_twice));
    }
    assert!(named_twice > 20);
}

/// The proofs of `stages` are pressed to what they are, by either recycling, but
/// for what no step of theirs names.
#[test]
fn stages_stay_as_they_are() {
    for edition in Edition::ALL {
        for size in [64, edition.press_records()] {
            let shared = stages(edition, size, Givens::Shared);
            let held = stages(edition, size, Givens::Held);
            for draft in [shared, held, ladder(size)] {
                let nodes = draft.nodes.len();
                assert!(nodes <= size && nodes * 10 > size * 9);
                let (sheet, rules) = (draft.sheet(edition), draft.rule_table(edition));
                let done = press_ok_in(edition, &sheet, &rules);
                assert_eq!(done.pressed.nodes, nodes + 1 - draft.unused().len());
            }
        }
    }
}
