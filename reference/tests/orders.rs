//! Document 02 (xiii), "A second order". Orders that look like the top-down one, and
//! other choices between the two, are each told by a worked sheet.

mod common;

use common::orders::*;
use common::*;
use reference::cases::hanging::hanging;
use reference::cases::stages::{stages, Givens};
use reference::cases::{draw, Case, Size};
use reference::passes::drops::{peak, with_drops};
use reference::passes::order::Order::{self, BottomUp, TopDown};
use reference::passes::top_down::{top_down_by, Turn};
use reference::press::{press, read_proof, run_passes, Passes};
use reference::proof::Node;
use reference::record::Record;
use std::cmp::Reverse;
use std::collections::BTreeMap;

/// Bottom-up and top-down.
fn peaks(passes: &Passes) -> [usize; 2] {
    let orders = [&passes.bottom_up, &passes.top_down];
    orders.map(|order| peak(&with_drops(&passes.pressed, order)))
}

/// That the press answers so: both peaks, and which order is emitted.
fn check(passes: &Passes, expected: [usize; 2], order: Order) {
    assert_eq!((peaks(passes), passes.emitted), (expected, order));
    let emitted = with_drops(&passes.pressed, passes.order());
    assert_eq!(passes.records, emitted);
    assert_eq!(peak(&emitted), expected[usize::from(order.number())]);
}

/// What would be emitted if this were the top-down order.
fn with_other(passes: &Passes, other: &[usize]) -> Vec<Record> {
    let orders = [&passes.bottom_up[..], other];
    let [old, new] = orders.map(|order| with_drops(&passes.pressed, order));
    match peak(&new) < peak(&old) {
        true => new,
        false => old,
    }
}

/// Whether something else would be emitted by another ranking.
fn tells<R: Ord>(passes: &Passes, rank: impl Fn(&Turn, usize) -> R) -> bool {
    let other = top_down_by(&passes.pressed, rank);
    with_other(passes, &other) != passes.records
}

/// By what is dropped, and of equals the largest.
fn largest(turn: &Turn, node: usize) -> (usize, usize) {
    (turn.dropped_after(node).len(), node)
}

/// By all distinct parents, also those that are still needed.
fn all_parents(turn: &Turn, node: usize) -> (usize, Reverse<usize>) {
    (turn.parents(node).len(), Reverse(node))
}

/// By whether anything is dropped.
fn anything(turn: &Turn, node: usize) -> (bool, Reverse<usize>) {
    (!turn.dropped_after(node).is_empty(), Reverse(node))
}

fn intersected(worked: &Worked) -> Passes {
    passes_by(Intersection, worked)
}

#[test]
fn givens_on_the_left_are_placed_where_they_are_needed() {
    for worked in [left_givens(), high_left_givens()] {
        for recycling in Recycling::ALL {
            let passes = passes_by(recycling, &worked);
            assert_eq!(passes.bottom_up, [7, 5, 3, 1, 0, 2, 4, 6, 8]);
            assert_eq!(passes.top_down, [0, 1, 2, 3, 4, 5, 6, 7, 8]);
            check(&passes, [6, 3], TopDown);
        }
    }
}

/// "the answer says which it was", and the peak that is reported is that order's.
#[test]
fn the_answer_says_which_order_it_was() {
    let answer = |worked: &Worked| {
        let Done { pressed, .. } = press_worked(Intersection, worked);
        (pressed.order, pressed.peak)
    };
    assert_eq!(answer(&left_givens()), (TopDown, 3));
    assert_eq!(answer(&high_left_givens()), (TopDown, 3));
    assert_eq!(answer(&equal_peaks()), (BottomUp, 3));
    assert_eq!(answer(&early_given()), (BottomUp, 3));
}

/// Stages of chains whose left premises are given, at half the length and at the
/// whole one.
#[test]
fn a_long_chain_holds_four_nodes() {
    let cases = [(Narrow, 512, 243), (Narrow, 1024, 487), (Wide, 512, 251)];
    for (edition, size, bottom_up) in cases {
        let draft = stages(edition, size, Givens::Held);
        let (sheet, rules) = (draft.sheet(edition), draft.rule_table(edition));
        let proof = read_proof(edition, &sheet, &rules).unwrap();
        let passes = run_passes(Plan::program_in(edition), proof);
        check(&passes, [bottom_up, 4], TopDown);
    }
}

/// "equal: the old one", though the bytes differ.
#[test]
fn equal_peaks_keep_the_old_order() {
    let passes = intersected(&equal_peaks());
    assert_eq!(passes.bottom_up, [1, 0, 2]);
    assert_eq!(passes.top_down, [0, 1, 2]);
    check(&passes, [3, 3], BottomUp);
    let new = with_drops(&passes.pressed, &passes.top_down);
    assert_ne!(new, passes.records);
}

#[test]
fn the_old_order_is_emitted_where_the_new_one_is_worse() {
    let passes = intersected(&early_given());
    assert_eq!(passes.bottom_up, [0, 2, 3, 1, 4]);
    assert_eq!(passes.top_down, [0, 1, 2, 3, 4]);
    check(&passes, [3, 4], BottomUp);
}

#[test]
fn ties_go_to_the_smallest_number() {
    let passes = intersected(&left_givens());
    assert!(tells(&passes, largest));
    // "as nodes were numbered when the order began", and not by other places
    let places = passes.bottom_up.iter().enumerate();
    let places: BTreeMap<usize, usize> = places.map(|(at, &node)| (node, at)).collect();
    assert!(tells(&passes, |turn, node| {
        (turn.dropped_after(node).len(), Reverse(places[&node]))
    }));
}

#[test]
fn parents_that_are_still_needed_do_not_count() {
    let passes = intersected(&still_needed());
    assert_eq!(passes.bottom_up, [0, 1, 3, 6, 7, 2, 4, 5, 8]);
    assert_eq!(passes.top_down, [0, 1, 2, 4, 3, 5, 6, 7, 8]);
    check(&passes, [5, 4], TopDown);
    assert!(tells(&passes, all_parents));
    // a step goes before a given node only for what is dropped after it
    assert!(tells(&passes, |turn, node| {
        (!turn.parents(node).is_empty(), Reverse(node))
    }));
}

/// By the reset, which leaves steps that name one node twice.
#[test]
fn a_parent_named_twice_counts_once() {
    let passes = passes_by(Reset, &named_twice());
    assert_eq!(passes.bottom_up, [4, 2, 0, 3, 5, 1, 6, 7, 8]);
    assert_eq!(passes.top_down, [0, 1, 2, 3, 6, 5, 7, 4, 8]);
    check(&passes, [5, 4], TopDown);
    let places = |turn: &Turn, node: usize| {
        let named = passes.pressed.nodes[&node].parents();
        let dropped = turn.dropped_after(node);
        named.iter().filter(|of| dropped.contains(of)).count()
    };
    assert!(tells(&passes, |turn, node| {
        (places(turn, node), Reverse(node))
    }));
    // two uses left, and so never the last one
    let never = |turn: &Turn, node: usize| {
        let twice = turn.parents(node).len() < passes.pressed.nodes[&node].parents().len();
        turn.dropped_after(node).len() - usize::from(twice)
    };
    assert!(tells(&passes, |turn, node| {
        (never(turn, node), Reverse(node))
    }));
}

/// "after which most nodes can be dropped": two go before one.
#[test]
fn two_dropped_go_before_one() {
    for recycling in Recycling::ALL {
        let passes = passes_by(recycling, &two_dropped());
        assert_eq!(passes.bottom_up, [9, 1, 3, 0, 6, 7, 2, 4, 5, 8, 10]);
        assert_eq!(passes.top_down, [0, 1, 2, 3, 4, 6, 5, 7, 8, 9, 10]);
        check(&passes, [6, 5], TopDown);
        assert!(tells(&passes, anything));
    }
}

/// The sink is named by no step and reaches every node, so that it is placed last by
/// any ranking: whether it counts as dropped makes no difference.
#[test]
fn the_sink_is_placed_last_by_any_ranking() {
    for (_, passes) in accepted(51, Size::Small).take(500) {
        let first = |_: &Turn, node: usize| node == passes.pressed.sink;
        let order = top_down_by(&passes.pressed, first);
        assert_eq!(order.last(), Some(&passes.pressed.sink));
    }
}

/// Step 4's numbers are those of the input, and the new steps of lowering have larger
/// ones: what else the numbers of the input could be, no sheet tells.
#[test]
fn numbers_are_the_inputs_but_for_new_steps() {
    let is_step = |node: &Node| matches!(node, Node::Step { .. });
    for (_, passes) in accepted(52, Size::Small).take(500) {
        for (number, node) in &passes.pressed.nodes {
            match *number <= passes.recycled.sink {
                true => assert_eq!(is_step(node), is_step(&passes.input.nodes[number])),
                false => assert!(is_step(node) && passes.lowered.is_some()),
            }
        }
    }
}

/// Random presses that are accepted, and what they are given.
fn accepted(seed: u64, size: Size) -> impl Iterator<Item = (Given, Passes)> {
    (0..).filter_map(move |index| {
        let Case::Press {
            plan,
            sheet,
            rules,
            room,
            marks,
        } = draw(seed, index, size)
        else {
            return None;
        };
        let (mut out, mut marks) = (vec![0; room], vec![0; marks]);
        press(plan, &sheet, &rules, &mut out, &mut marks).ok()?;
        let passes = run_passes(plan, read_proof(plan.edition, &sheet, &rules).unwrap());
        Some((Given { plan, sheet, rules }, passes))
    })
}

struct Given {
    plan: Plan,
    sheet: Vec<u8>,
    rules: Vec<u8>,
}

/// Parents first, and every node that the sink reaches once.
fn check_order(passes: &Passes, order: &[usize]) {
    for (at, number) in order.iter().enumerate() {
        let parents = passes.pressed.nodes[number].parents();
        assert!(parents.iter().all(|parent| order[..at].contains(parent)));
    }
    let mut numbers = order.to_vec();
    numbers.sort_unstable();
    assert!(passes.pressed.nodes.keys().eq(&numbers));
}

#[test]
fn the_smaller_peak_is_emitted() {
    for (_, passes) in accepted(53, Size::Any).take(600) {
        check_order(&passes, &passes.bottom_up);
        check_order(&passes, &passes.top_down);
        let [old, new] = peaks(&passes);
        let better = if new < old { TopDown } else { BottomUp };
        check(&passes, [old, new], better);
        assert_eq!(peak(&passes.records), old.min(new));
    }
}

/// In as many slots as the peak, and not in one less, whichever order it is.
#[test]
fn what_is_emitted_replays_with_its_peak() {
    for (Given { plan, sheet, rules }, passes) in accepted(54, Size::Any).take(300) {
        let Done { pressed, out, .. } = press_ok_by(plan, &sheet, &rules);
        assert_eq!(pressed.order, passes.emitted);
        let replayed = |slots| replay_traced_in(plan.edition, &out, &rules, slots).0;
        assert_eq!(replayed(pressed.peak).unwrap().peak, pressed.peak);
        assert_eq!(replayed(pressed.peak - 1).unwrap_err().0, 15);
    }
}

/// Every turn takes what the words say, worked out from the records alone.
#[test]
fn each_turn_takes_the_most_dropped_and_the_smallest() {
    for (_, passes) in accepted(55, Size::Small).take(600) {
        let nodes = &passes.pressed.nodes;
        let order = &passes.top_down;
        for (at, &taken) in order.iter().enumerate() {
            let placed = |number: &usize| order[..at].contains(number);
            let dropped = |number: usize| {
                let done = |parent: &usize| {
                    let mut naming = nodes.iter().filter(|(_, n)| n.parents().contains(parent));
                    naming.all(|(step, _)| placed(step) || *step == number)
                };
                nodes
                    .keys()
                    .filter(|n| nodes[&number].parents().contains(n) && done(n))
                    .count()
            };
            let ready =
                |number: &&usize| !placed(number) && nodes[number].parents().iter().all(placed);
            for &other in nodes.keys().filter(ready) {
                let [best, of_other] = [taken, other].map(dropped);
                assert!(best > of_other || (best == of_other && taken <= other));
            }
        }
    }
}

#[test]
fn some_random_presses_emit_the_top_down_order() {
    for (size, least) in [(Size::Small, 150), (Size::Any, 100)] {
        let presses = accepted(56, size).take(2000);
        let new = presses
            .filter(|(_, passes)| passes.emitted == TopDown)
            .count();
        assert!(new >= least, "{new}");
    }
}

/// Proofs that end in a chain whose left premises are given, as they are and with
/// something lowered.
#[test]
fn most_hanging_proofs_go_top_down() {
    for recycling in Recycling::ALL {
        for lowering in Lowering::ALL {
            let presses = random_passes(57, 200, recycling, lowering, hanging);
            let new = presses.filter(|passes| passes.emitted == TopDown).count();
            assert!(new >= 100, "{new}");
        }
    }
}

#[test]
fn hanging_proofs_tell_wrong_rankings() {
    let presses = || random_passes(58, 1000, Intersection, Nothing, hanging);
    let told = |by: fn(&Passes) -> bool| presses().filter(by).count();
    assert!(told(|passes| tells(passes, largest)) > 500);
    assert!(told(|passes| tells(passes, all_parents)) > 5);
    assert!(told(|passes| tells(passes, anything)) > 5);
}
