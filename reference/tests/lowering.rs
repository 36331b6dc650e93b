//! Document 02 (i), "Lower the units", and what holds of either lowering.

mod common;

use common::lowering::*;
use common::*;
use reference::cases::facts::{facts, lemmas};
use reference::cases::shapes;
use reference::cases::stages::ladder;
use reference::clause::{Clause, Literal};
use reference::passes::drops::peak;
use reference::press::{read_proof, run_passes, Passes};
use reference::proof::Node;
use reference::record::Record;
use reference::replay::{replay, Slot};
use reference::sheets::{rules, sheet};
use std::collections::BTreeSet;

/// By the intersection, with the units lowered.
fn lower(worked: &Worked) -> Passes {
    passes_lowering(Intersection, Units, worked)
}

/// The steps with nothing lowered, and with the units lowered.
fn steps(recycling: Recycling, worked: &Worked) -> [usize; 2] {
    steps_lowering(recycling, [Nothing, Units], worked)
}

fn peaks(worked: &Worked) -> [usize; 2] {
    [Nothing, Units].map(|of| peak(&passes_lowering(Intersection, of, worked).records))
}

#[test]
fn units_come_back_in_the_order_of_their_collection() {
    let passes = lower(&everywhere());
    let expected = [low_one(1, "-1", NewStep), low_one(0, "+0", NewStep)];
    assert_eq!(low(&passes), expected);
    assert_eq!(stand_ins(&passes, [3, 4, 6, 7, 8]), [2, 2, 5, 5, 8]);
    let expected = [
        given(0, "+0"),
        given(2, "-0 +1 +2"),
        given(3, "-0 +1 -2"),
        step(2, 1, 2, "-0 +1"),
        dropped(1),
        dropped(2),
        given(1, "-1"),
        step(1, 3, 4, "-0"),
        dropped(3),
        dropped(4),
        step(0, 0, 5, ""),
        dropped(0),
        dropped(5),
    ];
    assert_eq!(passes.records, expected);
    for recycling in Recycling::ALL {
        assert_eq!(steps(recycling, &everywhere()), [5, 3]);
    }
}

/// "the new step numbered above all so far": the first above the sink.
#[test]
fn new_steps_are_numbered_above_all() {
    let passes = lower(&everywhere());
    assert_eq!(passes.recycled.sink, 8);
    assert_eq!(passes.bottom_up, [0, 2, 5, 8, 1, 9, 10]);
}

/// "over all nodes": node 2 is rebuilt too, though the sink no longer reaches it.
#[test]
fn a_units_own_derivation_is_rebuilt() {
    let passes = lower(&within());
    let expected = [low_one(2, "+0", NewStep), low_one(0, "+1", NewStep)];
    assert_eq!(low(&passes), expected);
    assert_eq!(stand_ins(&passes, [2, 5, 6, 7, 8]), [1, 3, 4, 4, 8]);
    let nodes = &passes.pressed.nodes;
    let clauses = [8, 9, 10].map(|node| nodes[&node].clause().clone());
    assert_eq!(clauses, ["-0 -1", "-1", ""].map(clause));
    assert_eq!(steps(Intersection, &within()), [5, 3]);
}

#[test]
fn of_opposite_units_the_first_is_collected() {
    let passes = lower(&opposites());
    assert_eq!(low(&passes), [low_one(1, "-0", NewStep)]);
    assert_eq!(stand_ins(&passes, [3, 5, 7, 10]), [3, 5, 6, 9]);
    assert_eq!(steps(Intersection, &opposites()), [7, 6]);
}

#[test]
fn one_literal_is_collected_twice() {
    let expected = [
        low_one(4, "+0", NewStep),
        low_one(2, "+1", NewStep),
        low_one(0, "+0", NewStep),
    ];
    assert_eq!(low(&lower(&again())), expected);
    assert_eq!(steps(Intersection, &again()), [9, 6]);
}

#[test]
fn a_conclusion_that_lacks_the_opposite_stays() {
    let done = lower(&stays());
    let expected = [low_one(1, "+0", NewStep), low_one(0, "+0", Stays)];
    assert_eq!(low(&done), expected);
    assert_eq!(steps(Intersection, &stays()), [7, 4]);
    let core = press_lowering(Intersection, Units, &stays()).core;
    assert_eq!(core, [1, 2, 3, 4, 5]);
    let needless = needless();
    let done = passes_lowering(Reset, Units, &needless);
    assert_eq!(low(&done), [low_one(0, "+0", Stays)]);
    assert_eq!(steps(Reset, &needless), [8, 6]);
    // the intersection has cut both uses
    assert!(low(&lower(&needless)).is_empty());
}

#[test]
fn two_uses_are_needed() {
    let passes = lower(&once());
    assert!(low(&passes).is_empty());
    assert_eq!(passes.records, passes_by(Intersection, &once()).records);
}

/// Uses are those of the step-4 proof: more than in the sheet, and fewer.
#[test]
fn uses_are_counted_after_step_4() {
    let merged_passes = lower(&merged());
    assert_eq!(merged_passes.trimmed.uses()[&0], 1);
    assert_eq!(low(&merged_passes), [low_one(0, "-0", NewStep)]);
    let by_reset = passes_lowering(Reset, Units, &merged());
    assert_eq!(low(&by_reset), [low_one(4, "-0", NewStep)]);
    let fewer_passes = lower(&fewer());
    assert_eq!(fewer_passes.trimmed.uses()[&0], 2);
    assert_eq!(fewer_passes.recycled.uses()[&0], 1);
    assert!(low(&fewer_passes).is_empty());
}

/// A node that one step names on both sides holds the pivot both ways, and so two
/// literals.
#[test]
fn a_single_literal_and_not_a_single_variable() {
    let passes = passes_lowering(Reset, Units, &twice_again());
    assert_eq!(passes.recycled.uses()[&2], 2);
    assert!(low(&passes).is_empty());
}

#[test]
fn the_conclusion_may_lose_literals() {
    let passes = passes_lowering(Reset, Units, &sharper());
    assert_eq!(*passes.recycled.conclusion(), clause("+0"));
    assert_eq!(*passes.pressed.conclusion(), clause(""));
    assert_eq!(steps(Reset, &sharper()), [7, 4]);
}

/// "Then trim": node 2 stays away, and so does its use of node 0.
#[test]
fn uses_of_a_unit_that_stays_away_do_not_count() {
    let passes = lower(&third_trim());
    let expected = [low_one(3, "+0", NewStep), low_one(2, "+0", Stays)];
    assert_eq!(low(&passes), expected);
    let nodes = &lowered(&passes).nodes;
    assert!(nodes.contains_key(&1) && !passes.pressed.nodes.contains_key(&1));
    let place = |node| passes.bottom_up.iter().position(|&n| n == node).unwrap();
    assert!(place(15) < place(0));
}

#[test]
fn the_peak_may_rise_and_fall() {
    assert_eq!(peaks(&higher_peak()), [4, 5]);
    assert_eq!(peaks(&everywhere()), [5, 4]);
}

#[test]
fn units_over_63() {
    let passes = lower(&high_everywhere());
    let expected = [low_one(1, "-64", NewStep), low_one(0, "+0", NewStep)];
    assert_eq!(low(&passes), expected);
    assert_eq!(passes.order(), lower(&everywhere()).order());
    assert!(low(&lower(&one_in_each_half())).is_empty());
}

/// The presses of random proofs, most of them of a shape in which much is lowered.
fn random_by(lowering: Lowering) -> impl Iterator<Item = Passes> {
    let shape = match lowering {
        Univalents => lemmas,
        _ => facts,
    };
    Recycling::ALL.into_iter().flat_map(move |recycling| {
        let of_shape = random_passes(31, 1500, recycling, lowering, shape);
        of_shape.chain(random_passes(32, 500, recycling, lowering, shapes::draw))
    })
}

/// By either lowering.
fn random() -> impl Iterator<Item = Passes> {
    [Units, Univalents].into_iter().flat_map(random_by)
}

/// A lowered node has its uses in different steps, no step has two, and so with k of
/// them at least 2k steps go, of which at most k come back.
#[test]
fn every_lowered_node_takes_a_step_away() {
    for lowering in [Units, Univalents] {
        let mut seen = 0;
        for passes in random_by(lowering) {
            let low = lowered(&passes).low.len();
            assert!(passes.pressed.steps() + low <= passes.recycled.steps());
            seen += usize::from(low > 0);
        }
        assert!(seen > 500);
    }
}

#[test]
fn where_nothing_is_lowered_all_stays_as_it_is() {
    for passes in random().filter(|passes| lowered(passes).low.is_empty()) {
        assert_eq!(passes.pressed, passes.recycled);
    }
}

#[test]
fn new_numbers_are_below_half_as_many_again() {
    for passes in random() {
        let largest = lowered(&passes).nodes.keys().last();
        assert!(2 * largest.unwrap() < 3 * passes.input.nodes.len());
    }
}

/// Nearly as many units as can be, in as many records as may be: every derived node
/// of the ladder is one.
#[test]
fn the_longest_sheet_with_the_most_units() {
    for (edition, sink, units) in [(Narrow, 1021, 506), (Wide, 509, 250)] {
        let draft = ladder(edition.press_records());
        let (sheet, rules) = (draft.sheet(edition), draft.rule_table(edition));
        let proof = read_proof(edition, &sheet, &rules).unwrap();
        let plan = Plan {
            lowering: Units,
            ..Plan::program_in(edition)
        };
        let passes = run_passes(plan, proof);
        assert_eq!(passes.recycled.sink, sink);
        assert_eq!(lowered(&passes).low.len(), units);
        assert_eq!(passes.pressed.sink, sink + units);
    }
}

#[test]
fn the_conclusion_lies_in_the_old_one() {
    for passes in random() {
        let old = passes.recycled.conclusion();
        assert!(passes.pressed.conclusion().is_within(old));
    }
}

#[test]
fn no_step_has_both_edges_cut() {
    for passes in random() {
        let low = &lowered(&passes).low;
        let is_low = |node: &usize| low.iter().any(|low| low.node == *node);
        for node in passes.recycled.nodes.values() {
            let parents: BTreeSet<usize> = node.parents().into_iter().collect();
            assert!(parents.iter().filter(|parent| is_low(parent)).count() < 2);
            // a lowered node is named once
            assert!(parents.len() == node.parents().len() || !parents.iter().any(is_low));
        }
    }
}

/// Rebuilt clauses gain opposites of what is lowered, and nothing else. Those of the
/// units lose nothing either, so that every stand-in has its pivot.
#[test]
fn a_rebuilt_clause_gains_only_opposites() {
    for lowering in [Units, Univalents] {
        for passes in random_by(lowering) {
            let Lowered { low, rebuilt, .. } = lowered(&passes);
            let opposites: Clause = low.iter().map(|low| low.literal.opposite()).collect();
            for (&number, old) in &passes.recycled.nodes {
                let new = rebuilt.clause(number);
                assert!(new.is_within(&old.clause().joined(&opposites)));
                assert!(lowering != Units || old.clause().is_within(new));
            }
        }
    }
}

/// A rebuilt node that is lowered holds its literal: a unit loses nothing, and of a
/// univalent the rule asks it.
#[test]
fn a_lowered_node_never_becomes_the_conclusion() {
    for passes in random() {
        let Lowered { low, rebuilt, .. } = lowered(&passes);
        assert!(low
            .iter()
            .all(|low| rebuilt.clause(low.node).holds(low.literal)));
        assert!(!lowered(&passes).returns.contains(&Return::Concludes));
    }
}

/// "the unit on the left if l is positive, else on the right".
#[test]
fn new_steps_have_the_lowered_node_on_the_side_of_its_literal() {
    for passes in random() {
        let lowered = lowered(&passes);
        let stand_in = |node| lowered.rebuilt.stand_ins[&node];
        let mut new = lowered.nodes.range(passes.recycled.sink + 1..);
        let back = lowered.low.iter().zip(&lowered.returns);
        for (low, _) in back.filter(|(_, back)| **back == NewStep) {
            let Some((_, &Node::Step { left, right, .. })) = new.next() else {
                panic!("a new step is missing");
            };
            let side = match low.literal {
                Literal::Plus(_) => left,
                Literal::Minus(_) => right,
            };
            assert_eq!(side, stand_in(low.node));
        }
        assert!(new.next().is_none());
    }
}

/// In as many slots as its peak, and not in one less.
#[test]
fn the_result_replays() {
    for passes in random() {
        // the wide edition holds every random proof
        let table = table(&passes);
        let out = sheet(Wide, &passes.records);
        let peak = peak(&passes.records);
        let replayed = |slots| replay(Wide, &out, &table, &mut vec![Slot::default(); slots]);
        let done = replayed(peak).unwrap();
        assert_eq!((done.steps, done.peak), (passes.pressed.steps(), peak));
        let conclusion = Clause::from_numbers(done.positive, done.negative);
        assert_eq!(conclusion, *passes.pressed.conclusion());
        assert_eq!(replayed(peak - 1).unwrap_err().number, 15);
    }
}

/// The rule lines that the given records name; the others are empty.
fn table(passes: &Passes) -> Vec<u8> {
    let mut table = rules(Wide, &[""; 1024]);
    for record in &passes.records {
        if let Record::Node(Node::Given { line, clause }) = record {
            table[32 * line..][..32].copy_from_slice(&clause.write(Wide));
        }
    }
    table
}
