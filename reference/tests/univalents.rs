//! Document 02 (xi), "Lower the univalents". Passes that look like it are each told
//! from it by a worked sheet.

mod common;

use common::lowering::*;
use common::univalents::*;
use common::*;
use reference::cases::facts::lemmas;
use reference::clause::{Clause, Literal};
use reference::passes::lower::come_back;
use reference::passes::order::ordered;
use reference::passes::trim::trim;
use reference::passes::univalents::{literals_of_uses, lower_by, lower_univalents, lowers, Turn};
use reference::press::Passes;
use reference::record::Record;

/// By the intersection, with the univalents lowered.
fn lower(worked: &Worked) -> Passes {
    passes_lowering(Intersection, Univalents, worked)
}

/// The steps with nothing lowered, with the units and with the univalents.
fn steps(worked: &Worked) -> [usize; 3] {
    steps_lowering(Intersection, Lowering::ALL, worked)
}

fn records(lowered: &Lowered) -> Vec<Record> {
    ordered(&trim(&lowered.nodes, lowered.conclusion)).records
}

/// Whether a pass that lowers by this rule presses the sheet to other records.
fn tells(worked: &Worked, rule: impl Fn(&Turn) -> Option<Literal>) -> bool {
    let passes = lower(worked);
    records(&lower_by(&passes.recycled, rule)) != passes.records
}

/// Whether a pass that goes by another D does.
fn tells_d(worked: &Worked, other: impl Fn(&Clause, Literal) -> Clause) -> bool {
    tells(worked, |turn| {
        let d = other(turn.d, *turn.uses.first()?);
        lowers(&Turn { d: &d, ..*turn })
    })
}

/// Whether a pass that goes by another clause of the node does.
fn tells_clause(worked: &Worked, other: impl Fn(&Turn, Literal) -> Clause) -> bool {
    tells(worked, |turn| {
        let clause = &other(turn, *turn.uses.first()?);
        lowers(&Turn { clause, ..*turn })
    })
}

/// Whether a pass that counts other uses does.
fn tells_uses(worked: &Worked, other: impl Fn(&Turn) -> Vec<Literal>) -> bool {
    tells(worked, |turn| {
        let uses = &other(turn);
        lowers(&Turn { uses, ..*turn })
    })
}

#[test]
fn a_node_of_two_literals_is_lowered_after_a_unit() {
    let passes = lower(&after());
    let expected = [low_one(1, "+1", NewStep), low_one(0, "-0", NewStep)];
    assert_eq!(low(&passes), expected);
    assert_eq!(stand_ins(&passes, [3, 4, 6, 7, 8]), [2, 2, 5, 5, 8]);
    let expected = [
        given(1, "+0 +1"),
        given(2, "-1 +2"),
        given(3, "-1 -2"),
        step(2, 1, 2, "-1"),
        dropped(1),
        dropped(2),
        step(1, 0, 3, "+0"),
        dropped(0),
        dropped(3),
        given(0, "-0"),
        step(0, 4, 5, ""),
        dropped(4),
        dropped(5),
    ];
    assert_eq!(passes.records, expected);
    assert_eq!(steps(&after()), [5, 4, 3]);
    // without what the first one brings, D is empty
    assert!(tells_d(&after(), |_, _| Clause::default()));
}

#[test]
fn the_last_lowered_comes_back_first() {
    let passes = lower(&after());
    let Lowered {
        mut low, rebuilt, ..
    } = lower_univalents(&passes.recycled);
    low.reverse();
    let other = come_back(&passes.recycled, rebuilt, low);
    assert_eq!(other.returns, [Stays, NewStep]);
    assert_eq!(*other.nodes[&other.conclusion].clause(), clause("+0"));
}

#[test]
fn two_uses_are_needed() {
    assert!(low(&lower(&once())).is_empty());
    assert!(tells_uses(&once(), |turn| turn.uses.repeat(2)));
}

/// Of a left parent the positive literal, of a right one the negative.
#[test]
fn all_uses_are_on_one_literal() {
    let on_two = on_two_literals();
    let passes = lower(&on_two);
    assert_eq!(low(&passes), [low_one(0, "+1", NewStep)]);
    let uses = &literals_of_uses(&passes.recycled)[&1];
    assert_eq!(
        uses[..],
        [Literal::Minus(1), Literal::Plus(0), Literal::Plus(0)]
    );
    let is_left = |literal: &Literal| matches!(literal, Literal::Plus(_));
    let left_only = |turn: &Turn| turn.uses.iter().copied().filter(is_left).collect();
    assert!(tells_uses(&on_two, left_only));
    // units on the right are lowered too
    assert!(tells_uses(&after(), left_only));
    let as_the_last = |turn: &Turn| {
        let of_last = |literal: &Literal| Some(literal) == turn.uses.last();
        turn.uses.iter().copied().filter(of_last).collect()
    };
    assert!(tells_uses(&on_two, as_the_last));
}

/// A node that one step names on both sides is used on two literals.
#[test]
fn a_node_named_twice_by_one_step_is_not_lowered() {
    let passes = passes_lowering(Reset, Univalents, &twice_again());
    let uses = &literals_of_uses(&passes.recycled)[&2];
    assert_eq!(uses[..], [Literal::Plus(0), Literal::Minus(0)]);
    assert!(low(&passes).is_empty());
}

#[test]
fn the_rest_lies_in_d() {
    let only_l = |turn: &Turn, l: Literal| turn.clause.common(&Clause::from_iter([l]));
    for worked in [rest_outside(), one_in_each_half()] {
        assert!(low(&lower(&worked)).is_empty());
        assert!(tells_clause(&worked, only_l));
    }
}

/// {+0} is lowered, so that -0 is in D, and {-0} stays where it is. Of the units it
/// is the other way round.
#[test]
fn a_literal_in_d_is_not_lowered() {
    assert_eq!(low(&lower(&opposites())), [low_one(0, "+0", NewStep)]);
    assert_eq!(steps(&opposites()), [7, 6, 6]);
    assert!(tells_d(&opposites(), |d, l| d.without(l)));
}

/// {+0} is lowered, and the other node {+0} is not. Where both are units, fewer
/// steps are left.
#[test]
fn a_literal_is_lowered_once() {
    assert_eq!(low(&lower(&stays())), [low_one(0, "+0", NewStep)]);
    assert_eq!(steps(&stays()), [7, 4, 6]);
    let expected = [low_one(2, "+1", NewStep), low_one(0, "+0", NewStep)];
    assert_eq!(low(&lower(&again())), expected);
    assert_eq!(steps(&again()), [9, 6, 7]);
    for worked in [stays(), again()] {
        assert!(tells_d(&worked, |d, l| d.without(l.opposite())));
    }
}

/// "its rebuilt clause", which has lost a literal that is not in D.
#[test]
fn the_clause_is_the_stand_ins() {
    let passes = lower(&as_rebuilt());
    let expected = [
        low_one(5, "+2", NewStep),
        low_one(1, "+0", NewStep),
        low_one(0, "-1", NewStep),
    ];
    assert_eq!(low(&passes), expected);
    assert_eq!(stand_ins(&passes, [3, 5, 7, 8, 9]), [2, 2, 6, 6, 6]);
    assert_eq!(steps(&as_rebuilt()), [8, 7, 4]);
    assert_eq!(*passes.recycled.conclusion(), clause("+4"));
    assert_eq!(*passes.pressed.conclusion(), clause(""));
    let old = |turn: &Turn, _| passes.recycled.nodes[&turn.node].clause().clone();
    assert!(tells_clause(&as_rebuilt(), old));
}

/// The rebuilt clause has lost the literal that the node is used on.
#[test]
fn the_clause_holds_l() {
    let passes = lower(&lacks_it());
    let expected = [low_one(1, "+0", Stays), low_one(0, "-1", Stays)];
    assert_eq!(low(&passes), expected);
    assert_eq!(*lowered(&passes).rebuilt.clause(5), clause("-0"));
    assert_eq!(steps(&lacks_it()), [9, 7, 1]);
    assert!(tells_clause(&lacks_it(), |turn, l| turn.clause.with(l)));
}

/// Uses are those of the step-4 proof: more than in the sheet, and fewer.
#[test]
fn uses_are_counted_after_step_4() {
    assert_eq!(low(&lower(&merged())), [low_one(0, "-0", NewStep)]);
    assert!(low(&lower(&fewer())).is_empty());
    for worked in [merged(), fewer()] {
        let uses = literals_of_uses(&lower(&worked).trimmed);
        assert!(tells_uses(&worked, |turn| uses[&turn.node].clone()));
    }
}

#[test]
fn the_conclusion_may_lose_literals() {
    let passes = passes_lowering(Reset, Univalents, &sharper());
    assert_eq!(*passes.recycled.conclusion(), clause("+0"));
    assert_eq!(*passes.pressed.conclusion(), clause(""));
}

/// By the reset, the opposite of what is lowered is resolved away below.
#[test]
fn a_conclusion_that_lacks_the_opposite_stays() {
    let passes = passes_lowering(Reset, Univalents, &needless());
    assert_eq!(low(&passes), [low_one(0, "+0", Stays)]);
}

#[test]
fn univalents_over_63() {
    let passes = lower(&high_after());
    let expected = [low_one(1, "+0", NewStep), low_one(0, "-64", NewStep)];
    assert_eq!(low(&passes), expected);
    assert_eq!(passes.order(), lower(&after()).order());
}

/// Of every node, with D read off those that were lowered before it.
#[test]
fn exactly_what_the_rule_says_is_lowered() {
    let random = |of| random_passes(41, 1000, of, Univalents, lemmas);
    for passes in Recycling::ALL.into_iter().flat_map(random) {
        let Lowered { low, rebuilt, .. } = lowered(&passes);
        let uses = literals_of_uses(&passes.recycled);
        for &node in passes.recycled.nodes.keys() {
            let before = low.iter().filter(|low| low.node < node);
            let d: Clause = before.map(|low| low.literal.opposite()).collect();
            let turn = Turn {
                node,
                uses: &uses[&node],
                clause: rebuilt.clause(node),
                d: &d,
            };
            let found = low.iter().find(|low| low.node == node);
            assert_eq!(found.map(|low| low.literal), lowers(&turn));
        }
    }
}

/// Random lemmas tell the two lowerings apart: each is the shorter one now and then.
#[test]
fn the_lowerings_part_on_lemmas() {
    let by = |lowering| random_passes(42, 1000, Intersection, lowering, lemmas);
    let pairs = by(Units).zip(by(Univalents));
    let steps = pairs.map(|(one, other)| [one, other].map(|passes| passes.pressed.steps()));
    let steps: Vec<[usize; 2]> = steps.collect();
    let longer = steps
        .iter()
        .filter(|[units, univalents]| units > univalents);
    let shorter = steps
        .iter()
        .filter(|[units, univalents]| units < univalents);
    let counts = (longer.count(), shorter.count());
    assert!(counts.0 > 100 && counts.1 > 5, "{counts:?}");
}
