//! Random sheets that check themselves.

mod common;

use common::*;
use reference::cases::{draw, draw_in, Case, Size};
use reference::clause::Clause;
use reference::press::{press, read_proof};
use reference::replay::Replayed;
use reference::stats::gather;

const CASES: u64 = 1500;

/// What an accepted press promises, checked with the replay.
fn check_press(plan: Plan, sheet: &[u8], rules: &[u8], room: usize, marks: usize) {
    let edition = plan.edition;
    let (mut out, mut marks) = (vec![OLD; room], vec![OLD; marks]);
    let Ok(pressed) = press(plan, sheet, rules, &mut out, &mut marks) else {
        assert!(out.iter().chain(&marks).all(|&byte| byte == OLD));
        return;
    };
    let done = press_ok_by(plan, sheet, rules);
    assert_eq!(done.pressed, pressed);
    let expected = Replayed {
        positive: pressed.positive,
        negative: pressed.negative,
        nodes: pressed.nodes,
        steps: pressed.steps,
        peak: pressed.peak,
    };
    let replayed = |slots| replay_traced_in(edition, &done.out, rules, slots).0;
    assert_eq!(replayed(pressed.peak), Ok(expected));
    let short = replayed(pressed.peak - 1);
    assert!(matches!(short, Err((15, _))));

    let input = read_proof(edition, sheet, rules).unwrap();
    let conclusion = Clause::from_numbers(pressed.positive, pressed.negative);
    assert!(conclusion.is_within(input.conclusion()));
    assert!(pressed.steps <= input.steps());
    assert_eq!(pressed.records, 2 * pressed.nodes - 1);
    let records = done.out.chunks_exact(edition.record_bytes());
    check_every_other_node_is_dropped_once(records, pressed.nodes);
}

fn check_every_other_node_is_dropped_once<'a>(
    records: impl Iterator<Item = &'a [u8]>,
    nodes: usize,
) {
    let drops = records.filter(|bytes| bytes[0] == 3);
    let mut dropped: Vec<u16> = drops
        .map(|bytes| u16::from_le_bytes([bytes[2], bytes[3]]))
        .collect();
    dropped.sort_unstable();
    assert!(dropped.iter().map(|&n| usize::from(n)).eq(0..nodes - 1));
}

/// What any replay promises of its tally and slots, record by record.
fn check_replay(edition: Edition, sheet: &[u8], rules: &[u8], slots: usize) {
    let (answer, trace) = replay_traced_in(edition, sheet, rules, slots);
    let mut peak = 0;
    for (tally, row) in &trace {
        let held = row.iter().filter(|slot| slot.used).count();
        peak = peak.max(held);
        assert_eq!((tally.held, tally.peak), (held, peak));
        assert!(row.iter().all(|slot| slot.used || *slot == FREE));
    }
    match answer {
        Err((1..=4, record)) => assert_eq!((record, trace.len()), (0, 0)),
        Err((_, record)) => assert_eq!(record, trace.len()),
        Ok(replayed) => {
            let (last, row) = &trace[sheet.len() / edition.record_bytes() - 1];
            let sink = row
                .iter()
                .find(|slot| slot.used && slot.node + 1 == last.next);
            let sink = sink.expect("the last node is held");
            assert_eq!(
                (replayed.positive, replayed.negative),
                (sink.positive, sink.negative)
            );
            assert_eq!(
                (replayed.nodes, replayed.steps, replayed.peak),
                (last.next, last.steps, peak)
            );
        }
    }
}

fn check_cases(seed: u64, size: Size) {
    for index in 0..CASES {
        match draw(seed, index, size) {
            Case::Press {
                plan,
                sheet,
                rules,
                room,
                marks,
            } => check_press(plan, &sheet, &rules, room, marks),
            Case::Replay {
                edition,
                sheet,
                rules,
                slots,
            } => check_replay(edition, &sheet, &rules, slots),
        }
    }
}

#[test]
fn small_cases_hold_what_is_promised() {
    check_cases(11, Size::Small);
}

#[test]
fn large_cases_hold_what_is_promised() {
    check_cases(12, Size::Any);
}

#[test]
fn every_refusal_number_occurs() {
    assert_eq!(gather(14, 6000, Size::Any).missing(), Vec::<String>::new());
}

#[test]
fn small_cases_are_small() {
    for index in 0..CASES {
        for edition in Edition::ALL {
            let (Case::Press { sheet, .. } | Case::Replay { sheet, .. }) =
                draw_in(edition, 14, index, Size::Small);
            assert!(sheet.len() < 21 * edition.record_bytes());
        }
    }
}

/// About a third of the cases name the wide edition, about half of the presses the
/// intersection, and about a third of them each lowering.
#[test]
fn cases_are_of_both_editions_and_of_all_passes() {
    let cases: Vec<Case> = (0..CASES).map(|n| draw(15, n, Size::Small)).collect();
    let wide = cases.iter().filter(|case| case.edition() == Wide).count();
    assert!((cases.len() * 30 / 100..cases.len() * 37 / 100).contains(&wide));
    let plans = cases.iter().filter_map(|case| match case {
        Case::Press { plan, .. } => Some(plan),
        Case::Replay { .. } => None,
    });
    let plans: Vec<&Plan> = plans.collect();
    let half = plans.len() * 45 / 100..plans.len() * 55 / 100;
    let third = plans.len() * 28 / 100..plans.len() * 38 / 100;
    let by = |of: &dyn Fn(&Plan) -> bool| plans.iter().filter(|plan| of(plan)).count();
    assert!(half.contains(&by(&|plan| plan.recycling == Intersection)));
    for lowering in Lowering::ALL {
        assert!(third.contains(&by(&|plan| plan.lowering == lowering)));
    }
}

/// Whether it is an accepted press by the univalents; and if so, whether by the
/// units other bytes would come out.
fn parts_from_units(case: &Case) -> Option<bool> {
    let Case::Press {
        plan,
        sheet,
        rules,
        room,
        marks,
    } = case
    else {
        return None;
    };
    let out = |lowering| {
        let (mut out, mut marks) = (vec![OLD; *room], vec![OLD; *marks]);
        let plan = Plan { lowering, ..*plan };
        let accepted = press(plan, sheet, rules, &mut out, &mut marks).is_ok();
        accepted.then_some(out)
    };
    let univalents = out(Univalents).filter(|_| plan.lowering == Univalents)?;
    Some(out(Units)? != univalents)
}

/// A slip that makes the one lowering into the other is seen.
#[test]
fn some_presses_by_the_univalents_part_from_the_units() {
    for (size, least) in [(Size::Small, 4), (Size::Any, 40)] {
        let told = (0..10_000).filter_map(|index| parts_from_units(&draw(16, index, size)));
        let told: Vec<bool> = told.collect();
        let parted = told.iter().filter(|parts| **parts).count();
        assert!(told.len() > 500 && parted >= least, "{parted}");
    }
}

#[test]
fn a_case_depends_only_on_seed_and_index() {
    assert_eq!(draw(5, 40, Size::Any), draw(5, 40, Size::Any));
    assert_ne!(draw(5, 40, Size::Any), draw(6, 40, Size::Any));
}
