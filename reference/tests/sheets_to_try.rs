//! Every case under "Sheets to try", and the lengths around the limits.

mod common;

use common::*;
use reference::passes::order::Order;
use reference::press::Pressed;
use reference::replay::Replayed;

/// The bytes that document 01 prints for *pair*.
const PAIR_OUT: [[u8; 8]; 15] = [
    [1, 0, 0, 0, 0, 0, 0, 0],
    [1, 0, 0, 0, 0, 0, 0, 0],
    [0; 8],
    [1, 0, 0, 0, 0, 0, 1, 0],
    [0; 8],
    [1, 0, 0, 0, 0, 0, 0, 0],
    [2, 0, 0, 0, 1, 0, 0, 0],
    [0; 8],
    [0; 8],
    [3, 0, 0, 0, 0, 0, 0, 0],
    [0; 8],
    [0; 8],
    [3, 0, 1, 0, 0, 0, 0, 0],
    [0; 8],
    [0; 8],
];

#[test]
fn lone_is_one_record() {
    let (sheet, rules) = lone().bytes();
    let done = press_ok(&sheet, &rules);
    assert_eq!(done.out, sheet);
    assert_eq!(done.core, [0]);
    let expected = Pressed {
        positive: 1,
        negative: 0,
        records: 1,
        nodes: 1,
        steps: 0,
        peak: 1,
        marked: 1,
        order: Order::BottomUp,
    };
    assert_eq!(done.pressed, expected);
}

#[test]
fn pair_gives_the_printed_bytes() {
    let (sheet, rules) = pair().bytes();
    let done = press_ok(&sheet, &rules);
    assert_eq!(done.out, PAIR_OUT.concat());
    assert_eq!(done.core, [0, 1]);
    let expected = Pressed {
        positive: 0,
        negative: 0,
        records: 5,
        nodes: 3,
        steps: 1,
        peak: 3,
        marked: 2,
        order: Order::BottomUp,
    };
    assert_eq!(done.pressed, expected);
}

#[test]
fn irregular_loses_two_steps() {
    let (input, rules) = irregular().bytes();
    let done = press_ok(&input, &rules);
    let expected = [
        given(0, "+0 +1"),
        given(2, "+0 -1"),
        step(1, 0, 1, "+0"),
        dropped(0),
        dropped(1),
        given(3, "-0"),
        step(0, 2, 3, ""),
        dropped(2),
        dropped(3),
    ];
    assert_eq!(done.out, sheet(&expected));
    assert_eq!(done.core, [0, 2, 3]);
    let Pressed {
        nodes, steps, peak, ..
    } = done.pressed;
    assert_eq!((nodes, steps, peak), (5, 2, 3));
}

#[test]
fn twice_is_17() {
    let (sheet, rules) = twice().bytes();
    assert_eq!(press_refused(&sheet, &rules), (17, 0));
    assert_eq!(replay_answer(&sheet, &rules, 2), Err((17, 0)));
}

#[test]
fn idle_comes_out_as_pair() {
    let mut other = idle();
    other.records[2] = given(1, "-0");
    for idle in [idle(), other] {
        let done = press_ok(&idle.sheet(), &idle.table());
        assert_eq!(done.out, PAIR_OUT.concat());
        assert_eq!(done.core, [0, 1]);
    }
}

#[test]
fn idle_of_a_line_of_its_own_is_not_in_the_core() {
    let (sheet, rules) = unmarked().bytes();
    let done = press_ok(&sheet, &rules);
    assert_eq!(done.out, PAIR_OUT.concat());
    assert_eq!(done.core, [0, 1]);
}

#[test]
fn pairs_output_replayed_with_three_slots() {
    let rules = pair().table();
    let (answer, trace) = replay_traced(&PAIR_OUT.concat(), &rules, 3);
    let expected = Replayed {
        positive: 0,
        negative: 0,
        nodes: 3,
        steps: 1,
        peak: 3,
    };
    assert_eq!(answer, Ok(expected));
    let (plus, minus, sink) = (slot(0, "+0"), slot(1, "-0"), slot(2, ""));
    let expected = [
        (tally(1, 1, 1, 0), vec![plus, FREE, FREE]),
        (tally(2, 2, 2, 0), vec![plus, minus, FREE]),
        (tally(3, 3, 3, 1), vec![plus, minus, sink]),
        (tally(3, 2, 3, 1), vec![FREE, minus, sink]),
        (tally(3, 1, 3, 1), vec![FREE, FREE, sink]),
    ];
    assert_eq!(trace, expected);
}

#[test]
fn pairs_output_replayed_with_too_few_slots() {
    let rules = pair().table();
    let (answer, trace) = replay_traced(&PAIR_OUT.concat(), &rules, 2);
    assert_eq!(answer, Err((15, 2)));
    let (plus, minus) = (slot(0, "+0"), slot(1, "-0"));
    let expected = [
        (tally(1, 1, 1, 0), vec![plus, FREE]),
        (tally(2, 2, 2, 0), vec![plus, minus]),
    ];
    assert_eq!(trace, expected);
    assert_eq!(replay_answer(&PAIR_OUT.concat(), &rules, 0), Err((15, 0)));
}

#[test]
fn irregulars_output_reuses_slots() {
    let (input, rules) = irregular().bytes();
    let done = press_ok(&input, &rules);
    let (answer, trace) = replay_traced(&done.out, &rules, 3);
    assert_eq!(answer.map(|replayed| replayed.peak), Ok(3));
    let rows: Vec<_> = trace.into_iter().map(|(_, row)| row).collect();
    let (first, second) = (slot(0, "+0 +1"), slot(1, "+0 -1"));
    let (third, fourth, sink) = (slot(2, "+0"), slot(3, "-0"), slot(4, ""));
    let expected = [
        [first, FREE, FREE],
        [first, second, FREE],
        [first, second, third],
        [FREE, second, third],
        [FREE, FREE, third],
        [fourth, FREE, third],
        [fourth, sink, third],
        [fourth, sink, FREE],
        [FREE, sink, FREE],
    ];
    assert_eq!(rows, expected);
}

#[test]
fn early_drop_is_10() {
    let (sheet, rules) = early_drop().bytes();
    let (answer, trace) = replay_traced(&sheet, &rules, 2);
    assert_eq!(answer, Err((10, 3)));
    assert_eq!(trace[2], (tally(2, 1, 2, 0), vec![FREE, slot(1, "-0")]));
}

#[test]
fn gone_is_16() {
    let (sheet, rules) = gone().bytes();
    let (answer, trace) = replay_traced(&sheet, &rules, 1);
    assert_eq!(answer, Err((16, 2)));
    assert_eq!(trace[1], (tally(1, 0, 1, 0), vec![FREE]));
}

#[test]
fn pivots_63_and_64() {
    let (sheet, table) = pivot().bytes();
    assert_eq!(press_ok(&sheet, &table).pressed.records, 5);
    assert!(replay_answer(&sheet, &table, 3).is_ok());
    let sheet = pivot_64().sheet();
    assert_eq!(press_refused(&sheet, &table), (8, 2));
    assert_eq!(replay_answer(&sheet, &table, 3), Err((8, 2)));
}

#[test]
fn forward_is_9() {
    let mut forward = forward();
    for (left, right) in [(2, 1), (0, 2), (2, 2), (0xFFFF, 1)] {
        forward.records[2] = step(0, left, right, "");
        let (sheet, rules) = forward.bytes();
        assert_eq!(press_refused(&sheet, &rules), (9, 2));
        assert_eq!(replay_answer(&sheet, &rules, 3), Err((9, 2)));
    }
}

#[test]
fn room_for_three_records() {
    let (sheet, rules) = pair().bytes();
    let mut marks = [0; 2];
    let plan = Plan::PROGRAM;
    let accepted = reference::press::press(plan, &sheet, &rules, &mut [0; 120], &mut marks);
    assert!(accepted.is_ok());
    assert_eq!(press_refused_with(&sheet, &rules, 119, 2), (5, 0));
    assert_eq!(press_refused_with(&sheet, &rules, 120, 1), (5, 0));
}

#[test]
fn numbers_of_records() {
    let table = rules(&["+0"]);
    let of = |count: usize| sheet(&vec![given(0, "+0"); count]);
    assert_eq!(press_ok(&of(1024), &table).pressed.records, 1);
    assert_eq!(press_refused(&of(1025), &table), (3, 0));
    assert!(replay_answer(&of(2047), &table, 2047).is_ok());
    assert_eq!(replay_answer(&of(2048), &table, 2048), Err((3, 0)));
}
