//! Every row of the table under "When the gate stays shut", and its order.

mod common;

use common::*;
use reference::record::Record;

/// *pair* with some of its bytes changed.
fn pair_with(changes: &[(usize, usize, u8)]) -> Vec<u8> {
    let mut sheet = pair().sheet();
    for &(record, at, byte) in changes {
        sheet[record * 24 + at] = byte;
    }
    sheet
}

fn refused_by_both(sheet: &[u8], rules: &[u8], expected: (u32, usize)) {
    assert_eq!(press_refused(sheet, rules), expected);
    assert_eq!(replay_answer(sheet, rules, 9), Err(expected));
}

#[test]
fn lengths_in_number_order() {
    let (sheet, rules) = pair().bytes();
    let ragged_rules = &rules[..31];
    refused_by_both(&sheet[..71], ragged_rules, (1, 0));
    refused_by_both(&[], ragged_rules, (2, 0));
    refused_by_both(&vec![0; 2048 * 24], ragged_rules, (3, 0));
    refused_by_both(&vec![0; 2048 * 24 + 1], ragged_rules, (1, 0));
    refused_by_both(&sheet, ragged_rules, (4, 0));
    refused_by_both(&sheet, &vec![0; 1025 * 16], (4, 0));
    assert_eq!(press_refused_with(&sheet, ragged_rules, 0, 0), (4, 0));
    assert_eq!(
        press_refused_with(&pair_with(&[(0, 0, 9)]), &rules, 0, 0),
        (5, 0)
    );
}

#[test]
fn a_table_of_1024_lines_is_not_refused() {
    let (sheet, mut rules) = pair().bytes();
    rules.resize(1024 * 16, 0);
    assert_eq!(press_ok(&sheet, &rules).core, [0, 1]);
}

#[test]
fn a_table_may_be_empty() {
    let sheet = pair().sheet();
    refused_by_both(&sheet, &[], (13, 0));
}

#[test]
fn kinds() {
    let rules = pair().table();
    for kind in [0, 4, 255] {
        refused_by_both(&pair_with(&[(1, 0, kind)]), &rules, (6, 1));
    }
    let with_drop = [given(0, "+0"), given(1, "-0"), dropped(0)];
    assert_eq!(press_refused(&sheet(&with_drop), &rules), (6, 2));
    assert!(replay_answer(&sheet(&with_drop), &rules, 2).is_ok());
}

#[test]
fn bytes_that_must_be_zero() {
    let (sheet, rules) = pair().bytes();
    for (record, at) in [(0, 1), (0, 2), (0, 3), (0, 4), (1, 5), (2, 6), (2, 7)] {
        refused_by_both(&pair_with(&[(record, at, 1)]), &rules, (7, record));
    }
    let pressed = press_ok(&sheet, &rules).out;
    for at in (1..2).chain(4..24) {
        let mut spoilt = pressed.clone();
        spoilt[3 * 24 + at] = 0x80;
        assert_eq!(replay_answer(&spoilt, &rules, 3), Err((7, 3)));
    }
}

#[test]
fn pivots_and_results() {
    let rules = pair().table();
    refused_by_both(&pair_with(&[(2, 1, 255)]), &rules, (8, 2));
    refused_by_both(&pair_with(&[(2, 1, 1)]), &rules, (11, 2));
    refused_by_both(&pair_with(&[(2, 2, 1)]), &rules, (11, 2));
    refused_by_both(&pair_with(&[(2, 4, 0)]), &rules, (11, 2));
    refused_by_both(&pair_with(&[(2, 23, 0x80)]), &rules, (18, 2));
    refused_by_both(&pair_with(&[(2, 8, 1)]), &rules, (18, 2));
}

#[test]
fn what_is_wrong_with_a_clause() {
    for (worked, number) in wrong_results().iter().zip([12, 18, 12]) {
        refused_by_both(&worked.sheet(), &worked.table(), (number, 2));
    }
    let (sheet, rules) = added().bytes();
    assert_eq!(replay_answer(&sheet, &rules, 2), Err((18, 2)));
}

#[test]
fn rule_lines() {
    let rules = pair().table();
    refused_by_both(&pair_with(&[(0, 6, 2)]), &rules, (13, 0));
    refused_by_both(&pair_with(&[(1, 7, 1)]), &rules, (13, 1));
    refused_by_both(&pair_with(&[(0, 6, 1)]), &rules, (14, 0));
    refused_by_both(&pair_with(&[(1, 15, 1)]), &rules, (14, 1));
}

#[test]
fn a_given_clause_holds_no_variable_both_ways() {
    for clause in ["+0 -0", "+63 -63", "-7 +7 -8", "+1 -2 +3 -3"] {
        let sheet = sheet(&[given(0, "+0"), given(1, clause)]);
        let rules = rules(&["+0", clause]);
        refused_by_both(&sheet, &rules, (17, 1));
        // before 15
        assert_eq!(replay_answer(&sheet, &rules, 1), Err((17, 1)));
    }
    // after 13 and 14
    let (sheet, table) = both_ways_differs().bytes();
    refused_by_both(&sheet, &table, (14, 0));
    assert_eq!(replay_answer(&sheet, &table, 0), Err((14, 0)));
    refused_by_both(&twice().sheet(), &[], (13, 0));
}

#[test]
fn a_derived_clause_may_hold_a_variable_both_ways() {
    for worked in [twice_again(), either_way()] {
        let (sheet, rules) = worked.bytes();
        let holds = |record: &Record| match record {
            Record::Node(node) => node.clause().holds_both_ways(),
            Record::Drop { .. } => false,
        };
        assert!(worked.records.iter().any(holds));
        for recycling in Recycling::ALL {
            assert_eq!(press_worked(recycling, &worked).pressed.positive, 1);
        }
        assert!(replay_answer(&sheet, &rules, 7).is_ok());
    }
}

#[test]
fn a_line_that_no_record_names_may_hold_a_variable_both_ways() {
    let (sheet, rules) = both_ways_unused().bytes();
    assert_eq!(press_ok(&sheet, &rules).core, [0, 1]);
    assert!(replay_answer(&sheet, &rules, 3).is_ok());
}

#[test]
fn the_first_bad_record_answers_with_its_first_number() {
    let rules = pair().table();
    let two_records = pair_with(&[(1, 8, 1), (2, 0, 0)]);
    refused_by_both(&two_records, &rules, (14, 1));
    let one_record = [(2, 8, 1), (2, 1, 200), (2, 2, 9)];
    refused_by_both(&pair_with(&one_record), &rules, (8, 2));
    refused_by_both(&pair_with(&[(2, 8, 1), (2, 4, 2)]), &rules, (9, 2));
    refused_by_both(&pair_with(&[(2, 8, 1), (2, 4, 0)]), &rules, (11, 2));
    refused_by_both(&pair_with(&[(1, 5, 1), (1, 6, 9)]), &rules, (7, 1));
}

#[test]
fn fifteen_is_tried_last() {
    let rules = pair().table();
    assert_eq!(
        replay_answer(&pair_with(&[(0, 6, 1)]), &rules, 0),
        Err((14, 0))
    );
    assert_eq!(
        replay_answer(&pair_with(&[(2, 8, 1)]), &rules, 2),
        Err((18, 2))
    );
    assert_eq!(
        replay_answer(&pair_with(&[(2, 0, 9)]), &rules, 2),
        Err((6, 2))
    );
}

#[test]
fn drops_that_name_wrongly() {
    let rules = pair().table();
    let replayed = |records: &[_]| replay_answer(&sheet(records), &rules, 2);
    let (plus, minus) = (given(0, "+0"), given(1, "-0"));
    assert_eq!(replayed(&[dropped(0)]), Err((9, 0)));
    assert_eq!(replayed(&[plus.clone(), dropped(1)]), Err((9, 1)));
    let twice = [plus.clone(), minus.clone(), dropped(0), dropped(0)];
    assert_eq!(replayed(&twice), Err((10, 3)));
    let both_wrong = [plus, minus, dropped(0), step(0, 0, 7, "")];
    assert_eq!(replayed(&both_wrong), Err((9, 3)));
}

#[test]
fn a_drop_needs_no_slot_and_sixteen_looks_at_the_last_node() {
    let rules = rules(&["+0"]);
    let plus = || given(0, "+0");
    let replayed = |records: &[_]| replay_answer(&sheet(records), &rules, 1);
    assert!(replayed(&[plus(), dropped(0), plus(), dropped(1), plus()]).is_ok());
    assert_eq!(
        replayed(&[plus(), dropped(0), plus(), dropped(1)]),
        Err((16, 4))
    );
    assert_eq!(replayed(&[plus(), plus()]), Err((15, 1)));
}

#[test]
fn a_refused_record_changes_neither_tally_nor_slots() {
    let rules = pair().table();
    let mut row = [slot(0, "+0"), FREE];
    let mut running = tally(1, 1, 1, 0);
    let refused = [
        (dropped(1), 9),
        (given(1, "+0"), 14),
        (given(2, "+0"), 13),
        (step(0, 0, 0, ""), 11),
    ];
    for (record, number) in refused {
        let answer = reference::replay::step(
            Narrow,
            &mut running,
            &mut row,
            &record.write(Narrow),
            &rules,
        );
        assert_eq!(answer, Err(number));
        assert_eq!((running, row), (tally(1, 1, 1, 0), [slot(0, "+0"), FREE]));
    }
}
