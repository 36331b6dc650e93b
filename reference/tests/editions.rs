//! What document 02 (x) says of the wide edition, and that the name decides.

mod common;

use common::lowering::within;
use common::univalents::{after, as_rebuilt};
use common::wide::*;
use common::*;
use reference::sheets::{rules, sheet};

type Answer = Result<(u128, u128), (u32, usize)>;

/// What the press answers with ample room, and the replay with ample slots.
fn answers(edition: Edition, sheet: &[u8], rules: &[u8]) -> [Answer; 2] {
    let (mut out, mut marks) = (vec![0; 2 * sheet.len() + 48], vec![0; 2000]);
    let plan = Plan::program_in(edition);
    let pressed = reference::press::press(plan, sheet, rules, &mut out, &mut marks);
    let pressed = pressed.map(|done| (done.positive, done.negative));
    let replayed = replay_traced_in(edition, sheet, rules, 2000).0;
    [
        pressed.map_err(|refusal| (refusal.number, refusal.record)),
        replayed.map(|done| (done.positive, done.negative)),
    ]
}

fn answers_of(worked: &Worked) -> [Answer; 2] {
    answers(worked.edition, &worked.sheet(), &worked.table())
}

fn sets(text: &str) -> Answer {
    let clause = clause(text);
    Ok((clause.positive(), clause.negative()))
}

#[test]
fn a_wide_record_has_its_sets_at_8_and_24() {
    let bytes = step(127, 258, 3, "+0 +64 -9 -127").write(Wide);
    let mut expected = [0; 40];
    expected[..6].copy_from_slice(&[2, 127, 2, 1, 3, 0]);
    (expected[8], expected[16]) = (1, 1);
    (expected[25], expected[39]) = (2, 0x80);
    assert_eq!(bytes, expected);
    let line = clause("+0 +64 -9 -127").write(Wide);
    assert_eq!(line, expected[8..]);
    assert_eq!(clause("+127").positive(), 1 << 127);
}

#[test]
fn pivots_up_to_127() {
    assert_eq!(answers_of(&pivot_127()), [sets(""), sets("")]);
    assert_eq!(answers_of(&pivot_128()), [Err((8, 2)); 2]);
    assert_eq!(answers_of(&pivot_low()), [Err((11, 2)); 2]);
    for pivot in [64, 100, 127, 128] {
        let records = [given(0, "+0"), given(1, "-0"), step(pivot, 0, 1, "")];
        let number = |edition: Edition| match edition {
            Wide if pivot < 128 => 11,
            _ => 8,
        };
        for edition in Edition::ALL {
            let bytes = sheet(edition, &records);
            let said = answers(edition, &bytes, &rules(edition, &["+0", "-0"]));
            assert_eq!(said, [Err((number(edition), 2)); 2]);
        }
    }
}

#[test]
fn literals_over_63_are_looked_at() {
    assert_eq!(answers_of(&high_kept()), [sets("+64 +127"); 2]);
    assert_eq!(answers_of(&high_lost()), [Err((12, 2)); 2]);
    assert_eq!(answers_of(&high_added()), [Err((18, 2)); 2]);
    assert_eq!(answers_of(&high_moved()), [Err((12, 2)); 2]);
    assert_eq!(answers_of(&high_given()), [Err((14, 0)); 2]);
    assert_eq!(answers_of(&high_both_ways()), [Err((17, 0)); 2]);
    assert_eq!(answers_of(&high_one_way()), [sets("+36 -100"); 2]);
    assert_eq!(answers_of(&halves())[1], sets("+1 -1"));
}

#[test]
fn irregular_loses_two_steps_over_63_too() {
    let (input, table) = high_irregular().bytes();
    let done = press_ok_in(Wide, &input, &table);
    let expected = [
        given(0, "+64 +127"),
        given(2, "+64 -127"),
        step(127, 0, 1, "+64"),
        dropped(0),
        dropped(1),
        given(3, "-64"),
        step(64, 2, 3, ""),
        dropped(2),
        dropped(3),
    ];
    assert_eq!(done.out, sheet(Wide, &expected));
    assert_eq!(done.core, [0, 2, 3]);
}

/// A sheet without variables over 63 is pressed alike in both editions.
#[test]
fn both_editions_press_alike() {
    let told = [
        mirrored(),
        shared_reset(),
        second_trim(),
        places(),
        within(),
        after(),
        as_rebuilt(),
    ];
    for worked in starred_and(&told) {
        let wide = worked.clone().in_edition(Wide);
        for Plan {
            recycling,
            lowering,
            ..
        } in Plan::all(Wide)
        {
            let records = worked.pressed(recycling, lowering);
            assert_eq!(wide.pressed(recycling, lowering), records);
            let done = press_lowering(recycling, lowering, &wide);
            assert_eq!(done.out, sheet(Wide, &records.unwrap()));
            let narrow = press_lowering(recycling, lowering, &worked);
            assert_eq!((done.pressed, done.core), (narrow.pressed, narrow.core));
        }
    }
}

fn starred_and(told: &[Worked]) -> Vec<Worked> {
    let starred = [lone(), pair(), irregular(), idle(), pivot()];
    starred.iter().chain(told).cloned().collect()
}

#[test]
fn wide_numbers_of_records() {
    let table = rules(Wide, &["+0"]);
    let of = |count: usize| sheet(Wide, &vec![given(0, "+0"); count]);
    assert_eq!(press_ok_in(Wide, &of(512), &table).pressed.records, 1);
    assert_eq!(press_refused_in(Wide, &of(513), &table[1..], None), (3, 0));
    let replayed = |count| replay_traced_in(Wide, &of(count), &table, 1024).0;
    assert_eq!(replayed(1023).unwrap().nodes, 1023);
    assert_eq!(replayed(1024), Err((3, 0)));
}

#[test]
fn wide_room_and_marks() {
    for worked in [lone(), pair(), irregular()] {
        let (sheet, rules) = worked.in_edition(Wide).bytes();
        let lines = rules.len() / 32;
        let needed = 80 * (sheet.len() / 40) - 40;
        let (mut out, mut marks) = (vec![0; needed], vec![0; lines]);
        let plan = Plan::program_in(Wide);
        assert!(reference::press::press(plan, &sheet, &rules, &mut out, &mut marks).is_ok());
        for lent in [(needed - 1, lines), (needed, lines - 1)] {
            let refused = press_refused_in(Wide, &sheet, &rules, Some(lent));
            assert_eq!(refused, (5, 0));
        }
    }
}

#[test]
fn lengths_go_by_the_edition() {
    let given = [0; 240];
    for bytes in [24, 40, 48, 72, 80, 120, 240] {
        for (edition, size) in [(Narrow, 24), (Wide, 40)] {
            let number = if bytes % size == 0 { 6 } else { 1 };
            let said = answers(edition, &given[..bytes], &[]);
            assert_eq!(said, [Err((number, 0)); 2], "{edition:?} {bytes}");
        }
    }
}

#[test]
fn tables_go_by_the_edition() {
    let table = vec![0; 1025 * 32];
    let narrow = pair().sheet();
    let wide = pair().in_edition(Wide).sheet();
    for (bytes, by_narrow, by_wide) in [
        (0, 13, 13),
        (16, 14, 4),
        (48, 14, 4),
        (64, 14, 14),
        (1024 * 16, 14, 14),
        (1025 * 16, 4, 4),
        (1026 * 16, 4, 14),
        (1024 * 32, 4, 14),
        (1025 * 32, 4, 4),
    ] {
        let said = answers(Narrow, &narrow, &table[..bytes]);
        assert_eq!(said, [Err((by_narrow, 0)); 2], "{bytes}");
        let said = answers(Wide, &wide, &table[..bytes]);
        assert_eq!(said, [Err((by_wide, 0)); 2], "{bytes}");
    }
}

#[test]
fn bytes_never_decide_the_edition() {
    let (bytes, table) = either_edition().bytes();
    assert_eq!(answers(Wide, &bytes, &table), [sets("+64 +112 +115"); 2]);
    assert_eq!(answers(Narrow, &bytes, &table), [sets(""); 2]);
    let nodes = |edition| {
        replay_traced_in(edition, &bytes, &table, 9)
            .0
            .unwrap()
            .nodes
    };
    assert_eq!((nodes(Wide), nodes(Narrow)), (3, 5));
    // 72 bytes are no whole number of wide records, 120 are; nine of 24 are 216
    let (pair_bytes, pair_table) = pair().bytes();
    assert_eq!(answers(Wide, &pair_bytes, &pair_table), [Err((1, 0)); 2]);
    let pressed = press_ok(&pair_bytes, &pair_table).out;
    assert_eq!(answers(Wide, &pressed, &pair_table), [Err((14, 0)); 2]);
    let (bytes, table) = pair().in_edition(Wide).bytes();
    assert_eq!(answers(Narrow, &bytes, &table), [Err((6, 1)); 2]);
}
