//! Calls of the library with every length of report, and with lent memory whose
//! every byte is looked at.

use harness::compare::{
    case_alike, press_alike, replay_alike, unnamed_press, unnamed_replay, Count,
};
use harness::library::{self, numbers, Slot, NO_EDITION, NO_LOWERING, NO_RECYCLING, PRESS_WORDS};
use harness::sheets;
use reference::edition::Edition;
use reference::plan::Lowering::{self, Nothing};
use reference::plan::Plan;
use reference::plan::Recycling::{self, Intersection, Reset};
use reference::rng::Rng;
use reference::sheets::lowering::{everywhere, sharper, stays};
use reference::sheets::orders::{early_given, equal_peaks, high_left_givens, left_givens};
use reference::sheets::recycling::{all_allow, reset_shorter};
use reference::sheets::univalents::{after, as_rebuilt, high_after};
use reference::sheets::Worked;

#[test]
fn random_cases_are_alike() {
    let mut count = Count::default();
    for index in 0..2000 {
        case_alike(7, index, &mut count).unwrap_or_else(|what| panic!("case {index}: {what}"));
    }
    assert!(count.pressed > 400 && count.replayed > 300 && count.refused > 400);
    assert!(count.wide > 500);
    let share = |some: usize| some * 100 / count.pressed;
    assert!((40..60).contains(&share(count.reset)));
    for some in [count.units, count.univalents] {
        assert!((25..42).contains(&share(some)));
    }
    assert!((4..12).contains(&share(count.top_down)));
}

/// How many steps are left of a good sheet.
fn steps(worked: &Worked, recycling: Recycling, lowering: Lowering) -> usize {
    let (sheet, rules) = worked.bytes();
    let lent = (
        worked.edition.room(worked.records.len()),
        worked.rules.len(),
    );
    let (mut rng, plan) = (Rng::new(4, 0), worked.plan(recycling, lowering));
    let pressed = press_alike(&mut rng, plan, &sheet, &rules, lent, PRESS_WORDS);
    pressed.unwrap().expect("it is accepted").1.steps
}

/// Sheets that the recyclings press apart, in both directions: the number decides.
#[test]
fn the_recyclings_are_named_by_their_numbers() {
    for (worked, expected) in [(all_allow(), [4, 3]), (reset_shorter(), [1, 2])] {
        let by = |recycling| steps(&worked, recycling, Nothing);
        assert_eq!(Recycling::ALL.map(by), expected);
    }
}

#[test]
fn the_lowerings_are_named_by_their_numbers() {
    for (worked, recycling, expected) in [
        (everywhere(), Intersection, [5, 3, 3]),
        (after(), Intersection, [5, 4, 3]),
        (high_after(), Intersection, [5, 4, 3]),
        (stays(), Intersection, [7, 4, 6]),
        (as_rebuilt(), Reset, [8, 7, 4]),
        (sharper(), Reset, [7, 4, 4]),
        (sharper(), Intersection, [5, 5, 5]),
    ] {
        let by = |lowering| steps(&worked, recycling, lowering);
        assert_eq!(Lowering::ALL.map(by), expected);
    }
}

/// The longest sheets, and of `shared` nearly as many units as can be.
#[test]
fn the_shapes_are_alike_by_every_plan() {
    let mut rng = Rng::new(5, 0);
    for sheet in Edition::ALL
        .into_iter()
        .flat_map(Plan::all)
        .flat_map(sheets::all)
    {
        let lent = (sheet.plan.edition.room(sheet.records()), sheet.lines());
        let (bytes, rules) = (&sheet.sheet, &sheet.rules);
        let pressed = press_alike(&mut rng, sheet.plan, bytes, rules, lent, PRESS_WORDS);
        let (out, done) = pressed.unwrap().expect("it is accepted");
        assert_eq!((out, done), (sheet.out, sheet.pressed));
    }
}

#[test]
fn a_report_holds_as_many_words_as_fit() {
    let mut rng = Rng::new(2, 0);
    for sheet in sheets::of_both() {
        let edition = sheet.plan.edition;
        let ample = (edition.room(sheet.records()), sheet.lines());
        let peak = sheet.pressed.peak;
        for words in 0..=PRESS_WORDS + 1 {
            for room in [ample, (0, 0)] {
                let (plan, bytes, rules) = (sheet.plan, &sheet.sheet, &sheet.rules);
                press_alike(&mut rng, plan, bytes, rules, room, words).unwrap();
            }
            // accepted; 15 at some record; 6 at record 0; 4
            for slots in [peak, peak - 1] {
                replay_alike(&mut rng, edition, &sheet.out, &sheet.rules, slots, words)
                    .unwrap()
                    .ok();
            }
            let zeros = vec![0; edition.record_bytes()];
            replay_alike(&mut rng, edition, &zeros, &sheet.rules, peak, words)
                .unwrap()
                .unwrap_err();
            replay_alike(&mut rng, edition, &sheet.out, &[0; 1], peak, words)
                .unwrap()
                .unwrap_err();
        }
    }
}

#[test]
fn the_pair_comes_out_as_document_01_has_it() {
    let pair = &sheets::all(Plan::PROGRAM)[0];
    let (mut out, mut marks, mut report) = ([0xA5; 130], [0xA5; 3], [7; 12]);
    let (sheet, rules) = (&pair.sheet, &pair.rules);
    let numbers = numbers(pair.plan);
    let code = library::press(numbers, sheet, rules, &mut out, &mut marks, &mut report);
    let mut expected = [0xA5; 130];
    expected[..120].fill(0);
    for at in [0, 8, 24, 30, 40, 52, 98] {
        expected[at] = 1;
    }
    expected[48] = 2;
    expected[72] = 3;
    expected[96] = 3;
    assert_eq!((code, out), (0, expected));
    assert_eq!(marks, [1, 1, 0xA5]);
    assert_eq!(report, [0, 0, 0, 5, 3, 1, 3, 2, 0, 0, 0, 7]);
}

/// "the answer says which it was": 1 is the top-down order, which is emitted only
/// where it has the smaller peak.
#[test]
fn the_last_word_says_which_order_it_was() {
    for (worked, peak, order) in [
        (left_givens(), 3, 1),
        (high_left_givens(), 3, 1),
        (equal_peaks(), 3, 0),
        (early_given(), 3, 0),
    ] {
        let (sheet, rules) = worked.bytes();
        let (mut out, mut marks) = (vec![0; 2 * sheet.len()], [0; 5]);
        let (mut report, plan) = ([7; PRESS_WORDS], worked.plan(Intersection, Nothing));
        let code = library::press(
            numbers(plan),
            &sheet,
            &rules,
            &mut out,
            &mut marks,
            &mut report,
        );
        assert_eq!((code, report[6], report[10]), (0, peak, order));
    }
}

/// The library takes a row of n slots to be n times 40 bytes, in both editions:
/// all of them come back zero, and none beyond is touched.
#[test]
fn a_row_is_as_long_as_the_header_says() {
    for (edition, slots) in Edition::ALL
        .into_iter()
        .flat_map(|edition| (0..6).map(move |slots| (edition, slots)))
    {
        let pair = &sheets::all(Plan::program_in(edition))[0];
        let mut words = [u64::MAX; 5 * 8];
        let row: *mut Slot = words[5..].as_mut_ptr().cast();
        let row = unsafe { std::slice::from_raw_parts_mut(row, slots) };
        let number = edition.number().into();
        let code = library::replay(number, &pair.out, &pair.rules, row, &mut []);
        assert_eq!(code, if slots < 3 { 15 } else { 0 });
        let bytes: Vec<u8> = words.iter().flat_map(|word| word.to_le_bytes()).collect();
        let (before, rest) = bytes.split_at(40);
        let (row, beyond) = rest.split_at(40 * slots);
        assert!(before.iter().chain(beyond).all(|&byte| byte == 0xFF));
        assert!(row.iter().all(|&byte| byte == 0));
    }
}

/// Any number but 0 and 1, and of a lowering 2, with sheets that a press or a replay
/// would take. The edition is looked at first, and the lowering last.
#[test]
fn a_number_that_names_nothing_is_answered_and_nothing_is_touched() {
    let mut rng = Rng::new(3, 0);
    let unknown = [2, 3, 253, 254, 255, 256, 1 << 16, u32::MAX - 1, u32::MAX];
    for sheet in sheets::of_both() {
        let (bytes, rules) = (&sheet.sheet, &sheet.rules);
        let [edition, recycling, lowering] = numbers(sheet.plan);
        for number in unknown {
            let calls = [
                ([number, recycling, lowering], NO_EDITION),
                ([edition, number, lowering], NO_RECYCLING),
                ([edition, recycling, number], NO_LOWERING),
                ([number, number, lowering], NO_EDITION),
                ([edition, number, number], NO_RECYCLING),
                ([number, recycling, number], NO_EDITION),
            ];
            let names_none = |(_, answer): &(_, u32)| *answer != NO_LOWERING || number != 2;
            for (numbers, answer) in calls.into_iter().filter(names_none) {
                unnamed_press(&mut rng, numbers, answer, bytes, rules).unwrap();
            }
            unnamed_replay(&mut rng, number, &sheet.out, rules).unwrap();
        }
    }
    // with a sheet and a table that would be refused
    unnamed_press(&mut rng, [2, 0, 0], NO_EDITION, &[], &[0]).unwrap();
    unnamed_press(&mut rng, [0, 2, 0], NO_RECYCLING, &[], &[0]).unwrap();
    unnamed_press(&mut rng, [0, 0, 3], NO_LOWERING, &[], &[0]).unwrap();
    unnamed_replay(&mut rng, 2, &[], &[0]).unwrap();
}
