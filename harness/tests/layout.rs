//! The slot's layout, as the library itself has it: a row is watched while a
//! sheet is replayed in it.

use harness::library::{c, Slot, REPLAY_WORDS};
use reference::cases::draft::Draft;
use reference::clause::Clause;
use reference::edition::Edition;
use reference::rng::Rng;
use std::mem::{offset_of, size_of};
use std::sync::atomic::{AtomicBool, AtomicU64, Ordering::Relaxed};
use std::thread;
use std::time::{Duration, Instant};

/// The halves of the two sets, those under 64 first. A narrow clause has only
/// those. A variable is in one of the sets at most: a given clause has none both
/// ways.
const POSITIVE: [u64; 2] = [0x1122_3344_5566_7788, 0x0F1E_2D3C_4B5A_6978];
const NEGATIVE: [u64; 2] = [0xEE5D_CC99_AA91_8007, 0xF0E1_D2C3_B4A5_9687];
const WORDS: usize = size_of::<Slot>() / 8;
const PATIENCE: Duration = Duration::from_secs(60);

/// The halves of a set that a clause of this edition has.
fn halves(edition: Edition, [low, high]: [u64; 2]) -> [u64; 2] {
    match edition {
        Edition::Narrow => [low, 0],
        Edition::Wide => [low, high],
    }
}

fn number([low, high]: [u64; 2]) -> u128 {
    u128::from(high) << 64 | u128::from(low)
}

/// As many given records as a replay takes, all of the one clause: node n takes
/// slot n, and none is dropped.
fn full_sheet(edition: Edition) -> (Vec<u8>, Vec<u8>) {
    let mut draft = Draft::default();
    let mut rng = Rng::new(0, 0);
    let [positive, negative] = [POSITIVE, NEGATIVE].map(|set| number(halves(edition, set)));
    for _ in 0..edition.replay_records() {
        draft.give(&mut rng, Clause::from_numbers(positive, negative));
    }
    (draft.sheet(edition), draft.rule_table(edition))
}

/// The fields of slot n: used, node, and the halves of positive and negative.
fn fields(row: &[AtomicU64], n: usize) -> [u64; 6] {
    let field = |offset: usize, size: usize| {
        let word = row[n * WORDS + offset / 8].load(Relaxed) >> (8 * (offset % 8));
        word & (u64::MAX >> (64 - 8 * size))
    };
    [
        field(offset_of!(Slot, used), 4),
        field(offset_of!(Slot, node), 4),
        field(offset_of!(Slot, positive), 8),
        field(offset_of!(Slot, positive) + 8, 8),
        field(offset_of!(Slot, negative), 8),
        field(offset_of!(Slot, negative) + 8, 8),
    ]
}

/// Whether slot n is seen in use. Each field is either zero or what it must be,
/// whenever it is looked at.
fn look(edition: Edition, row: &[AtomicU64], n: usize) -> bool {
    let [used, found @ ..] = fields(row, n);
    let [p, p_high] = halves(edition, POSITIVE);
    let [m, m_high] = halves(edition, NEGATIVE);
    let full = [n as u64, p, p_high, m, m_high];
    for (field, value) in found.iter().zip(full) {
        assert!(*field == 0 || *field == value);
    }
    used != 0 && found == full
}

fn full_report(edition: Edition) -> [u64; REPLAY_WORDS] {
    let [p, p_high] = halves(edition, POSITIVE);
    let [m, m_high] = halves(edition, NEGATIVE);
    let nodes = edition.replay_records() as u64;
    [0, p, m, nodes, 0, nodes, p_high, m_high]
}

#[test]
fn a_slot_in_use_lies_as_the_header_says() {
    for edition in Edition::ALL {
        watch(edition);
    }
}

fn watch(edition: Edition) {
    let (sheet, rules) = full_sheet(edition);
    let records = edition.replay_records();
    let row: Vec<AtomicU64> = (0..records * WORDS).map(|_| AtomicU64::new(0)).collect();
    let seen = AtomicBool::new(false);
    let began = Instant::now();
    thread::scope(|scope| {
        scope.spawn(|| {
            for n in [1, records / 2, records - 1] {
                while !look(edition, &row, n) {
                    assert!(began.elapsed() < PATIENCE, "slot {n} never seen in use");
                }
            }
            seen.store(true, Relaxed);
        });
        while !seen.load(Relaxed) && began.elapsed() < 2 * PATIENCE {
            let mut report = [0; REPLAY_WORDS];
            // no reference to the row is made here, since another thread looks at it
            let code = unsafe {
                c::tempuquile_replay(
                    edition.number().into(),
                    sheet.as_ptr(),
                    sheet.len(),
                    rules.as_ptr(),
                    rules.len(),
                    row.as_ptr().cast_mut().cast::<Slot>(),
                    records,
                    report.as_mut_ptr(),
                    report.len(),
                )
            };
            assert_eq!(code, 0);
            assert_eq!(report, full_report(edition));
        }
    });
    assert!(seen.load(Relaxed));
    assert!((0..records).all(|n| fields(&row, n) == [0; 6]));
}
