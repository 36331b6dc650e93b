//! What document 02 (x) asks of the wide edition, and bytes that are called by
//! the name of the other edition.

use super::{both, both_of, press, press_in, pressed, replay, replay_sheet};
use crate::edition::Edition::{self, Narrow, Wide};
use crate::sheets::starred::{lone, pair};
use crate::sheets::wide::*;
use crate::sheets::{given, rules, sheet, step};
use crate::stream::Entry;

pub fn entries() -> Vec<Entry> {
    [pivots(), results(), room(), lengths(), tables(), crossed()].concat()
}

fn pivots() -> Vec<Entry> {
    let sheets = [pivot_127(), pivot_128(), pivot_low()];
    let mut entries: Vec<Entry> = sheets.iter().flat_map(|of| both_of(of, 3)).collect();
    // every pivot byte that only the wide edition has is 8 in a narrow sheet
    for pivot in [64, 100, 127, 128] {
        let records = [given(0, "+0"), given(1, "-0"), step(pivot, 0, 1, "")];
        let table = pair().table();
        entries.extend(both(Narrow, &sheet(Narrow, &records), &table, 3));
    }
    entries
}

fn results() -> Vec<Entry> {
    let sheets = [
        high_irregular(),
        halves(),
        high_kept(),
        high_lost(),
        high_added(),
        high_moved(),
        high_given(),
        high_both_ways(),
        high_one_way(),
    ];
    let mut entries: Vec<Entry> = sheets.iter().flat_map(|of| both_of(of, 4)).collect();
    let irregular = high_irregular();
    entries.push(replay(Wide, &pressed(&irregular), &irregular.table(), 3));
    entries.push(replay_sheet(&high_added(), 2));
    entries
}

/// "the press needs 80N-40 bytes of room": one record, and nine.
fn room() -> Vec<Entry> {
    let mut entries = vec![];
    for (worked, needed) in [(lone().in_edition(Wide), 40), (high_irregular(), 680)] {
        let (sheet, rules) = worked.bytes();
        let of = |room: usize| press_in(Wide, &sheet, &rules, room, worked.rules.len());
        entries.extend([of(needed), of(needed - 1)]);
    }
    entries
}

/// A length that is a whole number of records of one edition only: 1 in the
/// other. A length of both is looked into in each.
fn lengths() -> Vec<Entry> {
    let of = |edition: Edition, bytes: usize| {
        let long = sheet(edition, &vec![given(0, "+0"); 3]);
        both(edition, &long[..bytes], &rules(edition, &["+0"]), 3)
    };
    [
        of(Narrow, 24),
        of(Narrow, 40),
        of(Narrow, 72),
        of(Wide, 24),
        of(Wide, 40),
        of(Wide, 72),
        of(Wide, 120),
    ]
    .concat()
}

/// A rule table of a multiple of 16 bytes that is none of 32 is 4 in the wide
/// edition only.
fn tables() -> Vec<Entry> {
    let of = |edition: Edition, bytes: usize| {
        let table = rules(edition, &["+0", "-0", "", ""]);
        let pair = pair().in_edition(edition).sheet();
        both(edition, &pair, &table[..bytes], 3)
    };
    [of(Narrow, 48), of(Wide, 80), of(Wide, 64), of(Wide, 48)].concat()
}

/// Bytes of one edition by the other's name.
fn crossed() -> Vec<Entry> {
    let mut entries = vec![];
    for worked in [lone(), pair(), high_irregular(), either_edition()] {
        let (bytes, table) = worked.bytes();
        entries.extend(both(worked.edition.other(), &bytes, &table, 5));
    }
    entries.extend(both_of(&either_edition(), 5));
    // five narrow records, and three wide ones, of 120 bytes
    let narrow = pressed(&pair());
    entries.push(replay(Wide, &narrow, &pair().table(), 3));
    let wide = pair().in_edition(Wide);
    entries.push(press(Narrow, &wide.sheet(), &wide.table()));
    entries.push(replay(Narrow, &wide.sheet(), &wide.table(), 5));
    entries
}
