//! Damage to the bytes of a sheet or a rule table.

use crate::edition::{Edition, SETS};
use crate::record::{number, put_number, Record};
use crate::rng::Rng;

/// One to three faults in records drawn at random, now and then all in the
/// same record. Steps are drawn more often, since more can be wrong with one.
pub fn spoil_records(rng: &mut Rng, edition: Edition, sheet: &mut [u8], rules: &[u8]) {
    let size = edition.record_bytes();
    let kinds: Vec<u8> = sheet.chunks_exact(size).map(|bytes| bytes[0]).collect();
    let steps: Vec<usize> = (0..kinds.len()).filter(|&at| kinds[at] == 2).collect();
    let draw = |rng: &mut Rng| match !steps.is_empty() && rng.chance(60) {
        true => rng.pick(&steps),
        false => rng.below(kinds.len()),
    };
    let same = rng.chance(30).then(|| draw(rng));
    for _ in 0..rng.between(1, 3) {
        let record = same.unwrap_or_else(|| draw(rng));
        let bytes = &mut sheet[record * size..(record + 1) * size];
        let lines = rules.len() / edition.line_bytes();
        spoil_record(rng, edition, bytes, record, lines);
    }
}

/// One fault, fitting the kind that the record has.
fn spoil_record(rng: &mut Rng, edition: Edition, bytes: &mut [u8], record: usize, lines: usize) {
    match (rng.below(10), bytes[0]) {
        (0, _) => bytes[0] = rng.pick(&[0, 1, 2, 3, 4, 0x82, 255]),
        (1, _) => bytes[rng.below(edition.record_bytes())] = rng.byte(),
        (2, _) => stray_byte(rng, edition, bytes),
        (_, 1) => spoil_given(rng, edition, bytes, lines),
        (_, 2) => spoil_step(rng, edition, bytes, record),
        _ => put_number(bytes, 2, rng.pick(&[0, record, record / 2, 0xFFFF])),
    }
}

fn stray_byte(rng: &mut Rng, edition: Edition, bytes: &mut [u8]) {
    if let Some(record) = Record::read(bytes) {
        bytes[rng.pick(&record.zero_bytes(edition))] = rng.nonzero_byte();
    }
}

fn spoil_given(rng: &mut Rng, edition: Edition, bytes: &mut [u8], lines: usize) {
    match rng.below(4) {
        0 => put_number(bytes, 6, lines),
        1 => {
            let beyond = [lines + 1, edition.table_lines(), 0xFFFF];
            put_number(bytes, 6, rng.pick(&beyond));
        }
        2 => put_number(bytes, 6, rng.below(lines.max(1))),
        _ => spoil_sets(rng, edition, &mut bytes[SETS..]),
    }
}

fn spoil_step(rng: &mut Rng, edition: Edition, bytes: &mut [u8], record: usize) {
    let side = rng.pick(&[2, 4]);
    let most = edition.variables();
    match rng.below(9) {
        0 => bytes[1] = rng.pick(&[most, most + 1, 127, 128, 255]),
        1 => bytes[1] = rng.below(most.into()) as u8,
        2 => {
            let late = [record, record + 1, edition.press_records(), 0xFFFF];
            put_number(bytes, side, rng.pick(&late));
        }
        3 => put_number(bytes, side, rng.below(record + 1)),
        4 => {
            put_number(bytes, side, rng.below(record + 1));
            put_number(bytes, 6 - side, rng.below(record + 2));
        }
        5 => {
            let (left, right) = (number(bytes, 2), number(bytes, 4));
            put_number(bytes, 2, right);
            put_number(bytes, 4, left);
        }
        6 => lose_bit(rng, &mut bytes[SETS..]),
        // a pivot that only the wide edition has, or the one 64 away
        7 => bytes[1] ^= 64,
        _ => spoil_sets(rng, edition, &mut bytes[SETS..]),
    }
}

/// A literal more or less; in the wide edition also the halves of a set
/// exchanged.
fn spoil_sets(rng: &mut Rng, edition: Edition, sets: &mut [u8]) {
    if edition == Edition::Narrow || rng.chance(60) {
        return flip_bit(rng, sets);
    }
    let set = sets.chunks_exact_mut(edition.set_bytes()).nth(rng.below(2));
    let (low, high) = set.expect("a record has two sets").split_at_mut(8);
    low.swap_with_slice(high);
}

/// A literal lost, if there is one.
fn lose_bit(rng: &mut Rng, bytes: &mut [u8]) {
    let held = |bit: &usize| bytes[bit / 8] >> (bit % 8) & 1 == 1;
    let bits: Vec<usize> = (0..8 * bytes.len()).filter(held).collect();
    if !bits.is_empty() {
        let bit = rng.pick(&bits);
        bytes[bit / 8] ^= 1 << (bit % 8);
    }
}

pub fn flip_bit(rng: &mut Rng, bytes: &mut [u8]) {
    if !bytes.is_empty() {
        bytes[rng.below(bytes.len())] ^= 1 << rng.below(8);
    }
}

/// Records lost, doubled or exchanged.
pub fn stir_records(rng: &mut Rng, edition: Edition, sheet: &mut Vec<u8>) {
    let size = edition.record_bytes();
    let count = sheet.len() / size;
    let (one, other) = (rng.below(count), rng.below(count));
    let bytes = sheet[one * size..(one + 1) * size].to_vec();
    match rng.below(3) {
        0 => drop(sheet.drain(one * size..(one + 1) * size)),
        1 => drop(sheet.splice(other * size..other * size, bytes)),
        _ => {
            sheet.copy_within(other * size..(other + 1) * size, one * size);
            sheet[other * size..(other + 1) * size].copy_from_slice(&bytes);
        }
    }
}

/// A length that isn't a whole number of pieces of `unit` bytes: one in four is
/// a whole number of halves.
fn make_ragged(rng: &mut Rng, bytes: &mut Vec<u8>, unit: usize) {
    let change = match rng.below(4) {
        0 => unit / 2,
        _ => rng.between(1, unit - 1),
    };
    if bytes.len() >= unit && rng.chance(50) {
        bytes.truncate(bytes.len() - change);
    } else {
        let longer = bytes.len() + change;
        bytes.resize_with(longer, || rng.byte());
    }
}

/// A whole number of records of the other edition.
fn fit_other(edition: Edition, sheet: &mut Vec<u8>) {
    let size = edition.other().record_bytes();
    let count = sheet.len().div_ceil(size);
    set_count(sheet, size, count);
}

/// Exactly `count` pieces, by cutting off or by repeating the last piece.
fn set_count(bytes: &mut Vec<u8>, unit: usize, count: usize) {
    let last = match bytes.len().checked_sub(unit) {
        Some(at) => bytes[at..].to_vec(),
        None => vec![0; unit],
    };
    while bytes.len() < count * unit {
        bytes.extend(&last);
    }
    bytes.truncate(count * unit);
}

/// A sheet that is refused for its length, or that has as many records as may
/// be. The longest are left out of small cases.
pub fn spoil_length(
    rng: &mut Rng,
    edition: Edition,
    most: usize,
    sheet: &mut Vec<u8>,
    small: bool,
) {
    let record = edition.record_bytes();
    match rng.below(if small { 5 } else { 8 }) {
        0..=2 => make_ragged(rng, sheet, record),
        3 => sheet.clear(),
        4 => fit_other(edition, sheet),
        5 => set_count(sheet, record, most),
        6 => set_count(sheet, record, most + 1),
        _ => set_count(sheet, record, most + 40),
    }
}

/// A sheet of noise: either any bytes, or records mostly zero, which get
/// further before they are refused.
pub fn noise(rng: &mut Rng, edition: Edition, count: usize) -> Vec<u8> {
    let size = edition.record_bytes();
    let mut sheet = vec![0; count * size];
    let wild = rng.chance(30);
    for bytes in sheet.chunks_exact_mut(size) {
        if wild {
            bytes.fill_with(|| rng.byte());
        }
        bytes[0] = rng.pick(&[0, 1, 1, 1, 2, 2, 3, 3, 4]);
        if rng.chance(50) {
            bytes[rng.below(size)] = rng.pick(&[0, 1, 2, 63, 64, 127, 128, 255]);
        }
    }
    sheet
}

/// A rule table that is refused or as long as can be. The longest are left
/// out of small cases.
pub fn spoil_rule_table(rng: &mut Rng, edition: Edition, rules: &mut Vec<u8>, small: bool) {
    let (lines, line) = (edition.table_lines(), edition.line_bytes());
    match rng.below(if small { 3 } else { 6 }) {
        0 | 1 => make_ragged(rng, rules, line),
        2 => flip_bit(rng, rules),
        3 => rules.resize(lines * line, 0),
        4 => rules.resize((lines + 1) * line, 0),
        _ => rules.resize(lines * line + rng.between(1, line - 1), 0),
    }
}
