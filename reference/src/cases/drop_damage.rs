//! Damage to the drops of a sheet for the replay.

use crate::edition::{Edition, SETS};
use crate::record::Record;
use crate::rng::Rng;

type Bytes = Vec<u8>;

/// One change to the drops: lost, moved, doubled, with a stray byte, too many
/// or of the last node.
pub fn spoil_drops(rng: &mut Rng, edition: Edition, sheet: &mut Vec<u8>) {
    let mut records: Vec<Bytes> = sheet
        .chunks_exact(edition.record_bytes())
        .map(<[u8]>::to_vec)
        .collect();
    let drops: Vec<usize> = (0..records.len())
        .filter(|&at| records[at][0] == 3)
        .collect();
    if drops.is_empty() || rng.chance(25) {
        add_drop(rng, edition, &mut records);
    } else {
        let at = rng.pick(&drops);
        spoil_drop(rng, &mut records, at);
    }
    *sheet = records.concat();
}

fn spoil_drop(rng: &mut Rng, records: &mut Vec<Bytes>, at: usize) {
    match rng.below(6) {
        0 => drop(records.remove(at)),
        1 => {
            let moved = records.remove(at);
            let earlier = rng.below(at + 1);
            records.insert(earlier, moved);
        }
        2 => {
            let moved = records.remove(at);
            let later = rng.between(at, records.len());
            records.insert(later, moved);
        }
        3 => records.insert(at, records[at].clone()),
        4 => {
            let later = rng.between(at + 1, records.len());
            records.insert(later, records[at].clone());
        }
        _ => {
            // of the sets, the first and the last byte of each eight
            let of_sets = (SETS..records[at].len()).filter(|at| [0, 7].contains(&(at % 8)));
            let strays: Vec<usize> = [1, 4, 5, 6, 7].into_iter().chain(of_sets).collect();
            let stray = rng.pick(&strays);
            records[at][stray] = rng.nonzero_byte();
        }
    }
}

fn add_drop(rng: &mut Rng, edition: Edition, records: &mut Vec<Bytes>) {
    let nodes = records.iter().filter(|bytes| bytes[0] != 3).count();
    let at = rng.between(0, records.len());
    let (node, at) = match rng.below(4) {
        0 | 1 => (nodes.saturating_sub(1), records.len()),
        2 => (rng.below(nodes + 2), at),
        _ => (at, at),
    };
    records.insert(at, Record::Drop { node }.write(edition));
}
