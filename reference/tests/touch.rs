//! Document 02 (xiv): "I want it shown that an unmarked rule line is mine to
//! change."

mod common;

use common::*;
use reference::cases::{draw_in, Case, Size};
use reference::press::press;
use reference::replay::Replayed;
use reference::rng::Rng;

const CASES: u64 = 1500;

/// An accepted press of a random sheet.
struct Accepted {
    edition: Edition,
    rules: Vec<u8>,
    out: Vec<u8>,
    peak: usize,
    core: Vec<usize>,
}

impl Accepted {
    fn draw(edition: Edition, seed: u64, index: u64, size: Size) -> Option<Accepted> {
        let case = draw_in(edition, seed, index, size);
        let Case::Press {
            plan, sheet, rules, ..
        } = case
        else {
            return None;
        };
        let (mut out, mut marks) = (vec![0; 2 * sheet.len() + 48], vec![0; 2000]);
        press(plan, &sheet, &rules, &mut out, &mut marks).ok()?;
        let done = press_ok_by(plan, &sheet, &rules);
        Some(Accepted {
            edition,
            rules,
            out: done.out,
            peak: done.pressed.peak,
            core: done.core,
        })
    }

    /// "a second rule table that has no refusal 4, is long enough to contain
    /// every marked line, and agrees with the first on those lines": it ends
    /// after the last marked line, or anywhere later. Every other line is drawn
    /// anew.
    fn touched(&self, rng: &mut Rng) -> Vec<u8> {
        let size = self.edition.line_bytes();
        let (least, now) = (self.core.last().unwrap() + 1, self.rules.len() / size);
        let most = (now + 9).min(self.edition.table_lines());
        let lines = match rng.below(4) {
            0 => least,
            1 => now,
            2 => rng.between(least, now),
            _ => rng.between(now, most),
        };
        let line = |line: usize| match self.core.contains(&line) {
            true => self.rules[line * size..][..size].to_vec(),
            false => any_line(rng, size),
        };
        (0..lines).flat_map(line).collect()
    }

    /// The first given record of the pressed sheet whose line is wanted.
    fn first_naming(&self, wanted: impl Fn(usize) -> bool) -> usize {
        let names = |bytes: &[u8]| {
            let line = u16::from_le_bytes([bytes[6], bytes[7]]);
            bytes[0] == 1 && wanted(usize::from(line))
        };
        let mut records = self.out.chunks_exact(self.edition.record_bytes());
        records.position(names).expect("a marked line is named")
    }

    /// Each number of slots from 0 to one more than the peak; where that is over
    /// 40, some of them.
    fn numbers_of_slots(&self) -> impl Iterator<Item = usize> {
        let fewer = (0..self.peak).step_by(self.peak.div_ceil(40));
        fewer.chain([self.peak, self.peak + 1])
    }

    /// The answer, and the tally and the slots after each record.
    fn replayed(&self, rules: &[u8], slots: usize) -> (Result<Replayed, (u32, usize)>, Trace) {
        replay_traced_in(self.edition, &self.out, rules, slots)
    }
}

/// Also the empty clause, and one that holds every variable both ways.
fn any_line(rng: &mut Rng, size: usize) -> Vec<u8> {
    let mut line = vec![0; size];
    match rng.below(4) {
        0 => (),
        1 => line.fill(0xFF),
        2 => line[rng.below(size)] = rng.nonzero_byte(),
        _ => line.fill_with(|| rng.byte()),
    }
    line
}

fn accepted(seed: u64, size: Size) -> impl Iterator<Item = (u64, Accepted)> {
    let drawn = (0..CASES).flat_map(|index| Edition::ALL.map(|edition| (index, edition)));
    drawn.filter_map(move |(index, edition)| {
        Some((index, Accepted::draw(edition, seed, index, size)?))
    })
}

fn check_touched(seed: u64, size: Size) {
    let (mut pressed, mut shorter, mut longer, mut changed) = (0, 0, 0, 0);
    for (index, of) in accepted(seed, size) {
        let rules = of.touched(&mut Rng::new(seed, index));
        for slots in of.numbers_of_slots() {
            let first = of.replayed(&of.rules, slots);
            assert_eq!(first.0.is_ok(), slots >= of.peak);
            assert!(first == of.replayed(&rules, slots), "case {index}, {slots}");
        }
        pressed += 1;
        shorter += usize::from(rules.len() < of.rules.len());
        longer += usize::from(rules.len() > of.rules.len());
        changed += usize::from(rules.iter().zip(&of.rules).any(|(new, old)| new != old));
    }
    assert!(pressed > 700, "{pressed}");
    for some in [shorter, longer, changed] {
        assert!(
            some * 10 > pressed,
            "{shorter} {longer} {changed} of {pressed}"
        );
    }
}

#[test]
fn small_pressed_sheets_replay_alike_against_a_touched_table() {
    check_touched(51, Size::Small);
}

#[test]
fn large_pressed_sheets_replay_alike_against_a_touched_table() {
    check_touched(52, Size::Any);
}

/// A marked line that says something else is 14 at the first record that names
/// it, and so the comparison above can fail; where the table ends before it, the
/// first record that names a line beyond gets 13.
#[test]
fn a_marked_line_is_not_to_be_touched() {
    for (index, of) in accepted(53, Size::Small) {
        let mut rng = Rng::new(53, index);
        let size = of.edition.line_bytes();
        let line = rng.pick(&of.core);
        let mut rules = of.touched(&mut rng);
        rules[line * size + rng.below(size)] ^= 1 << rng.below(8);
        let said = of.replayed(&rules, of.peak);
        assert_eq!(said.0, Err((14, of.first_naming(|named| named == line))));
        assert!(said != of.replayed(&of.rules, of.peak));
        let said = of.replayed(&rules[..line * size], of.peak);
        assert_eq!(said.0, Err((13, of.first_naming(|named| named >= line))));
    }
}

/// The marks are of the pressed sheet: the input may name a line that is free,
/// and then its own replay tells the tables apart.
#[test]
fn the_input_may_name_a_line_that_is_free() {
    let (input, table) = irregular().bytes();
    let done = press_ok(&input, &table);
    assert_eq!(done.core, [0, 2, 3]);
    let touched = rules(&["+0 +1", "+5 -6", "+0 -1", "-0"]);
    let replays = |sheet: &[u8], rules: &[u8]| replay_traced(sheet, rules, 9);
    assert!(replays(&done.out, &touched) == replays(&done.out, &table));
    assert!(replays(&input, &table).0.is_ok());
    assert_eq!(replays(&input, &touched).0, Err((14, 1)));
}
