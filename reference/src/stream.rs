//! Cases as a stream of bytes, and what a program that runs them prints.
//!
//! A case is sixteen bytes, then its sheet and its rule table. Byte 0 says what
//! is run: 0 the press, 1 the replay, 2 the replay shown record by record. Byte
//! 1 is the edition: 0 narrow, 1 wide. Byte 2 is a press's recycling: 0 reset, 1
//! intersection. Byte 3 is its lowering: 0 nothing, 1 units, 2 univalents. Of a
//! replay both are 0. Then come six numbers of two bytes, little-endian: bytes of
//! the sheet, bytes of the rule table, bytes of room or the number of slots, bytes
//! of marks or zero; and how many bytes of the sheet and of the rule table follow.
//! The rest of each is zero, so that long ones need few bytes.
//!
//! What is printed is, for each case, its number, its edition, what is run, a
//! press's recycling and lowering and the first four numbers, and then the
//! answer's line (`text`). After a press come the output and the marks, if it is
//! accepted, and whether all that they may not touch is untouched. Of a replay
//! that is shown, each record has a line: `taken` or `refused <number> <record>`,
//! and the tally and the slots then. After a refused record there is none.

use crate::cases::{draw, Case, Size};
use crate::edition::Edition;
use crate::lengths::check_inputs;
use crate::plan::Plan;
use crate::press::press;
use crate::replay::{replay, step, Slot, Tally};
use crate::text::{hex, passes_words, pressed_line, refused, replayed_line, trace_line};

/// The most that a program that runs a stream has memory for: a little more than
/// either edition allows or needs.
fn most(of: impl Fn(Edition) -> usize) -> usize {
    Edition::ALL.into_iter().map(of).fold(0, usize::max)
}

fn most_sheet() -> usize {
    most(|of| of.record_bytes() * (of.replay_records() + 2))
}

fn most_rules() -> usize {
    most(|of| of.line_bytes() * (of.table_lines() + 1))
}

fn most_room() -> usize {
    most(|of| of.room(of.press_records()) + 60)
}

fn most_marks() -> usize {
    most(|of| of.table_lines() + 60)
}

/// What output and marks hold before a press.
const OLD: u8 = 0xA5;

/// A case of a stream. `shown` asks of a replay that each record is shown.
#[derive(Clone)]
pub struct Entry {
    pub case: Case,
    pub shown: bool,
}

/// What a program is run on, and what it has to print.
#[derive(Default)]
pub struct Stream {
    pub stdin: Vec<u8>,
    pub stdout: String,
}

pub fn of(entries: &[Entry]) -> Stream {
    let mut stream = Stream::default();
    for (number, entry) in entries.iter().enumerate() {
        assert!(fits(&entry.case), "case {number} is too long for a stream");
        stream.stdin.extend(bytes(entry));
        stream.stdout += &printed(number, entry);
    }
    stream
}

/// Small cases of `cases::draw`. Of the replays two in three are shown.
pub fn random(seed: u64, count: u64) -> Vec<Entry> {
    let entry = |index: u64| Entry {
        case: draw(seed, index, Size::Small),
        shown: index % 3 != 0,
    };
    (0..count).map(entry).collect()
}

fn fits(case: &Case) -> bool {
    let (sheet, rules, room, marks) = parts(case);
    let inputs = sheet.len() <= most_sheet() && rules.len() <= most_rules();
    inputs && room <= most_room() && marks <= most_marks()
}

/// Sheet, rule table, room or slots, marks or zero.
fn parts(case: &Case) -> (&[u8], &[u8], usize, usize) {
    match case {
        Case::Press {
            sheet,
            rules,
            room,
            marks,
            ..
        } => (sheet, rules, *room, *marks),
        Case::Replay {
            sheet,
            rules,
            slots,
            ..
        } => (sheet, rules, *slots, 0),
    }
}

/// The bytes without the zeros at their end.
fn stored(bytes: &[u8]) -> &[u8] {
    let end = bytes.iter().rposition(|&byte| byte != 0);
    &bytes[..end.map_or(0, |at| at + 1)]
}

fn bytes(entry: &Entry) -> Vec<u8> {
    let (sheet, rules, room, marks) = parts(&entry.case);
    let (kind, passes) = match (&entry.case, entry.shown) {
        (Case::Press { plan, .. }, _) => (0, [plan.recycling.number(), plan.lowering.number()]),
        (Case::Replay { .. }, false) => (1, [0, 0]),
        (Case::Replay { .. }, true) => (2, [0, 0]),
    };
    let mut bytes = vec![kind, entry.case.edition().number()];
    bytes.extend(passes);
    let (sheet_stored, rules_stored) = (stored(sheet), stored(rules));
    let lengths = [sheet.len(), rules.len(), room, marks];
    for number in [&lengths[..], &[sheet_stored.len(), rules_stored.len()]].concat() {
        let number = u16::try_from(number).expect("a number of two bytes");
        bytes.extend(number.to_le_bytes());
    }
    bytes.extend(sheet_stored);
    bytes.extend(rules_stored);
    bytes
}

fn printed(number: usize, entry: &Entry) -> String {
    let (sheet, rules, room, marks) = parts(&entry.case);
    let (run, answer) = match entry.case {
        Case::Press { plan, .. } => {
            let run = format!("press {}", passes_words(plan));
            (run, pressed(plan, sheet, rules, room, marks))
        }
        Case::Replay { edition, .. } => {
            let answer = replayed(edition, sheet, rules, room, entry.shown);
            ("replay".to_string(), answer)
        }
    };
    let lengths = format!("{} {} {room} {marks}", sheet.len(), rules.len());
    let edition = entry.case.edition().word();
    format!("case {number} {edition} {run} {lengths}\n{answer}")
}

fn pressed(plan: Plan, sheet: &[u8], rules: &[u8], room: usize, marks: usize) -> String {
    let edition = plan.edition;
    let mut out = vec![OLD; room];
    let mut marks = vec![OLD; marks];
    let (answer, records, lines) = match press(plan, sheet, rules, &mut out, &mut marks) {
        Err(refusal) => (refused(&refusal), 0, 0),
        Ok(pressed) => {
            let records = pressed.records * edition.record_bytes();
            let lines = rules.len() / edition.line_bytes();
            let memory = format!(
                "out {}\nmarks {}\n",
                hex(&out[..records]),
                hex(&marks[..lines])
            );
            (pressed_line(edition, &pressed) + &memory, records, lines)
        }
    };
    let mut beyond = out[records..].iter().chain(&marks[lines..]);
    let word = if beyond.all(|&byte| byte == OLD) {
        "untouched"
    } else {
        "touched"
    };
    format!("{answer}{word}\n")
}

fn replayed(edition: Edition, sheet: &[u8], rules: &[u8], slots: usize, shown: bool) -> String {
    let mut row = vec![Slot::default(); slots];
    let answer = match replay(edition, sheet, rules, &mut row) {
        Err(refusal) => refused(&refusal),
        Ok(replayed) => replayed_line(edition, &replayed),
    };
    let most = edition.replay_records();
    if shown && check_inputs(edition, sheet.len(), rules.len(), most).is_ok() {
        return answer + &records(edition, sheet, rules, slots);
    }
    answer
}

/// A line for each record, up to one that is refused.
fn records(edition: Edition, sheet: &[u8], rules: &[u8], slots: usize) -> String {
    let mut row = vec![Slot::default(); slots];
    let mut tally = Tally::default();
    let mut lines = String::new();
    for (record, bytes) in sheet.chunks_exact(edition.record_bytes()).enumerate() {
        let answer = step(edition, &mut tally, &mut row, bytes, rules);
        let word = match answer {
            Ok(()) => "taken".to_string(),
            Err(number) => format!("refused {number} {record}"),
        };
        lines += &format!("{word} {}", trace_line(edition, &tally, &row));
        if answer.is_err() {
            break;
        }
    }
    lines
}
