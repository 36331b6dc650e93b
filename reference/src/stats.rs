//! How often each refusal and each interesting event occurs, so that the
//! generator's coverage is measured and not assumed.

use crate::cases::{draw, Case, Size};
use crate::clause::Clause;
use crate::edition::Edition;
use crate::events::{high_events, lowerings_part, pass_events, recyclings_part, Event};
use crate::judge::TRIED;
use crate::plan::{Lowering, Plan, Recycling};
use crate::press::{press, read_proof, record_faults, run_passes};
use crate::record::Record;
use crate::replay::{replay_watched, step, step_faults, Slot, Tally};
use std::collections::{BTreeMap, BTreeSet};
use std::iter;

#[derive(Default)]
pub struct Stats {
    press: BTreeMap<(Edition, u32), usize>,
    replay: BTreeMap<(Edition, u32), usize>,
    events: BTreeMap<&'static str, usize>,
    together: BTreeMap<BTreeSet<u32>, usize>,
}

/// The number under which accepted calls are counted.
const ACCEPTED: u32 = 0;

pub fn gather(seed: u64, count: u64, size: Size) -> Stats {
    let mut stats = Stats::default();
    for index in 0..count {
        match draw(seed, index, size) {
            Case::Press {
                plan,
                sheet,
                rules,
                room,
                marks,
            } => stats.count_press(plan, &sheet, &rules, room, marks),
            Case::Replay {
                edition,
                sheet,
                rules,
                slots,
            } => stats.count_replay(edition, &sheet, &rules, slots),
        }
    }
    stats
}

impl Stats {
    fn count_press(&mut self, plan: Plan, sheet: &[u8], rules: &[u8], room: usize, marks: usize) {
        let edition = plan.edition;
        let (mut out, mut marks) = (vec![0; room], vec![0; marks]);
        match press(plan, sheet, rules, &mut out, &mut marks) {
            Err(refusal) => {
                *self.press.entry((edition, refusal.number)).or_default() += 1;
                if refusal.number > 5 {
                    self.count_together(press_faults_at(edition, sheet, rules, refusal.record));
                }
            }
            Ok(_) => {
                *self.press.entry((edition, ACCEPTED)).or_default() += 1;
                let proof = read_proof(edition, sheet, rules).expect("it was accepted");
                let by = |plan| run_passes(plan, proof.clone());
                let both = Recycling::ALL.map(|recycling| by(Plan { recycling, ..plan }));
                let passes = &both[usize::from(plan.recycling.number())];
                self.count_events(&pass_events(plan, passes));
                self.count_events(&high_events(passes));
                self.count_events(&recyclings_part(&both));
                let both = [Lowering::Units, Lowering::Univalents];
                let both = both.map(|lowering| by(Plan { lowering, ..plan }));
                self.count_events(&lowerings_part(&both));
                self.count_events(&size_events(edition, sheet, rules, room));
            }
        }
    }

    fn count_replay(&mut self, edition: Edition, sheet: &[u8], rules: &[u8], slots: usize) {
        let records = sheet.len() / edition.record_bytes();
        let mut row = vec![Slot::default(); slots];
        let mut seen = Seen::default();
        let watch = |tally: &Tally, row: &[Slot]| seen.note(tally, row);
        match replay_watched(edition, sheet, rules, &mut row, watch) {
            Err(refusal) => {
                *self.replay.entry((edition, refusal.number)).or_default() += 1;
                if TRIED.contains(&refusal.number) {
                    self.count_together(replay_faults_at(
                        edition,
                        sheet,
                        rules,
                        slots,
                        refusal.record,
                    ));
                }
            }
            Ok(_) => {
                *self.replay.entry((edition, ACCEPTED)).or_default() += 1;
                self.count_events(&[
                    ("replay: accepted with drops", seen.dropped),
                    ("replay: a slot used again", seen.reused),
                    ("replay: slots exactly peak", seen.peak == slots),
                    (
                        "replay: most records accepted",
                        records == edition.replay_records(),
                    ),
                ]);
            }
        }
    }

    fn count_events(&mut self, events: &[Event]) {
        for &(name, happened) in events {
            *self.events.entry(name).or_default() += usize::from(happened);
        }
    }

    /// Several numbers applying at once is what the order of the checks is about.
    fn count_together(&mut self, numbers: BTreeSet<u32>) {
        if numbers.len() > 1 {
            *self.together.entry(numbers).or_default() += 1;
        }
    }

    /// The table that `reference stats` prints.
    pub fn table(&self) -> String {
        let words = Edition::ALL.map(Edition::word).repeat(2);
        let words: String = words.iter().map(|word| format!(" {word:>8}")).collect();
        let mut table = format!("{:12} {:>17} {:>17}\n", "", "press", "replay");
        table += &format!("{:12}{words}\n", "number");
        for number in iter::once(ACCEPTED).chain(numbers()) {
            let name = match number {
                ACCEPTED => "accepted".to_string(),
                _ => format!("refused {number}"),
            };
            table += &format!("{name:<12}");
            for job in [&self.press, &self.replay] {
                for edition in Edition::ALL {
                    let count = job.get(&(edition, number)).unwrap_or(&0);
                    table += &format!(" {count:>8}");
                }
            }
            table += "\n";
        }
        table += "\nevent (number of accepted cases)\n";
        for (name, count) in &self.events {
            table += &format!("{name:<44} {count:>6}\n");
        }
        table += "\nnumbers that applied together to the first bad record\n";
        for (numbers, count) in &self.together {
            table += &format!("{:<44} {count:>6}\n", format!("{numbers:?}"));
        }
        table
    }

    /// Numbers that never occurred although the call can answer them.
    pub fn missing(&self) -> Vec<String> {
        let mut missing = vec![];
        for (edition, n) in Edition::ALL
            .into_iter()
            .flat_map(|e| numbers().map(move |n| (e, n)))
        {
            let by_press = ![10, 15, 16].contains(&n);
            if by_press && !self.press.contains_key(&(edition, n)) {
                missing.push(format!("press {} {n}", edition.word()));
            }
            if n != 5 && !self.replay.contains_key(&(edition, n)) {
                missing.push(format!("replay {} {n}", edition.word()));
            }
        }
        missing
    }
}

/// Every number of a refusal, in the order in which they are tried.
fn numbers() -> impl Iterator<Item = u32> {
    (1..=5).chain(TRIED).chain([16])
}

/// What an accepted press was given.
fn size_events(edition: Edition, sheet: &[u8], rules: &[u8], room: usize) -> Vec<Event> {
    let records = sheet.len() / edition.record_bytes();
    let lines = rules.len() / edition.line_bytes();
    vec![
        (
            "press: most records accepted",
            records == edition.press_records(),
        ),
        (
            "press: room exactly as needed",
            room == edition.room(records),
        ),
        ("press: most rule lines", lines == edition.table_lines()),
        (
            "press: an unused line holds v both ways",
            rules
                .chunks_exact(edition.line_bytes())
                .any(|line| Clause::read(line).holds_both_ways()),
        ),
    ]
}

/// What a watched replay showed.
#[derive(Default)]
struct Seen {
    peak: usize,
    dropped: bool,
    reused: bool,
}

impl Seen {
    fn note(&mut self, tally: &Tally, row: &[Slot]) {
        self.peak = tally.peak;
        self.dropped |= tally.held < tally.next;
        let mut row = row.iter().enumerate();
        self.reused |= row.any(|(at, slot)| slot.used && slot.node > at);
    }
}

/// All numbers that apply to the record a press stopped at.
fn press_faults_at(edition: Edition, sheet: &[u8], rules: &[u8], record: usize) -> BTreeSet<u32> {
    let mut earlier = BTreeMap::new();
    let mut records = sheet.chunks_exact(edition.record_bytes());
    for (number, bytes) in records.by_ref().take(record).enumerate() {
        if let Some(Record::Node(node)) = Record::read(bytes) {
            earlier.insert(number, node);
        }
    }
    let bad = records.next().expect("the bad record");
    record_faults(edition, &earlier, bad, rules)
}

/// All numbers that apply to the record a replay stopped at.
fn replay_faults_at(
    edition: Edition,
    sheet: &[u8],
    rules: &[u8],
    slots: usize,
    record: usize,
) -> BTreeSet<u32> {
    let mut row = vec![Slot::default(); slots];
    let mut tally = Tally::default();
    let mut records = sheet.chunks_exact(edition.record_bytes());
    for bytes in records.by_ref().take(record) {
        step(edition, &mut tally, &mut row, bytes, rules).expect("earlier records are good");
    }
    let bad = records.next().expect("the bad record");
    step_faults(edition, &tally, &row, bad, rules)
}
