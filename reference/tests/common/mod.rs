//! Calls with memory that shows what was touched. What does not name an edition
//! is of the narrow one, what does not name a recycling is of both, and what does
//! not name a lowering is of none.
#![allow(dead_code, unused_imports)] // each test file uses its own part of this module

use reference::cases::draft::Draft;
use reference::clause::Clause;
pub use reference::edition::Edition::{self, Narrow, Wide};
pub use reference::passes::lower::Lowered;
pub use reference::passes::lower::Return::{self, NewStep, Stays};
pub use reference::plan::Lowering::{self, Nothing, Units, Univalents};
pub use reference::plan::Plan;
pub use reference::plan::Recycling::{self, Intersection, Reset};
use reference::press::{press, read_proof, run_passes, Passes, Pressed};
use reference::record::Record;
use reference::refusal::Refusal;
use reference::replay::{replay_watched, Replayed, Slot, Tally};
use reference::rng::Rng;
pub use reference::sheets::starred::*;
pub use reference::sheets::telling::*;
pub use reference::sheets::*;

pub fn sheet(records: &[Record]) -> Vec<u8> {
    reference::sheets::sheet(Narrow, records)
}

pub fn rules(lines: &[&str]) -> Vec<u8> {
    reference::sheets::rules(Narrow, lines)
}

pub fn passes_by(recycling: Recycling, worked: &Worked) -> Passes {
    passes_lowering(recycling, Nothing, worked)
}

pub fn passes_lowering(recycling: Recycling, lowering: Lowering, worked: &Worked) -> Passes {
    let proof = read_proof(worked.edition, &worked.sheet(), &worked.table());
    run_passes(worked.plan(recycling, lowering), proof.unwrap())
}

pub fn lowered(passes: &Passes) -> &Lowered {
    passes.lowered.as_ref().expect("something may be lowered")
}

/// What is lowered, in the order of its return, and what became of it.
pub fn low(passes: &Passes) -> Vec<(usize, Clause, Return)> {
    let Lowered { low, returns, .. } = lowered(passes);
    let told = low.iter().zip(returns);
    told.map(|(low, &back)| (low.node, Clause::from_iter([low.literal]), back))
        .collect()
}

pub fn low_one(node: usize, literal: &str, back: Return) -> (usize, Clause, Return) {
    (node, clause(literal), back)
}

/// The stand-ins of some nodes once the lowered ones are cut away.
pub fn stand_ins<const N: usize>(passes: &Passes, nodes: [usize; N]) -> [usize; N] {
    nodes.map(|node| lowered(passes).rebuilt.stand_ins[&node])
}

/// The steps that are left with each of these lowered.
pub fn steps_lowering<const N: usize>(
    recycling: Recycling,
    lowerings: [Lowering; N],
    worked: &Worked,
) -> [usize; N] {
    lowerings.map(|of| passes_lowering(recycling, of, worked).pressed.steps())
}

/// The presses of random proofs of a shape, as far as they are good: now and then a
/// rule line holds a variable both ways, which is 17.
pub fn random_passes(
    seed: u64,
    count: u64,
    recycling: Recycling,
    lowering: Lowering,
    shape: fn(&mut Rng, Edition, usize) -> Draft,
) -> impl Iterator<Item = Passes> {
    (0..count).filter_map(move |index| {
        let mut rng = Rng::new(seed, index);
        let edition = rng.pick(&Edition::ALL);
        let size = rng.between(2, 60);
        let draft = shape(&mut rng, edition, size);
        let proof = read_proof(edition, &draft.sheet(edition), &draft.rule_table(edition));
        let plan = Plan {
            edition,
            recycling,
            lowering,
        };
        Some(run_passes(plan, proof.ok()?))
    })
}

/// What lent memory holds before a call.
pub const OLD: u8 = 0xA5;

#[derive(Debug, PartialEq, Eq)]
pub struct Done {
    pub pressed: Pressed,
    pub out: Vec<u8>,
    pub core: Vec<usize>,
}

pub fn press_ok(sheet: &[u8], rules: &[u8]) -> Done {
    press_ok_in(Narrow, sheet, rules)
}

/// An accepted press that both recyclings make alike.
pub fn press_ok_in(edition: Edition, sheet: &[u8], rules: &[u8]) -> Done {
    let by = |recycling| {
        let plan = Plan {
            edition,
            recycling,
            lowering: Nothing,
        };
        press_ok_by(plan, sheet, rules)
    };
    let [reset, intersection] = Recycling::ALL.map(by);
    assert_eq!(reset, intersection);
    intersection
}

pub fn press_worked(recycling: Recycling, worked: &Worked) -> Done {
    press_lowering(recycling, Nothing, worked)
}

pub fn press_lowering(recycling: Recycling, lowering: Lowering, worked: &Worked) -> Done {
    let plan = worked.plan(recycling, lowering);
    press_ok_by(plan, &worked.sheet(), &worked.table())
}

/// An accepted press. Checks on the way that marks are 0 or 1 and that output
/// and marks beyond are untouched.
pub fn press_ok_by(plan: Plan, sheet: &[u8], rules: &[u8]) -> Done {
    let edition = plan.edition;
    let record = edition.record_bytes();
    let lines = rules.len() / edition.line_bytes();
    let mut out = vec![OLD; edition.room(sheet.len() / record) + 7];
    let mut marks = vec![OLD; lines + 7];
    let pressed = press(plan, sheet, rules, &mut out, &mut marks).unwrap();
    let (out, beyond_out) = out.split_at(pressed.records * record);
    let (marks, beyond_marks) = marks.split_at(lines);
    assert!(beyond_out.iter().chain(beyond_marks).all(|&b| b == OLD));
    assert!(marks.iter().all(|&mark| mark <= 1));
    let core: Vec<usize> = (0..lines).filter(|&line| marks[line] == 1).collect();
    assert_eq!(core.len(), pressed.marked);
    Done {
        pressed,
        out: out.to_vec(),
        core,
    }
}

/// A refused press with ample room. Checks on the way that nothing is touched.
pub fn press_refused(sheet: &[u8], rules: &[u8]) -> (u32, usize) {
    press_refused_in(Narrow, sheet, rules, None)
}

pub fn press_refused_with(sheet: &[u8], rules: &[u8], room: usize, marks: usize) -> (u32, usize) {
    press_refused_in(Narrow, sheet, rules, Some((room, marks)))
}

/// With this room and these marks, or with ample ones. Every choice of passes
/// answers alike.
pub fn press_refused_in(
    edition: Edition,
    sheet: &[u8],
    rules: &[u8],
    lent: Option<(usize, usize)>,
) -> (u32, usize) {
    let (room, marks) = lent.unwrap_or((2 * sheet.len() + 48, 2000));
    let by = |plan: &Plan| {
        let (mut out, mut marks) = (vec![OLD; room], vec![OLD; marks]);
        let refusal = press(*plan, sheet, rules, &mut out, &mut marks).unwrap_err();
        assert!(out.iter().chain(&marks).all(|&byte| byte == OLD));
        (refusal.number, refusal.record)
    };
    let refused: Vec<_> = Plan::all(edition).iter().map(by).collect();
    assert!(refused.iter().all(|other| *other == refused[0]));
    refused[0]
}

/// A slot as no call may leave it.
pub const OLD_SLOT: Slot = Slot {
    used: true,
    node: 0,
    positive: u128::MAX,
    negative: 1,
};

pub type Trace = Vec<(Tally, Vec<Slot>)>;

/// A replay from slots full of old content, with all it showed on the way.
/// Checks what the slots hold at the end.
pub fn replay_traced(
    sheet: &[u8],
    rules: &[u8],
    slots: usize,
) -> (Result<Replayed, (u32, usize)>, Trace) {
    replay_traced_in(Narrow, sheet, rules, slots)
}

pub fn replay_traced_in(
    edition: Edition,
    sheet: &[u8],
    rules: &[u8],
    slots: usize,
) -> (Result<Replayed, (u32, usize)>, Trace) {
    let mut row = vec![OLD_SLOT; slots];
    let mut trace = vec![];
    let answer = replay_watched(edition, sheet, rules, &mut row, |tally, row| {
        trace.push((*tally, row.to_vec()));
    });
    let end = match answer {
        Err(Refusal { number: 1..=4, .. }) => OLD_SLOT,
        _ => Slot::default(),
    };
    assert!(row.iter().all(|slot| *slot == end));
    let answer = answer.map_err(|refusal| (refusal.number, refusal.record));
    (answer, trace)
}

pub fn replay_answer(sheet: &[u8], rules: &[u8], slots: usize) -> Result<Replayed, (u32, usize)> {
    replay_traced(sheet, rules, slots).0
}

pub fn tally(next: usize, held: usize, peak: usize, steps: usize) -> Tally {
    Tally {
        next,
        held,
        peak,
        steps,
    }
}

pub const FREE: Slot = Slot {
    used: false,
    node: 0,
    positive: 0,
    negative: 0,
};

pub fn slot(node: usize, text: &str) -> Slot {
    let clause = clause(text);
    Slot {
        used: true,
        node,
        positive: clause.positive(),
        negative: clause.negative(),
    }
}
