//! Cases of a table: a worked sheet, and what this program makes of it.

use super::terms::{bytes_term, edition, list, lowering, order, recycling, set};
use crate::edition::Edition;
use crate::plan::{Lowering, Recycling};
use crate::press::{press, Pressed};
use crate::record::Record;
use crate::refusal::Refusal;
use crate::replay::{replay, Slot};
use crate::sheets::{sheet, Worked};

const OLD: u8 = 170;

/// The passes that a case is of: either recycling, which is the table's
/// parameter, and nothing lowered; or a recycling and a lowering by name.
#[derive(Clone, Copy)]
pub(super) enum How {
    Either,
    By(Recycling, Lowering),
}

use How::{By, Either};

impl How {
    /// What this program makes of it, which is the same for each of them.
    fn made<T: PartialEq>(self, make: impl Fn(Recycling, Lowering) -> T) -> T {
        let (recyclings, lowering) = match self {
            Either => (Recycling::ALL.to_vec(), Lowering::Nothing),
            By(recycling, lowering) => (vec![recycling], lowering),
        };
        let mut made = recyclings.into_iter().map(|of| make(of, lowering));
        let first = made.next().expect("there is a recycling");
        assert!(made.all(|other| other == first), "the recyclings part here");
        first
    }

    fn plan(self, worked: &Worked) -> String {
        let passes = match self {
            Either => "how None".to_string(),
            By(of, lowered) => format!("{} {}", recycling(of), lowering(lowered)),
        };
        format!("(plan {} {passes})", edition(worked.edition))
    }

    /// The name of what the press writes of a sheet. What comes out by the univalents
    /// as by the units has one name.
    pub(super) fn pressed_name(self, worked: &Worked) -> String {
        if let By(recycling, Lowering::Univalents) = self {
            let by_units = By(recycling, Lowering::Units);
            if by_units.pressed(worked) == self.pressed(worked) {
                return by_units.pressed_name(worked);
            }
        }
        let passes = match self {
            Either => "_pressed",
            By(Recycling::Reset, Lowering::Nothing) => "_reset",
            By(Recycling::Intersection, Lowering::Nothing) => "_intersected",
            By(Recycling::Reset, Lowering::Units) => "_reset_lowered",
            By(Recycling::Intersection, Lowering::Units) => "_lowered",
            By(Recycling::Reset, Lowering::Univalents) => "_reset_univalents",
            By(Recycling::Intersection, Lowering::Univalents) => "_univalents",
        };
        format!("{}{passes}", worked.name)
    }

    pub(super) fn pressed(self, worked: &Worked) -> Option<Vec<Record>> {
        self.made(|recycling, lowering| worked.pressed(recycling, lowering))
    }
}

/// What the press says with this room and these marks, and the marks then.
fn pressing(
    how: How,
    worked: &Worked,
    room: usize,
    marks: usize,
) -> (Result<Pressed, Refusal>, Vec<u8>) {
    let (sheet, rules) = worked.bytes();
    how.made(|recycling, lowering| {
        let (mut out, mut marks) = (vec![OLD; room], vec![OLD; marks]);
        let plan = worked.plan(recycling, lowering);
        let answer = press(plan, &sheet, &rules, &mut out, &mut marks);
        (answer, marks)
    })
}

/// With as much room and marks as it needs.
fn pressing_in_room(how: How, worked: &Worked) -> (Result<Pressed, Refusal>, Vec<u8>) {
    let room = worked.edition.room(worked.records.len());
    pressing(how, worked, room, worked.rules.len())
}

fn said(positive: u128, negative: u128, counts: &[usize]) -> Vec<String> {
    let counts = counts.iter().map(usize::to_string);
    [set(positive), set(negative)]
        .into_iter()
        .chain(counts)
        .collect()
}

pub(super) fn accepts(how: How, worked: &Worked) -> String {
    let (name, plan) = (worked.name, how.plan(worked));
    let (answer, marks) = pressing_in_room(how, worked);
    let p = answer.expect("the press takes it");
    let counts = [p.records, p.nodes, p.steps, p.peak, p.marked];
    let said = list(&said(p.positive, p.negative, &counts));
    let (order, bytes) = (order(p.order), pressed_term(how, worked));
    let marks = list(&marks);
    format!("accepts {plan} {name}_rules {name} ({said}) {order} {bytes} ({marks})")
}

/// What the press writes. That of *pair* stands as bytes, the others as records.
fn pressed_term(how: How, worked: &Worked) -> String {
    let (name, of) = (how.pressed_name(worked), edition(worked.edition));
    match worked.name {
        "pair" => name,
        _ => format!("(sheet_bytes {of} {name})"),
    }
}

pub(super) fn refuses(worked: &Worked, rules: &str) -> String {
    let refused = pressing_in_room(Either, worked).0;
    let why = refused.expect_err("the press refuses it");
    let (name, plan) = (worked.name, Either.plan(worked));
    format!(
        "refuses {plan} {rules} {name} {} {}",
        why.number, why.record
    )
}

/// A press that is refused, with this room and these marks.
pub(super) fn presses(worked: &Worked, rules: &str, room: usize, marks: usize) -> String {
    let refused = pressing(Either, worked, room, marks).0;
    let why = refused.expect_err("the press refuses it");
    let said = list(&[why.number as usize, why.record]);
    let (bytes, of) = (bytes_term(worked), edition(worked.edition));
    let plan = Either.plan(worked);
    let inputs = format!("{bytes} (rule_table {of} {rules})");
    format!("presses {plan} {inputs} {room} {marks} ({said}) (junk {room}) (junk {marks})")
}

pub(super) fn replays(worked: &Worked, rules: &str, slots: usize) -> String {
    let said = replayed(worked.edition, &worked.bytes(), slots);
    let (bytes, of) = (bytes_term(worked), edition(worked.edition));
    format!("replayed {of} {bytes} {rules} {slots} ({said})")
}

pub(super) fn replays_pressed(worked: &Worked, slots: usize) -> String {
    let of = worked.edition;
    let out = sheet(of, &Either.pressed(worked).expect("the press takes it"));
    let said = replayed(of, &(out, worked.table()), slots);
    let (name, bytes) = (worked.name, pressed_term(Either, worked));
    format!(
        "replayed {} {bytes} {name}_rules {slots} ({said})",
        edition(of)
    )
}

/// A replay of the same bytes by the name of the other edition.
pub(super) fn replays_other(worked: &Worked, slots: usize) -> String {
    let said = replayed(worked.edition.other(), &worked.bytes(), slots);
    let (own, other) = (edition(worked.edition), edition(worked.edition.other()));
    let table = format!("(rule_table {own} {}_rules)", worked.name);
    let bytes = bytes_term(worked);
    format!("replays {other} {bytes} {table} {slots} ({said}) (clean {slots})")
}

fn replayed(of: Edition, (sheet, rules): &(Vec<u8>, Vec<u8>), slots: usize) -> String {
    match replay(of, sheet, rules, &mut vec![Slot::default(); slots]) {
        Ok(r) => list(&said(r.positive, r.negative, &[r.nodes, r.steps, r.peak])),
        Err(why) => list(&[why.number as usize, why.record]),
    }
}
