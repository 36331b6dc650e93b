//! Random cases by seed.

pub mod backward;
pub mod damage;
pub mod dense;
pub mod draft;
pub mod drop_damage;
pub mod facts;
pub mod forward;
pub mod hanging;
pub mod press_cases;
pub mod replay_cases;
pub mod shapes;
pub mod stages;
pub mod woven;

use crate::edition::Edition;
use crate::plan::Plan;
use crate::rng::Rng;

/// The arguments of one call. `room` and `marks` are lengths in bytes, `slots`
/// is a number of slots.
#[derive(Clone, Debug, PartialEq, Eq)]
pub enum Case {
    Press {
        plan: Plan,
        sheet: Vec<u8>,
        rules: Vec<u8>,
        room: usize,
        marks: usize,
    },
    Replay {
        edition: Edition,
        sheet: Vec<u8>,
        rules: Vec<u8>,
        slots: usize,
    },
}

impl Case {
    pub fn edition(&self) -> Edition {
        match self {
            Case::Press { plan, .. } => plan.edition,
            Case::Replay { edition, .. } => *edition,
        }
    }
}

/// Small cases stay within about 16 records, for a slow evaluator; they can't
/// reach the refusals that need a sheet or a rule table beyond its limit.
#[derive(Clone, Copy, Debug, PartialEq, Eq)]
pub enum Size {
    Small,
    Any,
}

impl Size {
    /// How many nodes the next proof is to have, if `small` is the most for a
    /// small case.
    pub fn nodes(self, rng: &mut Rng, edition: Edition, small: usize) -> usize {
        let most = edition.press_records();
        match (self, rng.below(20)) {
            (_, 0) => 1,
            (_, 1..=2) => rng.between(2, 4),
            (Size::Small, _) => rng.between(small / 2, small),
            (Size::Any, 3) => rng.between(2, 4),
            (Size::Any, 4..=9) => rng.between(4, 16),
            (Size::Any, 10..=16) => rng.between(12, 60),
            (Size::Any, 17..=18) => rng.between(60, most),
            (Size::Any, _) => most,
        }
    }
}

/// The case of this index under this seed. One in three is wide. Now and then a
/// case names the other edition than the one that its bytes were made for.
pub fn draw(seed: u64, index: u64, size: Size) -> Case {
    let mut rng = Rng::new(seed, index);
    let made_for = match rng.below(3) {
        0 => Edition::Wide,
        _ => Edition::Narrow,
    };
    let mut case = draw_with(&mut rng, made_for, size);
    if rng.chance(2) {
        let edition = match &mut case {
            Case::Press { plan, .. } => &mut plan.edition,
            Case::Replay { edition, .. } => edition,
        };
        *edition = made_for.other();
    }
    case
}

/// The case of this index under this seed, of this edition.
pub fn draw_in(edition: Edition, seed: u64, index: u64, size: Size) -> Case {
    draw_with(&mut Rng::new(seed, index), edition, size)
}

fn draw_with(rng: &mut Rng, edition: Edition, size: Size) -> Case {
    if rng.chance(50) {
        press_cases::draw(rng, edition, size)
    } else {
        replay_cases::draw(rng, edition, size)
    }
}
