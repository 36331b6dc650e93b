//! "a refusal carries its reason and its record number."

use std::fmt;

/// The reason is kept as the number that the table of document 01 gives it.
#[derive(Clone, Copy, Debug, PartialEq, Eq)]
pub struct Refusal {
    pub number: u32,
    pub record: usize,
}

impl Refusal {
    /// "Checks 1 to 5 come first, in number order, and report record 0."
    pub fn of_call(number: u32) -> Refusal {
        Refusal { number, record: 0 }
    }
}

/// "Refusals print `refused 9 at 2`; for 1 to 5 `refused 3`."
impl fmt::Display for Refusal {
    fn fmt(&self, f: &mut fmt::Formatter) -> fmt::Result {
        match self.number {
            1..=5 => write!(f, "refused {}", self.number),
            _ => write!(f, "refused {} at {}", self.number, self.record),
        }
    }
}
