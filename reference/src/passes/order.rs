use crate::passes::bottom_up::bottom_up;
use crate::passes::drops::{peak, with_drops};
use crate::passes::top_down::top_down;
use crate::proof::Proof;
use crate::record::Record;

/// Which of the two orders is emitted.
#[derive(Clone, Copy, Debug, PartialEq, Eq, PartialOrd, Ord)]
pub enum Order {
    BottomUp,
    TopDown,
}

use Order::{BottomUp, TopDown};

impl Order {
    pub const ALL: [Order; 2] = [BottomUp, TopDown];

    /// The number that names it for C.
    pub fn number(self) -> u8 {
        match self {
            BottomUp => 0,
            TopDown => 1,
        }
    }

    pub fn word(self) -> &'static str {
        match self {
            BottomUp => "bottom-up",
            TopDown => "top-down",
        }
    }
}

/// Both orders of a proof, and the records of the one that is emitted.
pub struct Ordered {
    pub bottom_up: Vec<usize>,
    pub top_down: Vec<usize>,
    pub emitted: Order,
    pub records: Vec<Record>,
}

/// Steps 5 and 6. Document 02 (xiii): "Work out both orders and emit the one with
/// the smaller peak; equal: the old one."
pub fn ordered(pressed: &Proof) -> Ordered {
    let (bottom_up, top_down) = (bottom_up(pressed), top_down(pressed));
    let [old, new] = [&bottom_up, &top_down].map(|order| with_drops(pressed, order));
    let (emitted, records) = match peak(&new) < peak(&old) {
        true => (TopDown, new),
        false => (BottomUp, old),
    };
    Ordered {
        bottom_up,
        top_down,
        emitted,
        records,
    }
}

#[cfg(test)]
mod tests {
    use super::*;

    #[test]
    fn an_order_is_named_by_its_number_and_its_word() {
        for (number, of) in Order::ALL.into_iter().enumerate() {
            assert_eq!(usize::from(of.number()), number);
        }
        assert_eq!(Order::ALL.map(Order::word), ["bottom-up", "top-down"]);
    }
}
