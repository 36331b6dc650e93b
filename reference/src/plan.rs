//! What a press is told beside its bytes: the edition, and the passes chosen.

use crate::edition::Edition;

/// How recycling makes a node's S where several edges lead to the node. Document
/// 02 (vii): "Keep the old pass selectable".
#[derive(Clone, Copy, Debug, PartialEq, Eq, PartialOrd, Ord)]
pub enum Recycling {
    Reset,
    Intersection,
}

use Recycling::{Intersection, Reset};

impl Recycling {
    pub const ALL: [Recycling; 2] = [Reset, Intersection];

    /// The number that names it in a stream of cases and for C.
    pub fn number(self) -> u8 {
        match self {
            Reset => 0,
            Intersection => 1,
        }
    }

    pub fn word(self) -> &'static str {
        match self {
            Reset => "reset",
            Intersection => "intersection",
        }
    }

    pub fn of_word(word: &str) -> Option<Recycling> {
        Recycling::ALL.into_iter().find(|of| of.word() == word)
    }
}

/// What is lowered after step 4. Document 02 (i): "as an option"; and (xi): "as an
/// alternative to (i)".
#[derive(Clone, Copy, Debug, PartialEq, Eq, PartialOrd, Ord)]
pub enum Lowering {
    Nothing,
    Units,
    Univalents,
}

use Lowering::{Nothing, Units, Univalents};

impl Lowering {
    pub const ALL: [Lowering; 3] = [Nothing, Units, Univalents];

    /// The number that names it in a stream of cases and for C.
    pub fn number(self) -> u8 {
        match self {
            Nothing => 0,
            Units => 1,
            Univalents => 2,
        }
    }

    pub fn word(self) -> &'static str {
        match self {
            Nothing => "nothing",
            Units => "units",
            Univalents => "univalents",
        }
    }

    pub fn of_word(word: &str) -> Option<Lowering> {
        Lowering::ALL.into_iter().find(|of| of.word() == word)
    }
}

#[derive(Clone, Copy, Debug, PartialEq, Eq)]
pub struct Plan {
    pub edition: Edition,
    pub recycling: Recycling,
    pub lowering: Lowering,
}

impl Plan {
    /// "The program and the text reader stay with 64 variables"; of the two
    /// recyclings "the program takes the new one"; of lowering, "The program goes
    /// on without it."
    pub const PROGRAM: Plan = Plan {
        edition: Edition::Narrow,
        recycling: Intersection,
        lowering: Nothing,
    };

    /// The program's passes, in this edition.
    pub fn program_in(edition: Edition) -> Plan {
        Plan {
            edition,
            ..Plan::PROGRAM
        }
    }

    /// Every choice of passes, in this edition.
    pub fn all(edition: Edition) -> Vec<Plan> {
        let by = |recycling| {
            Lowering::ALL.map(|lowering| Plan {
                edition,
                recycling,
                lowering,
            })
        };
        Recycling::ALL.map(by).concat()
    }
}

#[cfg(test)]
mod tests {
    use super::*;

    #[test]
    fn a_recycling_is_named_by_its_number_and_its_word() {
        for (number, of) in Recycling::ALL.into_iter().enumerate() {
            assert_eq!(usize::from(of.number()), number);
            assert_eq!(Recycling::of_word(of.word()), Some(of));
        }
        assert_eq!(Recycling::of_word("union"), None);
    }

    #[test]
    fn a_lowering_is_named_by_its_number_and_its_word() {
        for (number, of) in Lowering::ALL.into_iter().enumerate() {
            assert_eq!(usize::from(of.number()), number);
            assert_eq!(Lowering::of_word(of.word()), Some(of));
        }
        assert_eq!(Lowering::of_word("everything"), None);
    }
}
