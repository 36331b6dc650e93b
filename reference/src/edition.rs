//! The editions of a sheet, and every number that differs between them.
//!
//! "Add an edition with 40-byte records (sets of 16 bytes at 8 and 24) and
//! 32-byte rule lines, pivots up to 127, at 512 input records and 1,023 for its
//! replay; the press needs 80N-40 bytes of room."

/// "The caller names the edition; bytes never decide it."
#[derive(Clone, Copy, Debug, PartialEq, Eq, PartialOrd, Ord)]
pub enum Edition {
    Narrow,
    Wide,
}

use Edition::{Narrow, Wide};

/// Where the sets of a record begin, in both editions.
pub const SETS: usize = 8;

impl Edition {
    pub const ALL: [Edition; 2] = [Narrow, Wide];

    /// The number that names it in a stream of cases and for C.
    pub fn number(self) -> u8 {
        match self {
            Narrow => 0,
            Wide => 1,
        }
    }

    pub fn word(self) -> &'static str {
        match self {
            Narrow => "narrow",
            Wide => "wide",
        }
    }

    pub fn of_word(word: &str) -> Option<Edition> {
        Edition::ALL.into_iter().find(|of| of.word() == word)
    }

    pub fn other(self) -> Edition {
        match self {
            Narrow => Wide,
            Wide => Narrow,
        }
    }

    /// The variables are 0 to one less.
    pub fn variables(self) -> u8 {
        match self {
            Narrow => 64,
            Wide => 128,
        }
    }

    /// The most records that the press takes.
    pub fn press_records(self) -> usize {
        match self {
            Narrow => 1024,
            Wide => 512,
        }
    }

    /// The most records that the replay takes.
    pub fn replay_records(self) -> usize {
        match self {
            Narrow => 2047,
            Wide => 1023,
        }
    }

    /// The most lines of a rule table.
    pub fn table_lines(self) -> usize {
        1024
    }

    pub fn set_bytes(self) -> usize {
        usize::from(self.variables()) / 8
    }

    pub fn line_bytes(self) -> usize {
        2 * self.set_bytes()
    }

    pub fn record_bytes(self) -> usize {
        SETS + self.line_bytes()
    }

    /// "48N-24 bytes", "80N-40 bytes": a record for each node and a drop for
    /// each but the sink.
    pub fn room(self, records: usize) -> usize {
        self.record_bytes() * (2 * records - 1)
    }
}

#[cfg(test)]
mod tests {
    use super::*;

    /// Document 01's numbers, and those of document 02 (x).
    #[test]
    fn the_numbers_of_the_documents() {
        let numbers = |of: Edition| {
            let sets = [SETS, SETS + of.set_bytes()];
            (of.record_bytes(), sets, of.line_bytes(), of.variables() - 1)
        };
        assert_eq!(numbers(Narrow), (24, [8, 16], 16, 63));
        assert_eq!(numbers(Wide), (40, [8, 24], 32, 127));
        for n in [1, 3, 512] {
            assert_eq!(Narrow.room(n), 48 * n - 24);
            assert_eq!(Wide.room(n), 80 * n - 40);
        }
        let most = |of: Edition| (of.press_records(), of.replay_records(), of.table_lines());
        assert_eq!(most(Narrow), (1024, 2047, 1024));
        assert_eq!(most(Wide), (512, 1023, 1024));
    }

    #[test]
    fn an_edition_is_named_by_its_number_and_its_word() {
        for (number, of) in Edition::ALL.into_iter().enumerate() {
            assert_eq!(usize::from(of.number()), number);
            assert_eq!(Edition::of_word(of.word()), Some(of));
            assert_eq!(of.other().other(), of);
        }
        assert_eq!(Edition::of_word("broad"), None);
    }
}
