//! "Sheets to try", in the words of document 01.

use super::{dropped, given, step, Worked};

pub fn lone() -> Worked {
    Worked::new("lone", &["+0"], &[given(0, "+0")])
}

pub fn pair() -> Worked {
    let records = [given(0, "+0"), given(1, "-0"), step(0, 0, 1, "")];
    Worked::new("pair", &["+0", "-0"], &records)
}

pub fn irregular() -> Worked {
    let rules = ["+0 +1", "-0 +2", "+0 -1", "-0", "-2"];
    let records = [
        given(0, "+0 +1"),
        given(1, "-0 +2"),
        step(0, 0, 1, "+1 +2"),
        given(2, "+0 -1"),
        step(1, 2, 3, "+0 +2"),
        given(3, "-0"),
        step(0, 4, 5, "+2"),
        given(4, "-2"),
        step(2, 6, 7, ""),
    ];
    Worked::new("irregular", &rules, &records)
}

/// "The case *twice* becomes 17 at record 0."
pub fn twice() -> Worked {
    let records = [given(0, "+0 -0"), step(0, 0, 0, "+0 -0")];
    Worked::new("twice", &["+0 -0"], &records)
}

/// "pair with an unused given record before the step".
pub fn idle() -> Worked {
    let records = [
        given(0, "+0"),
        given(1, "-0"),
        given(0, "+0"),
        step(0, 0, 1, ""),
    ];
    Worked::new("idle", &["+0", "-0"], &records)
}

pub fn early_drop() -> Worked {
    let records = [
        given(0, "+0"),
        given(1, "-0"),
        dropped(0),
        step(0, 0, 1, ""),
    ];
    Worked::new("early_drop", &["+0", "-0"], &records)
}

pub fn gone() -> Worked {
    Worked::new("gone", &["+0"], &[given(0, "+0"), dropped(0)])
}

/// "pair on variable 63".
pub fn pivot() -> Worked {
    pair_on_63("pivot", 63)
}

/// "pivot byte 64 is 8 at record 2".
pub fn pivot_64() -> Worked {
    pair_on_63("pivot64", 64)
}

fn pair_on_63(name: &'static str, pivot: u8) -> Worked {
    let records = [given(0, "+63"), given(1, "-63"), step(pivot, 0, 1, "")];
    Worked::new(name, &["+63", "-63"], &records)
}

/// "record 2 naming parent 2".
pub fn forward() -> Worked {
    let records = [given(0, "+0"), given(1, "-0"), step(0, 2, 1, "")];
    Worked::new("forward", &["+0", "-0"], &records)
}

/// Those that the press takes, and that are short.
pub fn pressable() -> [Worked; 5] {
    [lone(), pair(), irregular(), idle(), pivot()]
}
