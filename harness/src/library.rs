//! The proved library's two functions, as include/tempuquile.h declares them.

use reference::plan::Plan;

pub mod c {
    use super::Slot;

    extern "C" {
        pub fn tempuquile_press(
            edition: u32,
            recycling: u32,
            lowering: u32,
            sheet: *const u8,
            sheet_len: usize,
            rules: *const u8,
            rules_len: usize,
            out: *mut u8,
            out_len: usize,
            marks: *mut u8,
            marks_len: usize,
            report: *mut u64,
            report_len: usize,
        ) -> u32;
        pub fn tempuquile_replay(
            edition: u32,
            sheet: *const u8,
            sheet_len: usize,
            rules: *const u8,
            rules_len: usize,
            slots: *mut Slot,
            slots_len: usize,
            report: *mut u64,
            report_len: usize,
        ) -> u32;
    }
}

/// `tempuquile_slot`. Any bytes are one. A set is two words, the variables under
/// 64 in the first; a narrow clause has zero in the second.
#[derive(Clone, Copy, Debug, Default, PartialEq, Eq)]
#[repr(C)]
pub struct Slot {
    pub used: u32,
    pub node: u32,
    pub positive: [u64; 2],
    pub negative: [u64; 2],
}

/// The words of a report: of a press, of a replay.
pub const PRESS_WORDS: usize = 11;
pub const REPLAY_WORDS: usize = 8;

/// `TEMPUQUILE_NO_EDITION`: the answer to a number that names no edition.
pub const NO_EDITION: u32 = 255;

/// `TEMPUQUILE_NO_RECYCLING`: the answer to a number that names no recycling.
pub const NO_RECYCLING: u32 = 254;

/// `TEMPUQUILE_NO_LOWERING`: the answer to a number that names no lowering.
pub const NO_LOWERING: u32 = 253;

/// The numbers of a plan.
pub fn numbers(plan: Plan) -> [u32; 3] {
    let Plan {
        edition,
        recycling,
        lowering,
    } = plan;
    [edition.number(), recycling.number(), lowering.number()].map(u32::from)
}

/// Edition, recycling and lowering are numbers here, so that some that name none
/// can be tried.
pub fn press(
    [edition, recycling, lowering]: [u32; 3],
    sheet: &[u8],
    rules: &[u8],
    out: &mut [u8],
    marks: &mut [u8],
    report: &mut [u64],
) -> u32 {
    unsafe {
        c::tempuquile_press(
            edition,
            recycling,
            lowering,
            sheet.as_ptr(),
            sheet.len(),
            rules.as_ptr(),
            rules.len(),
            out.as_mut_ptr(),
            out.len(),
            marks.as_mut_ptr(),
            marks.len(),
            report.as_mut_ptr(),
            report.len(),
        )
    }
}

pub fn replay(
    edition: u32,
    sheet: &[u8],
    rules: &[u8],
    slots: &mut [Slot],
    report: &mut [u64],
) -> u32 {
    unsafe {
        c::tempuquile_replay(
            edition,
            sheet.as_ptr(),
            sheet.len(),
            rules.as_ptr(),
            rules.len(),
            slots.as_mut_ptr(),
            slots.len(),
            report.as_mut_ptr(),
            report.len(),
        )
    }
}
