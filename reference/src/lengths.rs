//! The checks that look only at lengths.

use crate::edition::Edition;
use crate::refusal::Refusal;

/// "Checks 1 to 5 come first, in number order": here 1 to 4, which the press
/// and the replay share but for the number of records allowed.
pub fn check_inputs(
    edition: Edition,
    sheet: usize,
    rules: usize,
    most_records: usize,
) -> Result<(), Refusal> {
    let (record, line) = (edition.record_bytes(), edition.line_bytes());
    if !sheet.is_multiple_of(record) {
        return Err(Refusal::of_call(1));
    }
    if sheet == 0 {
        return Err(Refusal::of_call(2));
    }
    if sheet / record > most_records {
        return Err(Refusal::of_call(3));
    }
    if !rules.is_multiple_of(line) || rules / line > edition.table_lines() {
        return Err(Refusal::of_call(4));
    }
    Ok(())
}

/// "room for output under 48N-24 bytes (N input records), marks shorter than
/// the number of rule lines". This press asks for no scratch memory.
pub fn check_room(
    edition: Edition,
    sheet: usize,
    rules: usize,
    room: usize,
    marks: usize,
) -> Result<(), Refusal> {
    let needed = edition.room(sheet / edition.record_bytes());
    if room < needed || marks < rules / edition.line_bytes() {
        return Err(Refusal::of_call(5));
    }
    Ok(())
}
