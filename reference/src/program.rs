//! The small program: "reads `rules.bin` and `sheet.bin`, presses, writes
//! `pressed.bin` if accepted (else leaves that file alone), and prints one
//! line."

use crate::edition::Edition;
use crate::lengths::check_inputs;
use crate::plan::Plan;
use crate::press::{press, Pressed};
use std::fs::{self, File};
use std::io::{self, Read};
use std::path::Path;

const EDITION: Edition = Plan::PROGRAM.edition;

/// A file's whole length, and as much of it as can matter.
struct Contents {
    length: usize,
    start: Vec<u8>,
}

/// The line to print.
pub fn run(dir: &Path) -> String {
    answer(dir).unwrap_or_else(|line| line)
}

/// "If a file can't be read it prints `unreadable` and the name, `rules.bin`
/// tried first. If `pressed.bin` can't be written it prints `unwritable
/// pressed.bin` instead."
fn answer(dir: &Path) -> Result<String, String> {
    let open = |name: &str, most: usize| {
        read(&dir.join(name), most).map_err(|_| format!("unreadable {name}"))
    };
    let rules = open("rules.bin", EDITION.table_lines() * EDITION.line_bytes())?;
    let sheet = open(
        "sheet.bin",
        EDITION.press_records() * EDITION.record_bytes(),
    )?;
    let (pressed, out) = press_contents(&sheet, &rules)?;
    fs::write(dir.join("pressed.bin"), out).map_err(|_| "unwritable pressed.bin".to_string())?;
    Ok(ok_line(&pressed))
}

/// "It judges a file by its whole length, however little of it fits in
/// memory." Lengths that pass are small enough to have been read in full.
fn press_contents(sheet: &Contents, rules: &Contents) -> Result<(Pressed, Vec<u8>), String> {
    let record = EDITION.record_bytes();
    let most = EDITION.press_records();
    check_inputs(EDITION, sheet.length, rules.length, most)
        .map_err(|refusal| refusal.to_string())?;
    let mut out = vec![0; EDITION.room(sheet.length / record)];
    let mut marks = vec![0; rules.length / EDITION.line_bytes()];
    let (sheet, rules) = (&sheet.start, &rules.start);
    let pressed = press(Plan::PROGRAM, sheet, rules, &mut out, &mut marks)
        .map_err(|refusal| refusal.to_string())?;
    out.truncate(pressed.records * record);
    Ok((pressed, out))
}

fn read(path: &Path, most: usize) -> io::Result<Contents> {
    let mut file = File::open(path)?;
    let mut start = vec![];
    file.by_ref().take(most as u64).read_to_end(&mut start)?;
    let rest = io::copy(&mut file, &mut io::sink())?;
    let length = start.len() + rest as usize;
    Ok(Contents { length, start })
}

/// "The program prints `ok records 5 nodes 3 steps 1 peak 3 core 2`."
fn ok_line(pressed: &Pressed) -> String {
    format!(
        "ok records {} nodes {} steps {} peak {} core {}",
        pressed.records, pressed.nodes, pressed.steps, pressed.peak, pressed.marked
    )
}
