//! How long the library takes, and how many instructions, beside the second
//! program. Nothing is asserted.

use crate::library::{self, numbers, Slot, PRESS_WORDS, REPLAY_WORDS};
use crate::sheets::{self, Sheet};
use reference::edition::Edition;
use reference::plan::Plan;
use std::hint::black_box;
use std::process::Command;
use std::time::{Duration, Instant};

const TURNS: usize = 21;
const TURN: Duration = Duration::from_millis(4);

#[derive(Clone, Copy, PartialEq, Eq)]
pub enum Side {
    Library,
    Reference,
}

/// A sheet is pressed; or its output is replayed, in as many slots as its peak.
#[derive(Clone, Copy)]
pub enum Job {
    Press,
    Replay,
}

const JOBS: [(Job, &str); 2] = [(Job::Press, "press"), (Job::Replay, "replay")];
const SIDES: [(Side, &str); 2] = [(Side::Library, "library"), (Side::Reference, "reference")];

fn call(side: Side, job: Job, sheet: &Sheet, calls: u64) {
    match job {
        Job::Press => press(side, sheet, calls),
        Job::Replay => replay(side, sheet, calls),
    }
}

fn press(side: Side, sheet: &Sheet, calls: u64) {
    let plan = sheet.plan;
    let mut out = vec![0; plan.edition.room(sheet.records())];
    let mut marks = vec![0; sheet.lines()];
    let mut report = [0; PRESS_WORDS];
    for _ in 0..calls {
        let (bytes, rules) = (black_box(&sheet.sheet), black_box(&sheet.rules));
        match side {
            Side::Library => {
                black_box(library::press(
                    numbers(plan),
                    bytes,
                    rules,
                    &mut out,
                    &mut marks,
                    &mut report,
                ));
            }
            Side::Reference => {
                let answer = reference::press::press(plan, bytes, rules, &mut out, &mut marks);
                black_box(answer).expect("drafts are good");
            }
        }
    }
}

fn replay(side: Side, sheet: &Sheet, calls: u64) {
    let edition = sheet.plan.edition;
    let mut slots = vec![Slot::default(); sheet.pressed.peak];
    let mut their_slots = vec![reference::replay::Slot::default(); sheet.pressed.peak];
    let mut report = [0; REPLAY_WORDS];
    for _ in 0..calls {
        let (bytes, rules) = (black_box(&sheet.out), black_box(&sheet.rules));
        match side {
            Side::Library => {
                let number = edition.number().into();
                black_box(library::replay(
                    number,
                    bytes,
                    rules,
                    &mut slots,
                    &mut report,
                ));
            }
            Side::Reference => {
                let answer = reference::replay::replay(edition, bytes, rules, &mut their_slots);
                black_box(answer).expect("a pressed sheet is good");
            }
        }
    }
}

/// Makes so many calls of one side, for a tool that counts instructions.
pub fn calls(side: &str, job: &str, passes: Plan, name: &str, calls: u64) -> Option<()> {
    let (side, _) = SIDES.into_iter().find(|(_, word)| *word == side)?;
    let (job, _) = JOBS.into_iter().find(|(_, word)| *word == job)?;
    call(side, job, &sheets::named(passes, name)?, calls);
    Some(())
}

/// The tables of both editions by these passes, line by line.
pub fn tables(passes: Plan, print: impl Fn(&str)) {
    for edition in Edition::ALL {
        let [recycling, lowering] = words(passes);
        print(&format!("{}, {recycling}, {lowering}", edition.word()));
        tables_of(Plan { edition, ..passes }, &print);
    }
}

fn words(passes: Plan) -> [&'static str; 2] {
    [passes.recycling.word(), passes.lowering.word()]
}

fn tables_of(plan: Plan, print: impl Fn(&str)) {
    let sheets = sheets::all(plan);
    let growing = sheets::growing(plan);
    print(&heading("ns"));
    for (job, word) in JOBS {
        for sheet in &sheets {
            print(&line(word, sheet, nanoseconds(job, sheet)));
        }
    }
    growth(&print, "ns", &growing, |sheet| {
        nanoseconds(Job::Press, sheet)[0]
    });
    if Command::new("valgrind").arg("--version").output().is_err() {
        return print("no valgrind here, so no instructions are counted");
    }
    print(&heading("instr."));
    for (_, word) in JOBS {
        for sheet in &sheets {
            let counts = SIDES.map(|(_, side)| instructions(side, word, sheet));
            print(&line(word, sheet, counts));
        }
    }
    growth(&print, "instr.", &growing, |sheet| {
        instructions("library", "press", sheet)
    });
}

/// What the library's press of a shape takes at each size: in all, for each
/// record, and how often the size before it, which is half of it.
fn growth(
    print: impl Fn(&str),
    unit: &str,
    growing: &[Vec<Sheet>],
    measure: impl Fn(&Sheet) -> f64,
) {
    print(&format!(
        "{unit:7} {:17} {:>4} {:>14} {:>11} {:>6}",
        "growth", "in", "library", "per record", "times"
    ));
    for shape in growing {
        let mut before = None;
        for sheet in shape {
            let taken = measure(sheet);
            let each = taken / sheet.records() as f64;
            let times = before.map_or(String::new(), |before| format!("{:.2}", taken / before));
            print(&format!(
                "press   {:17} {:>4} {taken:>14.0} {each:>11.0} {times:>6}",
                sheet.name,
                sheet.records()
            ));
            before = Some(taken);
        }
    }
}

fn heading(unit: &str) -> String {
    format!(
        "{unit:7} {:13} {:>4} {:>4} {:>5} {:>4} {:>14} {:>14} {:>6}",
        "sheet", "in", "out", "steps", "peak", "library", "reference", "ratio"
    )
}

fn line(job: &str, sheet: &Sheet, [ours, theirs]: [f64; 2]) -> String {
    let done = &sheet.pressed;
    format!(
        "{job:7} {:13} {:>4} {:>4} {:>5} {:>4} {ours:>14.0} {theirs:>14.0} {:>6.3}",
        sheet.name,
        sheet.records(),
        done.records,
        done.steps,
        done.peak,
        ours / theirs
    )
}

/// Nanoseconds of one call of each side: the least of the turns, which go by
/// turns so that what else the machine does falls on both.
fn nanoseconds(job: Job, sheet: &Sheet) -> [f64; 2] {
    let time = |side, calls| {
        let began = Instant::now();
        call(side, job, sheet, calls);
        began.elapsed()
    };
    let calls = SIDES.map(|(side, _)| {
        let mut calls = 1;
        while time(side, calls) < TURN {
            calls *= 2;
        }
        calls
    });
    let mut least = [Duration::MAX; 2];
    for _ in 0..TURNS {
        for (at, (side, _)) in SIDES.into_iter().enumerate() {
            least[at] = least[at].min(time(side, calls[at]));
        }
    }
    [0, 1].map(|at| least[at].as_secs_f64() * 1e9 / calls[at] as f64)
}

/// Instructions of one call: those of six calls less those of one, by five.
fn instructions(side: &str, job: &str, sheet: &Sheet) -> f64 {
    let [recycling, lowering] = words(sheet.plan);
    let counted = |calls: &str| -> f64 {
        let program = std::env::current_exe().expect("this program has a name");
        let said = Command::new("valgrind")
            .args(["--tool=callgrind", "--callgrind-out-file=/dev/null"])
            .arg(program)
            .args(["calls", side, job, &sheet.name, calls])
            .args(["--recycling", recycling, "--lowering", lowering])
            .output()
            .expect("valgrind is there");
        let said = String::from_utf8_lossy(&said.stderr).into_owned();
        let count = said
            .lines()
            .find_map(|line| line.split("Collected : ").nth(1));
        count
            .and_then(|count| count.trim().parse().ok())
            .expect("valgrind counts")
    };
    (counted("6") - counted("1")) / 5.0
}
