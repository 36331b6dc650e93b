//! `harness compare`, `harness bench` and `harness calls`.

use harness::bench;
use harness::compare::{case_alike, Count};
use reference::plan::{Lowering, Plan, Recycling};
use std::process::ExitCode;
use std::time::{SystemTime, UNIX_EPOCH};

const USAGE: &str = "usage:
  harness compare [--seed S] [--count N]     a seed of its own, and 20000 cases, if none is given
  harness bench [PASSES]
  harness calls library|reference press|replay SHEET N [PASSES]
where PASSES are --recycling reset|intersection and --lowering nothing|units|univalents; the program's, if none is named";

fn main() -> ExitCode {
    let words: Vec<String> = std::env::args().skip(1).collect();
    let words: Vec<&str> = words.iter().map(String::as_str).collect();
    let done = match words.as_slice() {
        ["compare", flags @ ..] => compare(flags),
        ["bench", flags @ ..] => passes(flags).map(|passes| {
            bench::tables(passes, |line| println!("{line}"));
            true
        }),
        ["calls", side, job, name, calls, flags @ ..] => passes(flags)
            .zip(calls.parse().ok())
            .and_then(|(passes, calls)| bench::calls(side, job, passes, name, calls))
            .map(|()| true),
        _ => None,
    };
    match done {
        Some(true) => ExitCode::SUCCESS,
        Some(false) => ExitCode::FAILURE,
        None => {
            eprintln!("{USAGE}");
            ExitCode::from(2)
        }
    }
}

/// The passes named; none, if the flags don't read.
fn passes(flags: &[&str]) -> Option<Plan> {
    let mut plan = Plan::PROGRAM;
    for flag in flags.chunks(2) {
        match flag {
            ["--recycling", word] => plan.recycling = Recycling::of_word(word)?,
            ["--lowering", word] => plan.lowering = Lowering::of_word(word)?,
            _ => return None,
        }
    }
    Some(plan)
}

/// Whether all is alike; none, if the flags don't read.
fn compare(flags: &[&str]) -> Option<bool> {
    let (mut seed, mut count) = (own_seed(), 20_000);
    for flag in flags.chunks(2) {
        match flag {
            ["--seed", number] => seed = number.parse().ok()?,
            ["--count", number] => count = number.parse().ok()?,
            _ => return None,
        }
    }
    let mut seen = Count::default();
    let mut different = 0;
    for index in 0..count {
        if let Err(what) = case_alike(seed, index, &mut seen) {
            println!("seed {seed}, case {index}: {what}");
            different += 1;
        }
    }
    println!(
        "seed {seed}: {} pressed, {} of them by the reset, {} with the units lowered and {} with the univalents, {} in the top-down order, and replayed at the peak and one below, {} replayed, {} refused; {} wide",
        seen.pressed, seen.reset, seen.units, seen.univalents, seen.top_down, seen.replayed, seen.refused, seen.wide
    );
    println!("{count} compared, {different} different");
    Some(different == 0)
}

fn own_seed() -> u64 {
    let now = SystemTime::now().duration_since(UNIX_EPOCH);
    now.expect("the clock is past 1970").as_nanos() as u64
}
