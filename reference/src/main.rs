//! `reference cases`, `press`, `random`, `sheets`, `shelf`, `stats`, `tables` and
//! `worked`.

use reference::cases::{draw, draw_in, Size};
use reference::edition::Edition;
use reference::shelf::Shelf;
use reference::stream::{self, Entry};
use reference::{program, sheets, stats, tables, text, worked};
use std::io::{self, Write};
use std::path::Path;
use std::process::ExitCode;
use std::{fs, iter};

const USAGE: &str = "usage:
  reference cases --seed S --count N [--small] [--trace] [--edition narrow|wide]
  reference press DIR
  reference random --seed S --count N DIR
  reference sheets
  reference shelf DIR
  reference stats --seed S --count N [--small]
  reference tables DIR
  reference worked DIR";

fn main() -> ExitCode {
    let words: Vec<String> = std::env::args().skip(1).collect();
    let words: Vec<&str> = words.iter().map(String::as_str).collect();
    let done = match words.as_slice() {
        ["press", dir] => print(&format!("{}\n", program::run(Path::new(dir)))),
        ["shelf", dir] => make_shelf(Path::new(dir)),
        ["cases", flags @ ..] => with_drawing(flags, print_cases),
        ["random", flags @ .., dir] => with_drawing(flags, |drawing| {
            write_stream(dir, &stream::random(drawing.seed, drawing.count))
        }),
        ["worked", dir] => write_stream(dir, &worked::entries()),
        ["sheets"] => print(&sheets::listing()),
        ["tables", dir] => write_tables(dir),
        ["stats", flags @ ..] => with_drawing(flags, print_stats),
        _ => Err(USAGE.to_string()),
    };
    match done {
        Ok(()) => ExitCode::SUCCESS,
        Err(message) => {
            eprintln!("{message}");
            ExitCode::FAILURE
        }
    }
}

/// Makes DIR/rules.bin and DIR/sheet.bin of DIR/shelf.txt, and prints the sheet
/// and, if it is accepted, the pressed one.
fn make_shelf(dir: &Path) -> Result<(), String> {
    let told = dir.join("shelf.txt");
    let of = |path: &Path, why: String| format!("{}: {why}", path.display());
    let text = fs::read_to_string(&told).map_err(|error| of(&told, error.to_string()))?;
    let shelf = Shelf::read(&text).map_err(|why| of(&told, why))?;
    for (name, bytes) in [("rules.bin", shelf.rules()), ("sheet.bin", shelf.sheet())] {
        let path = dir.join(name);
        fs::write(&path, bytes).map_err(|error| of(&path, error.to_string()))?;
    }
    let sheets = iter::once(shelf.sheet()).chain(shelf.pressed());
    let listings: Vec<String> = sheets.map(|sheet| shelf.listing(&sheet)).collect();
    print(&listings.join("\n"))
}

struct Drawing {
    seed: u64,
    count: u64,
    size: Size,
    trace: bool,
    edition: Option<Edition>,
}

fn with_drawing(
    flags: &[&str],
    run: impl Fn(&Drawing) -> Result<(), String>,
) -> Result<(), String> {
    let mut drawing = Drawing {
        seed: 1,
        count: 100,
        size: Size::Any,
        trace: false,
        edition: None,
    };
    let mut flags = flags.iter();
    while let Some(&flag) = flags.next() {
        let mut number = || {
            let word = flags.next().ok_or(USAGE)?;
            word.parse().map_err(|_| USAGE)
        };
        match flag {
            "--seed" => drawing.seed = number()?,
            "--count" => drawing.count = number()?,
            "--small" => drawing.size = Size::Small,
            "--trace" => drawing.trace = true,
            "--edition" => {
                let word = flags.next().ok_or(USAGE)?;
                drawing.edition = Some(Edition::of_word(word).ok_or(USAGE)?);
            }
            _ => return Err(USAGE.to_string()),
        }
    }
    run(&drawing)
}

fn print_cases(drawing: &Drawing) -> Result<(), String> {
    for index in 0..drawing.count {
        let (seed, size) = (drawing.seed, drawing.size);
        let case = match drawing.edition {
            None => draw(seed, index, size),
            Some(edition) => draw_in(edition, seed, index, size),
        };
        print(&format!("{}\n", text::block(&case, drawing.trace)))?;
    }
    Ok(())
}

fn print_stats(drawing: &Drawing) -> Result<(), String> {
    let stats = stats::gather(drawing.seed, drawing.count, drawing.size);
    print(&stats.table())?;
    print(&format!("\nnever answered: {:?}\n", stats.missing()))
}

/// Writes the stream to DIR/stdin, and what is to be printed of it to DIR/stdout.
fn write_stream(dir: &str, entries: &[Entry]) -> Result<(), String> {
    let made = stream::of(entries);
    write(dir, "stdin", &made.stdin)?;
    write(dir, "stdout", made.stdout.as_bytes())
}

/// Writes the tables of worked cases that the definitions are to compute.
fn write_tables(dir: &str) -> Result<(), String> {
    write(dir, "Starred.antt", tables::starred().as_bytes())?;
    write(dir, "Telling.antt", tables::telling().as_bytes())?;
    write(dir, "Wide.antt", tables::wide().as_bytes())?;
    write(dir, "Recyclings.antt", tables::recyclings().as_bytes())?;
    write(dir, "Lowerings.antt", tables::lowerings().as_bytes())?;
    write(dir, "Univalents.antt", tables::univalents().as_bytes())?;
    write(dir, "Orders.antt", tables::orders().as_bytes())
}

fn write(dir: &str, name: &str, bytes: &[u8]) -> Result<(), String> {
    let path = Path::new(dir).join(name);
    fs::write(&path, bytes).map_err(|error| format!("{}: {error}", path.display()))
}

/// Unlike `print!`, a closed pipe is an error here and not a panic.
fn print(text: &str) -> Result<(), String> {
    let written = io::stdout().write_all(text.as_bytes());
    written.map_err(|error| format!("cannot print: {error}"))
}
