//! Definitions and terms of a table, as text.

use crate::clause::Clause;
use crate::edition::Edition;
use crate::passes::order::Order;
use crate::plan::{Lowering, Recycling};
use crate::proof::Node;
use crate::record::Record;
use crate::sheets::{clause, Worked};

pub(super) fn define(why: &str, name: &str, type_: &str, body: &str) -> String {
    let why = if why.is_empty() {
        String::new()
    } else {
        format!("-- {why}\n")
    };
    format!("\n{why}unfoldable pub {name} : {type_}\n{name} ={body}\n")
}

pub(super) fn rules_of(worked: &Worked) -> String {
    let body = format!(" {}", literals_of(&worked.rules));
    define(
        "",
        &format!("{}_rules", worked.name),
        "List Literals",
        &body,
    )
}

pub(super) fn records_of(why: &str, name: &str, records: &[Record]) -> String {
    let lines: Vec<String> = records.iter().map(record).collect();
    define(why, name, "List Record", &lines_of(&lines))
}

/// A record a line, in groups of eight bytes.
pub(super) fn bytes_of(edition: Edition, name: &str, bytes: &[u8]) -> String {
    let group = |bytes: &[u8]| match bytes.iter().all(|&byte| byte == 0) {
        true => "replicate 8 0".to_string(),
        false => format!("({})", list(bytes)),
    };
    let record = |bytes: &[u8]| bytes.chunks(8).map(group).collect::<Vec<_>>().join(" ++ ");
    let lines: Vec<String> = bytes.chunks(edition.record_bytes()).map(record).collect();
    define(
        "",
        name,
        "List ℕ",
        &format!("\n    {}", lines.join("\n    ++ ")),
    )
}

/// A table of cases that are right by either recycling, which is its parameter.
pub(super) fn table_by_either(name: &str, statement: &str, cases: &[String]) -> String {
    let cases = lines_of(cases);
    let table = format!("\nunfoldable pub {name} : Recycling → List Case\n{name} how ={cases}\n");
    let says = format!("(how : Recycling) → T (all_right ({name} how))");
    table + &state(statement, &says)
}

/// A table of cases that name their recycling.
pub(super) fn table(name: &str, statement: &str, cases: &[String]) -> String {
    let table = define("", name, "List Case", &lines_of(cases));
    table + &state(statement, &format!("T (all_right {name})"))
}

fn state(statement: &str, says: &str) -> String {
    format!("\nabbrev pub {statement} : Type 0\n{statement} = {says}\n")
}

pub(super) fn list<T: ToString>(numbers: &[T]) -> String {
    let number = |n: &T| format!("{} ∷ ", n.to_string());
    numbers.iter().map(number).collect::<String>() + "[]"
}

pub(super) fn lines_of(terms: &[String]) -> String {
    format!("\n    {}\n    ∷ []", terms.join("\n    ∷ "))
}

fn literals(clause: &Clause) -> String {
    let (positive, negative) = (clause.positive(), clause.negative());
    format!("literals {} {}", set(positive), set(negative))
}

/// A set as a number, with a power of two for each variable over 7.
pub(super) fn set(word: u128) -> String {
    let (low, high) = (word % 256, word - word % 256);
    if high == 0 {
        return low.to_string();
    }
    let low = (low > 0).then(|| low.to_string());
    let high = (0..u128::BITS).filter(|v| high >> v & 1 == 1);
    let powers = high.map(|v| format!("2 ^ {v}"));
    let terms: Vec<String> = low.into_iter().chain(powers).collect();
    format!("({})", terms.join(" + "))
}

/// The edition as the definitions call it.
pub(super) fn edition(edition: Edition) -> &'static str {
    match edition {
        Edition::Narrow => "Narrow",
        Edition::Wide => "Wide",
    }
}

pub(super) fn recycling(recycling: Recycling) -> &'static str {
    match recycling {
        Recycling::Reset => "Reset",
        Recycling::Intersection => "Intersection",
    }
}

/// Nothing, or what is lowered, as the argument of a function.
pub(super) fn lowering(lowering: Lowering) -> &'static str {
    match lowering {
        Lowering::Nothing => "None",
        Lowering::Units => "(Some Units)",
        Lowering::Univalents => "(Some Univalents)",
    }
}

pub(super) fn order(order: Order) -> &'static str {
    match order {
        Order::BottomUp => "BottomUp",
        Order::TopDown => "TopDown",
    }
}

/// The bytes of a worked sheet.
pub(super) fn bytes_term(worked: &Worked) -> String {
    let bytes = format!("(sheet_bytes {} {})", edition(worked.edition), worked.name);
    match worked.spoilt {
        None => bytes,
        Some((record, at, byte)) => {
            let at = record * worked.edition.record_bytes() + at;
            format!("(set {bytes} {at} {byte})")
        }
    }
}

pub(super) fn literals_of(rules: &[&str]) -> String {
    let line = |rule: &&str| format!("{} ∷ ", literals(&clause(rule)));
    rules.iter().map(line).collect::<String>() + "[]"
}

pub(super) fn record(record: &Record) -> String {
    match record {
        Record::Node(Node::Given { line, clause }) => {
            format!("node (given {line} ({}))", literals(clause))
        }
        Record::Node(Node::Step {
            pivot,
            left,
            right,
            clause,
        }) => {
            format!("node (step {pivot} {left} {right} ({}))", literals(clause))
        }
        Record::Drop { node } => format!("drop {node}"),
    }
}
