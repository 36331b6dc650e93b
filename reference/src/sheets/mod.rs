//! Sheets written by hand, each once: clauses and records in short words, the
//! sheets of document 01 (`starred`), sheets for sentences that those do not
//! tell apart (`telling`), sheets that tell the recyclings from each other and
//! from wrong ones (`recycling`), sheets that do so for the lowerings (`lowering`,
//! `univalents`) and for the orders (`orders`), and sheets of the wide edition
//! (`wide`). The tests, the streams of cases, the tables of the definitions
//! (`tables`), the tests of the built program and the harness all take them from
//! here.

pub mod lowering;
pub mod orders;
pub mod recycling;
pub mod starred;
pub mod telling;
pub mod univalents;
pub mod wide;

use crate::cases::stages::{stages, Givens};
use crate::clause::{Clause, Literal};
use crate::edition::Edition;
use crate::plan::{Lowering, Plan, Recycling};
use crate::press::{read_proof, run_passes};
use crate::proof::Node;
use crate::record::Record;
use crate::text::hex;

pub fn clause(text: &str) -> Clause {
    let literal = |word: &str| match word.split_at(1) {
        ("+", variable) => Literal::Plus(variable.parse().unwrap()),
        (_, variable) => Literal::Minus(variable.parse().unwrap()),
    };
    text.split_whitespace().map(literal).collect()
}

pub fn given(line: usize, text: &str) -> Record {
    let clause = clause(text);
    Record::Node(Node::Given { line, clause })
}

pub fn step(pivot: u8, left: usize, right: usize, text: &str) -> Record {
    let clause = clause(text);
    Record::Node(Node::Step {
        pivot,
        left,
        right,
        clause,
    })
}

pub fn dropped(node: usize) -> Record {
    Record::Drop { node }
}

pub fn sheet(edition: Edition, records: &[Record]) -> Vec<u8> {
    records.iter().flat_map(|r| r.write(edition)).collect()
}

pub fn rules(edition: Edition, lines: &[&str]) -> Vec<u8> {
    let line = |line: &&str| clause(line).write(edition);
    lines.iter().flat_map(line).collect()
}

/// A sheet and its rule table, under the name that the definitions have for it.
#[derive(Clone)]
pub struct Worked {
    pub name: &'static str,
    pub rules: Vec<&'static str>,
    pub records: Vec<Record>,
    /// A byte of the sheet that is written over: record, place, byte.
    pub spoilt: Option<(usize, usize, u8)>,
    /// Narrow, if nothing else is said.
    pub edition: Edition,
}

impl Worked {
    pub fn new(name: &'static str, rules: &[&'static str], records: &[Record]) -> Worked {
        Worked {
            name,
            rules: rules.to_vec(),
            records: records.to_vec(),
            spoilt: None,
            edition: Edition::Narrow,
        }
    }

    /// The same sheet in this edition.
    pub fn in_edition(self, edition: Edition) -> Worked {
        Worked { edition, ..self }
    }

    pub fn sheet(&self) -> Vec<u8> {
        let mut bytes = sheet(self.edition, &self.records);
        if let Some((record, at, byte)) = self.spoilt {
            bytes[record * self.edition.record_bytes() + at] = byte;
        }
        bytes
    }

    pub fn table(&self) -> Vec<u8> {
        rules(self.edition, &self.rules)
    }

    pub fn bytes(&self) -> (Vec<u8>, Vec<u8>) {
        (self.sheet(), self.table())
    }

    pub fn plan(&self, recycling: Recycling, lowering: Lowering) -> Plan {
        Plan {
            edition: self.edition,
            recycling,
            lowering,
        }
    }

    /// What the press writes, if the sheet is good.
    pub fn pressed(&self, recycling: Recycling, lowering: Lowering) -> Option<Vec<Record>> {
        let proof = read_proof(self.edition, &self.sheet(), &self.table()).ok()?;
        Some(run_passes(self.plan(recycling, lowering), proof).records)
    }
}

/// Sheets of document 01 that the press takes, and one that is placed deep with
/// as many records as nearly may be, a line each: name, rule table, sheet and
/// what the program writes of it, as hex.
pub fn listing() -> String {
    let edition = Plan::PROGRAM.edition;
    let worked = |worked: Worked| (worked.name, worked.sheet(), worked.table());
    let deep = stages(edition, edition.press_records(), Givens::Shared);
    let deep = ("deep", deep.sheet(edition), deep.rule_table(edition));
    let line = |(name, input, rules): (&str, Vec<u8>, Vec<u8>)| {
        let proof = read_proof(edition, &input, &rules).expect("the press takes it");
        let out = sheet(edition, &run_passes(Plan::PROGRAM, proof).records);
        let words = [rules, input, out].map(|bytes| hex(&bytes));
        format!("{name} {}\n", words.join(" "))
    };
    let short = starred::pressable().into_iter().map(worked);
    short.chain([deep]).map(line).collect()
}
