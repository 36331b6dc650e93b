//! A shelf in words: its variables, its rules, and a proof. `reference shelf
//! DIR` makes `rules.bin` and `sheet.bin` of `shelf.txt`, and prints the sheet
//! and what the press makes of it in the shelf's words.

use crate::clause::{resolve, Clause, Literal};
use crate::edition::Edition;
use crate::plan::Plan;
use crate::press::press;
use crate::proof::Node;
use crate::record::Record;

/// A shelf is for the program.
const EDITION: Edition = Plan::PROGRAM.edition;

#[derive(Default)]
pub struct Shelf {
    variables: Vec<String>,
    rules: Vec<(String, Clause)>,
    nodes: Vec<(String, Node)>,
}

impl Shelf {
    /// The shelf that a text tells, or the first line that it does not.
    pub fn read(text: &str) -> Result<Shelf, String> {
        let mut shelf = Shelf::default();
        for (number, line) in text.lines().enumerate() {
            let words: Vec<&str> = line.split_whitespace().collect();
            let told = shelf.tell(&words);
            told.map_err(|why| format!("line {}: {why}", number + 1))?;
        }
        Ok(shelf)
    }

    fn tell(&mut self, words: &[&str]) -> Result<(), String> {
        match *words {
            [] => Ok(()),
            [word, ..] if word.starts_with('#') => Ok(()),
            ["variables", ref names @ ..] => {
                self.variables.extend(names.iter().map(|n| n.to_string()));
                let most = usize::from(EDITION.variables());
                let few = self.variables.len() <= most;
                few.then_some(()).ok_or(format!("over {most} words"))
            }
            ["rule", name, ref literals @ ..] => {
                let clause: Result<Clause, _> = literals.iter().map(|l| self.literal(l)).collect();
                add(&mut self.rules, name, clause?)
            }
            ["given", name, rule] => {
                let line = find(&self.rules, rule)?;
                let clause = self.rules[line].1.clone();
                add(&mut self.nodes, name, Node::Given { line, clause })
            }
            ["step", name, pivot, left, right] => {
                let pivot = self.variable(pivot)?;
                let (left, right) = (find(&self.nodes, left)?, find(&self.nodes, right)?);
                let of = |node: usize| self.nodes[node].1.clause();
                let clause = resolve(pivot, of(left), of(right));
                let step = Node::Step {
                    pivot,
                    left,
                    right,
                    clause,
                };
                add(&mut self.nodes, name, step)
            }
            _ => Err("no line of this form".to_string()),
        }
    }

    fn variable(&self, name: &str) -> Result<u8, String> {
        let found = self.variables.iter().position(|word| word == name);
        found
            .map(|v| v as u8)
            .ok_or(format!("{name} is no variable"))
    }

    fn literal(&self, word: &str) -> Result<Literal, String> {
        match word.split_at_checked(1) {
            Some(("+", name)) => Ok(Literal::Plus(self.variable(name)?)),
            Some(("-", name)) => Ok(Literal::Minus(self.variable(name)?)),
            _ => Err(format!("{word} has neither + nor - in front")),
        }
    }

    pub fn rules(&self) -> Vec<u8> {
        let line = |(_, clause): &(String, Clause)| clause.write(EDITION);
        self.rules.iter().flat_map(line).collect()
    }

    /// The rule table where this line, or the one after the last, says this.
    pub fn rules_with(&self, line: usize, words: &str) -> Result<Vec<u8>, String> {
        let words = words.replace("(empty)", "");
        let literals = words.split_whitespace().map(|word| self.literal(word));
        let clause: Result<Clause, _> = literals.collect();
        let size = EDITION.line_bytes();
        let mut rules = self.rules();
        rules.resize(rules.len().max((line + 1) * size), 0);
        rules[line * size..][..size].copy_from_slice(&clause?.write(EDITION));
        Ok(rules)
    }

    pub fn sheet(&self) -> Vec<u8> {
        let record = |(_, node): &(String, Node)| Record::Node(node.clone()).write(EDITION);
        self.nodes.iter().flat_map(record).collect()
    }

    /// The pressed sheet's bytes, if the press accepts.
    pub fn pressed(&self) -> Option<Vec<u8>> {
        let (sheet, rules) = (self.sheet(), self.rules());
        let mut out = vec![0; EDITION.room(self.nodes.len().max(1))];
        let mut marks = vec![0; self.rules.len()];
        let pressed = press(Plan::PROGRAM, &sheet, &rules, &mut out, &mut marks).ok()?;
        out.truncate(pressed.records * EDITION.record_bytes());
        Some(out)
    }

    /// A sheet in the shelf's words, a line for each record. Nodes are numbered.
    pub fn listing(&self, sheet: &[u8]) -> String {
        let mut text = String::new();
        let mut next = 0;
        for bytes in sheet.chunks(EDITION.record_bytes()) {
            match Record::read(bytes).expect("a sheet that was made here") {
                Record::Drop { node } => text += &format!("    drop {node}\n"),
                Record::Node(node) => {
                    let from = match &node {
                        Node::Given { line, .. } => format!("line {line}"),
                        Node::Step {
                            pivot, left, right, ..
                        } => format!("{left}, {right} on {}", self.word(*pivot)),
                    };
                    let line = format!("{next:>2}  {from:<18}  {}", self.words(node.clause()));
                    text += &format!("{}\n", line.trim_end());
                    next += 1;
                }
            }
        }
        text
    }

    fn word(&self, variable: u8) -> &str {
        &self.variables[usize::from(variable)]
    }

    fn words(&self, clause: &Clause) -> String {
        if clause.is_empty() {
            return "(empty)".to_string();
        }
        let word = |literal: Literal| match literal {
            Literal::Plus(v) => format!("+{}", self.word(v)),
            Literal::Minus(v) => format!("-{}", self.word(v)),
        };
        clause.literals().map(word).collect::<Vec<_>>().join(" ")
    }
}

/// A row of the page's table of changes: a rule line, what it says instead, and
/// what the replay of the pressed sheet answers with as many slots as the peak
/// and with one less.
pub struct Change {
    pub line: usize,
    pub words: String,
    pub answers: [String; 2],
}

/// The rows below the head `| line | says instead | ..`.
pub fn changes(page: &str) -> Vec<Change> {
    let row = |row: &str| {
        let cells: Vec<&str> = row.split('|').map(str::trim).collect();
        let ["", line, words, _, at_peak, below, ""] = cells[..] else {
            return None;
        };
        Some(Change {
            line: line.parse().ok()?,
            words: words.to_string(),
            answers: [at_peak, below].map(str::to_string),
        })
    };
    let rows = page.lines();
    let mut rows = rows.skip_while(|row| !row.starts_with("| line | says instead |"));
    rows.nth(1);
    rows.map_while(row).collect()
}

fn find<T>(named: &[(String, T)], name: &str) -> Result<usize, String> {
    let found = named.iter().position(|(known, _)| known == name);
    found.ok_or(format!("{name} is not told before"))
}

fn add<T>(named: &mut Vec<(String, T)>, name: &str, told: T) -> Result<(), String> {
    if find(named, name).is_ok() {
        return Err(format!("{name} is told twice"));
    }
    named.push((name.to_string(), told));
    Ok(())
}
