//! "A clause is a set of literals", and here it is literally one.

use crate::edition::Edition;
use std::collections::BTreeSet;
use std::fmt;

/// "literals are written +v and -v."
#[derive(Clone, Copy, PartialEq, Eq, PartialOrd, Ord)]
pub enum Literal {
    Plus(u8),
    Minus(u8),
}

impl Literal {
    pub fn variable(self) -> u8 {
        match self {
            Literal::Plus(v) | Literal::Minus(v) => v,
        }
    }

    pub fn opposite(self) -> Literal {
        match self {
            Literal::Plus(v) => Literal::Minus(v),
            Literal::Minus(v) => Literal::Plus(v),
        }
    }
}

#[derive(Clone, Default, PartialEq, Eq)]
pub struct Clause(BTreeSet<Literal>);

impl Clause {
    /// Reads a positive set followed by a negative set, equally long.
    pub fn read(sets: &[u8]) -> Clause {
        let (positive, negative) = sets.split_at(sets.len() / 2);
        let positive = variables(positive).into_iter().map(Literal::Plus);
        let negative = variables(negative).into_iter().map(Literal::Minus);
        Clause(positive.chain(negative).collect())
    }

    /// The positive set followed by the negative set. Every variable must be one
    /// of the edition's.
    pub fn write(&self, edition: Edition) -> Vec<u8> {
        let mut sets = vec![0; edition.line_bytes()];
        for literal in &self.0 {
            assert!(literal.variable() < edition.variables());
            let (start, v) = match *literal {
                Literal::Plus(v) => (0, v),
                Literal::Minus(v) => (edition.set_bytes(), v),
            };
            sets[start + usize::from(v / 8)] |= 1 << (v % 8);
        }
        sets
    }

    pub fn literals(&self) -> impl Iterator<Item = Literal> + '_ {
        self.0.iter().copied()
    }

    pub fn holds(&self, literal: Literal) -> bool {
        self.0.contains(&literal)
    }

    /// Whether a variable is in it both ways.
    pub fn holds_both_ways(&self) -> bool {
        self.literals()
            .any(|literal| self.holds(literal.opposite()))
    }

    /// As much of it as holds no variable both ways.
    pub fn one_way(&self) -> Clause {
        let one_way = |&literal: &Literal| match literal {
            Literal::Plus(_) => true,
            Literal::Minus(_) => !self.holds(literal.opposite()),
        };
        self.literals().filter(one_way).collect()
    }

    /// The edition's variables that are not in it.
    pub fn lacking(&self, edition: Edition) -> Vec<u8> {
        let lacks = |&v: &u8| !self.holds(Literal::Plus(v)) && !self.holds(Literal::Minus(v));
        (0..edition.variables()).filter(lacks).collect()
    }

    pub fn with(&self, literal: Literal) -> Clause {
        let mut literals = self.0.clone();
        literals.insert(literal);
        Clause(literals)
    }

    pub fn without(&self, literal: Literal) -> Clause {
        let mut literals = self.0.clone();
        literals.remove(&literal);
        Clause(literals)
    }

    pub fn joined(&self, other: &Clause) -> Clause {
        Clause(self.0.union(&other.0).copied().collect())
    }

    /// The literals that are in both.
    pub fn common(&self, other: &Clause) -> Clause {
        Clause(self.0.intersection(&other.0).copied().collect())
    }

    pub fn is_within(&self, other: &Clause) -> bool {
        self.0.is_subset(&other.0)
    }

    pub fn is_empty(&self) -> bool {
        self.0.is_empty()
    }

    /// The positive set as a number whose bit v is variable v.
    pub fn positive(&self) -> u128 {
        let bit = |literal: &Literal| match *literal {
            Literal::Plus(v) => 1 << v,
            Literal::Minus(_) => 0,
        };
        self.0.iter().map(bit).sum()
    }

    /// The negative set as a number whose bit v is variable v.
    pub fn negative(&self) -> u128 {
        let bit = |literal: &Literal| match *literal {
            Literal::Plus(_) => 0,
            Literal::Minus(v) => 1 << v,
        };
        self.0.iter().map(bit).sum()
    }

    pub fn from_numbers(positive: u128, negative: u128) -> Clause {
        Clause::read(&[positive.to_le_bytes(), negative.to_le_bytes()].concat())
    }
}

/// "with pivot p, the left clause holds +p, the right holds -p, and the result
/// is (left without +p) joined with (right without -p)."
pub fn resolve(pivot: u8, left: &Clause, right: &Clause) -> Clause {
    left.without(Literal::Plus(pivot))
        .joined(&right.without(Literal::Minus(pivot)))
}

/// "Variable v is bit v mod 8 of byte v div 8" of a set.
fn variables(set: &[u8]) -> Vec<u8> {
    (0..8 * set.len() as u8)
        .filter(|v| set[usize::from(v / 8)] >> (v % 8) & 1 == 1)
        .collect()
}

impl FromIterator<Literal> for Clause {
    fn from_iter<I: IntoIterator<Item = Literal>>(literals: I) -> Clause {
        Clause(literals.into_iter().collect())
    }
}

impl fmt::Debug for Literal {
    fn fmt(&self, f: &mut fmt::Formatter) -> fmt::Result {
        match self {
            Literal::Plus(v) => write!(f, "+{v}"),
            Literal::Minus(v) => write!(f, "-{v}"),
        }
    }
}

impl fmt::Debug for Clause {
    fn fmt(&self, f: &mut fmt::Formatter) -> fmt::Result {
        f.debug_set().entries(&self.0).finish()
    }
}
