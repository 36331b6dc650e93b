//! "Records are 24 bytes, no header, numbers little-endian." In the wide edition
//! they are 40 bytes, and only the sets are longer.

use crate::clause::Clause;
use crate::edition::{Edition, SETS};
use crate::proof::Node;

#[derive(Clone, Debug, PartialEq, Eq)]
pub enum Record {
    Node(Node),
    Drop { node: usize },
}

impl Record {
    /// "A record reads as one of three kinds, or it doesn't read." The bytes are
    /// as many as a record of the edition has.
    pub fn read(bytes: &[u8]) -> Option<Record> {
        let clause = || Clause::read(&bytes[SETS..]);
        match bytes[0] {
            1 => Some(Record::Node(Node::Given {
                line: number(bytes, 6),
                clause: clause(),
            })),
            2 => Some(Record::Node(Node::Step {
                pivot: bytes[1],
                left: number(bytes, 2),
                right: number(bytes, 4),
                clause: clause(),
            })),
            3 => Some(Record::Drop {
                node: number(bytes, 2),
            }),
            _ => None,
        }
    }

    pub fn write(&self, edition: Edition) -> Vec<u8> {
        let mut bytes = vec![0; edition.record_bytes()];
        match self {
            Record::Node(Node::Given { line, clause }) => {
                bytes[0] = 1;
                put_number(&mut bytes, 6, *line);
                bytes[SETS..].copy_from_slice(&clause.write(edition));
            }
            Record::Node(Node::Step {
                pivot,
                left,
                right,
                clause,
            }) => {
                bytes[0] = 2;
                bytes[1] = *pivot;
                put_number(&mut bytes, 2, *left);
                put_number(&mut bytes, 4, *right);
                bytes[SETS..].copy_from_slice(&clause.write(edition));
            }
            Record::Drop { node } => {
                bytes[0] = 3;
                put_number(&mut bytes, 2, *node);
            }
        }
        bytes
    }

    /// The bytes that the table of document 01 calls zero for this kind.
    pub fn zero_bytes(&self, edition: Edition) -> Vec<usize> {
        match self {
            Record::Node(Node::Given { .. }) => (1..6).collect(),
            Record::Node(Node::Step { .. }) => vec![6, 7],
            Record::Drop { .. } => (1..2).chain(4..edition.record_bytes()).collect(),
        }
    }
}

pub fn number(bytes: &[u8], at: usize) -> usize {
    usize::from(u16::from_le_bytes([bytes[at], bytes[at + 1]]))
}

pub fn put_number(bytes: &mut [u8], at: usize, number: usize) {
    bytes[at..at + 2].copy_from_slice(&(number as u16).to_le_bytes());
}
