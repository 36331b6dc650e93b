//! Lent memory that shows what was touched: random before a call, with random
//! words on both sides.

use crate::library::Slot;
use reference::rng::Rng;

const SLOT_WORDS: usize = size_of::<Slot>() / size_of::<u64>();
const GUARD: usize = 2 * SLOT_WORDS;

/// Words, the middle ones of which are lent: as bytes, as words or as slots.
#[derive(Clone, PartialEq, Eq)]
pub struct Lent {
    words: Vec<u64>,
    /// How many bytes of the middle are lent.
    bytes: usize,
}

impl Lent {
    fn new(rng: &mut Rng, bytes: usize) -> Lent {
        let middle = bytes.div_ceil(size_of::<u64>());
        let words = (0..GUARD + middle + GUARD).map(|_| rng.draw()).collect();
        Lent { words, bytes }
    }

    pub fn of_bytes(rng: &mut Rng, count: usize) -> Lent {
        Lent::new(rng, count)
    }

    pub fn of_words(rng: &mut Rng, count: usize) -> Lent {
        Lent::new(rng, count * size_of::<u64>())
    }

    /// Marks of use are random too.
    pub fn of_slots(rng: &mut Rng, count: usize) -> Lent {
        Lent::new(rng, count * size_of::<Slot>())
    }

    pub fn bytes(&mut self) -> &mut [u8] {
        let start = self.words[GUARD..].as_mut_ptr().cast();
        unsafe { std::slice::from_raw_parts_mut(start, self.bytes) }
    }

    pub fn words(&mut self) -> &mut [u64] {
        let count = self.bytes / size_of::<u64>();
        &mut self.words[GUARD..][..count]
    }

    pub fn slots(&mut self) -> &mut [Slot] {
        let count = self.bytes / size_of::<Slot>();
        let start = self.words[GUARD..].as_mut_ptr().cast();
        unsafe { std::slice::from_raw_parts_mut(start, count) }
    }

    /// The same memory with free slots, which are all zero.
    pub fn with_free_slots(&self) -> Lent {
        let mut expected = self.clone();
        expected.words().fill(0);
        expected
    }
}
