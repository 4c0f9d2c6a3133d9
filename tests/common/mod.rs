//! What the running programs share: calls of the kit, tables and chains of many kinds, and merging, sums of rows, sections, whether two of them are the
//! same, decoding to the best path and to several, the listing and the block sheet written plainly from document 01, the customer's paper on tables,
//! sections and outcomes, with what document 02's requests changed.
#![allow(dead_code)]

pub mod archive;
pub mod codes;
pub mod decoding;
pub mod faults;
pub mod frames;
pub mod hard;
pub mod listing;
pub mod merging;
pub mod rows;
pub mod same;
pub mod sections;
pub mod several;
pub mod shapes;
pub mod sheet;
pub mod tables;
pub mod wide;

/// The bound on states of a table, of a section and of a chain's ends; the cost table has as many places a block.
pub const MOST_STATES: usize = 16;

/// A fixed sequence of numbers with no pattern (xorshift).
pub struct Numbers(u64);

impl Numbers {
    pub fn new() -> Numbers {
        Numbers(2_685_821_657_736_338_717)
    }

    /// Another such sequence for each seed.
    pub fn seeded(seed: usize) -> Numbers {
        let mut numbers = Numbers::new();
        numbers.0 ^= (seed as u64).wrapping_mul(0x9e37_79b9_7f4a_7c15);
        numbers
    }

    fn next(&mut self) -> u64 {
        self.0 ^= self.0 << 13;
        self.0 ^= self.0 >> 7;
        self.0 ^= self.0 << 17;
        self.0
    }

    /// A number below `bound`.
    pub fn below(&mut self, bound: usize) -> usize {
        (self.next() % bound as u64) as usize
    }

    /// A number from `low` to `high`.
    pub fn from_to(&mut self, low: usize, high: usize) -> usize {
        low + self.below(high - low + 1)
    }

    pub fn one_in(&mut self, count: usize) -> bool {
        self.below(count) == 0
    }

    /// Puts `list` into some order.
    pub fn shuffle<T>(&mut self, list: &mut [T]) {
        for i in 1..list.len() {
            list.swap(i, self.below(i + 1));
        }
    }
}

/// Says what differs, for the first few differences only, and ends the program with 1 if there are any.
#[derive(Default)]
pub struct Differing {
    pub comparisons: usize,
    pub differing: usize,
}

impl Differing {
    pub fn compare<T: PartialEq + std::fmt::Debug>(&mut self, wanted: &T, got: &T, what: impl FnOnce() -> String) {
        self.comparisons += 1;
        if wanted != got {
            self.differing += 1;
            if self.differing <= 3 {
                println!("differs: {}\n  wanted {wanted:?}\n  got {got:?}", what());
            }
        }
    }

    /// Counts what another one has counted, too.
    pub fn add(&mut self, other: &Differing) {
        self.comparisons += other.comparisons;
        self.differing += other.differing;
    }

    pub fn finish(&self) {
        println!("{} comparisons, {} differing", self.comparisons, self.differing);
        if self.differing != 0 {
            std::process::exit(1);
        }
    }
}
