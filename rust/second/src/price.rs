//! The price of moves, and a count of moves that is priced when all of them are done.

use crate::refusal::{Refusal, Row};

/// The largest start and the largest price of a block.
const PART_MAX: u32 = 255;

/// What a move costs: `start` where it moves a block at all, and `each` for each block. Both are in
/// their ranges.
#[derive(Clone, Copy, Debug, PartialEq, Eq)]
pub struct Price {
    start: u32,
    each: u32,
}

impl Price {
    /// The price that counts blocks.
    pub const BLOCKS: Price = Price { start: 0, each: 1 };

    /// The price of these two numbers. Refuses by row 23.
    pub fn new(start: u32, each: u32) -> Result<Self, Refusal> {
        if start > PART_MAX || !(1..=PART_MAX).contains(&each) {
            return Err(Row::PriceRange.at(0));
        }
        Ok(Price { start, each })
    }

    /// The price of one move of at most 64 blocks.
    pub fn of(self, blocks: u32) -> u32 {
        self.start * blocks.min(1) + self.each * blocks
    }

    /// The price of all moves of a count.
    pub fn of_all(self, moves: Moves) -> u64 {
        u64::from(self.start) * moves.count + u64::from(self.each) * moves.blocks
    }
}

/// Moves of at least one block: how many they are, and their blocks together.
#[derive(Clone, Copy, Debug, Default, PartialEq, Eq)]
pub struct Moves {
    count: u64,
    blocks: u64,
}

impl Moves {
    /// Counts one more move; one of no blocks is none.
    pub fn add(&mut self, blocks: usize) {
        self.count += u64::from(blocks > 0);
        self.blocks += blocks as u64;
    }
}
