//! What a run asks of a core, and the stack cache: occupancy, spill, fill and preemption on lent
//! cache and memory.

use crate::price::Moves;

/// A core on lent cache and memory.
pub trait Core<'a> {
    /// A core with an empty stack, its top at the end of the memory.
    fn idle(cache: &'a mut [u32], memory: &'a mut [u32]) -> Self;

    /// All moves so far.
    fn moves(&self) -> Moves;

    /// Enters a function: reserves its frame and spills the highest cached addresses.
    fn enter(&mut self, frame: usize);

    /// Leaves a function: frees its frame.
    fn leave(&mut self, frame: usize);

    /// Fills the frame from the first address that is not cached.
    fn ensure(&mut self, frame: usize);

    /// The number in the cache block of an offset.
    fn load(&self, offset: usize) -> u32;

    /// Sets the number in the cache block of an offset.
    fn store(&mut self, offset: usize, value: u32);

    /// Lets another task use the cache, which leaves `left` in every block.
    fn preempt(&mut self, dead: usize, need: usize, left: u32);
}

/// Blocks spilled by a reserve of `frame` at `occupancy`, and the occupancy after it.
pub fn reserve(stack: usize, occupancy: usize, frame: usize) -> (usize, usize) {
    let wanted = occupancy + frame;
    (wanted.saturating_sub(stack), wanted.min(stack))
}

/// The occupancy after `frame` is freed; nothing moves.
pub fn free(occupancy: usize, frame: usize) -> usize {
    occupancy.saturating_sub(frame)
}

/// Blocks filled by an ensure of `frame` at `occupancy`, and the occupancy after it.
pub fn ensure(occupancy: usize, frame: usize) -> (usize, usize) {
    (frame.saturating_sub(occupancy), occupancy.max(frame))
}

/// Blocks written and blocks read back by a preemption at `occupancy`, and the occupancy after it.
pub fn preempt(occupancy: usize, dead: usize, need: usize) -> (usize, usize, usize) {
    let skipped = occupancy.min(dead);
    let after = occupancy.min(dead.max(need));
    (occupancy - skipped, after - skipped, after)
}

/// The core without a lazy pointer. Its cached addresses are the `occupancy` ones from `top` upward.
#[derive(Debug)]
pub struct Machine<'a> {
    cache: &'a mut [u32],
    memory: &'a mut [u32],
    top: usize,
    occupancy: usize,
    moves: Moves,
}

impl Machine<'_> {
    fn block(&self, address: usize) -> usize {
        address % self.cache.len()
    }

    /// Copies the offsets `from` to `to` - 1 from the cache to memory, in one move.
    fn write_back(&mut self, from: usize, to: usize) {
        for address in self.top + from..self.top + to {
            self.memory[address] = self.cache[self.block(address)];
        }
        self.moves.add(to - from);
    }

    /// Copies the offsets `from` to `to` - 1 from memory to the cache, in one move.
    fn read_in(&mut self, from: usize, to: usize) {
        for address in self.top + from..self.top + to {
            let block = self.block(address);
            self.cache[block] = self.memory[address];
        }
        self.moves.add(to - from);
    }
}

impl<'a> Core<'a> for Machine<'a> {
    fn idle(cache: &'a mut [u32], memory: &'a mut [u32]) -> Self {
        let top = memory.len();
        Machine {
            cache,
            memory,
            top,
            occupancy: 0,
            moves: Moves::default(),
        }
    }

    fn moves(&self) -> Moves {
        self.moves
    }

    fn enter(&mut self, frame: usize) {
        let (spilled, occupancy) = reserve(self.cache.len(), self.occupancy, frame);
        self.write_back(self.occupancy - spilled, self.occupancy);
        self.top -= frame;
        self.occupancy = occupancy;
    }

    fn leave(&mut self, frame: usize) {
        self.top += frame;
        self.occupancy = free(self.occupancy, frame);
    }

    fn ensure(&mut self, frame: usize) {
        let (filled, occupancy) = ensure(self.occupancy, frame);
        self.read_in(self.occupancy, self.occupancy + filled);
        self.occupancy = occupancy;
    }

    fn load(&self, offset: usize) -> u32 {
        self.cache[self.block(self.top + offset)]
    }

    fn store(&mut self, offset: usize, value: u32) {
        let block = self.block(self.top + offset);
        self.cache[block] = value;
    }

    fn preempt(&mut self, dead: usize, need: usize, left: u32) {
        let (written, read, occupancy) = preempt(self.occupancy, dead, need);
        self.write_back(self.occupancy - written, self.occupancy);
        self.cache.fill(left);
        self.read_in(occupancy - read, occupancy);
        self.occupancy = occupancy;
    }
}
