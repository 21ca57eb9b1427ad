//! The stack cache with a lazy pointer. It is written by addresses, where the other core is written
//! by offsets and an occupancy.

use std::ops::Range;

use crate::machine::Core;
use crate::price::Moves;

/// The core with a lazy pointer. The addresses from `stack_top` up to `memory_top` are cached. Those
/// of them from `lazy` up equal their memory numbers and are not written back.
#[derive(Debug)]
pub struct LazyCore<'a> {
    cache: &'a mut [u32],
    memory: &'a mut [u32],
    stack_top: usize,
    lazy: usize,
    memory_top: usize,
    moves: Moves,
}

/// What a core with a lazy pointer holds between two events: ST, LP, MT, cache and memory.
#[derive(Clone, Copy, Debug, PartialEq, Eq)]
pub struct View<'a> {
    /// ST, the lowest address of the stack.
    pub stack_top: usize,
    /// LP, the lazy pointer.
    pub lazy: usize,
    /// MT, the address behind the last cached one.
    pub memory_top: usize,
    /// The cache.
    pub cache: &'a [u32],
    /// The memory.
    pub memory: &'a [u32],
}

impl LazyCore<'_> {
    /// What the core holds.
    pub fn view(&self) -> View<'_> {
        View {
            stack_top: self.stack_top,
            lazy: self.lazy,
            memory_top: self.memory_top,
            cache: self.cache,
            memory: self.memory,
        }
    }

    fn block(&self, address: usize) -> usize {
        address % self.cache.len()
    }

    /// Copies these addresses from the cache to memory, in one move.
    fn write_back(&mut self, addresses: Range<usize>) {
        self.moves.add(addresses.len());
        for address in addresses {
            self.memory[address] = self.cache[self.block(address)];
        }
    }

    /// Copies these addresses from memory to the cache, in one move.
    fn read_in(&mut self, addresses: Range<usize>) {
        self.moves.add(addresses.len());
        for address in addresses {
            let block = self.block(address);
            self.cache[block] = self.memory[address];
        }
    }
}

impl<'a> Core<'a> for LazyCore<'a> {
    fn idle(cache: &'a mut [u32], memory: &'a mut [u32]) -> Self {
        let end = memory.len();
        LazyCore {
            cache,
            memory,
            stack_top: end,
            lazy: end,
            memory_top: end,
            moves: Moves::default(),
        }
    }

    fn moves(&self) -> Moves {
        self.moves
    }

    fn enter(&mut self, frame: usize) {
        self.stack_top -= frame;
        let end = self.stack_top + self.cache.len();
        self.write_back(end..self.lazy);
        self.memory_top = self.memory_top.min(end);
        self.lazy = self.lazy.min(self.memory_top);
    }

    fn leave(&mut self, frame: usize) {
        self.stack_top += frame;
        self.memory_top = self.memory_top.max(self.stack_top);
        self.lazy = self.lazy.max(self.stack_top);
    }

    /// What comes in equals memory, so the lazy pointer stays.
    fn ensure(&mut self, frame: usize) {
        let end = self.stack_top + frame;
        self.read_in(self.memory_top..end);
        self.memory_top = self.memory_top.max(end);
    }

    fn load(&self, offset: usize) -> u32 {
        self.cache[self.block(self.stack_top + offset)]
    }

    /// From now on the block may differ from memory, so it has to lie below the lazy pointer.
    fn store(&mut self, offset: usize, value: u32) {
        let address = self.stack_top + offset;
        let block = self.block(address);
        self.cache[block] = value;
        self.lazy = self.lazy.max(address + 1);
    }

    /// The dead addresses get the other task's number, and those behind them come from memory: so the
    /// lazy pointer is between them.
    fn preempt(&mut self, dead: usize, need: usize, left: u32) {
        let live = self.memory_top.min(self.stack_top + dead);
        let end = self.memory_top.min(self.stack_top + dead.max(need));
        self.write_back(live..self.lazy);
        self.cache.fill(left);
        self.read_in(live..end);
        self.lazy = live;
        self.memory_top = end;
    }
}
