//! The dearest points: the proved archive against the second implementation, and against the figures alone.

use std::hint::black_box;

use felknost::Refusal;

use crate::texts::cache_blocks;
use crate::written::{Writer, ROUNDS};
use crate::{EACH, START};

/// What a run of no events is lent that is refused for its memory, if its task has a stack.
pub struct Room {
    cache: Vec<u32>,
    work: Vec<u32>,
}

impl Room {
    /// Room for the task of a text, but for the memory.
    pub fn of(text: &[u8]) -> Self {
        Room {
            cache: vec![7; cache_blocks(text)],
            work: vec![0; felknost::WORK],
        }
    }

    /// A run that has no memory judges the text, works out its figures and is refused by row 19; an empty text has no figures, and its run is accepted. So this is
    /// what a report takes without its printing.
    pub fn run(&mut self, text: &[u8]) -> Result<(), Refusal> {
        let (cache, work) = (&mut self.cache, &mut self.work);
        felknost::run(text, START, EACH, &[], &mut [], cache, &mut [], work).ending
    }
}

/// The table of lists.
pub fn table() {
    let dearest = Writer {
        proved: felknost::dearest_points,
        second: second::dearest_points,
        output: felknost::DEAREST_OUTPUT,
    };
    dearest.table(
        ["Text of a list", "To the figures alone"],
        |text, proved| {
            let mut room = Room::of(text);
            let [figures] = ROUNDS.times([&mut || room.run(black_box(text)).is_ok().into()]);
            format!("{:.2}", proved / figures)
        },
    );
}
