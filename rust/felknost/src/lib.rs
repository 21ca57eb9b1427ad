//! The proved kit, called from Rust.
//!
//! ```
//! use felknost::{check, Refusal, Row};
//!
//! assert_eq!(check(b"(stack 5)\n(func 5\n  (return)\n)\n"), Ok(()));
//! let refusal = Refusal { row: Row::StackSize, place: 1 };
//! assert_eq!(check(b"(stack 65)\n"), Err(refusal));
//! assert_eq!(refusal.to_string(), "(refused 3 1)");
//! ```
//!
//! A text of no byte is a task without a stack. Every service accepts it.
//!
//! ```
//! use felknost::{check, report, Refusal, Row, WORK};
//!
//! assert_eq!(check(b""), Ok(()));
//! let mut output = [0; 22];
//! assert_eq!(report(b"", 0, 1, &mut output, &mut [0; WORK]), Ok(22));
//! assert_eq!(&output, b"(report\n  (total 0)\n)\n");
//! assert_eq!(check(b"\n"), Err(Refusal { row: Row::Form, place: 1 }));
//! ```

#![warn(missing_docs)]

mod dearest;
pub mod raw;
mod refusal;
mod report;
mod run;

pub use dearest::dearest_points;
pub use refusal::{Refusal, Row};
pub use report::report;
pub use run::{run, run_lazy, Run, RunResult};

extern "C" {
    fn felknost_check(text: *const u8, length: usize) -> u32;
}

/// The numbers that a lent working space has at least.
pub const WORK: usize = 16_384;

/// The numbers of a result of [`raw::report`] and [`raw::dearest_points`]: code, place, bytes written.
pub const WRITE_RESULT: usize = 3;

/// The numbers of a result of [`raw::run`] and [`raw::run_lazy`]: code, place, events done, moved, allowed.
pub const RUN_RESULT: usize = 5;

/// The index of the code in every result. A code is 0, or that of a [`Row`].
pub const RESULT_CODE: usize = 0;

/// The index of the place in every result.
pub const RESULT_PLACE: usize = 1;

/// The index of the bytes written, in a result of [`WRITE_RESULT`] numbers.
pub const RESULT_WRITTEN: usize = 2;

/// The index of the events done, in a result of [`RUN_RESULT`] numbers.
pub const RESULT_DONE: usize = 2;

/// The index of what was moved, in a result of [`RUN_RESULT`] numbers.
pub const RESULT_MOVED: usize = 3;

/// The index of what the sheet allows, in a result of [`RUN_RESULT`] numbers.
pub const RESULT_ALLOWED: usize = 4;

/// Bytes of output that are enough for the report of every task at every price: no report has more than 63,967.
pub const OUTPUT: usize = 65_536;

/// Bytes of output that are enough for the dearest points of every task at every price: no list has more than 220.
pub const DEAREST_OUTPUT: usize = 256;

/// Checks a task text: accepted, as one of no byte is, or refused with a row and a line.
pub fn check(text: &[u8]) -> Result<(), Refusal> {
    // SAFETY: the function reads `length` bytes from the pointer and nothing else, and returns for every text.
    let answer = unsafe { felknost_check(text.as_ptr(), text.len()) };
    Refusal::of(answer >> 16, answer & 0xffff)
}
