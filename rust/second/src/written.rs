//! The services that write what they print of a task to an output: their result, and their way to
//! it.

use crate::figures::{figures, Figures};
use crate::refusal::{code_and_place, Refusal, Row, Verdict};
use crate::text::Task;

/// The result of a service that writes.
#[derive(Clone, Copy, Debug, PartialEq, Eq)]
pub struct WriteResult {
    /// Acceptance, or the refusal.
    pub verdict: Verdict,
    /// The bytes written.
    pub written: u32,
}

impl WriteResult {
    /// Code, place and bytes written.
    pub fn numbers(self) -> [u64; 3] {
        let (code, place) = code_and_place(self.verdict);
        [code.into(), place.into(), self.written.into()]
    }
}

/// Writes what `print` makes of a task and its figures at a price to the front of `out`.
pub fn write(
    print: fn(&Task, &Figures) -> String,
    text: &[u8],
    start: u32,
    each: u32,
    work_len: usize,
    out: &mut [u8],
) -> WriteResult {
    let written = crate::admit_at(text, start, each, work_len)
        .and_then(|(task, price)| put(&print(&task, &figures(&task, price)), out));
    WriteResult {
        verdict: written.map(|_| ()),
        written: written.unwrap_or(0),
    }
}

/// Refuses by row 14.
fn put(printed: &str, out: &mut [u8]) -> Result<u32, Refusal> {
    let length = printed.len() as u32;
    let Some(front) = out.get_mut(..printed.len()) else {
        return Err(Row::OutputTooSmall.at(length));
    };
    front.copy_from_slice(printed.as_bytes());
    Ok(length)
}
