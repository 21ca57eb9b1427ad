//! The report of a task text, and what every service that writes has in common with it.

use crate::{raw, Refusal, RESULT_CODE, RESULT_PLACE, RESULT_WRITTEN, WRITE_RESULT};

/// Writes the report of a task text to the front of `output` and gives its length. A move costs `start`, 0 to 255, where it moves a block at
/// all, and `each`, 1 to 255, for each block; 0 and 1 count blocks. With 0 and 1 the line of a point ends with once, the bound on what a
/// single preemption there costs. The line before the last, `  (total T)`, has the sum of the costs of all points. `work` has at least
/// [`WORK`](crate::WORK) numbers; the first of them are 0 afterwards.
///
/// The report of a text of no byte has three lines and 22 bytes: `(report`, `  (total 0)` and `)`.
pub fn report(
    text: &[u8],
    start: u32,
    each: u32,
    output: &mut [u8],
    work: &mut [u32],
) -> Result<usize, Refusal> {
    written(raw::report, text, start, each, output, work)
}

/// How many bytes a function writes, or why it writes none.
pub(crate) fn written(
    writer: raw::Writer,
    text: &[u8],
    start: u32,
    each: u32,
    output: &mut [u8],
    work: &mut [u32],
) -> Result<usize, Refusal> {
    let mut result = [0; WRITE_RESULT];
    let answer = writer(text, start, each, output, work, &mut result);
    debug_assert_eq!(answer, 1);
    Refusal::of(result[RESULT_CODE] as u32, result[RESULT_PLACE] as u32)?;
    Ok(result[RESULT_WRITTEN] as usize)
}
