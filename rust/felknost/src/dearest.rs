//! The ten dearest points of a task text.

use crate::report::written;
use crate::{raw, Refusal};

/// Writes the ten points of the report that have the highest cost, or all where it has fewer, to the front of `output` and gives the length: a line
/// `(dear F P COST)` for each, by falling cost, equal costs by falling save, then by rising function F and by rising point P. The save is not printed. What
/// is lent, the price and the refusals are as for [`report`](crate::report()); an output of [`DEAREST_OUTPUT`](crate::DEAREST_OUTPUT) bytes is enough.
///
/// A text of no byte has no point: no byte is written, and every output will do.
pub fn dearest_points(
    text: &[u8],
    start: u32,
    each: u32,
    output: &mut [u8],
    work: &mut [u32],
) -> Result<usize, Refusal> {
    written(raw::dearest_points, text, start, each, output, work)
}
