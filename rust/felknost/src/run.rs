//! A run of an event list on either core.

use crate::{
    raw, Refusal, RESULT_ALLOWED, RESULT_CODE, RESULT_DONE, RESULT_MOVED, RESULT_PLACE, RUN_RESULT,
};

/// What a run returns beside the buffers.
#[derive(Clone, Copy, Debug, PartialEq, Eq)]
pub struct RunResult {
    /// All events done, or the refusal.
    pub ending: Result<(), Refusal>,
    /// The events done.
    pub done: u32,
    /// The sum of the prices of all moves by the events done.
    pub moved: u64,
    /// The sum of the sheet's bounds for the events done, each preemption with its cost.
    pub allowed: u64,
}

/// Runs an event list, pairs of kind and value, on the machine. `start` and `each` are the price of a move, as for [`report`](crate::report()).
/// `answers` has a number for each event, `cache` as many as the task states, `memory` at least those of the deepest stack, and `work` at
/// least [`WORK`](crate::WORK), the first of which are 0 afterwards.
///
/// The run of a text of no byte has finished before the first event, which is refused by row 22 whatever its kind. The rows 18 and 19 refuse no `cache` and no
/// `memory` of it, and nothing in these and in `answers` changes.
#[allow(clippy::too_many_arguments, reason = "the C function has them")]
pub fn run(
    text: &[u8],
    start: u32,
    each: u32,
    events: &[u32],
    answers: &mut [u32],
    cache: &mut [u32],
    memory: &mut [u32],
    work: &mut [u32],
) -> RunResult {
    let call = |result: &mut [u64]| {
        raw::run(
            text, start, each, events, answers, cache, memory, work, result,
        )
    };
    result_of(call)
}

/// What [`run`] and [`run_lazy`] are: text, start, each, events, answers, cache, memory, working space.
pub type Run =
    fn(&[u8], u32, u32, &[u32], &mut [u32], &mut [u32], &mut [u32], &mut [u32]) -> RunResult;

/// Runs an event list on the core with a lazy pointer, which writes back only the blocks below it. What it is lent, returns and leaves is as for [`run`],
/// but for what is moved, which is no more.
#[allow(clippy::too_many_arguments, reason = "the C function has them")]
pub fn run_lazy(
    text: &[u8],
    start: u32,
    each: u32,
    events: &[u32],
    answers: &mut [u32],
    cache: &mut [u32],
    memory: &mut [u32],
    work: &mut [u32],
) -> RunResult {
    let call = |result: &mut [u64]| {
        raw::run_lazy(
            text, start, each, events, answers, cache, memory, work, result,
        )
    };
    result_of(call)
}

/// What a call returns that is lent a result of [`RUN_RESULT`] numbers.
fn result_of(call: impl FnOnce(&mut [u64]) -> u32) -> RunResult {
    let mut result = [0; RUN_RESULT];
    let answer = call(&mut result);
    debug_assert_eq!(answer, 1);
    RunResult {
        ending: Refusal::of(result[RESULT_CODE] as u32, result[RESULT_PLACE] as u32),
        done: result[RESULT_DONE] as u32,
        moved: result[RESULT_MOVED],
        allowed: result[RESULT_ALLOWED],
    }
}
