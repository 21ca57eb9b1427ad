//! Report, the dearest points and the runs on both cores as C calls them, with slices in place of pointers and lengths. The numbers of a result go to a
//! buffer; the answer is 1, or 0 with nothing touched where that buffer is too short.

/// A function that writes bytes about a text at a price.
pub type Writer = fn(&[u8], u32, u32, &mut [u8], &mut [u32], &mut [u64]) -> u32;

/// Declares a C function, and its call as a [`Writer`].
macro_rules! writer {
    ($(#[$doc:meta])* $name:ident calls $function:ident) => {
        extern "C" {
            fn $function(
                text: *const u8,
                text_length: usize,
                start: u32,
                each: u32,
                output: *mut u8,
                output_length: usize,
                work: *mut u32,
                work_length: usize,
                result: *mut u64,
                result_length: usize,
            ) -> u32;
        }

        $(#[$doc])*
        pub fn $name(
            text: &[u8],
            start: u32,
            each: u32,
            output: &mut [u8],
            work: &mut [u32],
            result: &mut [u64],
        ) -> u32 {
            // SAFETY: each pointer comes with the length of its slice, and the slices that are written do not overlap others, since they are unique
            // borrows.
            unsafe {
                $function(
                    text.as_ptr(),
                    text.len(),
                    start,
                    each,
                    output.as_mut_ptr(),
                    output.len(),
                    work.as_mut_ptr(),
                    work.len(),
                    result.as_mut_ptr(),
                    result.len(),
                )
            }
        }
    };
}

writer! {
    /// The report of a text at a price. `result` gets code, place and bytes written.
    report calls felknost_report
}

writer! {
    /// The dearest points of a text at a price. `result` is as for [`report`].
    dearest_points calls felknost_dearest_points
}

/// A function that runs an event list at a price.
pub type Runner =
    fn(&[u8], u32, u32, &[u32], &mut [u32], &mut [u32], &mut [u32], &mut [u32], &mut [u64]) -> u32;

/// Declares a C function, and its call as a [`Runner`].
macro_rules! runner {
    ($(#[$doc:meta])* $name:ident calls $function:ident) => {
        extern "C" {
            fn $function(
                text: *const u8,
                text_length: usize,
                start: u32,
                each: u32,
                events: *const u32,
                events_length: usize,
                answers: *mut u32,
                answers_length: usize,
                cache: *mut u32,
                cache_length: usize,
                memory: *mut u32,
                memory_length: usize,
                work: *mut u32,
                work_length: usize,
                result: *mut u64,
                result_length: usize,
            ) -> u32;
        }

        $(#[$doc])*
        #[allow(clippy::too_many_arguments, reason = "the C function has them")]
        pub fn $name(
            text: &[u8],
            start: u32,
            each: u32,
            events: &[u32],
            answers: &mut [u32],
            cache: &mut [u32],
            memory: &mut [u32],
            work: &mut [u32],
            result: &mut [u64],
        ) -> u32 {
            // SAFETY: as above.
            unsafe {
                $function(
                    text.as_ptr(),
                    text.len(),
                    start,
                    each,
                    events.as_ptr(),
                    events.len(),
                    answers.as_mut_ptr(),
                    answers.len(),
                    cache.as_mut_ptr(),
                    cache.len(),
                    memory.as_mut_ptr(),
                    memory.len(),
                    work.as_mut_ptr(),
                    work.len(),
                    result.as_mut_ptr(),
                    result.len(),
                )
            }
        }
    };
}

runner! {
    /// The run of an event list at a price. `result` gets code, place, events done, moved and allowed.
    run calls felknost_run
}

runner! {
    /// The same run on the core with a lazy pointer. Nothing but moved differs from [`run`].
    run_lazy calls felknost_run_lazy
}
