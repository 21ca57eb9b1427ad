//! The services that write bytes about a text: the proved archive against the second implementation.

use std::hint::black_box;
use std::time::Duration;

use felknost::Refusal;
use second::WriteResult;

use crate::texts::{points, report_texts};
use crate::timing::{grouped, micros, Rounds};
use crate::{EACH, START};

/// A call takes from two microseconds to some hundreds.
pub const ROUNDS: Rounds = Rounds {
    count: 200,
    length: Duration::from_micros(1_500),
    pack: 4,
};

type Proved = fn(&[u8], u32, u32, &mut [u8], &mut [u32]) -> Result<usize, Refusal>;
type Second = fn(&[u8], u32, u32, usize, &mut [u8]) -> WriteResult;

/// A service in both implementations, and the length of an output that is enough for every text.
pub struct Writer {
    pub proved: Proved,
    pub second: Second,
    pub output: usize,
}

impl Writer {
    /// A table of docs/BENCHMARKS.md. Its first and last column have these heads; `last` gives the cell there, from a text and the archive's seconds.
    pub fn table(&self, [first, end]: [&str; 2], mut last: impl FnMut(&[u8], f64) -> String) {
        println!("| {first} | Bytes | Points | Proved, µs | Second, µs | Ratio | {end} |");
        println!("|---|---|---|---|---|---|---|");
        for (name, text) in report_texts() {
            let [proved, second] = self.times(&text);
            println!(
                "| {name} | {} | {} | {} | {} | {:.2} | {} |",
                grouped(text.len()),
                grouped(points(&text)),
                micros(proved),
                micros(second),
                proved / second,
                last(&text, proved)
            );
        }
    }

    /// Seconds of both. A call gives the bytes written, or 0 where the text is refused.
    fn times(&self, text: &[u8]) -> [f64; 2] {
        let mut outputs = [vec![0; self.output], vec![0; self.output]];
        let mut spaces = [vec![0; felknost::WORK], vec![0; felknost::WORK]];
        let [output, other] = &mut outputs;
        let [work, space] = &mut spaces;
        let proved = &mut || {
            let written = (self.proved)(black_box(text), START, EACH, output, work);
            written.map_or(0, |written| written as u64)
        };
        // The second implementation is lent no working space. What the rules ask a service to leave in it is timed here too.
        let second = &mut || {
            let result = (self.second)(black_box(text), START, EACH, space.len(), other);
            space.fill(0);
            result.written.into()
        };
        ROUNDS.times([proved, second])
    }
}
