//! Check: the proved archive against the second implementation.

use std::hint::black_box;
use std::time::Duration;

use crate::texts::{points, texts};
use crate::timing::{grouped, micros, Rounds};

/// A check takes from a tenth of a microsecond to some twenty.
pub const ROUNDS: Rounds = Rounds {
    count: 200,
    length: Duration::from_micros(1_500),
    pack: 64,
};

/// The code that the archive gives.
pub fn proved(text: &[u8]) -> u64 {
    felknost::check(text)
        .map_or_else(|refusal| refusal.row.code(), |()| 0)
        .into()
}

/// The code that the second implementation gives.
pub fn second(text: &[u8]) -> u64 {
    second::check(text, second::WORK_MIN)
        .map_or_else(|refusal| refusal.row.code(), |()| 0)
        .into()
}

/// The first table of docs/BENCHMARKS.md.
pub fn table() {
    println!("| Text | Bytes | Points | Proved, µs | Second, µs | Ratio |");
    println!("|---|---|---|---|---|---|");
    for (name, text) in texts() {
        let [proved, second] = ROUNDS.times([&mut || proved(black_box(&text)), &mut || {
            second(black_box(&text))
        }]);
        println!(
            "| {name} | {} | {} | {} | {} | {:.2} |",
            grouped(text.len()),
            grouped(points(&text)),
            micros(proved),
            micros(second),
            proved / second
        );
    }
}
