//! Report: the proved archive against the second implementation, and the share of check in its time.

use std::hint::black_box;

use crate::check;
use crate::written::Writer;

/// The second table of docs/BENCHMARKS.md.
pub fn table() {
    let report = Writer {
        proved: felknost::report,
        second: second::report,
        output: felknost::OUTPUT,
    };
    report.table(["Text of a report", "Share of check"], |text, proved| {
        let [check] = check::ROUNDS.times([&mut || check::proved(black_box(text))]);
        format!("{:.0} %", 100.0 * check / proved)
    });
}
