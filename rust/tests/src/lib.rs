//! Each service, called in the proved archive and in the second implementation. The two have to agree, and in the archive nothing but what
//! the rules name may change. A run is made on both cores.

mod bounds;
mod cores;
mod guarded;
mod named;
mod rules;
mod services;
mod sheets;
mod sources;
mod texts;
mod written;

pub use bounds::Allowed;
pub use cores::{all_done, assert_short_run_results, run, run_at, run_both_at, BothRan, Lent, Ran};
pub use guarded::{is_noise_from, noise, Guarded, Noise};
pub use named::Named;
pub use rules::{figures_of, report_by, run_by};
pub use services::{check, verdict};
pub use sheets::{
    func_lines, once_of, rows, split_once, split_total, sum_of_costs, whole_report, FuncLines,
};
pub use sources::{header_number, header_numbers, source, spec_number};
pub use texts::{called, deep, largest, prices, steps, text, TWO};
pub use written::{
    assert_binding, assert_short_results, dearest_points_at, report, report_at, Wanted, Written,
};
