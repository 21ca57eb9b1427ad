//! A second implementation of the preemption sheet: check, report, the dearest points and run, on a
//! core with a lazy pointer and on one without, over one task text.
//!
//! It is written for comparison with another implementation and depends on nothing else.

#![forbid(unsafe_code)]
#![warn(missing_docs)]

pub mod dearest;
pub mod figures;
pub mod lazy;
pub mod links;
pub mod machine;
pub mod plain;
pub mod price;
pub mod refusal;
pub mod run;
pub mod sheet;
pub mod text;
pub mod walks;
pub mod written;

pub use dearest::dearest_points;
pub use price::Price;
pub use refusal::{code_and_place, Refusal, Row, Verdict};
pub use run::{run, run_lazy, RunResult};
pub use sheet::report;
pub use written::WriteResult;

use text::{Task, TEXT_MAX};

/// The working numbers that each service is lent at least.
pub const WORK_MIN: usize = 16_384;

/// Checks a text: acceptance, or the first refusal in the order of the rules.
pub fn check(text: &[u8], work_len: usize) -> Verdict {
    admit(text, work_len).map(|_| ())
}

/// Reads a text that passes the rows 15 and 1 to 13.
pub fn admit(text: &[u8], work_len: usize) -> Result<Task, Refusal> {
    fits(work_len)?;
    read(text)
}

/// Takes a price and reads a text that pass the rows 15, 23 and 1 to 13.
pub fn admit_at(
    text: &[u8],
    start: u32,
    each: u32,
    work_len: usize,
) -> Result<(Task, Price), Refusal> {
    fits(work_len)?;
    let price = Price::new(start, each)?;
    Ok((read(text)?, price))
}

/// Refuses by row 15.
fn fits(work_len: usize) -> Verdict {
    if work_len < WORK_MIN {
        return Err(Row::WorkTooSmall.at(WORK_MIN as u32));
    }
    Ok(())
}

/// Reads a text, or refuses by the rows 1 to 13.
fn read(text: &[u8]) -> Result<Task, Refusal> {
    if text.len() > TEXT_MAX {
        return Err(Row::TextTooLong.at(0));
    }
    let task = text::read(text)?;
    links::check(&task)?;
    walks::check(&task)?;
    Ok(task)
}
