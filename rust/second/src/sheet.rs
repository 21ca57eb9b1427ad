//! The report: the figures as text, and the sum of their costs.

use std::fmt::Write;

use crate::figures::{Figures, PointFigures};
use crate::text::Task;
use crate::written::{write, WriteResult};

/// Writes the report of a text at a price to the front of `out`.
pub fn report(text: &[u8], start: u32, each: u32, work_len: usize, out: &mut [u8]) -> WriteResult {
    write(print, text, start, each, work_len, out)
}

/// The last field in the line of a point, where blocks are counted.
#[derive(Clone, Copy, Debug, PartialEq, Eq)]
pub enum Last {
    /// The fill, as before request 7 and at every other price.
    Fill,
    /// The bound on what moves because of the only preemption of a run.
    Once,
}

/// What stands between the lines of the functions and the last line of a report.
#[derive(Clone, Copy, Debug, PartialEq, Eq)]
pub enum Foot {
    /// Nothing, as before request 5.
    None,
    /// A line with the total of the costs of all points.
    Total,
}

/// The report as a string.
pub fn print(task: &Task, figures: &Figures) -> String {
    print_with(Last::Once, Foot::Total, task, figures)
}

/// The report as a string, with this last field and this foot.
pub fn print_with(last: Last, foot: Foot, task: &Task, figures: &Figures) -> String {
    let mut sheet = String::from("(report\n");
    let mut total = 0;
    for (number, func) in task.funcs.iter().enumerate() {
        let own = &figures.funcs[number];
        let row = [func.frame, own.shortest, own.longest, own.spill, own.chain];
        line(&mut sheet, "func", number, &row);
        let points = &figures.points[func.first..func.first + func.count];
        for (index, point) in points.iter().enumerate() {
            line(&mut sheet, "at", index, &point_row(last, point));
            total += u64::from(point.cost);
        }
    }
    if foot == Foot::Total {
        // Writing to a string does not fail.
        let _ = writeln!(sheet, "  (total {total})");
    }
    sheet.push_str(")\n");
    sheet
}

/// The numbers in the line of a point behind its own.
fn point_row(last: Last, point: &PointFigures) -> Vec<u32> {
    let mut row = vec![
        point.high,
        point.dead,
        point.need,
        point.save,
        point.reload,
        point.later,
        point.chain,
        point.cost,
        point.fill,
    ];
    if last == Last::Once {
        row.extend(point.once);
    }
    row
}

fn line(sheet: &mut String, word: &str, number: usize, row: &[u32]) {
    // Writing to a string does not fail.
    let _ = write!(sheet, "  ({word} {number}");
    for value in row {
        let _ = write!(sheet, " {value}");
    }
    sheet.push_str(")\n");
}
