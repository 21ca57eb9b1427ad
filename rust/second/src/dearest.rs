//! The ten dearest points: all records of the sheet, sorted.

use std::cmp::Ordering;
use std::fmt::Write;

use crate::figures::Figures;
use crate::text::Task;
use crate::written::{write, WriteResult};

/// The most points of a list.
const MOST: usize = 10;

/// A point of a function, its cost, and what a preemption there saves.
struct Record {
    func: usize,
    point: usize,
    cost: u32,
    save: u32,
}

impl Record {
    /// Falling cost, equal costs by falling save, then by rising function, then by rising point.
    fn order(&self, other: &Record) -> Ordering {
        other
            .cost
            .cmp(&self.cost)
            .then(other.save.cmp(&self.save))
            .then(self.func.cmp(&other.func))
            .then(self.point.cmp(&other.point))
    }
}

/// Writes the ten dearest points of a text at a price to the front of `out`.
pub fn dearest_points(
    text: &[u8],
    start: u32,
    each: u32,
    work_len: usize,
    out: &mut [u8],
) -> WriteResult {
    write(print, text, start, each, work_len, out)
}

/// The list as a string.
pub fn print(task: &Task, figures: &Figures) -> String {
    let mut records = records(task, figures);
    records.sort_by(Record::order);
    let mut list = String::new();
    for record in records.iter().take(MOST) {
        let (func, point, cost) = (record.func, record.point, record.cost);
        // Writing to a string does not fail.
        let _ = writeln!(list, "(dear {func} {point} {cost})");
    }
    list
}

/// The records of all points, in the order of the report.
fn records(task: &Task, figures: &Figures) -> Vec<Record> {
    let mut records = Vec::with_capacity(figures.points.len());
    for (number, func) in task.funcs.iter().enumerate() {
        let points = &figures.points[func.first..func.first + func.count];
        records.extend(points.iter().enumerate().map(|(point, figure)| Record {
            func: number,
            point,
            cost: figure.cost,
            save: figure.save,
        }));
    }
    records
}
