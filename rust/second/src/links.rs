//! The rows 7 to 10: calls, ensures, jump targets and last points.

use crate::refusal::{Row, Verdict};
use crate::text::{Point, Task};

/// Refuses the first line that meets one of the rows 7 to 10, with its smallest code.
pub fn check(task: &Task) -> Verdict {
    let funcs = task.funcs.len();
    for (number, func) in task.funcs.iter().enumerate() {
        let points = task.points_of(func);
        let links = Links {
            points,
            frame: func.frame,
            callees: number + 1..funcs,
        };
        for (index, &point) in points.iter().enumerate() {
            if let Some(row) = links.row_met(index, point) {
                return Err(row.at(func.point_line(index)));
            }
        }
        // The last point has the last line and row 10 the largest code, so this comes last.
        let last = points.len() - 1;
        if !matches!(
            points[last],
            Point::Goto(_) | Point::Either(..) | Point::Return
        ) {
            return Err(Row::LastPoint.at(func.point_line(last)));
        }
    }
    Ok(())
}

/// What the points of one function may refer to.
struct Links<'a> {
    points: &'a [Point],
    frame: u32,
    callees: std::ops::Range<usize>,
}

impl Links<'_> {
    /// The smallest of the rows 7 to 9 that a point meets.
    fn row_met(&self, index: usize, point: Point) -> Option<Row> {
        match point {
            Point::Call(callee) if !self.callees.contains(&(callee as usize)) => Some(Row::Callee),
            Point::Call(_) => {
                let paired = matches!(self.points.get(index + 1), Some(Point::Ensure(_)));
                (!paired).then_some(Row::Pairing)
            }
            Point::Ensure(frame) => {
                let called = index > 0 && matches!(self.points[index - 1], Point::Call(_));
                let paired = called && u32::from(frame) == self.frame;
                (!paired).then_some(Row::Pairing)
            }
            Point::Goto(target) => (!self.may_jump_to(target)).then_some(Row::Target),
            Point::Either(first, second) => {
                let both = self.may_jump_to(first) && self.may_jump_to(second);
                (!both).then_some(Row::Target)
            }
            Point::Load(_) | Point::Store(_) | Point::Return => None,
        }
    }

    /// Whether `target` is a point of the function and no ensure.
    fn may_jump_to(&self, target: u16) -> bool {
        !matches!(
            self.points.get(target as usize),
            None | Some(Point::Ensure(_))
        )
    }
}
