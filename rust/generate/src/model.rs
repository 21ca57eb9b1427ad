//! A task as a tree, and its text. Nothing here checks a number.

use std::fmt::Write;

/// One point.
#[derive(Clone, Copy, Debug, PartialEq, Eq)]
pub enum Point {
    /// Load at an offset.
    Load(usize),
    /// Store at an offset.
    Store(usize),
    /// Call of a function.
    Call(usize),
    /// Ensure of a frame.
    Ensure(usize),
    /// Jump to a point.
    Goto(usize),
    /// Jump to one of two points.
    Either(usize, usize),
    /// Return to the caller.
    Return,
}

/// A function.
#[derive(Clone, Debug)]
pub struct Func {
    /// The frame in blocks.
    pub frame: usize,
    /// The points.
    pub points: Vec<Point>,
}

/// A task.
#[derive(Clone, Debug)]
pub struct Task {
    /// The number of cache blocks.
    pub stack: usize,
    /// The functions.
    pub funcs: Vec<Func>,
}

impl Point {
    /// The points that this one at `index` leads to.
    pub fn leads(self, index: usize) -> impl Iterator<Item = usize> {
        let leads = match self {
            Point::Goto(target) => [Some(target), None],
            Point::Either(first, second) => [Some(first), Some(second)],
            Point::Return => [None, None],
            _ => [Some(index + 1), None],
        };
        leads.into_iter().flatten()
    }

    fn print(self, text: &mut String) {
        // Writing to a string does not fail.
        let _ = match self {
            Point::Load(offset) => writeln!(text, "  (load {offset})"),
            Point::Store(offset) => writeln!(text, "  (store {offset})"),
            Point::Call(func) => writeln!(text, "  (call {func})"),
            Point::Ensure(frame) => writeln!(text, "  (ensure {frame})"),
            Point::Goto(target) => writeln!(text, "  (goto {target})"),
            Point::Either(first, second) => writeln!(text, "  (either {first} {second})"),
            Point::Return => writeln!(text, "  (return)"),
        };
    }
}

impl Func {
    /// The callees of all call points.
    pub fn callees(&self) -> impl Iterator<Item = usize> + '_ {
        self.points.iter().filter_map(|point| match point {
            Point::Call(callee) => Some(*callee),
            _ => None,
        })
    }
}

impl Task {
    /// The text of the task.
    pub fn text(&self) -> Vec<u8> {
        let mut text = format!("(stack {})\n", self.stack);
        for func in &self.funcs {
            let _ = writeln!(text, "(func {}", func.frame);
            for &point in &func.points {
                point.print(&mut text);
            }
            text.push_str(")\n");
        }
        text.into_bytes()
    }

    /// The blocks of the deepest stack of a valid task.
    pub fn deepest(&self) -> usize {
        let mut depths = vec![0; self.funcs.len()];
        for (number, func) in self.funcs.iter().enumerate().rev() {
            let below = func.callees().map(|callee| depths[callee]).max();
            depths[number] = func.frame + below.unwrap_or(0);
        }
        depths[0]
    }
}
