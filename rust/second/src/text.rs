//! The task text: its limits, its parts, and a reader for the rows 2 to 6.

use crate::refusal::{Refusal, Row};

/// The most bytes of a text.
pub const TEXT_MAX: usize = 32_768;
/// The most cache blocks.
pub const STACK_MAX: u32 = 64;
/// The most functions of a task.
pub const FUNCS_MAX: usize = 64;
/// The most points of one function.
pub const FUNC_POINTS_MAX: usize = 256;
/// The most points of a task.
pub const POINTS_MAX: usize = 1_024;

/// One point. Numbers are as written; they are in range only after the checks.
#[derive(Clone, Copy, Debug, PartialEq, Eq)]
pub enum Point {
    /// Load at an offset.
    Load(u16),
    /// Store at an offset.
    Store(u16),
    /// Call of a function.
    Call(u16),
    /// Ensure of a frame.
    Ensure(u16),
    /// Jump to a point.
    Goto(u16),
    /// Jump to one of two points.
    Either(u16, u16),
    /// Return to the caller.
    Return,
}

/// A function: its frame and where its points are.
#[derive(Clone, Copy, Debug)]
pub struct Func {
    /// The frame in blocks.
    pub frame: u32,
    /// The line that opens the function; the points are on the lines after it.
    pub line: u32,
    /// The index of its point 0 among all points of the task.
    pub first: usize,
    /// The number of its points.
    pub count: usize,
}

impl Func {
    /// The line of point `index`.
    pub fn point_line(&self, index: usize) -> u32 {
        self.line + 1 + index as u32
    }
}

/// A task as read. The points of all functions are in one vector, in text order. The default is the
/// task without a stack: no cache block and no function.
#[derive(Clone, Debug, Default)]
pub struct Task {
    /// The number of cache blocks.
    pub stack: u32,
    /// The functions in text order.
    pub funcs: Vec<Func>,
    /// The points in text order.
    pub points: Vec<Point>,
}

impl Task {
    /// The function that a run enters. A task without a stack has none.
    pub fn entry(&self) -> Option<&Func> {
        self.funcs.first()
    }

    /// The points of one function.
    pub fn points_of(&self, func: &Func) -> &[Point] {
        &self.points[func.first..func.first + func.count]
    }
}

/// Reads a text. One of no byte is the task without a stack. In others the first line that meets one
/// of the rows 2 to 6 decides, with its smallest code.
pub fn read(text: &[u8]) -> Result<Task, Refusal> {
    if text.is_empty() {
        return Ok(Task::default());
    }
    let mut reader = Reader {
        rest: text,
        line: 1,
    };
    let stack = reader.stack_line()?;
    // The shortest point line has 11 bytes and the shortest function 20.
    let mut task = Task {
        stack,
        funcs: Vec::with_capacity((text.len() / 20).min(FUNCS_MAX)),
        points: Vec::with_capacity((text.len() / 11).min(POINTS_MAX)),
    };
    loop {
        reader.func(&mut task)?;
        if reader.rest.is_empty() {
            return Ok(task);
        }
    }
}

/// The text not yet read, and the number of the line that it begins with.
struct Reader<'a> {
    rest: &'a [u8],
    line: u32,
}

impl Reader<'_> {
    // Kept out of line, since it would spread the reader's loop.
    #[cold]
    fn refuse<T>(&self, row: Row) -> Result<T, Refusal> {
        Err(row.at(self.line))
    }

    /// Takes `word` off the front. Its length is known, so the comparison needs no loop.
    fn word<const N: usize>(&mut self, word: &[u8; N]) -> Option<()> {
        let (head, rest) = self.rest.split_first_chunk()?;
        if head != word {
            return None;
        }
        self.rest = rest;
        Some(())
    }

    /// Takes a digit off the front.
    fn digit(&mut self) -> Option<u16> {
        let (&byte, rest) = self.rest.split_first()?;
        let digit = byte.wrapping_sub(b'0');
        if digit > 9 {
            return None;
        }
        self.rest = rest;
        Some(u16::from(digit))
    }

    /// Takes a number off the front. A digit too many is left for the next word to fail on.
    fn number(&mut self) -> Option<u16> {
        let mut value = self.digit()?;
        let more = if value == 0 { 0 } else { 3 };
        for _ in 0..more {
            let Some(digit) = self.digit() else { break };
            value = value * 10 + digit;
        }
        Some(value)
    }

    /// Takes the opening word, one number and the end of the line.
    fn one<const N: usize, const M: usize>(
        &mut self,
        open: &[u8; N],
        close: &[u8; M],
    ) -> Option<u16> {
        self.word(open)?;
        let value = self.number()?;
        self.word(close)?;
        Some(value)
    }

    fn either(&mut self) -> Option<Point> {
        self.word(b"  (either ")?;
        let first = self.number()?;
        let second = self.one(b" ", b")\n")?;
        Some(Point::Either(first, second))
    }

    /// Takes a point line; the fourth and fifth byte tell the seven words apart.
    fn point(&mut self) -> Option<Point> {
        match (self.rest.get(3)?, self.rest.get(4)?) {
            (b'l', _) => self.one(b"  (load ", b")\n").map(Point::Load),
            (b's', _) => self.one(b"  (store ", b")\n").map(Point::Store),
            (b'c', _) => self.one(b"  (call ", b")\n").map(Point::Call),
            (b'e', b'n') => self.one(b"  (ensure ", b")\n").map(Point::Ensure),
            (b'g', _) => self.one(b"  (goto ", b")\n").map(Point::Goto),
            (b'e', _) => self.either(),
            (b'r', _) => self.word(b"  (return)\n").map(|()| Point::Return),
            _ => None,
        }
    }

    fn stack_line(&mut self) -> Result<u32, Refusal> {
        let Some(stack) = self.one(b"(stack ", b")\n") else {
            return self.refuse(Row::Form);
        };
        let stack = u32::from(stack);
        if !(1..=STACK_MAX).contains(&stack) {
            return self.refuse(Row::StackSize);
        }
        self.line += 1;
        Ok(stack)
    }

    fn func_line(&mut self, task: &mut Task) -> Result<u32, Refusal> {
        let Some(frame) = self.one(b"(func ", b"\n") else {
            return self.refuse(Row::Form);
        };
        let frame = u32::from(frame);
        if frame > task.stack {
            return self.refuse(Row::FrameSize);
        }
        if task.funcs.len() == FUNCS_MAX {
            return self.refuse(Row::TooMany);
        }
        self.line += 1;
        Ok(frame)
    }

    /// Reads a function from its opening line to its closing one.
    fn func(&mut self, task: &mut Task) -> Result<(), Refusal> {
        let line = self.line;
        let frame = self.func_line(task)?;
        let first = task.points.len();
        let mut count = 0;
        while count == 0 || self.word(b")\n").is_none() {
            let Some(point) = self.point() else {
                return self.refuse(Row::Form);
            };
            if let Point::Load(offset) | Point::Store(offset) = point {
                if u32::from(offset) >= frame {
                    return self.refuse(Row::Offset);
                }
            }
            if count == FUNC_POINTS_MAX || task.points.len() == POINTS_MAX {
                return self.refuse(Row::TooMany);
            }
            task.points.push(point);
            count += 1;
            self.line += 1;
        }
        self.line += 1;
        task.funcs.push(Func {
            frame,
            line,
            first,
            count,
        });
        Ok(())
    }
}
