//! Walks inside one function: reachability, unstored offsets, and solutions over all walks.

use crate::refusal::{Row, Verdict};
use crate::text::{Point, Task, FUNC_POINTS_MAX};

const WORDS: usize = FUNC_POINTS_MAX / 64;

/// A set of points of one function.
#[derive(Clone, Copy, Default)]
struct PointSet([u64; WORDS]);

impl PointSet {
    /// Adds a point and tells whether it is new.
    fn insert(&mut self, index: usize) -> bool {
        let bit = 1 << (index % 64);
        let word = &mut self.0[index / 64];
        let new = *word & bit == 0;
        *word |= bit;
        new
    }

    /// The smallest point that is not in the set.
    fn first_absent(&self) -> usize {
        let at = self.0.iter().position(|&word| word != u64::MAX);
        at.map_or(FUNC_POINTS_MAX, |at| {
            at * 64 + self.0[at].trailing_ones() as usize
        })
    }
}

/// Hands each point that `point` at `index` leads to, to `take`.
fn each_lead(index: usize, point: Point, mut take: impl FnMut(usize)) {
    match point {
        Point::Goto(target) => take(target as usize),
        Point::Either(first, second) => {
            take(first as usize);
            take(second as usize);
        }
        Point::Return => {}
        Point::Load(_) | Point::Store(_) | Point::Call(_) | Point::Ensure(_) => take(index + 1),
    }
}

/// The set of all offsets of a frame.
fn all_offsets(frame: u32) -> u64 {
    u64::MAX.checked_shr(64 - frame).unwrap_or(0)
}

/// What the walks from point 0 of one function reach. One survey serves all functions, so that
/// its vectors are allocated once.
#[derive(Default)]
struct Survey {
    reached: PointSet,
    /// At each point, the offsets that some walk from point 0 has not stored before it.
    unstored: Vec<u64>,
    /// Points that were reached anew and not yet followed.
    pending: Vec<u16>,
    /// The first load of an unstored offset.
    load: Option<usize>,
    /// The functions called so far.
    called: u64,
}

impl Survey {
    /// Adds `set` at a point and tells whether the point has to be followed again.
    fn flow(&mut self, point: usize, set: u64) -> bool {
        let grown = self.unstored[point] | set;
        let changed = grown != self.unstored[point];
        self.unstored[point] = grown;
        self.reached.insert(point) || changed
    }

    /// Surveys one function. Sets only grow and a store acts on its offset alone, so the sets
    /// are the unions over all walks once nothing is pending.
    fn of(&mut self, points: &[Point], frame: u32) {
        self.reached = PointSet::default();
        self.unstored.clear();
        self.unstored.resize(points.len(), 0);
        self.load = None;
        self.flow(0, all_offsets(frame));
        self.pending.push(0);
        while let Some(start) = self.pending.pop() {
            let mut index = start as usize;
            while let Some((next, set)) = self.visit(index, points[index]) {
                if !self.flow(next, set) {
                    break;
                }
                index = next;
            }
        }
    }

    /// Notes what a point does. Gives the point to follow next with its set; an either leaves
    /// its second one pending.
    fn visit(&mut self, index: usize, point: Point) -> Option<(usize, u64)> {
        let set = self.unstored[index];
        match point {
            Point::Load(offset) => {
                if set >> offset & 1 == 1 {
                    self.load = Some(self.load.map_or(index, |first| first.min(index)));
                }
                Some((index + 1, set))
            }
            Point::Store(offset) => Some((index + 1, set & !(1 << offset))),
            Point::Call(callee) => {
                self.called |= 1 << callee;
                Some((index + 1, set))
            }
            Point::Ensure(_) => Some((index + 1, set)),
            Point::Goto(target) => Some((target as usize, set)),
            Point::Either(first, second) => {
                if self.flow(second as usize, set) {
                    self.pending.push(second);
                }
                Some((first as usize, set))
            }
            Point::Return => None,
        }
    }
}

/// Refuses by the rows 11, 12 and 13, in this order, each at its first line.
pub fn check(task: &Task) -> Verdict {
    let mut survey = Survey {
        called: 1,
        ..Survey::default()
    };
    let mut unstored_load = Ok(());
    for func in &task.funcs {
        survey.of(task.points_of(func), func.frame);
        let absent = survey.reached.first_absent();
        if absent < func.count {
            return Err(Row::Unreachable.at(func.point_line(absent)));
        }
        if let (Ok(()), Some(index)) = (unstored_load, survey.load) {
            unstored_load = Err(Row::Uninitialised.at(func.point_line(index)));
        }
    }
    let never = survey.called.trailing_ones() as usize;
    match task.funcs.get(never) {
        Some(func) => Err(Row::Uncalled.at(func.line)),
        None => unstored_load,
    }
}

/// Whether point 0 leads to a return without passing a call of a function that is `barred`.
pub fn returns_without(points: &[Point], barred: impl Fn(usize) -> bool) -> bool {
    let mut reached = PointSet::default();
    let mut pending = vec![0];
    while let Some(index) = pending.pop() {
        if reached.insert(index) {
            match points[index] {
                Point::Return => return true,
                Point::Call(callee) if barred(callee as usize) => {}
                point => each_lead(index, point, |next| pending.push(next)),
            }
        }
    }
    false
}

/// The largest value at each point over all walks from point 0, where it is `start`; `step` gives
/// the value after a point. It is monotone, so the largest value before gives the largest after.
pub fn largest_forward(
    points: &[Point],
    start: u32,
    step: impl Fn(usize, u32) -> u32,
) -> Vec<Option<u32>> {
    let mut values = vec![None; points.len()];
    values[0] = Some(start);
    let mut changed = true;
    while changed {
        changed = false;
        for (index, &point) in points.iter().enumerate() {
            let Some(value) = values[index] else { continue };
            let after = Some(step(index, value));
            each_lead(index, point, |next| {
                // None is below every number.
                if after > values[next] {
                    values[next] = after;
                    changed = true;
                }
            });
        }
    }
    values
}

/// The join, at each point, over all walks from it; `step` gives the value at a point from the
/// one after it. Rounds repeat until nothing changes, so every finite walk has been followed back.
pub fn join_backward<T: Copy + Default + PartialEq>(
    points: &[Point],
    join: impl Fn(T, T) -> T,
    step: impl Fn(usize, T) -> T,
) -> Vec<T> {
    let mut values = vec![T::default(); points.len()];
    let mut changed = true;
    while changed {
        changed = false;
        for (index, &point) in points.iter().enumerate().rev() {
            let mut after = T::default();
            each_lead(index, point, |next| after = join(after, values[next]));
            let value = step(index, after);
            changed |= value != values[index];
            values[index] = value;
        }
    }
    values
}
