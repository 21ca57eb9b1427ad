//! The figures of an accepted task. Displacements, occupancies and offsets are blocks; what bounds
//! moves is a price.

use crate::machine;
use crate::price::Price;
use crate::text::{Func, Point, Task};
use crate::walks;

/// The figures of one function.
#[derive(Clone, Copy, Debug, Default, PartialEq, Eq)]
pub struct FuncFigures {
    /// The smallest displacement of a run of the function.
    pub shortest: u32,
    /// The largest displacement of a run of the function.
    pub longest: u32,
    /// The largest occupancy at a call of the function.
    pub entry: u32,
    /// The bound on the price of the spill when the function is entered.
    pub spill: u32,
    /// The bound on the price of what the ensures of all callers fill after a preemption.
    pub chain: u32,
}

/// The figures of one point.
#[derive(Clone, Copy, Debug, Default, PartialEq, Eq)]
pub struct PointFigures {
    /// The largest occupancy at the point.
    pub high: u32,
    /// The smallest live offset, or the frame.
    pub dead: u32,
    /// The end of the offsets used before the next ensure.
    pub need: u32,
    /// The bound on the price of the blocks written at a preemption.
    pub save: u32,
    /// The bound on the price of the blocks read back at a preemption.
    pub reload: u32,
    /// The bound on the price of what the next ensure of the frame fills after a preemption.
    pub later: u32,
    /// The chain of the function.
    pub chain: u32,
    /// The bound on the price of all moves because of a preemption.
    pub cost: u32,
    /// The bound on the price of the blocks filled by an ensure; 0 at other points.
    pub fill: u32,
    /// Where blocks are counted, the bound on all of them that move because of the only preemption of
    /// a run.
    pub once: Option<u32>,
}

/// The figures of a task, in the order of its functions and of its points.
#[derive(Clone, Debug)]
pub struct Figures {
    /// One entry per function.
    pub funcs: Vec<FuncFigures>,
    /// One entry per point of the task.
    pub points: Vec<PointFigures>,
}

/// The rule for the smallest displacement of a function that has calls.
#[derive(Clone, Copy, Debug, PartialEq, Eq)]
pub enum Displacement {
    /// The frame where some walk to a return makes no call, else the frame and the smallest of all
    /// calls.
    Smallest,
    /// The frame and, of all walks to a return, the smallest of the largest call of each. Where no
    /// return can be reached, as the other rule says.
    Walks,
}

/// Works out all figures at a price. The task must have passed the checks.
pub fn figures(task: &Task, price: Price) -> Figures {
    figures_by(Displacement::Walks, task, price)
}

/// Works out all figures at a price, with the smallest displacements by a rule.
pub fn figures_by(rule: Displacement, task: &Task, price: Price) -> Figures {
    let mut figures = Figures {
        funcs: vec![FuncFigures::default(); task.funcs.len()],
        points: vec![PointFigures::default(); task.points.len()],
    };
    // Calls go to later functions: callees first for displacement, callers first for occupancy.
    for number in (0..task.funcs.len()).rev() {
        displacement(rule, task, number, &mut figures.funcs);
    }
    for number in 0..task.funcs.len() {
        fills(task, number, &mut figures);
        occupancy(task, number, &mut figures);
        chains(task, number, price, &mut figures);
        liveness(task, number, &mut figures);
        costs(task, number, price, &mut figures);
    }
    figures
}

fn callees<'a>(points: &'a [Point]) -> impl Iterator<Item = usize> + 'a {
    points.iter().filter_map(|point| match point {
        Point::Call(callee) => Some(*callee as usize),
        _ => None,
    })
}

fn displacement(rule: Displacement, task: &Task, number: usize, funcs: &mut [FuncFigures]) {
    let func = &task.funcs[number];
    let points = task.points_of(func);
    let longest = callees(points).map(|callee| funcs[callee].longest).max();
    funcs[number].longest = func.frame + longest.unwrap_or(0);
    let on_walks = match rule {
        Displacement::Smallest => walks::returns_without(points, |_| true).then_some(0),
        Displacement::Walks => least_on_walks(points, funcs),
    };
    let smallest = || callees(points).map(|callee| funcs[callee].shortest).min();
    funcs[number].shortest = func.frame + on_walks.or_else(smallest).unwrap_or(0);
}

/// The smallest, over walks to a return, of the largest displacement called on the walk: the first
/// bound such that a return is reached past no call above it. None where no return can be reached.
fn least_on_walks(points: &[Point], funcs: &[FuncFigures]) -> Option<u32> {
    let called = callees(points).map(|callee| funcs[callee].shortest);
    let mut bounds: Vec<u32> = called.chain([0]).collect();
    bounds.sort_unstable();
    bounds.dedup();
    bounds.into_iter().find(|&bound| {
        let above = |callee: usize| funcs[callee].shortest > bound;
        walks::returns_without(points, above)
    })
}

/// Sets the fill of each ensure of a function, in blocks.
fn fills(task: &Task, number: usize, figures: &mut Figures) {
    let Func {
        frame,
        first,
        count,
        ..
    } = task.funcs[number];
    for index in first + 1..first + count {
        if let Point::Call(callee) = task.points[index - 1] {
            let left = task
                .stack
                .saturating_sub(figures.funcs[callee as usize].longest);
            figures.points[index].fill = frame.saturating_sub(left);
        }
    }
}

/// Sets spill, in blocks, and high of a function, and raises the entry occupancy of its callees.
fn occupancy(task: &Task, number: usize, figures: &mut Figures) {
    let func = &task.funcs[number];
    let points = task.points_of(func);
    let wanted = figures.funcs[number].entry + func.frame;
    figures.funcs[number].spill = wanted.saturating_sub(task.stack);
    let highs = walks::largest_forward(points, wanted.min(task.stack), |index, high| match points
        [index]
    {
        Point::Call(callee) => {
            let shortest = figures.funcs[callee as usize].shortest;
            high.min(task.stack.saturating_sub(shortest))
        }
        Point::Ensure(_) => high.max(func.frame),
        _ => high,
    });
    for (index, high) in highs.into_iter().enumerate() {
        let high = high.expect("every point of an accepted task is reachable");
        figures.points[func.first + index].high = high;
        if let Point::Call(callee) = points[index] {
            let entry = &mut figures.funcs[callee as usize].entry;
            *entry = high.max(*entry);
        }
    }
}

/// Raises the chain of the callees of a function; each caller's share is a move of its own.
fn chains(task: &Task, number: usize, price: Price, figures: &mut Figures) {
    let func = &task.funcs[number];
    let chain = figures.funcs[number].chain;
    for (index, &point) in task.points_of(func).iter().enumerate() {
        if let Point::Call(callee) = point {
            let fill = figures.points[func.first + index + 1].fill;
            let below = &mut figures.funcs[callee as usize].chain;
            *below = (chain + price.of(func.frame - fill)).max(*below);
        }
    }
}

/// Sets dead, need and, in blocks, later of a function.
fn liveness(task: &Task, number: usize, figures: &mut Figures) {
    let func = &task.funcs[number];
    let points = task.points_of(func);
    let own = &mut figures.points[func.first..func.first + func.count];
    let live = walks::join_backward(
        points,
        |a: u64, b| a | b,
        |index, after| match points[index] {
            Point::Load(offset) => after | 1 << offset,
            Point::Store(offset) => after & !(1 << offset),
            _ => after,
        },
    );
    let need = walks::join_backward(points, u32::max, |index, after| match points[index] {
        Point::Load(offset) | Point::Store(offset) => after.max(u32::from(offset) + 1),
        Point::Ensure(_) => 0,
        _ => after,
    });
    let kept = walks::join_backward(points, u32::max, |index, after| match points[index] {
        Point::Ensure(_) => func.frame - own[index].fill,
        _ => after,
    });
    for (index, figure) in own.iter_mut().enumerate() {
        // The frame is the answer when no offset is live: all live ones are below it.
        figure.dead = live[index].trailing_zeros().min(func.frame);
        figure.need = need[index];
        figure.later = kept[index].saturating_sub(need[index]);
    }
}

/// Sets the figures that follow from the others, and prices what the others have in blocks.
fn costs(task: &Task, number: usize, price: Price, figures: &mut Figures) {
    let func = &task.funcs[number];
    let own = &mut figures.funcs[number];
    own.spill = price.of(own.spill);
    let chain = own.chain;
    for figure in &mut figures.points[func.first..func.first + func.count] {
        figure.save = price.of(figure.high.saturating_sub(figure.dead));
        figure.reload = price.of(figure.need.saturating_sub(figure.dead));
        figure.later = price.of(figure.later);
        figure.fill = price.of(figure.fill);
        figure.chain = chain;
        figure.cost = figure.save + figure.reload + figure.later + chain;
        figure.once = (price == Price::BLOCKS).then(|| most_moved(figure));
    }
}

/// The most blocks that move because of the only preemption of a run, over all occupancies that the
/// point may have: those that it writes and reads back itself, and those that are missing behind it, as
/// far as ensures fill them later.
fn most_moved(figure: &PointFigures) -> u32 {
    let (dead, need) = (figure.dead as usize, figure.need as usize);
    let filled = (figure.later + figure.chain) as usize;
    let moved = |occupancy| {
        let (written, read, after) = machine::preempt(occupancy, dead, need);
        written + read + filled.min(occupancy - after)
    };
    let most = (0..=figure.high as usize).map(moved).max();
    most.unwrap_or(0) as u32
}
