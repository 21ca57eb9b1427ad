//! Valid tasks of varied shape.

use crate::model::{Func, Point, Task};
use crate::rng::Rng;

const FUNC_POINTS: usize = 256;
const POINTS: usize = 1_024;

/// A task that passes all checks.
pub fn task(rng: &mut Rng) -> Task {
    let stack = stack(rng);
    let count = func_count(rng);
    let calls = calls(rng, count);
    let sizes = sizes(rng, &calls);
    let cap = if rng.chance(1, 3) {
        stack.div_ceil(2)
    } else {
        stack
    };
    let mut funcs = Vec::with_capacity(count);
    for (callees, extra) in calls.iter().zip(sizes) {
        let frame = frame(rng, cap);
        funcs.push(func(rng, frame, callees, extra));
    }
    Task { stack, funcs }
}

/// A task of at most `most` points that passes all checks.
pub fn small(rng: &mut Rng, most: usize) -> Task {
    loop {
        let stack = rng.between(1, 4);
        let count = rng.between(1, most.div_ceil(3));
        let calls = calls(rng, count);
        let least: usize = calls.iter().map(|callees| 2 * callees.len() + 1).sum();
        let mut spare = match most.checked_sub(least) {
            Some(spare) => spare,
            None => continue,
        };
        let mut funcs = Vec::with_capacity(count);
        for callees in &calls {
            let extra = rng.between(0, spare);
            spare -= extra;
            let frame = rng.between(0, stack);
            funcs.push(func(rng, frame, callees, extra));
        }
        return Task { stack, funcs };
    }
}

fn stack(rng: &mut Rng) -> usize {
    match rng.below(10) {
        0..=4 => rng.between(1, 8),
        5..=8 => rng.between(1, 64),
        _ => rng.pick(&[1, 2, 63, 64]),
    }
}

fn func_count(rng: &mut Rng) -> usize {
    match rng.below(100) {
        0..=9 => 1,
        10..=49 => rng.between(2, 4),
        50..=89 => rng.between(5, 12),
        90..=97 => rng.between(13, 64),
        _ => 64,
    }
}

fn frame(rng: &mut Rng, cap: usize) -> usize {
    match rng.below(10) {
        0 => 0,
        1 => cap,
        _ => rng.between(1, cap),
    }
}

/// The callees of each function. Each function but the first has a caller before it.
pub fn calls(rng: &mut Rng, count: usize) -> Vec<Vec<usize>> {
    let mut calls = vec![Vec::new(); count];
    for callee in 1..count {
        let caller = if rng.chance(1, 2) {
            callee - 1
        } else {
            rng.below(callee)
        };
        calls[caller].push(callee);
    }
    if count > 1 {
        for _ in 0..rng.below(count / 2 + 1) {
            let caller = rng.below(count - 1);
            calls[caller].push(rng.between(caller + 1, count - 1));
        }
    }
    for callees in &mut calls {
        rng.shuffle(callees);
    }
    calls
}

/// The points of each function besides its calls, ensures and last point, within the limits.
fn sizes(rng: &mut Rng, calls: &[Vec<usize>]) -> Vec<usize> {
    let least: Vec<usize> = calls.iter().map(|callees| 2 * callees.len() + 1).collect();
    let mut spare = POINTS - least.iter().sum::<usize>();
    let most = rng.pick(&[0, 4, 4, 12, 12, 12, 30, 30, 70, FUNC_POINTS]);
    let exact = rng.chance(1, 20);
    let size = |least: &usize| {
        let limit = most.min(spare).min(FUNC_POINTS - least);
        let extra = if exact { limit } else { rng.between(0, limit) };
        spare -= extra;
        extra
    };
    least.iter().map(size).collect()
}

/// A function with the given calls and `extra` other points before its last one.
fn func(rng: &mut Rng, frame: usize, callees: &[usize], extra: usize) -> Func {
    let mut points = first_stores(rng, frame, extra);
    let mut parts: Vec<Vec<Point>> = callees
        .iter()
        .map(|&callee| vec![Point::Call(callee), Point::Ensure(frame)])
        .collect();
    for _ in points.len()..extra {
        parts.push(vec![filler(rng, frame)]);
    }
    rng.shuffle(&mut parts);
    points.extend(parts.into_iter().flatten());
    points.push(match rng.below(10) {
        0 => Point::Goto(0),
        1 | 2 => Point::Either(0, 0),
        _ => Point::Return,
    });
    set_targets(rng, &mut points);
    make_reachable(rng, &mut points);
    make_stored(rng, frame, &mut points);
    Func { frame, points }
}

/// Stores of some or all offsets, at most `extra` of them.
fn first_stores(rng: &mut Rng, frame: usize, extra: usize) -> Vec<Point> {
    let mut offsets: Vec<usize> = (0..frame).collect();
    if rng.chance(3, 4) {
        rng.shuffle(&mut offsets);
    }
    let most = frame.min(extra);
    let count = match rng.below(4) {
        0 => 0,
        1 => rng.between(0, most),
        _ => most,
    };
    offsets.into_iter().take(count).map(Point::Store).collect()
}

/// A point without calls; targets are set later.
fn filler(rng: &mut Rng, frame: usize) -> Point {
    match rng.below(20) {
        0..=6 if frame > 0 => Point::Load(rng.below(frame)),
        7..=11 if frame > 0 => Point::Store(rng.below(frame)),
        12 | 13 => Point::Goto(0),
        14 => Point::Return,
        _ => Point::Either(0, 0),
    }
}

/// A point that a jump at `index` may go to; near ones are more likely.
fn target(rng: &mut Rng, points: &[Point], index: usize) -> usize {
    let near = index + rng.between(1, 5);
    let wanted = if rng.chance(3, 5) && near < points.len() {
        near
    } else {
        rng.below(points.len())
    };
    match points[wanted] {
        // The call before the ensure is a point that may be jumped to.
        Point::Ensure(_) => wanted - 1,
        _ => wanted,
    }
}

fn set_targets(rng: &mut Rng, points: &mut [Point]) {
    for index in 0..points.len() {
        points[index] = match points[index] {
            Point::Goto(_) => Point::Goto(target(rng, points, index)),
            Point::Either(_, _) => {
                Point::Either(target(rng, points, index), target(rng, points, index))
            }
            point => point,
        };
    }
}

/// Marks the points of walks from `start`, but for those behind marked ones.
fn reach(points: &[Point], start: usize, reached: &mut [bool]) {
    let mut pending = vec![start];
    while let Some(index) = pending.pop() {
        if !reached[index] {
            reached[index] = true;
            pending.extend(points[index].leads(index));
        }
    }
}

/// Makes every point reachable. Each step adds a lead from a point to the next one and takes away no such lead, so the steps end. One may take
/// another lead away, so what is reached is worked out again until all is.
fn make_reachable(rng: &mut Rng, points: &mut [Point]) {
    let mut reached = vec![false; points.len()];
    loop {
        reached.fill(false);
        reach(points, 0, &mut reached);
        if reached.iter().all(|&seen| seen) {
            return;
        }
        for index in 1..points.len() {
            if !reached[index] {
                lead_on(rng, points, index);
                reach(points, index, &mut reached);
            }
        }
    }
}

/// Lets the point before `index` lead to it.
fn lead_on(rng: &mut Rng, points: &mut [Point], index: usize) {
    let before = &mut points[index - 1];
    *before = match (*before, rng.chance(1, 2)) {
        (Point::Goto(target), true) => Point::Either(target, index),
        (Point::Goto(target), false) => Point::Either(index, target),
        (Point::Either(first, _), true) => Point::Either(first, index),
        (Point::Either(_, second), false) => Point::Either(index, second),
        (_, true) => Point::Goto(index),
        (_, false) => Point::Either(index, index),
    };
}

/// The offsets, as bits, that every walk from point 0 has stored before each point.
fn stored_before(points: &[Point]) -> Vec<u64> {
    let mut stored = vec![u64::MAX; points.len()];
    stored[0] = 0;
    let mut changed = true;
    while changed {
        changed = false;
        for (index, point) in points.iter().enumerate() {
            let after = match point {
                Point::Store(offset) => stored[index] | 1 << offset,
                _ => stored[index],
            };
            for next in point.leads(index) {
                changed |= stored[next] & after != stored[next];
                stored[next] &= after;
            }
        }
    }
    stored
}

/// Gives each load an offset that is stored before it, or makes it a store.
fn make_stored(rng: &mut Rng, frame: usize, points: &mut [Point]) {
    let stored = stored_before(points);
    for (point, stored) in points.iter_mut().zip(stored) {
        if let Point::Load(offset) = *point {
            let known: Vec<usize> = (0..frame).filter(|o| stored >> o & 1 == 1).collect();
            *point = if known.is_empty() {
                Point::Store(offset)
            } else {
                Point::Load(rng.pick(&known))
            };
        }
    }
}
