//! Tasks that are valid but for one change of their structure.

use crate::model::{Func, Point, Task};
use crate::rng::Rng;

/// A change of one task.
type Change = fn(&mut Rng, &mut Task);

const CHANGES: &[(&str, Change)] = &[
    ("target off by one", target_off_by_one),
    ("target outside or at an ensure", target_bad),
    ("store missing", store_missing),
    ("store made a load", store_to_load),
    ("jump over points", jump_over),
    ("other callee", other_callee),
    ("uncalled function added", uncalled),
    ("callee not a later function", callee_bad),
    ("ensure changed", ensure_changed),
    ("call and ensure parted", parted),
    ("last point falls through", open_end),
    ("frame changed", frame_changed),
    ("offset at its limit", offset_at_limit),
    ("stack changed", stack_changed),
    ("a function too many", many_funcs),
    ("points near the limit of a function", many_points),
    ("points near the limit of a task", many_in_all),
    ("point dropped", point_dropped),
    ("point doubled", point_doubled),
    ("functions swapped", funcs_swapped),
];

/// Changes a task once and names the change. The task may stay valid.
pub fn change(rng: &mut Rng, task: &mut Task) -> &'static str {
    let (name, change) = rng.pick(CHANGES);
    change(rng, task);
    name
}

/// A random point that fits `wanted`, as function and index.
fn find(rng: &mut Rng, task: &Task, wanted: fn(&Point) -> bool) -> Option<(usize, usize)> {
    let places: Vec<(usize, usize)> = task
        .funcs
        .iter()
        .enumerate()
        .flat_map(|(number, func)| (0..func.points.len()).map(move |index| (number, index)))
        .filter(|&(number, index)| wanted(&task.funcs[number].points[index]))
        .collect();
    (!places.is_empty()).then(|| rng.pick(&places))
}

/// Applies `change` to a random point that fits `wanted`, if there is one.
fn at_point(
    rng: &mut Rng,
    task: &mut Task,
    wanted: fn(&Point) -> bool,
    change: impl FnOnce(&mut Rng, &mut Func, usize, usize),
) {
    if let Some((number, index)) = find(rng, task, wanted) {
        change(rng, &mut task.funcs[number], number, index);
    }
}

fn jumps(point: &Point) -> bool {
    matches!(point, Point::Goto(_) | Point::Either(_, _))
}

fn stores(point: &Point) -> bool {
    matches!(point, Point::Store(_))
}

fn calls(point: &Point) -> bool {
    matches!(point, Point::Call(_))
}

fn ensures(point: &Point) -> bool {
    matches!(point, Point::Ensure(_))
}

fn any(_: &Point) -> bool {
    true
}

/// Replaces one target of a jump.
fn retarget(rng: &mut Rng, point: &mut Point, new: impl Fn(usize) -> usize) {
    *point = match *point {
        Point::Goto(target) => Point::Goto(new(target)),
        Point::Either(first, second) if rng.chance(1, 2) => Point::Either(new(first), second),
        Point::Either(first, second) => Point::Either(first, new(second)),
        point => point,
    };
}

fn target_off_by_one(rng: &mut Rng, task: &mut Task) {
    at_point(rng, task, jumps, |rng, func, _, index| {
        let up = rng.chance(1, 2);
        retarget(rng, &mut func.points[index], |target| {
            if up {
                target + 1
            } else {
                target.saturating_sub(1)
            }
        });
    });
}

fn target_bad(rng: &mut Rng, task: &mut Task) {
    at_point(rng, task, jumps, |rng, func, _, index| {
        let mut targets: Vec<usize> = (0..func.points.len())
            .filter(|&target| ensures(&func.points[target]))
            .collect();
        targets.extend([func.points.len(), func.points.len() - 1, 256, 9_999]);
        let target = rng.pick(&targets);
        retarget(rng, &mut func.points[index], |_| target);
    });
}

fn store_missing(rng: &mut Rng, task: &mut Task) {
    at_point(rng, task, stores, |_, func, _, index| {
        func.points[index] = Point::Goto(index + 1);
    });
}

fn store_to_load(rng: &mut Rng, task: &mut Task) {
    at_point(rng, task, stores, |_, func, _, index| {
        if let Point::Store(offset) = func.points[index] {
            func.points[index] = Point::Load(offset);
        }
    });
}

fn jump_over(rng: &mut Rng, task: &mut Task) {
    at_point(rng, task, any, |rng, func, _, index| {
        let last = func.points.len() - 1;
        func.points[index] = match rng.below(3) {
            0 => Point::Return,
            1 => Point::Goto(last),
            _ => Point::Goto(rng.below(func.points.len())),
        };
    });
}

fn other_callee(rng: &mut Rng, task: &mut Task) {
    let count = task.funcs.len();
    at_point(rng, task, calls, |rng, func, number, index| {
        func.points[index] = Point::Call(rng.between(number + 1, count - 1));
    });
}

fn uncalled(rng: &mut Rng, task: &mut Task) {
    let frame = rng.between(0, task.stack);
    let points = vec![Point::Return];
    task.funcs.push(Func { frame, points });
}

fn callee_bad(rng: &mut Rng, task: &mut Task) {
    let count = task.funcs.len();
    at_point(rng, task, calls, |rng, func, number, index| {
        let callees = [number, number.saturating_sub(1), 0, count, count + 1, 64];
        func.points[index] = Point::Call(rng.pick(&callees));
    });
}

fn ensure_changed(rng: &mut Rng, task: &mut Task) {
    at_point(rng, task, ensures, |rng, func, _, index| {
        let frames = [func.frame + 1, func.frame.saturating_sub(1), 0, 9_999];
        func.points[index] = Point::Ensure(rng.pick(&frames));
    });
}

fn parted(rng: &mut Rng, task: &mut Task) {
    let wanted = rng.pick(&[calls as fn(&Point) -> bool, ensures, any]);
    let other = rng.below(3);
    at_point(rng, task, wanted, |_, func, _, index| {
        func.points[index] = match other {
            0 => Point::Return,
            1 => Point::Ensure(func.frame),
            _ => Point::Goto(index),
        };
    });
}

fn open_end(rng: &mut Rng, task: &mut Task) {
    let number = rng.below(task.funcs.len());
    let next = number + 1;
    let func = &mut task.funcs[number];
    let last = func.points.len() - 1;
    func.points[last] = match rng.below(3) {
        0 => Point::Call(next),
        1 if func.frame > 0 => Point::Load(0),
        _ => Point::Store(func.frame.saturating_sub(1)),
    };
}

fn frame_changed(rng: &mut Rng, task: &mut Task) {
    let number = rng.below(task.funcs.len());
    let old = task.funcs[number].frame;
    let frames = [old + 1, old.saturating_sub(1), task.stack, task.stack + 1];
    task.funcs[number].frame = rng.pick(&frames);
}

fn offset_at_limit(rng: &mut Rng, task: &mut Task) {
    let below = usize::from(rng.chance(1, 2));
    let load = rng.chance(1, 2);
    at_point(rng, task, any, |_, func, _, index| {
        let offset = func.frame.saturating_sub(below);
        func.points[index] = if load {
            Point::Load(offset)
        } else {
            Point::Store(offset)
        };
    });
}

fn stack_changed(rng: &mut Rng, task: &mut Task) {
    let stack = task.stack;
    task.stack = rng.pick(&[0, 1, 64, 65, stack - 1, stack + 1]);
}

/// Adds called functions up to a number at the limit or one past it.
fn many_funcs(rng: &mut Rng, task: &mut Task) {
    let count = rng.between(64, 65);
    while task.funcs.len() < count {
        let (frame, new) = (task.funcs[0].frame, task.funcs.len());
        let points = &mut task.funcs[0].points;
        points.splice(0..0, [Point::Call(new), Point::Ensure(frame)]);
        shift(points, 2);
        task.funcs.push(Func {
            frame: 0,
            points: vec![Point::Return],
        });
    }
}

/// Moves all targets up after points were put in front.
fn shift(points: &mut [Point], by: usize) {
    for point in points {
        *point = match *point {
            Point::Goto(target) => Point::Goto(target + by),
            Point::Either(first, second) => Point::Either(first + by, second + by),
            point => point,
        };
    }
}

/// Puts jumps to the next point in front of a function.
fn put_in_front(func: &mut Func, count: usize) {
    shift(&mut func.points, count);
    func.points
        .splice(0..0, (0..count).map(|index| Point::Goto(index + 1)));
}

fn many_points(rng: &mut Rng, task: &mut Task) {
    let number = rng.below(task.funcs.len());
    let func = &mut task.funcs[number];
    let count = rng.between(256, 257);
    put_in_front(func, count.saturating_sub(func.points.len()));
}

fn many_in_all(rng: &mut Rng, task: &mut Task) {
    let wanted = rng.between(1_024, 1_025);
    let total: usize = task.funcs.iter().map(|func| func.points.len()).sum();
    let mut missing = wanted.saturating_sub(total);
    for func in &mut task.funcs {
        let count = missing.min(256 - func.points.len());
        put_in_front(func, count);
        missing -= count;
    }
}

fn point_dropped(rng: &mut Rng, task: &mut Task) {
    at_point(rng, task, any, |_, func, _, index| {
        func.points.remove(index);
    });
}

fn point_doubled(rng: &mut Rng, task: &mut Task) {
    at_point(rng, task, any, |_, func, _, index| {
        func.points.insert(index, func.points[index]);
    });
}

fn funcs_swapped(rng: &mut Rng, task: &mut Task) {
    let first = rng.below(task.funcs.len());
    let second = rng.below(task.funcs.len());
    task.funcs.swap(first, second);
}
