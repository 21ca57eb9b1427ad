//! Valid tasks whose functions make several calls, with walks to a return that differ in what they call.

use std::iter::empty;

use crate::model::{Func, Point, Task};
use crate::rng::Rng;
use crate::valid;

/// The most functions. So none has more than 49 calls, and with at most 5 points for each of them and 4 more it keeps to the limit of 256.
const FUNCS: usize = 32;

/// The most offsets that a function stores at its start.
const STORES: usize = 3;

/// How a call stands on the walks of its function.
#[derive(Clone, Copy)]
enum Place {
    /// On every walk, once.
    Once,
    /// On every walk, any number of times.
    Repeated,
    /// On one side of a branch.
    Skipped,
    /// In a loop that walks may pass by.
    Looped,
    /// In a loop on one side of a branch that no walk leaves.
    Endless,
    /// On one side of a branch, with a return behind it.
    Last,
    /// On one side of a branch; another call is on the other side.
    Side,
}

/// How often each place is taken. Those on which the largest call of a walk depends most stand here more than once.
const PLACES: &[Place] = &[
    Place::Once,
    Place::Once,
    Place::Once,
    Place::Repeated,
    Place::Skipped,
    Place::Looped,
    Place::Endless,
    Place::Last,
    Place::Last,
    Place::Side,
    Place::Side,
    Place::Side,
    Place::Side,
];

/// A task that passes all checks.
pub fn task(rng: &mut Rng) -> Task {
    let stack = match rng.below(4) {
        0 => rng.between(2, 8),
        1 | 2 => rng.between(8, 24),
        _ => rng.between(24, 64),
    };
    let count = match rng.below(8) {
        0 => rng.between(13, FUNCS),
        _ => rng.between(4, 12),
    };
    let frames = frames(rng, stack);
    let calls = calls(rng, count);
    let funcs = calls.iter().map(|callees| {
        let frame = rng.pick(&frames);
        func(rng, frame, callees)
    });
    Task {
        funcs: funcs.collect(),
        stack,
    }
}

/// A small task that passes all checks: function 0 calls 1, which may call 2 and then always calls 3.
pub fn small(rng: &mut Rng) -> Task {
    let stack = rng.between(3, 6);
    let frame = rng.between(1, stack);
    let offset = rng.below(frame);
    let caller = vec![
        Point::Store(offset),
        Point::Call(1),
        Point::Ensure(frame),
        Point::Load(offset),
        Point::Return,
    ];
    let own = rng.between(0, 2);
    let mut wrapper = Vec::new();
    let place = rng.pick(&[Place::Once, Place::Skipped]);
    for (place, callee) in [(place, 2), (Place::Once, 3)] {
        put_call(rng, &mut wrapper, own, place, callee, &mut empty());
    }
    wrapper.push(Point::Return);
    let leaf = |frame| (frame, vec![Point::Return]);
    let called = [leaf(rng.between(0, 1)), leaf(rng.between(1, stack))];
    let funcs = [(frame, caller), (own, wrapper)].into_iter().chain(called);
    Task {
        stack,
        funcs: funcs
            .map(|(frame, points)| Func { frame, points })
            .collect(),
    }
}

/// The frames of a task: few, so that displacements are often equal, and often 0.
fn frames(rng: &mut Rng, stack: usize) -> [usize; 5] {
    let none = rng.between(0, 1);
    let small = rng.between(1, 2);
    let quarter = stack.div_ceil(4);
    let large = rng.between(quarter, stack);
    [none, small, quarter, quarter, large]
}

/// The callees of each function. One that has any often has one or two more.
fn calls(rng: &mut Rng, count: usize) -> Vec<Vec<usize>> {
    let mut calls = valid::calls(rng, count);
    for (caller, callees) in calls.iter_mut().enumerate() {
        if !callees.is_empty() {
            for _ in 0..rng.between(0, 2) {
                callees.push(rng.between(caller + 1, count - 1));
            }
            rng.shuffle(callees);
        }
    }
    calls
}

/// A function with these calls, loads of what it stores first, and at its end a return or a way back.
fn func(rng: &mut Rng, frame: usize, callees: &[usize]) -> Func {
    let mut offsets: Vec<usize> = (0..frame).collect();
    rng.shuffle(&mut offsets);
    let most = rng.between(0, STORES);
    offsets.truncate(most);
    let mut points: Vec<Point> = offsets.iter().copied().map(Point::Store).collect();
    let mut callees = callees.iter().copied();
    while let Some(callee) = callees.next() {
        let place = rng.pick(PLACES);
        put_call(rng, &mut points, frame, place, callee, &mut callees);
        if !offsets.is_empty() && rng.chance(1, 2) {
            points.push(Point::Load(rng.pick(&offsets)));
        }
    }
    points.push(match rng.below(10) {
        0 => Point::Goto(0),
        _ => Point::Return,
    });
    Func { frame, points }
}

/// Puts a call in its place behind the points. A call on the other side is taken from those that are left.
fn put_call(
    rng: &mut Rng,
    points: &mut Vec<Point>,
    frame: usize,
    place: Place,
    callee: usize,
    left: &mut impl Iterator<Item = usize>,
) {
    let at = points.len();
    let ensure = Point::Ensure(frame);
    let call = [Point::Call(callee), ensure];
    let swapped = rng.chance(1, 2);
    let either = |first, second| match swapped {
        false => Point::Either(first, second),
        true => Point::Either(second, first),
    };
    // The call stands behind the branch, which passes it and the point behind its ensure.
    let branch = |behind| [&[either(at + 1, at + 4)], &call[..], &[behind]].concat();
    points.extend(match place {
        Place::Once => call.to_vec(),
        Place::Repeated => [&call[..], &[either(at, at + 3)]].concat(),
        Place::Skipped => [&[either(at + 1, at + 3)], &call[..]].concat(),
        Place::Looped => branch(Point::Goto(at)),
        Place::Endless => branch(Point::Goto(at + 1)),
        Place::Last => branch(Point::Return),
        Place::Side => match left.next() {
            Some(other) => {
                let side = branch(Point::Goto(at + 6));
                [&side[..], &[Point::Call(other), ensure]].concat()
            }
            None => call.to_vec(),
        },
    });
}
