//! Random event lists with the numbers that a run is lent.

use crate::model::{Point, Task};
use crate::rng::Rng;

/// What a run is lent.
#[derive(Clone, Debug)]
pub struct Lent {
    /// Pairs of kind and value.
    pub events: Vec<u32>,
    /// The answers before the run.
    pub answers: Vec<u32>,
    /// The cache before the run.
    pub cache: Vec<u32>,
    /// The memory before the run.
    pub memory: Vec<u32>,
}

/// How often an event of each kind is chosen.
struct Rates {
    preempt_of_8: usize,
    bad_kind: bool,
    bad_value: bool,
}

/// Follows the steps, so that an either gets a value that it can take.
#[derive(Clone)]
struct Follower<'a> {
    task: &'a Task,
    frames: Vec<(usize, usize)>,
}

impl<'a> Follower<'a> {
    /// Function 0 at its point 0.
    fn fresh(task: &'a Task) -> Self {
        Follower {
            task,
            frames: vec![(0, 0)],
        }
    }

    fn point(&self) -> Option<Point> {
        let &(func, index) = self.frames.last()?;
        self.task.funcs[func].points.get(index).copied()
    }

    fn step(&mut self, value: u32) {
        let point = self.point();
        let Some((_, index)) = self.frames.last_mut() else {
            return;
        };
        match point {
            Some(Point::Goto(target)) => *index = target,
            Some(Point::Either(first, second)) => {
                *index = if value == 0 { first } else { second };
            }
            Some(Point::Return) => {
                self.frames.pop();
            }
            Some(Point::Call(callee)) => {
                *index += 1;
                self.frames.push((callee, 0));
            }
            _ => *index += 1,
        }
    }
}

/// Events and lengths that fit a valid task, but for some bad events.
pub fn lent(rng: &mut Rng, task: &Task) -> Lent {
    let events = events(rng, task);
    lent_for(rng, task, events)
}

/// Numbers of lengths that fit this event list.
pub fn lent_for(rng: &mut Rng, task: &Task, events: Vec<u32>) -> Lent {
    let spare = rng.below(4);
    let answers = rng.numbers(events.len() / 2 + spare);
    let cache = rng.numbers(task.stack);
    let unused = rng.below(6);
    let memory = rng.numbers(task.deepest() + unused);
    Lent {
        events,
        answers,
        cache,
        memory,
    }
}

/// Makes one length not fit.
pub fn unfit(rng: &mut Rng, task: &Task, lent: &mut Lent) {
    match rng.below(5) {
        0 => lent.events.push(0),
        1 if !lent.events.is_empty() => lent.answers.truncate(lent.events.len() / 2 - 1),
        2 => lent.cache.push(0),
        3 if task.deepest() > 0 => lent.memory.truncate(task.deepest() - 1),
        _ => {
            lent.cache.pop();
        }
    }
}

fn events(rng: &mut Rng, task: &Task) -> Vec<u32> {
    let most = rng.pick(&[0, 5, 20, 20, 60, 60, 60, 150, 150, 400]);
    let count = rng.between(0, most);
    let rates = Rates {
        preempt_of_8: rng.pick(&[0, 1, 1, 2, 4, 7]),
        bad_kind: rng.chance(1, 8),
        bad_value: rng.chance(1, 8),
    };
    let mut follower = Follower::fresh(task);
    let mut events = Vec::with_capacity(2 * count);
    let mut after_finish = rng.below(3);
    for _ in 0..count {
        if follower.frames.is_empty() {
            if after_finish == 0 {
                break;
            }
            after_finish -= 1;
        }
        events.extend(event(rng, &rates, &mut follower));
    }
    events
}

fn event(rng: &mut Rng, rates: &Rates, follower: &mut Follower) -> [u32; 2] {
    if rates.bad_kind && rng.chance(1, 40) {
        return [rng.pick(&[2, 3, 256, u32::MAX]), rng.number()];
    }
    if rng.chance(rates.preempt_of_8, 8) {
        return [1, rng.number()];
    }
    let value = match follower.point() {
        Some(Point::Either(_, _)) if rates.bad_value && rng.chance(1, 12) => {
            rng.pick(&[2, 3, u32::MAX])
        }
        Some(Point::Either(_, _)) => rng.below(2) as u32,
        _ => rng.number(),
    };
    follower.step(value);
    [0, value]
}

/// How many events a list still gets at most, and how many preemptions are among them.
#[derive(Clone, Copy)]
pub struct More {
    pub events: usize,
    pub preemptions: usize,
}

impl More {
    fn after_step(self) -> Self {
        More {
            events: self.events - 1,
            ..self
        }
    }

    fn after_preemption(self) -> Self {
        More {
            preemptions: self.preemptions - 1,
            ..self.after_step()
        }
    }
}

/// Hands every event list of up to so many events and preemptions to `take`, each once: a step for each way on, a preemption, and as the last event also one
/// that is refused. The numbers stored and left behind all differ.
pub fn every_list(task: &Task, most: More, take: &mut impl FnMut(&[u32])) {
    extend(&Follower::fresh(task), &mut Vec::new(), most, take);
}

fn extend(follower: &Follower, events: &mut Vec<u32>, more: More, take: &mut impl FnMut(&[u32])) {
    take(events);
    if more.events == 0 {
        return;
    }
    let fresh = events.len() as u32 + 100;
    let (steps, refused): (&[u32], &[[u32; 2]]) = match follower.point() {
        None => (&[], &[[0, 0], [1, 0], [2, 0]]),
        Some(Point::Either(_, _)) => (&[0, 1], &[[0, 2], [2, 0]]),
        Some(_) => (&[fresh], &[[2, 0]]),
    };
    for &value in steps {
        let mut next = follower.clone();
        next.step(value);
        with(events, [0, value], |events| {
            extend(&next, events, more.after_step(), take);
        });
    }
    if follower.point().is_some() && more.preemptions > 0 {
        with(events, [1, fresh], |events| {
            extend(follower, events, more.after_preemption(), take);
        });
    }
    for &event in refused {
        with(events, event, |events| take(events));
    }
}

/// Does something with one event more.
fn with(events: &mut Vec<u32>, event: [u32; 2], act: impl FnOnce(&mut Vec<u32>)) {
    events.extend(event);
    act(events);
    events.truncate(events.len() - 2);
}
