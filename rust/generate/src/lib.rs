//! Random task texts and runs. Each case is made from one seed and carries it, so that a case
//! found by a test can be made again.

#![forbid(unsafe_code)]
#![warn(missing_docs)]

mod damage;
mod events;
mod model;
mod near;
mod prices;
mod rng;
mod valid;
mod wrappers;

use std::fmt;

pub use events::Lent;
pub use prices::Price;
pub use rng::Rng;

use events::More;
use model::Task;

/// How a text was made.
#[derive(Clone, Copy, Debug, PartialEq, Eq)]
pub enum Kind {
    /// It passes all checks.
    Valid,
    /// It passes all checks, and its functions make several calls.
    Wrappers,
    /// A valid task with one change of its structure.
    Near,
    /// The text of a valid task with damage of its bytes or lines.
    Damaged,
}

/// A text and how it was made.
#[derive(Clone, Debug)]
pub struct Case {
    /// The seed that makes this case.
    pub seed: u64,
    /// How the text was made.
    pub kind: Kind,
    /// The changes made to a valid task.
    pub changes: Vec<&'static str>,
    /// The text.
    pub text: Vec<u8>,
}

impl fmt::Display for Case {
    fn fmt(&self, out: &mut fmt::Formatter) -> fmt::Result {
        write!(out, "{:?} seed {} {:?}", self.kind, self.seed, self.changes)
    }
}

/// A valid task with what a run of it is lent.
#[derive(Clone, Debug)]
pub struct RunCase {
    /// What the program `generate` calls such a case.
    pub name: &'static str,
    /// The seed that makes this case.
    pub seed: u64,
    /// Which of the lists of this seed it is, from 0.
    pub list: usize,
    /// The text.
    pub text: Vec<u8>,
    /// The events, answers, cache and memory.
    pub lent: Lent,
}

impl fmt::Display for RunCase {
    fn fmt(&self, out: &mut fmt::Formatter) -> fmt::Result {
        let events = self.lent.events.len() / 2;
        let RunCase {
            name, seed, list, ..
        } = self;
        write!(out, "{name} seed {seed} list {list} with {events} events")
    }
}

/// A text that passes all checks.
pub fn valid(seed: u64) -> Case {
    accepted(Kind::Valid, seed, valid::task)
}

/// A text that passes all checks. Its functions make several calls, on walks that differ in what they call.
pub fn wrappers(seed: u64) -> Case {
    accepted(Kind::Wrappers, seed, wrappers::task)
}

fn accepted(kind: Kind, seed: u64, task: fn(&mut Rng) -> Task) -> Case {
    Case {
        seed,
        kind,
        changes: Vec::new(),
        text: task(&mut Rng::new(seed)).text(),
    }
}

/// The text of a valid task with one change of its structure. It may still be valid.
pub fn near(seed: u64) -> Case {
    let mut rng = Rng::new(seed);
    let mut task = valid::task(&mut rng);
    let change = near::change(&mut rng, &mut task);
    Case {
        seed,
        kind: Kind::Near,
        changes: vec![change],
        text: task.text(),
    }
}

/// The text of a valid task with one to three pieces of damage. It may still be valid. It is not empty: a valid text has four lines at least, and a piece of damage
/// takes away one of them at most.
pub fn damaged(seed: u64) -> Case {
    let mut rng = Rng::new(seed);
    let mut text = valid::task(&mut rng).text();
    let count = rng.pick(&[1, 1, 1, 2, 3]);
    let changes = (0..count)
        .map(|_| damage::damage(&mut rng, &mut text))
        .collect();
    Case {
        seed,
        kind: Kind::Damaged,
        changes,
        text,
    }
}

/// A valid task with one length that does not fit.
pub fn unfit_run(seed: u64) -> RunCase {
    let mut rng = Rng::new(seed);
    let task = valid::task(&mut rng);
    let mut lent = events::lent(&mut rng, &task);
    events::unfit(&mut rng, &task, &mut lent);
    RunCase {
        name: "unfit",
        seed,
        list: 0,
        text: task.text(),
        lent,
    }
}

/// A valid task with `count` event lists, some of which have bad events, and lengths that fit each.
pub fn runs(seed: u64, count: usize) -> Vec<RunCase> {
    runs_of("run", seed, count, valid::task)
}

/// The same with a task whose functions make several calls.
pub fn wrapper_runs(seed: u64, count: usize) -> Vec<RunCase> {
    runs_of("wrapper-run", seed, count, wrappers::task)
}

fn runs_of(
    name: &'static str,
    seed: u64,
    count: usize,
    task: fn(&mut Rng) -> Task,
) -> Vec<RunCase> {
    let mut rng = Rng::new(seed);
    let task = task(&mut rng);
    let text = task.text();
    let case = |list| RunCase {
        name,
        seed,
        list,
        text: text.clone(),
        lent: events::lent(&mut rng, &task),
    };
    (0..count).map(case).collect()
}

/// A valid task of few points.
#[derive(Clone, Debug)]
pub struct Small {
    /// What the program `generate` calls such a task.
    pub name: &'static str,
    /// The seed that makes this task.
    pub seed: u64,
    /// The text.
    pub text: Vec<u8>,
    task: Task,
}

impl fmt::Display for Small {
    fn fmt(&self, out: &mut fmt::Formatter) -> fmt::Result {
        write!(out, "{} seed {}", self.name, self.seed)
    }
}

/// A valid task of at most `most` points.
pub fn small(seed: u64, most: usize) -> Small {
    small_of("small", seed, valid::small(&mut Rng::new(seed), most))
}

/// A valid task of few points whose function 1 makes one or two calls.
pub fn small_wrapper(seed: u64) -> Small {
    small_of("small-wrapper", seed, wrappers::small(&mut Rng::new(seed)))
}

fn small_of(name: &'static str, seed: u64, task: Task) -> Small {
    Small {
        name,
        seed,
        text: task.text(),
        task,
    }
}

impl Small {
    /// Hands every event list of up to `length` events to `take`, each once: a step for each way on, a preemption, and as the last event also
    /// one that is refused.
    pub fn every_list(&self, length: usize, take: impl FnMut(&[u32])) {
        self.every_list_with(length, length, take);
    }

    /// The same, with at most so many preemptions that are done.
    pub fn every_list_with(&self, preemptions: usize, length: usize, mut take: impl FnMut(&[u32])) {
        let most = More {
            events: length,
            preemptions,
        };
        events::every_list(&self.task, most, &mut take);
    }

    /// What a run of this event list is lent.
    pub fn lent(&self, events: &[u32]) -> Lent {
        let mut rng = Rng::new(self.seed ^ events.len() as u64);
        events::lent_for(&mut rng, &self.task, events.to_vec())
    }
}

/// A price of moves whose two numbers are in their ranges.
pub fn price(seed: u64) -> Price {
    prices::price(&mut Rng::new(seed))
}

/// A price of moves with a number outside its range.
pub fn unfit_price(seed: u64) -> Price {
    prices::unfit(&mut Rng::new(seed))
}

/// A price of moves, in one of eight cases with a number outside its range.
pub fn any_price(seed: u64) -> Price {
    match seed % 8 {
        0 => unfit_price(seed),
        _ => price(seed),
    }
}
