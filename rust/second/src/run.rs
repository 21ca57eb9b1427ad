//! The run of an event list on either core.

use crate::figures::{figures, Figures};
use crate::lazy::LazyCore;
use crate::machine::{Core, Machine};
use crate::price::Price;
use crate::refusal::{code_and_place, Refusal, Row, Verdict};
use crate::text::{Point, Task};

/// The most numbers of an event list.
pub const EVENTS_MAX: usize = 131_072;

/// The result of a run.
#[derive(Clone, Copy, Debug, PartialEq, Eq)]
pub struct RunResult {
    /// All done, or the refusal.
    pub ending: Verdict,
    /// The events done.
    pub done: u32,
    /// The price of what the events done have moved.
    pub moved: u64,
    /// The sum of the bounds of the sheet for the events done.
    pub allowed: u64,
}

impl RunResult {
    /// Code, place, events done, moved and allowed.
    pub fn numbers(self) -> [u64; 5] {
        let (code, place) = code_and_place(self.ending);
        [
            code.into(),
            place.into(),
            self.done.into(),
            self.moved,
            self.allowed,
        ]
    }
}

/// Runs a task at a price on lent cache and memory. An event is a pair of kind and value.
#[allow(clippy::too_many_arguments, reason = "the service has them")]
pub fn run(
    text: &[u8],
    start: u32,
    each: u32,
    work_len: usize,
    events: &[u32],
    answers: &mut [u32],
    cache: &mut [u32],
    memory: &mut [u32],
) -> RunResult {
    match admitted(text, start, each, work_len) {
        Ok((task, price, figures)) => {
            run_with(&figures, &task, price, events, answers, cache, memory)
        }
        Err(refusal) => refused(refusal),
    }
}

/// What [`run`] and [`run_lazy`] are: text, start, each, length of the working space, events, answers, cache, memory.
pub type Service =
    fn(&[u8], u32, u32, usize, &[u32], &mut [u32], &mut [u32], &mut [u32]) -> RunResult;

/// Runs a task on the core with a lazy pointer.
#[allow(clippy::too_many_arguments, reason = "the service has them")]
pub fn run_lazy(
    text: &[u8],
    start: u32,
    each: u32,
    work_len: usize,
    events: &[u32],
    answers: &mut [u32],
    cache: &mut [u32],
    memory: &mut [u32],
) -> RunResult {
    run_lazy_seen(
        text,
        start,
        each,
        work_len,
        events,
        answers,
        cache,
        memory,
        |_| (),
    )
}

/// The same, and shows the core to `see` before each event, a refused one included, and at the end:
/// so after each event.
#[allow(
    clippy::too_many_arguments,
    reason = "those of the service, and one more"
)]
pub fn run_lazy_seen(
    text: &[u8],
    start: u32,
    each: u32,
    work_len: usize,
    events: &[u32],
    answers: &mut [u32],
    cache: &mut [u32],
    memory: &mut [u32],
    see: impl FnMut(&LazyCore),
) -> RunResult {
    match admitted(text, start, each, work_len) {
        Ok((task, price, figures)) => {
            run_on(&figures, &task, price, events, answers, cache, memory, see)
        }
        Err(refusal) => refused(refusal),
    }
}

/// Takes a price and reads a text that pass the rows 15, 23 and 1 to 13, with the figures.
fn admitted(
    text: &[u8],
    start: u32,
    each: u32,
    work_len: usize,
) -> Result<(Task, Price, Figures), Refusal> {
    let (task, price) = crate::admit_at(text, start, each, work_len)?;
    let figures = figures(&task, price);
    Ok((task, price, figures))
}

/// Runs a task that has passed the checks, with the figures of it at this price by any rule.
pub fn run_with(
    figures: &Figures,
    task: &Task,
    price: Price,
    events: &[u32],
    answers: &mut [u32],
    cache: &mut [u32],
    memory: &mut [u32],
) -> RunResult {
    let unseen = |_: &Machine| ();
    run_on(figures, task, price, events, answers, cache, memory, unseen)
}

/// Runs such a task on any core, and shows the core to `see` before each event and at the end.
#[allow(
    clippy::too_many_arguments,
    reason = "those of the services, and one more"
)]
fn run_on<'a, C: Core<'a>>(
    figures: &'a Figures,
    task: &'a Task,
    price: Price,
    events: &[u32],
    answers: &mut [u32],
    cache: &'a mut [u32],
    memory: &'a mut [u32],
    see: impl FnMut(&C),
) -> RunResult {
    let lent = listed(events, answers).and_then(|()| room(task, figures, cache, memory));
    match lent {
        Ok(()) => Run::new(task, figures, cache, memory).all(price, events, answers, see),
        Err(refusal) => refused(refusal),
    }
}

/// The result where no event is done.
fn refused(refusal: Refusal) -> RunResult {
    RunResult {
        ending: Err(refusal),
        done: 0,
        moved: 0,
        allowed: 0,
    }
}

/// Refuses by the rows 16 and 17.
fn listed(events: &[u32], answers: &[u32]) -> Verdict {
    if events.len() % 2 == 1 || events.len() > EVENTS_MAX {
        Err(Row::EventList.at(0))
    } else if answers.len() < events.len() / 2 {
        Err(Row::AnswersTooSmall.at(events.len() as u32 / 2))
    } else {
        Ok(())
    }
}

/// Refuses by the rows 18 and 19. Where no function is entered, every cache and memory will do.
fn room(task: &Task, figures: &Figures, cache: &[u32], memory: &[u32]) -> Verdict {
    let Some(entered) = figures.funcs.first() else {
        return Ok(());
    };
    if cache.len() != task.stack as usize {
        Err(Row::CacheSize.at(task.stack))
    } else if memory.len() < entered.longest as usize {
        Err(Row::MemoryTooSmall.at(entered.longest))
    } else {
        Ok(())
    }
}

/// A function that has not returned, and its next point.
#[derive(Clone, Copy)]
struct Frame {
    func: usize,
    point: usize,
}

/// The state of a run between two events.
struct Run<'a, C> {
    task: &'a Task,
    figures: &'a Figures,
    core: C,
    frames: Vec<Frame>,
    allowed: u64,
}

impl<'a, C: Core<'a>> Run<'a, C> {
    /// The state before the first event. A task that has no function to enter has finished.
    fn new(
        task: &'a Task,
        figures: &'a Figures,
        cache: &'a mut [u32],
        memory: &'a mut [u32],
    ) -> Self {
        let mut core = C::idle(cache, memory);
        let entered = task.entry().map(|func| {
            // A frame fits the empty cache, so nothing is spilled here.
            core.enter(func.frame as usize);
            Frame { func: 0, point: 0 }
        });
        Run {
            task,
            figures,
            core,
            frames: entered.into_iter().collect(),
            allowed: 0,
        }
    }

    /// Does the events up to the first that is refused. The core counts the moves; they are priced
    /// at the end.
    fn all(
        mut self,
        price: Price,
        events: &[u32],
        answers: &mut [u32],
        mut see: impl FnMut(&C),
    ) -> RunResult {
        let mut ending = Ok(());
        let mut done = 0;
        for (pair, answer) in events.chunks_exact(2).zip(answers) {
            see(&self.core);
            match self.event(pair[0], pair[1]) {
                Ok(number) => *answer = number,
                Err(row) => {
                    ending = Err(row.at(done));
                    break;
                }
            }
            done += 1;
        }
        see(&self.core);
        RunResult {
            ending,
            done,
            moved: price.of_all(self.core.moves()),
            allowed: self.allowed,
        }
    }

    /// Does one event and gives its answer.
    fn event(&mut self, kind: u32, value: u32) -> Result<u32, Row> {
        let Some(&frame) = self.frames.last() else {
            return Err(Row::AfterFinish);
        };
        let index = self.task.funcs[frame.func].first + frame.point;
        match kind {
            0 => self.step(frame, index, value),
            1 => {
                self.preempt(index, value);
                Ok(0)
            }
            _ => Err(Row::Kind),
        }
    }

    fn preempt(&mut self, index: usize, left: u32) {
        let point = &self.figures.points[index];
        self.allowed += u64::from(point.cost);
        self.core
            .preempt(point.dead as usize, point.need as usize, left);
    }

    fn step(&mut self, frame: Frame, index: usize, value: u32) -> Result<u32, Row> {
        let own = self.task.funcs[frame.func].frame as usize;
        let mut next = frame.point + 1;
        let mut answer = 0;
        match self.task.points[index] {
            Point::Load(offset) => answer = self.core.load(offset as usize),
            Point::Store(offset) => self.core.store(offset as usize, value),
            Point::Ensure(_) => {
                self.allowed += u64::from(self.figures.points[index].fill);
                self.core.ensure(own);
            }
            Point::Goto(target) => next = target as usize,
            Point::Either(first, second) => match value {
                0 => next = first as usize,
                1 => next = second as usize,
                _ => return Err(Row::Choice),
            },
            Point::Call(callee) => {
                self.go(next);
                self.call(callee as usize);
                return Ok(0);
            }
            Point::Return => {
                self.core.leave(own);
                self.frames.pop();
                return Ok(0);
            }
        }
        self.go(next);
        Ok(answer)
    }

    fn go(&mut self, point: usize) {
        if let Some(frame) = self.frames.last_mut() {
            frame.point = point;
        }
    }

    fn call(&mut self, func: usize) {
        self.allowed += u64::from(self.figures.funcs[func].spill);
        self.core.enter(self.task.funcs[func].frame as usize);
        self.frames.push(Frame { func, point: 0 });
    }
}
