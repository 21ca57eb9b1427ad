//! The plain stack: frames of numbers without a cache. It reads the text by itself and shares
//! nothing with the other modules but the names of the refusals.

use crate::refusal::{Row, Verdict};

/// The result of a plain run.
#[derive(Clone, Debug, PartialEq, Eq)]
pub struct PlainResult {
    /// All done, or the refusal at an event.
    pub ending: Verdict,
    /// The events done.
    pub done: u32,
    /// The answer of each event done.
    pub answers: Vec<u32>,
}

/// A function: its frame, and the words of each of its points.
struct Func<'a> {
    frame: usize,
    points: Vec<Vec<&'a str>>,
}

/// A frame of the stack.
struct Frame {
    func: usize,
    point: usize,
    numbers: Vec<u32>,
}

/// An event that is done: its kind, the function and the point of the running frame before it, and the
/// words of this point.
#[derive(Clone, Copy, Debug, PartialEq, Eq)]
pub struct Seen<'a> {
    /// 0 for a step, 1 for a preemption.
    pub kind: u32,
    /// The running function.
    pub func: usize,
    /// Its point.
    pub point: usize,
    /// The words of the point, as the text has them.
    pub words: &'a [&'a str],
}

/// Runs an event list on the plain stack. The text is one that the checks accept; for others
/// the result is `None` where something needed is missing in it.
pub fn run(text: &[u8], events: &[u32]) -> Option<PlainResult> {
    run_seen(text, events, |_| ())
}

/// The same, and shows each event that is done to `see`.
pub fn run_seen(text: &[u8], events: &[u32], mut see: impl FnMut(Seen)) -> Option<PlainResult> {
    let funcs = read(text)?;
    let mut stack = match text {
        // No line, no function: the task has finished.
        [] => Vec::new(),
        _ => vec![fresh(&funcs, 0)?],
    };
    let mut answers = Vec::new();
    let mut ending = Ok(());
    for (number, event) in events.chunks_exact(2).enumerate() {
        if let Some(row) = refusal(&funcs, &stack, event[0], event[1])? {
            ending = Err(row.at(number as u32));
            break;
        }
        let running = stack.last()?;
        see(Seen {
            kind: event[0],
            func: running.func,
            point: running.point,
            words: point(&funcs, running)?,
        });
        let answer = match event[0] {
            0 => step(&funcs, &mut stack, event[1])?,
            _ => 0,
        };
        answers.push(answer);
    }
    Some(PlainResult {
        ending,
        done: answers.len() as u32,
        answers,
    })
}

/// Splits the text into the functions and the words of their points.
fn read(text: &[u8]) -> Option<Vec<Func<'_>>> {
    let mut funcs: Vec<Func> = Vec::new();
    for line in std::str::from_utf8(text).ok()?.lines().skip(1) {
        let words: Vec<&str> = line
            .split([' ', '(', ')'])
            .filter(|word| !word.is_empty())
            .collect();
        match words.first() {
            None => {}
            Some(&"func") => funcs.push(Func {
                frame: number(&words, 1)?,
                points: Vec::new(),
            }),
            Some(_) => funcs.last_mut()?.points.push(words),
        }
    }
    Some(funcs)
}

/// The number at position `at` of a line.
fn number(words: &[&str], at: usize) -> Option<usize> {
    words.get(at)?.parse().ok()
}

/// A frame of `func` at its point 0, all zeros.
fn fresh(funcs: &[Func], func: usize) -> Option<Frame> {
    Some(Frame {
        func,
        point: 0,
        numbers: vec![0; funcs.get(func)?.frame],
    })
}

/// The words of the point where a frame stands.
fn point<'a>(funcs: &'a [Func<'a>], frame: &Frame) -> Option<&'a [&'a str]> {
    let points = &funcs.get(frame.func)?.points;
    points.get(frame.point).map(Vec::as_slice)
}

/// The row that an event meets, in the order 22, 20, 21.
fn refusal(funcs: &[Func], stack: &[Frame], kind: u32, value: u32) -> Option<Option<Row>> {
    let Some(running) = stack.last() else {
        return Some(Some(Row::AfterFinish));
    };
    if kind > 1 {
        return Some(Some(Row::Kind));
    }
    let either = point(funcs, running)?[0] == "either";
    let bad = kind == 0 && either && value > 1;
    Some(bad.then_some(Row::Choice))
}

/// Takes one step and gives its answer.
fn step(funcs: &[Func], stack: &mut Vec<Frame>, value: u32) -> Option<u32> {
    let running = stack.last_mut()?;
    let words = point(funcs, running)?;
    let mut answer = 0;
    let mut next = running.point + 1;
    let mut called = None;
    match words[0] {
        "load" => answer = *running.numbers.get(number(words, 1)?)?,
        "store" => *running.numbers.get_mut(number(words, 1)?)? = value,
        "goto" => next = number(words, 1)?,
        "either" => next = number(words, 1 + value as usize)?,
        "call" => called = Some(number(words, 1)?),
        "ensure" => {}
        "return" => {
            stack.pop();
            return Some(0);
        }
        _ => return None,
    }
    running.point = next;
    if let Some(func) = called {
        stack.push(fresh(funcs, func)?);
    }
    Some(answer)
}
