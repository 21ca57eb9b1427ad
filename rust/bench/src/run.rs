//! Run on both cores: the proved archive against the second implementation, and against the plain stack alone or the other core.

use std::hint::black_box;
use std::time::Duration;

use crate::timing::{micros, Rounds};
use crate::{EACH, START};

/// A run of the whole list takes about a millisecond.
pub const ROUNDS: Rounds = Rounds {
    count: 100,
    length: Duration::from_micros(1_500),
    pack: 1,
};

/// As many events as a list may have.
pub const EVENTS: usize = 65_536;

/// A run: a task, the cache and memory that it asks for, and the events.
pub struct List {
    /// The row's name.
    pub name: &'static str,
    /// The task's text.
    pub text: Vec<u8>,
    /// The cache blocks.
    pub cache: usize,
    /// The numbers of the memory.
    pub memory: usize,
    /// The events.
    pub events: Vec<u32>,
}

/// Preemptions where `preempts` says so, else steps; every value is 0, so that each branch goes back.
fn events(preempts: impl Fn(usize) -> bool) -> Vec<u32> {
    (0..EVENTS)
        .flat_map(|event| [u32::from(preempts(event)), 0])
        .collect()
}

/// The rows of run's table in docs/BENCHMARKS.md.
pub fn lists() -> Vec<List> {
    let press = |name, events| List {
        name,
        text: include_bytes!("../../../examples/press.task").to_vec(),
        cache: 12,
        memory: 17,
        events,
    };
    let deep = |name, events| List {
        name,
        text: deep_calls(),
        cache: 64,
        memory: 256,
        events,
    };
    vec![
        press("steps only (`examples/press.task`)", events(|_| false)),
        press("one preemption in ten", events(|event| event % 10 == 9)),
        // Seven steps lead to the dearest point.
        press(
            "preemptions only, at the dearest point",
            events(|event| event >= 7),
        ),
        deep("64 functions deep, steps only", events(|_| false)),
        deep(
            "64 functions deep, one preemption in ten",
            events(|event| event % 10 == 9),
        ),
    ]
}

/// 64 functions, each calling the next; the first begins anew when its callee returns.
fn deep_calls() -> Vec<u8> {
    let mut text = String::from("(stack 64)\n");
    for function in 1..64 {
        let end = if function == 1 { "goto 0" } else { "return" };
        text += &format!(
            "(func 4\n  (store 3)\n  (call {function})\n  (ensure 4)\n  (load 3)\n  ({end})\n)\n"
        );
    }
    text += "(func 4\n  (store 3)\n  (load 3)\n  (return)\n)\n";
    text.into_bytes()
}

/// The first lines of the two tables.
pub const HEAD: &str =
    "| Events, 65,536 of them | Proved, µs | Second, µs | Plain stack, µs | To second | To plain |";
pub const LAZY_HEAD: &str =
    "| The same with a lazy pointer | Proved, µs | Second, µs | To second | To run |";

/// What a run is lent.
struct Room {
    answers: Vec<u32>,
    cache: Vec<u32>,
    memory: Vec<u32>,
    work: Vec<u32>,
}

impl Room {
    fn of(list: &List) -> Self {
        Room {
            answers: vec![0; EVENTS],
            cache: vec![7; list.cache],
            memory: vec![7; list.memory],
            work: vec![0; felknost::WORK],
        }
    }
}

/// A call of the archive on a list. It gives the events done.
fn proved(run: felknost::Run, list: &List) -> impl FnMut() -> u64 + '_ {
    let mut room = Room::of(list);
    move || {
        let ran = run(
            black_box(&list.text),
            START,
            EACH,
            &list.events,
            &mut room.answers,
            &mut room.cache,
            &mut room.memory,
            &mut room.work,
        );
        ran.done.into()
    }
}

/// A call of the second implementation on a list.
fn second(run: second::run::Service, list: &List) -> impl FnMut() -> u64 + '_ {
    let mut room = Room::of(list);
    move || {
        let ran = run(
            black_box(&list.text),
            START,
            EACH,
            room.work.len(),
            &list.events,
            &mut room.answers,
            &mut room.cache,
            &mut room.memory,
        );
        ran.done.into()
    }
}

/// A call of the plain stack on a list.
fn plain(list: &List) -> impl FnMut() -> u64 + '_ {
    move || {
        let ran = second::plain::run(black_box(&list.text), &list.events);
        ran.expect("an accepted text").done.into()
    }
}

/// The two tables of runs.
pub fn tables() {
    table();
    println!();
    lazy_table();
}

fn table() {
    println!("{HEAD}");
    println!("|---|---|---|---|---|---|");
    for list in lists() {
        let [proved, second, plain] = ROUNDS.times([
            &mut proved(felknost::run, &list),
            &mut second(second::run, &list),
            &mut plain(&list),
        ]);
        println!(
            "| {} | {} | {} | {} | {:.2} | {:.2} |",
            list.name,
            micros(proved),
            micros(second),
            micros(plain),
            proved / second,
            proved / plain
        );
    }
}

fn lazy_table() {
    println!("{LAZY_HEAD}");
    println!("|---|---|---|---|---|");
    for list in lists() {
        let [lazy, second, eager] = ROUNDS.times([
            &mut proved(felknost::run_lazy, &list),
            &mut second(second::run_lazy, &list),
            &mut proved(felknost::run, &list),
        ]);
        println!(
            "| {} | {} | {} | {:.2} | {:.2} |",
            list.name,
            micros(lazy),
            micros(second),
            lazy / second,
            lazy / eager
        );
    }
}
