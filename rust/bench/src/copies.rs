//! A new archive against an old one. `compare` links the code of each at four places, of which the fastest counts.

use std::cell::RefCell;
use std::hint::black_box;
use std::process::ExitCode;

use felknost::{RESULT_CODE, RESULT_MOVED, RESULT_WRITTEN, RUN_RESULT};

use crate::run::List;
use crate::texts::{report_texts, texts};
use crate::timing::{micros, Call, Rounds};
use crate::written::ROUNDS;
use crate::{check, run, EACH, START};

/// The slowest that a row may get, in parts of what it was.
const SLOWEST: f64 = 1.03;

/// What the services are lent.
struct Room {
    output: Vec<u8>,
    answers: Vec<u32>,
    cache: Vec<u32>,
    memory: Vec<u32>,
    work: Vec<u32>,
    /// Room for the result of a run; the other ones are shorter.
    result: [u64; RUN_RESULT],
}

/// A price of moves: start and each.
type Price = (u32, u32);

/// At this one a report counts blocks, and has once; at the other it does not.
const BLOCKS: Price = (START, EACH);
const START_OF_10: Price = (10, 1);

/// A service that writes bytes about a text, at a price.
type Writer = fn(&[u8], Price, &mut Room) -> u64;

/// A service that runs a list.
type Runner = fn(&List, &mut Room) -> u64;

/// The services of one copy. Each gives a number in which all copies of an archive have to agree: the answer, the bytes written, what is moved.
struct Services {
    check: fn(&[u8]) -> u64,
    report: Writer,
    #[cfg(dearest_copies)]
    dearest_points: Writer,
    run: Runner,
    #[cfg(lazy_copies)]
    run_lazy: Runner,
}

/// A service that writes, in one copy.
macro_rules! writer {
    ($service:literal $copy:literal) => {{
        extern "C" {
            #[link_name = concat!("felknost_", $service, "_", $copy)]
            fn write(
                text: *const u8,
                text_length: usize,
                start: u32,
                each: u32,
                output: *mut u8,
                output_length: usize,
                work: *mut u32,
                work_length: usize,
                result: *mut u64,
                result_length: usize,
            ) -> u32;
        }
        // SAFETY: as in the binding.
        |text, (start, each), room| unsafe {
            write(
                text.as_ptr(),
                text.len(),
                start,
                each,
                room.output.as_mut_ptr(),
                room.output.len(),
                room.work.as_mut_ptr(),
                room.work.len(),
                room.result.as_mut_ptr(),
                room.result.len(),
            );
            answer(room.result[RESULT_CODE], room.result[RESULT_WRITTEN])
        }
    }};
}

/// What a call is known by: its code, and the bytes written or the blocks moved.
fn answer(code: u64, number: u64) -> u64 {
    code << 48 | number
}

/// A service that runs a list, in one copy.
macro_rules! runner {
    ($service:literal $copy:literal) => {{
        extern "C" {
            #[link_name = concat!("felknost_", $service, "_", $copy)]
            fn run(
                text: *const u8,
                text_length: usize,
                start: u32,
                each: u32,
                events: *const u32,
                events_length: usize,
                answers: *mut u32,
                answers_length: usize,
                cache: *mut u32,
                cache_length: usize,
                memory: *mut u32,
                memory_length: usize,
                work: *mut u32,
                work_length: usize,
                result: *mut u64,
                result_length: usize,
            ) -> u32;
        }
        // SAFETY: as in the binding.
        |list, room| unsafe {
            let cache = &mut room.cache[..list.cache];
            let memory = &mut room.memory[..list.memory];
            run(
                list.text.as_ptr(),
                list.text.len(),
                START,
                EACH,
                list.events.as_ptr(),
                list.events.len(),
                room.answers.as_mut_ptr(),
                room.answers.len(),
                cache.as_mut_ptr(),
                cache.len(),
                memory.as_mut_ptr(),
                memory.len(),
                room.work.as_mut_ptr(),
                room.work.len(),
                room.result.as_mut_ptr(),
                room.result.len(),
            );
            answer(room.result[RESULT_CODE], room.result[RESULT_MOVED])
        }
    }};
}

macro_rules! services {
    ($($copy:literal)*) => {
        [$({
            extern "C" {
                #[link_name = concat!("felknost_check_", $copy)]
                fn check(text: *const u8, length: usize) -> u32;
            }
            Services {
                // SAFETY: as in the binding.
                check: |text| unsafe { check(text.as_ptr(), text.len()).into() },
                report: writer!("report" $copy),
                #[cfg(dearest_copies)]
                dearest_points: writer!("dearest_points" $copy),
                run: runner!("run" $copy),
                #[cfg(lazy_copies)]
                run_lazy: runner!("run_lazy" $copy),
            }
        }),*]
    };
}

const COPIES: [Services; 8] = services! {
    "old_0" "old_16" "old_32" "old_48"
    "new_0" "new_16" "new_32" "new_48"
};

/// A row: its name, and the call that is timed.
type Row = (&'static str, Box<dyn Fn(&Services, &mut Room) -> u64>);

/// The rows of a service that writes.
fn written_rows(service: fn(&Services) -> Writer, price: Price) -> Vec<Row> {
    let row = |(name, text): (_, Vec<u8>)| -> Row {
        let call =
            move |copy: &Services, room: &mut Room| service(copy)(black_box(&text), price, room);
        (name, Box::new(call))
    };
    report_texts().into_iter().map(row).collect()
}

/// The rows of a service that runs.
fn run_rows(service: fn(&Services) -> Runner) -> Vec<Row> {
    let row = |list: List| -> Row {
        let name = list.name;
        let call = move |copy: &Services, room: &mut Room| service(copy)(black_box(&list), room);
        (name, Box::new(call))
    };
    run::lists().into_iter().map(row).collect()
}

/// The tables: the service, how it is timed, and the rows. The dearest points and the run with a lazy pointer are there where both archives have them.
fn tables() -> Vec<(&'static str, Rounds, Vec<Row>)> {
    let checked = |(name, text): (_, Vec<u8>)| -> Row {
        let call = move |copy: &Services, _: &mut Room| (copy.check)(black_box(&text));
        (name, Box::new(call))
    };
    let checks = texts().into_iter().map(checked).collect();
    vec![
        ("Check", check::ROUNDS, checks),
        ("Report", ROUNDS, written_rows(|copy| copy.report, BLOCKS)),
        (
            "Report at start 10",
            ROUNDS,
            written_rows(|copy| copy.report, START_OF_10),
        ),
        ("Run", run::ROUNDS, run_rows(|copy| copy.run)),
        #[cfg(dearest_copies)]
        (
            "Dearest points",
            ROUNDS,
            written_rows(|copy| copy.dearest_points, BLOCKS),
        ),
        #[cfg(lazy_copies)]
        (
            "Run with a lazy pointer",
            run::ROUNDS,
            run_rows(|copy| copy.run_lazy),
        ),
    ]
}

/// Whether both archives give the same number. The rules of a later archive may ask for another one.
fn same_answer(row: &Row, room: &RefCell<Room>) -> bool {
    let answers = COPIES.map(|copy| row.1(&copy, &mut room.borrow_mut()));
    let (old, new) = answers.split_at(COPIES.len() / 2);
    for copies in [old, new] {
        assert!(
            copies.iter().all(|answer| *answer == copies[0]),
            "{}",
            row.0
        );
    }
    old[0] == new[0]
}

/// Seconds of the old and of the new archive. All copies are lent the same room.
fn old_and_new(rounds: Rounds, row: &Row, room: &RefCell<Room>) -> (f64, f64) {
    let mut calls = COPIES.map(|copy| move || row.1(&copy, &mut room.borrow_mut()));
    let times = rounds.timed(calls.each_mut().map(|call| call as Call));
    let best = |times: &[f64]| times.iter().copied().fold(f64::MAX, f64::min);
    (best(&times[..4]), best(&times[4..]))
}

/// The same; where the new one seems slower, both are measured once more, and the smaller ratio counts.
fn twice_if_slower(rounds: Rounds, row: &Row, room: &RefCell<Room>) -> (f64, f64) {
    let (old, new) = old_and_new(rounds, row, room);
    if new / old <= SLOWEST {
        return (old, new);
    }
    let again = old_and_new(rounds, row, room);
    if again.1 / again.0 < new / old {
        again
    } else {
        (old, new)
    }
}

/// Prints the tables.
pub fn compare() -> ExitCode {
    let room = RefCell::new(Room {
        output: vec![0; felknost::OUTPUT],
        answers: vec![0; run::EVENTS],
        cache: vec![7; 64],
        memory: vec![7; 256],
        work: vec![0; felknost::WORK],
        result: [0; RUN_RESULT],
    });
    let mut slower = 0;
    for (service, rounds, rows) in tables() {
        println!("| {service} | Old, µs | New, µs | New / old |");
        println!("|---|---|---|---|");
        for row in &rows {
            let other = match same_answer(row, &room) {
                true => "",
                false => " (another answer)",
            };
            let (old, new) = twice_if_slower(rounds, row, &room);
            slower += u32::from(new / old > SLOWEST);
            let ratio = new / old;
            println!(
                "| {}{other} | {} | {} | {ratio:.2} |",
                row.0,
                micros(old),
                micros(new)
            );
        }
        println!();
    }
    println!("{slower} rows are slower by more than 3 %");
    match slower {
        0 => ExitCode::SUCCESS,
        _ => ExitCode::FAILURE,
    }
}
