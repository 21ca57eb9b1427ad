//! Run on generated event lists, against the plain stack and within what the sheet allows, in blocks and at any price.

use std::collections::BTreeMap;
use std::fmt::Display;

use felknost::RESULT_DONE;
use generate::{Price, RunCase};
use second::figures::Displacement;
use second::{code_and_place, plain, RunResult, WORK_MIN};
use tests::{run, run_at, run_by, Lent, Ran};

/// The tasks of the random lists, those of lists at any price, and how many lists each has.
const TASKS: u64 = 20_000;
const PRICED: u64 = 2_000;
const LISTS: usize = 10;

/// The small tasks whose event lists are all tried, their most points, and the most events of a list.
const SMALL: u64 = 400;
const POINTS: usize = 6;
const EVENTS: usize = 7;

/// The wrappers of the random lists, the small ones whose lists are all tried, and the most events of such a list. So many come behind the call of
/// the wrapper, with a preemption there.
const WRAPPERS: u64 = 2_000;
const SMALL_WRAPPERS: u64 = 16;
const WRAPPER_EVENTS: usize = 12;

fn lent(case: &generate::Lent) -> Lent {
    Lent {
        answers: case.answers.clone(),
        cache: case.cache.clone(),
        memory: case.memory.clone(),
    }
}

/// Runs an event list, and requires that ending, events done and answers are the plain stack's, that the other answers are as they were, and
/// that no more is moved than is allowed.
fn run_like_plain(
    case: &impl Display,
    text: &[u8],
    price: Price,
    buffers: &generate::Lent,
    work: usize,
) -> RunResult {
    let events = &buffers.events;
    let lent = lent(buffers);
    let ran = run_at(text, price, events, &lent, work);
    let plain = plain::run(text, events).expect("an accepted text");
    let result = ran.result;
    let ending = (result.ending, result.done);
    assert_eq!(ending, (plain.ending, plain.done), "{case} {events:?}");
    let (done, rest) = ran.lent.answers.split_at(plain.answers.len());
    assert_eq!(done, plain.answers, "{case} {events:?}");
    assert_eq!(rest, &lent.answers[done.len()..], "{case} {events:?}");
    let bounded = result.moved <= result.allowed;
    assert!(bounded, "{case} {events:?}: {result:?}");
    result
}

fn run_case(case: &RunCase) -> Ran {
    run(&case.text, &case.lent.events, &lent(&case.lent), WORK_MIN)
}

/// Requires that a refused event leaves all as the events before it do.
fn assert_like_without_refused(case: &RunCase, result: RunResult) {
    if result.ending.is_err() {
        let before = &case.lent.events[..2 * result.done as usize];
        let wanted = RunResult {
            ending: Ok(()),
            ..result
        };
        let ran = run(&case.text, before, &lent(&case.lent), WORK_MIN);
        assert_eq!(ran.result, wanted, "{case}");
        assert_eq!(ran.lent, run_case(case).lent, "{case}");
    }
}

fn preempts(events: &[u32]) -> bool {
    events.chunks_exact(2).any(|event| event[0] == 1)
}

#[test]
fn runs_agree_with_the_plain_stack() {
    let mut codes = BTreeMap::new();
    let (mut preempted, mut tight) = (0, 0);
    for seed in 0..TASKS {
        for case in generate::runs(seed, LISTS) {
            let work = WORK_MIN + seed as usize % 3;
            let got = run_like_plain(&case, &case.text, Price::BLOCKS, &case.lent, work);
            assert_like_without_refused(&case, got);
            *codes.entry(code_and_place(got.ending).0).or_insert(0u32) += 1;
            preempted += u32::from(preempts(&case.lent.events));
            tight += u32::from(got.moved == got.allowed && got.moved > 0);
        }
    }
    let all = TASKS as usize * LISTS;
    println!("codes of {all} runs: {codes:?}; {preempted} with a preemption, {tight} at the bound");
    assert!([0, 20, 21, 22].iter().all(|code| codes.contains_key(code)));
}

/// Runs at a price give the plain stack's answers too and stay below what the sheet allows. A price that does not fit changes nothing.
#[test]
fn runs_at_any_price() {
    let mut dearer = 0;
    for seed in 0..PRICED {
        for (list, case) in (0..).zip(generate::runs(seed + 3_000_000, LISTS)) {
            let price = generate::any_price(seed * LISTS as u64 + list);
            let named = format!("{case} {price:?}");
            if price.fits() {
                let got = run_like_plain(&named, &case.text, price, &case.lent, WORK_MIN);
                dearer += u32::from(got.moved > run_case(&case).result.moved);
            } else {
                let lent = lent(&case.lent);
                let ran = run_at(&case.text, price, &case.lent.events, &lent, WORK_MIN + 1);
                assert_eq!(ran.result.numbers(), [23, 0, 0, 0, 0], "{named}");
                assert_eq!(ran.lent, lent, "{named}");
            }
        }
    }
    assert!(dearer > PRICED as u32);
}

#[test]
fn runs_with_lengths_that_do_not_fit_change_nothing() {
    let mut codes = BTreeMap::new();
    for seed in 0..4_000 {
        let case = generate::unfit_run(seed);
        let ran = run_case(&case);
        let (code, _) = ran.verdict();
        assert!((16..=19).contains(&code), "{case}");
        assert_eq!(ran.result.numbers()[RESULT_DONE..], [0, 0, 0], "{case}");
        assert_eq!(ran.lent, lent(&case.lent), "{case}");
        *codes.entry(code).or_insert(0u32) += 1;
    }
    println!("codes of runs with a length that does not fit: {codes:?}");
    assert_eq!(codes.len(), 4);
}

#[test]
fn runs_of_refused_texts_change_nothing() {
    for seed in 0..4_000 {
        let case = generate::damaged(seed + 7_000_000);
        let Err(refusal) = second::check(&case.text, WORK_MIN) else {
            continue;
        };
        let lent = Lent::noisy(2, 4, 9);
        let ran = run(&case.text, &[0, 1, 1, 0], &lent, WORK_MIN + 2);
        assert_eq!(ran.result.ending, Err(refusal), "{case}");
        assert_eq!(ran.result.numbers()[RESULT_DONE..], [0, 0, 0], "{case}");
        assert_eq!(ran.lent, lent, "{case}");
    }
}

/// Every event list of up to `EVENTS` events on tasks of up to `POINTS` points.
#[test]
fn every_list_of_small_tasks() {
    let mut lists = 0;
    for seed in 0..SMALL {
        let small = generate::small(seed, POINTS);
        small.every_list(EVENTS, |events| {
            let lent = small.lent(events);
            run_like_plain(&small, &small.text, Price::BLOCKS, &lent, WORK_MIN);
            lists += 1;
        });
    }
    println!("{lists} lists of up to {EVENTS} events on {SMALL} tasks of up to {POINTS} points");
    assert!(lists > 100_000);
}

/// The same at prices, among them a start that is far dearer than a block.
#[test]
fn every_list_of_small_tasks_at_prices() {
    let mut tight = 0;
    for seed in 0..SMALL / 4 {
        let small = generate::small(seed, POINTS);
        let price = match seed % 2 {
            0 => generate::price(seed),
            _ => Price {
                start: 255,
                each: 1,
            },
        };
        let named = format!("{small} {price:?}");
        small.every_list(EVENTS, |events| {
            let got = run_like_plain(&named, &small.text, price, &small.lent(events), WORK_MIN);
            tight += u32::from(got.moved == got.allowed && preempts(events) && got.moved > 0);
        });
    }
    assert!(tight > 0);
}

/// How many runs are allowed less than by the smallest of all calls, and how many of them move all of it.
#[derive(Debug, Default)]
struct Less {
    allowed: u64,
    moved: u64,
}

impl Less {
    /// Runs an event list, and requires that nothing but allowed differs from the run by the smallest of all calls, and that it is no more.
    fn count(&mut self, case: &impl Display, text: &[u8], price: Price, buffers: &generate::Lent) {
        let got = run_like_plain(case, text, price, buffers, WORK_MIN);
        let lent = lent(buffers);
        let before = run_by(Displacement::Smallest, text, price, &buffers.events, &lent).result;
        let allowed = got.allowed;
        assert_eq!(got, RunResult { allowed, ..before }, "{case}");
        assert!(allowed <= before.allowed, "{case}");
        let less = allowed < before.allowed;
        self.allowed += u64::from(less);
        self.moved += u64::from(less && got.moved == allowed);
    }
}

/// Every other list at a price.
#[test]
fn runs_of_wrappers() {
    let mut less = Less::default();
    for seed in 0..WRAPPERS {
        for (list, case) in (0..).zip(generate::wrapper_runs(seed + 4_000_000, LISTS)) {
            let price = match list % 2 {
                0 => Price::BLOCKS,
                _ => generate::price(seed * LISTS as u64 + list),
            };
            let named = format!("{case} {price:?}");
            less.count(&named, &case.text, price, &case.lent);
        }
    }
    println!(
        "of {} runs of wrappers: {less:?}",
        WRAPPERS as usize * LISTS
    );
    assert!(less.allowed > WRAPPERS / 10 && less.moved > 0, "{less:?}");
}

/// Every event list of up to `WRAPPER_EVENTS` events on small wrappers.
#[test]
fn every_list_of_small_wrappers() {
    let mut less = Less::default();
    for seed in 0..SMALL_WRAPPERS {
        let small = generate::small_wrapper(seed);
        small.every_list(WRAPPER_EVENTS, |events| {
            less.count(&small, &small.text, Price::BLOCKS, &small.lent(events));
        });
    }
    println!("of all lists of up to {WRAPPER_EVENTS} events on {SMALL_WRAPPERS} small wrappers: {less:?}");
    assert!(less.allowed > 0 && less.moved > 0, "{less:?}");
}

/// Prints how tight the sheet is: for each task, the largest part of what is allowed that a list with a preemption moves.
#[test]
fn tightness() {
    let mut small = [0; 11];
    for seed in 0..SMALL / 4 {
        let task = generate::small(seed + 1_000_000, POINTS);
        let mut best = None;
        task.every_list(EVENTS, |events| {
            if preempts(events) {
                let lent = task.lent(events);
                let ran = run_like_plain(&task, &task.text, Price::BLOCKS, &lent, WORK_MIN);
                best = best.max(tenths(ran));
            }
        });
        count(&mut small, best);
    }
    let mut large = [0; 11];
    for seed in 0..1_000 {
        let cases = generate::runs(seed + 2_000_000, 20);
        let ran = cases
            .iter()
            .filter(|case| preempts(&case.lent.events))
            .map(run_case);
        let best = ran.filter_map(|ran| tenths(ran.result)).max();
        count(&mut large, best);
    }
    println!("tasks by the largest moved / allowed found, in tenths from 0 to 10:");
    println!("  up to {POINTS} points, every list of up to {EVENTS} events: {small:?}");
    println!("  any size, 20 random lists each: {large:?}");
    assert!(small[10] > 0 && large[10] > 0);
}

fn count(tasks: &mut [u32; 11], best: Option<usize>) {
    if let Some(tenths) = best {
        tasks[tenths] += 1;
    }
}

/// Moved by allowed in tenths, rounded down, where something is allowed.
fn tenths(result: RunResult) -> Option<usize> {
    let tenths = (10 * result.moved).checked_div(result.allowed)?;
    Some(tenths as usize)
}

/// What only the archive can show.
mod in_archive {
    use felknost::{raw, Refusal, Row};
    use tests::{assert_short_run_results, steps, TWO};

    #[test]
    fn a_result_that_is_too_short_leaves_all_as_it_was() {
        for function in [raw::run, raw::run_lazy] {
            assert_short_run_results(function, TWO.as_bytes());
        }
    }

    #[test]
    fn binding() {
        for function in [felknost::run, felknost::run_lazy] {
            assert_binding(function);
        }
    }

    fn assert_binding(function: felknost::Run) {
        let mut answers = [7; 8];
        let (mut cache, mut memory) = ([7; 5], [7; 6]);
        let mut work = vec![7; felknost::WORK];
        let mut call = |start, each, events: &[u32], answers: &mut [u32]| {
            let (text, cache, memory) = (TWO.as_bytes(), &mut cache, &mut memory);
            function(text, start, each, events, answers, cache, memory, &mut work)
        };
        let plain = steps(7, 3);
        let ran = call(0, 1, &plain, &mut answers);
        assert_eq!((ran.ending, ran.done), (Ok(()), 7));
        assert_eq!((ran.moved, ran.allowed), (2, 2));
        assert_eq!(answers, [0, 0, 0, 3, 0, 0, 3, 7]);
        let ran = call(10, 1, &plain, &mut answers);
        assert_eq!((ran.moved, ran.allowed), (22, 22));
        // Done, moved and allowed differ here.
        let preempted = [steps(3, 3), vec![1, 8], steps(4, 3)].concat();
        let ran = call(10, 1, &preempted, &mut answers);
        assert_eq!((ran.ending, ran.done), (Ok(()), 8));
        assert_eq!((ran.moved, ran.allowed), (49, 59));
        let refused = |row, place| Err(Refusal { row, place });
        let short = call(0, 1, &plain, &mut answers[..6]);
        assert_eq!(short.ending, refused(Row::AnswersTooSmall, 7));
        let no_price = call(0, 256, &plain, &mut answers);
        assert_eq!(no_price.ending, refused(Row::PriceRange, 0));
    }
}
