//! Run on the core with a lazy pointer, beside the core without: the worked lists, random lists at any price, every short list of small tasks, and every
//! row of refusal. Each run here is made in the archive and in the second implementation, which has to be clean after each event, and the cores agree in
//! all but moved, which is no more on the lazy one (`run_both_at`).

use std::collections::BTreeSet;
use std::fmt::Display;

use generate::{Price, RunCase};
use second::WORK_MIN;
use tests::{all_done, run_both_at, steps, text, BothRan, Lent, Named, TWO};

/// The tasks of the random lists, of two kinds, and how many lists each has: 200,000 in all.
const VALID: u64 = 14_000;
const WRAPPERS: u64 = 6_000;
const LISTS: u64 = 10;

/// The most events of a list of a small task.
const EVENTS: usize = 9;

const START_OF_10: Price = Price { start: 10, each: 1 };

/// Runs a list on buffers of these lengths that hold noise.
fn run_both(text: &str, price: Price, events: &[u32], cache: usize, memory: usize) -> BothRan {
    let lent = Lent::noisy(events.len() / 2, cache, memory);
    run_both_at(text.as_bytes(), price, events, &lent, WORK_MIN)
}

/// Document 01's two lists. No block is written back twice in them, so the cores move the same.
#[test]
fn worked_lists() {
    let plain = steps(7, 3);
    let preempted = [steps(3, 3), vec![1, 8], steps(4, 3)].concat();
    for (price, events, wanted) in [
        (Price::BLOCKS, &plain, all_done(7, 2, 2)),
        (Price::BLOCKS, &preempted, all_done(8, 9, 9)),
        (START_OF_10, &plain, all_done(7, 22, 22)),
        (START_OF_10, &preempted, all_done(8, 49, 59)),
    ] {
        let ran = run_both(TWO, price, events, 5, 6);
        assert_eq!(ran.eager.result, wanted);
        assert_eq!(ran.lazy.result, wanted);
    }
}

/// A caller of three blocks that calls twice, and a callee of three, in a cache of four.
fn two_calls() -> String {
    let caller = [
        "store 2", "call 1", "ensure 3", "call 1", "ensure 3", "load 2", "return",
    ];
    text(4, &[(3, &caller), (3, &["store 0", "return"])])
}

/// Each call pushes two blocks of the caller out, and each ensure brings two back. The second call finds them clean, and the lazy core writes none of them.
#[test]
fn the_second_call_finds_clean_blocks() {
    let text = two_calls();
    let lent = Lent {
        answers: vec![9; 12],
        cache: vec![8; 4],
        memory: vec![9; 6],
    };
    let events: Vec<u32> = (1..=11).flat_map(|value| [0, value]).collect();
    let ran = run_both_at(text.as_bytes(), Price::BLOCKS, &events, &lent, WORK_MIN);
    assert_eq!(ran.eager.result, all_done(11, 8, 8));
    assert_eq!(ran.lazy.result, all_done(11, 6, 8));
    // The caller's offsets 1 and 2 are the addresses 4 and 5, in the blocks 0 and 1. The callee stores to block 0, and the ensure fills it again.
    let held = Lent {
        answers: vec![0, 0, 0, 0, 0, 0, 0, 0, 0, 1, 0, 9],
        cache: vec![8, 1, 8, 8],
        memory: vec![9, 9, 9, 9, 8, 1],
    };
    assert_eq!(ran.lazy.lent, held);
    assert_eq!(ran.eager.lent, held);
}

/// Three preemptions of a frame of two blocks, each of which brings both back. The second finds both clean. The store before the third lifts the lazy pointer
/// above its block, so both are written again.
#[test]
fn a_preemption_writes_below_the_lazy_pointer() {
    let points = [
        "store 0", "store 1", "load 0", "store 1", "load 1", "load 0", "return",
    ];
    let text = text(2, &[(2, &points)]);
    let events = [
        [0, 5],
        [0, 6],
        [1, 3],
        [1, 4],
        [0, 0],
        [0, 7],
        [1, 3],
        [0, 0],
        [0, 0],
        [0, 0],
    ];
    for (price, eager, lazy) in [(Price::BLOCKS, 12, 10), (START_OF_10, 72, 60)] {
        let ran = run_both(&text, price, events.as_flattened(), 2, 2);
        assert_eq!(ran.eager.result, all_done(10, eager, eager));
        assert_eq!(ran.lazy.result, all_done(10, lazy, eager));
        let held = Lent {
            answers: vec![0, 0, 0, 0, 5, 0, 0, 7, 5, 0],
            cache: vec![5, 7],
            memory: vec![5, 7],
        };
        assert_eq!(ran.lazy.lent, held);
    }
}

/// The service of the second implementation, which the other tests call by the form that shows its core.
#[test]
fn second_service() {
    let (mut answers, mut cache, mut memory) = ([9; 11], [8; 4], [9; 6]);
    let result = second::run_lazy(
        two_calls().as_bytes(),
        10,
        1,
        WORK_MIN,
        &steps(11, 3),
        &mut answers,
        &mut cache,
        &mut memory,
    );
    // A spill and two fills of two blocks, of four moves that are allowed.
    assert_eq!(result, all_done(11, 36, 48));
    assert_eq!(answers[9], 3);
}

/// How often the lazy core moves less.
#[derive(Debug, Default)]
struct Counted {
    runs: u64,
    less: u64,
    refused: u64,
}

impl Counted {
    /// Runs a list on both cores and counts it. A failure names the case.
    fn run(&mut self, case: &impl Display, text: &[u8], price: Price, events: &[u32], lent: &Lent) {
        let named = Named(case);
        let ran = run_both_at(text, price, events, lent, WORK_MIN);
        let result = ran.lazy.result;
        assert!(result.moved <= result.allowed, "{result:?}");
        self.runs += 1;
        self.less += u64::from(ran.lazy_moves_less());
        self.refused += u64::from(result.ending.is_err());
        drop(named);
    }
}

/// Runs lists with preemptions and some refused events, on buffers of any numbers. Every other list counts blocks, and the others have random prices.
fn random(name: &str, cases: impl Iterator<Item = Vec<RunCase>>) -> Counted {
    let mut counted = Counted::default();
    for case in cases.flatten() {
        let price = match case.list % 2 {
            0 => Price::BLOCKS,
            _ => generate::price(case.seed * LISTS + case.list as u64),
        };
        let lent = Lent {
            answers: case.lent.answers.clone(),
            cache: case.lent.cache.clone(),
            memory: case.lent.memory.clone(),
        };
        let named = format_args!("{case} {price:?}");
        counted.run(&named, &case.text, price, &case.lent.events, &lent);
    }
    println!("random runs of {name} on both cores: {counted:?}");
    assert!(counted.less * 10 > counted.runs, "{counted:?}");
    assert!(counted.refused * 100 > counted.runs, "{counted:?}");
    counted
}

#[test]
fn random_runs_of_valid_tasks() {
    let seeds = (30_000_000..).take(VALID as usize);
    let cases = seeds.map(|seed| generate::runs(seed, LISTS as usize));
    let counted = random("valid tasks", cases);
    assert_eq!(counted.runs, VALID * LISTS);
}

#[test]
fn random_runs_of_wrappers() {
    let seeds = (31_000_000..).take(WRAPPERS as usize);
    let cases = seeds.map(|seed| generate::wrapper_runs(seed, LISTS as usize));
    let counted = random("wrappers", cases);
    assert_eq!(counted.runs, WRAPPERS * LISTS);
    assert_eq!((VALID + WRAPPERS) * LISTS, 200_000);
}

/// A text whose functions are a frame and their points in one string, with its cache blocks.
fn task(stack: usize, funcs: &[(usize, &str)]) -> (usize, String) {
    let points = funcs.iter().map(|func| func.1.split(", ").collect());
    let points: Vec<Vec<&str>> = points.collect();
    let funcs = funcs.iter().zip(&points);
    let funcs: Vec<(usize, &[&str])> = funcs.map(|(func, points)| (func.0, &points[..])).collect();
    (stack, text(stack, &funcs))
}

/// Small tasks in which blocks are stored to above and below the lazy pointer, spilled, filled, and pushed out again.
fn small_tasks() -> [(usize, String); 8] {
    let alone = "store 1, load 1, store 0, load 0, load 1, goto 2";
    let branch = "store 0, store 2, either 3 5, store 1, load 1, load 0, load 2, goto 2";
    let caller = "store 0, call 1, ensure 1, load 0, goto 1";
    let branching_caller = "store 0, store 1, call 1, ensure 2, load 0, either 2 0";
    let first = "store 0, call 1, ensure 1, goto 1";
    let between = "call 2, ensure 1, return";
    let last = "store 0, load 0, return";
    [
        task(1, &[(1, "store 0, load 0, goto 0")]),
        task(2, &[(2, alone)]),
        task(3, &[(3, branch)]),
        task(1, &[(1, caller), (1, "store 0, return")]),
        task(2, &[(2, branching_caller), (1, "return")]),
        task(2, &[(1, first), (1, between), (1, last)]),
        (5, TWO.to_string()),
        (4, two_calls()),
    ]
}

/// Hands every list of up to `more` events to `take`, each a step with 0 or with 1, or a preemption that leaves 2.
fn every_list(events: &mut Vec<u32>, more: usize, take: &mut impl FnMut(&[u32])) {
    take(events);
    if more == 0 {
        return;
    }
    for event in [[0, 0], [0, 1], [1, 2]] {
        events.extend(event);
        every_list(events, more - 1, take);
        events.truncate(events.len() - 2);
    }
}

/// Every list of up to `EVENTS` events of the small tasks, those that go on behind the finish included.
#[test]
fn every_short_list() {
    for (stack, text) in small_tasks() {
        let mut counted = Counted::default();
        // What was there before differs from all that is stored or left.
        let lent = Lent {
            answers: vec![3; EVENTS],
            cache: (4..).take(stack).collect(),
            memory: (10..16).collect(),
        };
        every_list(&mut Vec::new(), EVENTS, &mut |events| {
            let named = format_args!("{text}{events:?}");
            counted.run(&named, text.as_bytes(), Price::BLOCKS, events, &lent);
        });
        println!("every list of up to {EVENTS} events: {counted:?} of\n{text}");
        // 1 + 3 + 9 + .. + 3^9 lists.
        assert_eq!(counted.runs, 29_524, "{text}");
        assert!(counted.less > 0, "{text}");
    }
}

/// The codes of the refused runs.
#[derive(Default)]
struct Refused {
    codes: BTreeSet<u32>,
}

impl Refused {
    /// Requires that both cores refuse the run by this row after some events, in which nothing moves, and change nothing but the answers of these, which
    /// are 0.
    fn by(&mut self, row: (u32, u32), done: usize, text: &[u8], given: &Given) {
        let Given { price, events, .. } = *given;
        let BothRan { eager, lazy } = run_both_at(text, price, events, &given.lent, given.work);
        let mut wanted = given.lent.clone();
        wanted.answers[..done].fill(0);
        let numbers = [row.0.into(), row.1.into(), done as u64, 0, 0];
        for ran in [eager, lazy] {
            assert_eq!(ran.result.numbers(), numbers);
            assert_eq!(ran.lent, wanted);
        }
        self.codes.insert(row.0);
    }
}

/// What a run is given beside its text.
struct Given<'a> {
    price: Price,
    events: &'a [u32],
    lent: Lent,
    work: usize,
}

impl<'a> Given<'a> {
    /// Answers, cache and memory of these lengths that hold noise.
    fn noisy(events: &'a [u32], [answers, cache, memory]: [usize; 3]) -> Self {
        Given {
            price: Price::BLOCKS,
            events,
            lent: Lent::noisy(answers, cache, memory),
            work: WORK_MIN,
        }
    }
}

/// A row, how many events are done before it, the events, and the lengths of answers, cache and memory.
type EventRow = ((u32, u32), usize, &'static [u32], [usize; 3]);

/// The rows behind those of the text, of a task with five blocks that begins with an either.
const EVENT_ROWS: [EventRow; 9] = [
    ((16, 0), 0, &[2, 2, 0], [0, 0, 0]),
    ((16, 0), 0, &[2; 131_074], [0, 0, 0]),
    ((17, 2), 0, &[2, 2, 0, 0], [1, 0, 0]),
    ((18, 5), 0, &[2, 2, 0, 0], [2, 6, 0]),
    ((19, 5), 0, &[2, 2, 0, 0], [2, 5, 4]),
    ((20, 0), 0, &[2, 2, 0, 0], [2, 5, 5]),
    ((21, 0), 0, &[0, 2, 2, 2], [2, 5, 5]),
    ((20, 1), 1, &[0, 1, 2, 2], [2, 5, 5]),
    ((22, 2), 2, &[0, 1, 0, 2, 2, 2], [4, 5, 5]),
];

/// Each row, met together with those that come after it.
#[test]
fn every_row() {
    let mut refused = Refused::default();
    for (_, text, code, place) in vectors::refused() {
        let mut given = Given::noisy(&[0; 3], [0, 0, 0]);
        refused.by((code, place), 0, &text, &given);
        given.price.each = 256;
        refused.by((23, 0), 0, &text, &given);
        given.work -= 1;
        refused.by((15, 16_384), 0, &text, &given);
    }
    let choice = text(5, &[(5, &["either 1 1", "return"])]);
    for (row, done, events, lengths) in EVENT_ROWS {
        let given = Given::noisy(events, lengths);
        refused.by(row, done, choice.as_bytes(), &given);
    }
    assert!(refused.codes.into_iter().eq((1..=13).chain(15..=23)));
}
