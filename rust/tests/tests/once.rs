//! Once, the last number in the line of a point in blocks. A run with one preemption moves no more than the spills and fills of the printed sheet and once of
//! its point, on both cores, and a run with several no more than with once of each. Once is its formula over the other numbers of its line, other formulas
//! differ, and it is printed in blocks alone.

use std::cmp::Ordering;
use std::collections::BTreeMap;
use std::fmt::Display;

use generate::{Price, Rng, RunCase, Small};
use second::figures::{Displacement, PointFigures};
use second::plain;
use second::sheet::{Foot, Last};
use second::WORK_MIN;
use tests::{
    func_lines, largest, noise, once_of, report_at, report_by, rows, run_both_at, split_once,
    steps, text, whole_report, Allowed, FuncLines, Lent, Named, TWO,
};

/// What the other task leaves in the cache.
const LEFT: u32 = 77;

/// The small tasks whose event lists are all tried, their most points, and the most events of a list.
const SMALL: u64 = 60;
const POINTS: usize = 8;
const EVENTS: usize = 7;

/// The small tasks, of so many points at most, and small wrappers whose event lists with one preemption are all tried, and the most events of such a list.
const SMALL_ONE: u64 = 120;
const SMALL_ONE_POINTS: usize = 10;
const SMALL_ONE_EVENTS: usize = 9;
const SMALL_WRAPPERS: u64 = 100;
const SMALL_WRAPPER_EVENTS: usize = 12;

/// The most blocks of the cache of three functions in a row.
const ROW_STACK: usize = 3;

/// The tasks of the random lists, of two kinds, and how many lists each has.
const VALID: usize = 1_000;
const WRAPPERS: usize = 1_000;
const LISTS: usize = 2;

/// How many generated texts of each kind have once compared with formulas, and how many their reports at other prices.
const FORMULAS: usize = 1_500;
const PRICED: usize = 150;

const DEAREST: Price = Price {
    start: 255,
    each: 255,
};

/// The most bytes of a report, and of the line of a point in blocks.
const MOST_BYTES: usize = 63_967;
const MOST_LINE: usize = 52;

/// A task and the lines of its report in blocks.
struct TaskSheet<'a> {
    text: &'a [u8],
    sheet: Vec<FuncLines>,
}

impl<'a> TaskSheet<'a> {
    fn of(text: &'a [u8]) -> Self {
        let sheet = func_lines(&whole_report(text, Price::BLOCKS));
        TaskSheet { text, sheet }
    }
}

/// How many runs there are, and in how many of them once is less than the cost, or reached, or both.
#[derive(Debug, Default)]
struct Counted {
    runs: u64,
    /// Once is less than the cost.
    less: u64,
    /// Once is above 0, and all that is allowed with it is moved.
    reached: u64,
    /// Both.
    tight: u64,
    /// Both, on the core with a lazy pointer.
    lazy_tight: u64,
}

impl Counted {
    /// Counts a run by what the cores move.
    fn count(&mut self, allowed: &Allowed, eager: u64, lazy: u64) {
        let less = allowed.once < allowed.cost;
        let reaches = |moved| allowed.once > 0 && moved == allowed.with_once();
        self.runs += 1;
        self.less += u64::from(less);
        self.reached += u64::from(reaches(eager));
        self.tight += u64::from(less && reaches(eager));
        self.lazy_tight += u64::from(less && reaches(lazy));
    }

    /// Requires that no number is below that of `least`.
    fn assert_least(&self, least: Counted) {
        let numbers = |of: &Counted| [of.runs, of.less, of.reached, of.tight, of.lazy_tight];
        let pairs = numbers(self).into_iter().zip(numbers(&least));
        let enough = pairs.into_iter().all(|(number, least)| number >= least);
        assert!(enough, "{self:?}, at least {least:?}");
    }
}

/// Where the refused event of a list stands to its only preemption.
#[derive(Clone, Copy, Debug, PartialEq, Eq, PartialOrd, Ord)]
enum Refused {
    Before,
    Itself,
    Behind,
}

/// Runs by how many preemptions are done in them, and the refused ones of lists with one preemption by code.
#[derive(Debug, Default)]
struct Runs {
    none: Counted,
    one: Counted,
    several: Counted,
    refused: BTreeMap<(u32, Refused), u64>,
}

impl Runs {
    /// Runs a list in blocks on both cores, in both implementations. Requires that moved is at most the spills and fills of the sheet and once of each point
    /// preempted at, and that allowed is the same with cost.
    fn run(&mut self, case: &impl Display, task: &TaskSheet, events: &[u32], lent: &Lent) {
        let named = format!("{case} {events:?}");
        let shown = Named(&named);
        let allowed = Allowed::of(&task.sheet, task.text, events);
        let ran = run_both_at(task.text, Price::BLOCKS, events, lent, WORK_MIN);
        let (eager, lazy) = (ran.eager.result, ran.lazy.result);
        assert_eq!(eager.allowed, allowed.with_cost());
        for moved in [eager.moved, lazy.moved] {
            assert!(moved <= allowed.with_once(), "{moved} {allowed:?}");
        }
        drop(shown);
        let counted = match allowed.preemptions {
            0 => &mut self.none,
            1 => &mut self.one,
            _ => &mut self.several,
        };
        counted.count(&allowed, eager.moved, lazy.moved);
        self.count_refused(events, ran.eager.verdict());
    }

    fn count_refused(&mut self, events: &[u32], (code, place): (u32, u32)) {
        let events = (0..).zip(events.chunks_exact(2));
        let mut preemptions = events.filter(|(_, event)| event[0] == 1);
        if let (Some((at, _)), None, 1..) = (preemptions.next(), preemptions.next(), code) {
            let refused = match place.cmp(&at) {
                Ordering::Less => Refused::Before,
                Ordering::Equal => Refused::Itself,
                Ordering::Greater => Refused::Behind,
            };
            *self.refused.entry((code, refused)).or_insert(0) += 1;
        }
    }
}

/// The buffers of a generated run, with as many answers as the list has events.
fn lent_for(events: &[u32], lent: &generate::Lent) -> Lent {
    Lent {
        answers: noise(events.len() / 2),
        cache: lent.cache.clone(),
        memory: lent.memory.clone(),
    }
}

fn preemptions(events: &[u32]) -> usize {
    let kinds = events.iter().step_by(2);
    kinds.filter(|&&kind| kind == 1).count()
}

/// Every event list of up to `EVENTS` events on tasks of up to `POINTS` points, with any number of preemptions.
#[test]
fn every_list_of_small_tasks() {
    let mut runs = Runs::default();
    for seed in 0..SMALL {
        let small = generate::small(seed + 2_000_000, POINTS);
        let task = TaskSheet::of(&small.text);
        small.every_list(EVENTS, |events| {
            let lent = lent_for(events, &small.lent(events));
            runs.run(&small, &task, events, &lent);
        });
    }
    println!("every list of small tasks: {runs:?}");
    runs.one.assert_least(Counted {
        runs: 5_000,
        less: 300,
        reached: 300,
        ..Counted::default()
    });
    runs.several.assert_least(Counted {
        runs: 30_000,
        less: 3_000,
        reached: 1_500,
        tight: 100,
        lazy_tight: 100,
    });
}

/// Runs every event list of up to so many events with one preemption, of each task. The last event may be a refused one.
fn every_list_with_one(tasks: impl Iterator<Item = Small>, events: usize, least: Counted) {
    let mut runs = Runs::default();
    for small in tasks {
        let task = TaskSheet::of(&small.text);
        small.every_list_with(1, events, |events| {
            if preemptions(events) == 1 {
                let lent = lent_for(events, &small.lent(events));
                runs.run(&small, &task, events, &lent);
            }
        });
    }
    println!("every list of up to {events} events with one preemption: {runs:?}");
    runs.one.assert_least(least);
}

#[test]
fn every_list_with_one_preemption() {
    let tasks = (0..SMALL_ONE).map(|seed| generate::small(seed + 3_000_000, SMALL_ONE_POINTS));
    let least = Counted {
        runs: 30_000,
        less: 1_500,
        reached: 2_000,
        ..Counted::default()
    };
    every_list_with_one(tasks, SMALL_ONE_EVENTS, least);
}

#[test]
fn every_list_of_small_wrappers_with_one_preemption() {
    let tasks = (0..SMALL_WRAPPERS).map(|seed| generate::small_wrapper(seed + 2_000_000));
    let least = Counted {
        runs: 10_000,
        less: 2_000,
        reached: 1_000,
        tight: 100,
        lazy_tight: 100,
    };
    every_list_with_one(tasks, SMALL_WRAPPER_EVENTS, least);
}

/// The text of a function in a row of three, which calls the next one if there is one. It stores to its first block before the call and loads it behind the
/// call, or uses nothing of its frame.
fn in_a_row(number: usize, frame: usize, used: bool) -> String {
    let (store, load) = match used {
        true => ("  (store 0)\n", "  (load 0)\n"),
        false => ("", ""),
    };
    let call = match number {
        2 => String::new(),
        _ => format!("  (call {})\n  (ensure {frame})\n", number + 1),
    };
    format!("(func {frame}\n{store}{call}{load}  (return)\n)\n")
}

/// Every task of three functions in a row on a cache of so many blocks.
fn rows_of_three(stack: usize) -> Vec<String> {
    let mut texts = vec![format!("(stack {stack})\n")];
    for number in 0..3 {
        let frames = (0..=stack).flat_map(|frame| [(frame, false), (frame, true)]);
        let fitting = frames.filter(|&(frame, used)| frame > 0 || !used);
        let funcs: Vec<String> = fitting
            .map(|(frame, used)| in_a_row(number, frame, used))
            .collect();
        let with_each = |text: &String| funcs.iter().map(|func| format!("{text}{func}")).collect();
        texts = texts.iter().flat_map::<Vec<String>, _>(with_each).collect();
    }
    texts
}

/// Runs every list with one preemption of a task without branches: so many steps before it and so many behind it, up to one past the finish, and then an event
/// of an unknown kind or none.
fn run_at_every_place(runs: &mut Runs, text: &str, stack: usize) {
    let task = TaskSheet::of(text.as_bytes());
    let plain = plain::run(task.text, &steps(20, 5)).expect("an accepted text");
    assert!(plain.ending.is_err(), "a finish in 20 steps");
    let most = plain.done as usize + 1;
    for count in 0..=most {
        for before in 0..=count {
            for last in [&[][..], &[2, 0]] {
                let (first, rest) = (steps(before, 5), steps(count - before, 6));
                let events = [&first, &[1, LEFT][..], &rest, last].concat();
                let lent = Lent::noisy(events.len() / 2, stack, 3 * stack);
                runs.run(&text, &task, &events, &lent);
            }
        }
    }
}

#[test]
fn every_list_of_every_row_of_three() {
    let mut runs = Runs::default();
    for stack in 1..=ROW_STACK {
        for text in rows_of_three(stack) {
            run_at_every_place(&mut runs, &text, stack);
        }
    }
    println!("every list of every row of three with one preemption: {runs:?}");
    runs.one.assert_least(Counted {
        runs: 60_000,
        less: 5_000,
        reached: 10_000,
        tight: 300,
        lazy_tight: 300,
    });
}

/// Document 01's lists, its list with the preemption at the ensure, and that one with an event refused behind it: moved, and what is allowed with once and with
/// cost.
#[test]
fn lists_of_two() {
    let at_ensure = [steps(5, 3), vec![1, LEFT]].concat();
    let task = TaskSheet::of(TWO.as_bytes());
    for (events, numbers) in [
        (steps(7, 3), [2, 2, 2]),
        (
            [steps(3, 3), vec![1, LEFT], steps(4, 3)].concat(),
            [9, 9, 9],
        ),
        ([at_ensure.clone(), steps(3, 3)].concat(), [2, 2, 3]),
        ([at_ensure, steps(1, 3), vec![2, 0]].concat(), [2, 2, 3]),
    ] {
        let lent = Lent::noisy(events.len() / 2, 5, 6);
        let ran = run_both_at(task.text, Price::BLOCKS, &events, &lent, WORK_MIN);
        let allowed = Allowed::of(&task.sheet, task.text, &events);
        let allowed = [allowed.with_once(), allowed.with_cost()];
        for result in [ran.eager.result, ran.lazy.result] {
            assert_eq!([result.moved, allowed[0], allowed[1]], numbers);
            assert_eq!(result.allowed, allowed[1]);
        }
    }
}

/// The lists that have the steps of this one and one preemption: at each point that it comes to, before one of the events there, behind all that is done,
/// and, where an event is refused, behind that one.
fn with_one_preemption(text: &[u8], case: &RunCase) -> Vec<Vec<u32>> {
    let events = case.lent.events.chunks_exact(2);
    let steps: Vec<u32> = events
        .filter(|event| event[0] != 1)
        .flatten()
        .copied()
        .collect();
    let mut visits: BTreeMap<(usize, usize), Vec<usize>> = BTreeMap::new();
    let mut done = 0;
    let plain = plain::run_seen(text, &steps, |seen| {
        visits
            .entry((seen.func, seen.point))
            .or_default()
            .push(done);
        done += 1;
    });
    let refused = plain.expect("an accepted text").ending.is_err();
    let mut rng = Rng::new(case.seed);
    let mut places: Vec<usize> = visits.values().map(|at| rng.pick(at)).collect();
    places.push(done);
    places.extend(refused.then_some(done + 1));
    let list = |&at: &usize| [&steps[..2 * at], &[1, LEFT], &steps[2 * at..]].concat();
    places.iter().map(list).collect()
}

/// Runs lists with any number of preemptions and some refused events, and each of them with one preemption.
fn random(name: &str, cases: impl Iterator<Item = Vec<RunCase>>) -> Runs {
    let mut runs = Runs::default();
    for lists in cases {
        let task = TaskSheet::of(&lists[0].text);
        for case in &lists {
            let events = case.lent.events.clone();
            for events in [vec![events], with_one_preemption(task.text, case)].concat() {
                let lent = lent_for(&events, &case.lent);
                runs.run(case, &task, &events, &lent);
            }
        }
    }
    println!("random runs of {name}: {runs:?}");
    // An event of kind 1 is not refused by 20 or 21.
    for (code, places) in [
        (20, &[Refused::Before, Refused::Behind][..]),
        (21, &[Refused::Before, Refused::Behind]),
        (22, &[Refused::Before, Refused::Itself, Refused::Behind]),
    ] {
        for &place in places {
            let lists = runs.refused.get(&(code, place)).copied();
            assert!(lists >= Some(20), "{code} {place:?}: {lists:?}");
        }
    }
    runs
}

#[test]
fn random_runs_of_valid_tasks() {
    let seeds = (40_000_000..).take(VALID);
    let runs = random("valid tasks", seeds.map(|seed| generate::runs(seed, LISTS)));
    runs.one.assert_least(Counted {
        runs: 20_000,
        less: 1_000,
        reached: 3_000,
        tight: 50,
        lazy_tight: 40,
    });
    runs.several.assert_least(Counted {
        runs: 800,
        less: 150,
        reached: 100,
        tight: 5,
        lazy_tight: 5,
    });
}

#[test]
fn random_runs_of_wrappers() {
    let seeds = (41_000_000..).take(WRAPPERS);
    let runs = random(
        "wrappers",
        seeds.map(|seed| generate::wrapper_runs(seed, LISTS)),
    );
    runs.one.assert_least(Counted {
        runs: 20_000,
        less: 3_000,
        reached: 1_000,
        tight: 100,
        lazy_tight: 100,
    });
    runs.several.assert_least(Counted {
        runs: 800,
        less: 300,
        ..Counted::default()
    });
}

/// Generated texts of all kinds that are accepted.
fn texts(count: usize) -> impl Iterator<Item = (String, Vec<u8>)> {
    let valid = (42_000_000..).take(count).map(generate::valid);
    let wrappers = (43_000_000..).take(count).map(generate::wrappers);
    let small = (44_000_000..)
        .take(count)
        .map(|seed| generate::small(seed, POINTS));
    let large = valid
        .chain(wrappers)
        .map(|case| (case.to_string(), case.text));
    large.chain(small.map(|case| (case.to_string(), case.text)))
}

/// Formulas that are not once, by what is wrong in them.
fn other_formulas(at: &PointFigures) -> [(&'static str, u32); 16] {
    let above = |end: u32| at.high.saturating_sub(end);
    let missing = above(at.dead.max(at.need));
    let (own, delayed) = (at.save + at.reload, at.later + at.chain);
    let paid = delayed.min(missing);
    [
        ("the larger of both", own + delayed.max(missing)),
        ("no save", at.reload + paid),
        ("no reload", at.save + paid),
        ("nothing missing", own),
        ("all that is missing", own + missing),
        ("later alone", own + at.later.min(missing)),
        ("chain alone", own + at.chain.min(missing)),
        (
            "later and chain apart",
            own + at.later.min(missing) + at.chain.min(missing),
        ),
        ("the fill too", own + (delayed + at.fill).min(missing)),
        ("above need", own + delayed.min(above(at.need))),
        ("above both", own + delayed.min(above(at.dead + at.need))),
        ("one more missing", own + delayed.min(missing + 1)),
        (
            "one less missing",
            own + delayed.min(missing.saturating_sub(1)),
        ),
        (
            "reload among the missing",
            at.save + (at.reload + delayed).min(missing),
        ),
        ("the cost", at.cost),
        ("twice the save", 2 * at.save),
    ]
}

/// Once is its formula and at most the cost. Each other formula differs at one of two hundred points or more. No line has more bytes than the most.
#[test]
fn once_is_its_formula_and_no_other() {
    let (mut points, mut less) = (0, 0);
    let mut told = BTreeMap::new();
    for (case, text) in texts(FORMULAS) {
        let report = whole_report(&text, Price::BLOCKS);
        let longest = line_lengths(&report).into_iter().max();
        assert!(longest <= Some(MOST_LINE), "{case}: {longest:?}");
        for at in func_lines(&report).iter().flat_map(|func| &func.points) {
            let once = once_of(at);
            assert_eq!(at.once, Some(once), "{case}: {at:?}");
            assert!(once <= at.cost, "{case}: {at:?}");
            points += 1;
            less += u64::from(once < at.cost);
            for (name, other) in other_formulas(at) {
                *told.entry(name).or_insert(0) += u64::from(other != once);
            }
        }
    }
    println!("{points} points, {less} with once below the cost; those where another formula differs: {told:?}");
    assert!(points > 200_000 && less * 20 > points, "{less} {points}");
    let all = told.values().all(|&differ| differ * 200 >= points);
    assert!(all && told.len() == 16, "{told:?}");
}

/// A formula that cannot be told from once: with dead in the place of the larger of dead and need. The cache has room for the frame and the chain, so high is
/// at least need + later + chain. So nothing is cut off where need is larger, and there once is the cost. Where something is cut off, reload is 0 and the
/// missing blocks are those of save.
#[test]
fn need_above_dead_cuts_nothing_off() {
    let (mut above, mut cut) = (0, 0);
    for (case, text) in texts(FORMULAS) {
        let sheet = func_lines(&whole_report(&text, Price::BLOCKS));
        for at in sheet.iter().flat_map(|func| &func.points) {
            let once = once_of(at);
            let delayed = at.later + at.chain;
            let by_dead = at.save + at.reload + delayed.min(at.high.saturating_sub(at.dead));
            assert_eq!(by_dead, once, "{case}: {at:?}");
            assert!(at.high >= at.need + delayed, "{case}: {at:?}");
            assert_eq!(once, at.cost.min(2 * at.save), "{case}: {at:?}");
            above += u64::from(at.need > at.dead);
            cut += u64::from(once < at.cost);
        }
    }
    println!("need is above dead at {above} points, and once is below the cost at {cut}");
    assert!(above > 50_000 && cut > 10_000, "{above} {cut}");
}

/// Prices that fit next to the one in blocks, and prices that do not fit, among them those that are 0 and 1 when they are cut to 8 or 16 bits.
const OTHER: [(u32, u32); 4] = [(0, 2), (1, 1), (0, 255), (255, 1)];
const UNFIT: [(u32, u32); 6] = [
    (0, 0),
    (256, 1),
    (0, 257),
    (256, 257),
    (65_536, 1),
    (0, 65_537),
];

/// Requires that the report has once in blocks, is as before request 7 without it and at every other price, and is refused where the price does not fit.
fn assert_in_blocks_alone(text: &[u8], case: &impl Display) {
    let before = |price| report_by(Displacement::Walks, Last::Fill, Foot::Total, text, price);
    let (without, _) = split_once(&whole_report(text, Price::BLOCKS));
    assert!(without == before(Price::BLOCKS).as_bytes(), "{case}");
    for (start, each) in OTHER {
        let price = Price { start, each };
        let report = whole_report(text, price);
        assert!(report == before(price).as_bytes(), "{case} {price:?}");
        let mut points = func_lines(&report).into_iter().flat_map(|func| func.points);
        assert!(points.all(|at| at.once.is_none()), "{case} {price:?}");
    }
    for (start, each) in UNFIT {
        let reported = report_at(text, Price { start, each }, felknost::OUTPUT, WORK_MIN);
        assert_eq!(reported.refusal(case), (23, 0), "{case} {start} {each}");
    }
}

#[test]
fn once_is_printed_in_blocks_alone() {
    assert_in_blocks_alone(TWO.as_bytes(), &"two");
    for (case, text) in texts(PRICED) {
        assert_in_blocks_alone(&text, &case);
    }
    // The price is judged before the text.
    for (start, each) in UNFIT {
        let reported = report_at(b"\n", Price { start, each }, felknost::OUTPUT, WORK_MIN);
        assert_eq!(reported.refusal(&"no task"), (23, 0), "{start} {each}");
    }
}

/// Requires that a report is refused by 14, with its whole length, in an output of these lengths, and written in one of its length.
fn assert_length(text: &[u8], price: Price, length: usize, short: &[usize]) {
    let report = whole_report(text, price);
    assert_eq!(report.len(), length, "{price:?}");
    for &output in short.iter().chain(&[length]) {
        assert_eq!(output == length, output >= length);
        let reported = report_at(text, price, output, WORK_MIN);
        reported.assert_whole_or_none(&report, &format!("{price:?}"));
    }
}

/// Document 01's example has 281 bytes without once, and two more for each of its eight points. Where a block costs 2, one save and one cost have two digits.
#[test]
fn lengths_of_two() {
    let text = TWO.as_bytes();
    assert_length(text, Price::BLOCKS, 297, &[0, 280, 281, 282, 295, 296]);
    let doubled = Price { start: 0, each: 2 };
    assert_length(text, doubled, 283, &[281, 282]);
}

/// A task of 1,024 points. Function 0 keeps 34 of 64 blocks and calls three functions of 30 blocks in turn, which load offset 10 and store to offset 19 for
/// ever, with a call of a function without a frame in each round. So most lines of these three have two digits for every figure of blocks, three for cost
/// and once, and a point of three digits.
fn widest() -> String {
    let mut first = vec![
        "call 1",
        "ensure 34",
        "call 2",
        "ensure 34",
        "call 3",
        "ensure 34",
    ];
    first.resize(254, "store 19");
    first.push("return");
    let mut round = vec!["store 10", "store 19"];
    round.resize(252, "load 10");
    round.extend(["store 19", "call 4", "ensure 30", "goto 2"]);
    let round: (usize, &[&str]) = (30, &round);
    text(64, &[(34, &first), round, round, round, (0, &["return"])])
}

/// The bytes of each line of a point.
fn line_lengths(report: &[u8]) -> Vec<usize> {
    let lines = report.split_inclusive(|&byte| byte == b'\n');
    lines
        .filter(|line| line.starts_with(b"  (at "))
        .map(<[u8]>::len)
        .collect()
}

/// Requires that a task of 1,024 points has lines and a report of no more bytes than the most, in blocks and at the largest prices, and is refused in outputs
/// that are too short. Gives the bytes of its lines in blocks.
fn assert_1024_points(task: &str) -> Vec<usize> {
    let text = task.as_bytes();
    for price in [Price::BLOCKS, DEAREST] {
        let report = whole_report(text, price);
        assert!(report.len() <= MOST_BYTES, "{price:?}");
        assert_length(text, price, report.len(), &[0, report.len() - 1]);
        let points = rows(&report).into_iter().filter(|(word, _)| *word == "at");
        let columns = if price == Price::BLOCKS { 11 } else { 10 };
        let counts: Vec<usize> = points.map(|(_, numbers)| numbers.len()).collect();
        assert_eq!(counts, [columns; 1_024], "{price:?}");
    }
    let lengths = line_lengths(&whole_report(text, Price::BLOCKS));
    assert!(lengths.iter().all(|&length| length <= MOST_LINE));
    lengths
}

/// In blocks no line has more than 42 bytes: chain and the frame fit in the cache, so chain has two digits, and once is at most twice save. The points from 100
/// on of three functions have so many, but for the call and the ensure.
#[test]
fn most_bytes() {
    let text = widest();
    let lengths = assert_1024_points(&text);
    let line = "  (at 100 64 10 20 54 10 10 34 108 0 108)\n";
    let longest = |&&length: &&usize| length == line.len();
    assert_eq!(lengths.iter().max(), Some(&42));
    assert_eq!(lengths.iter().filter(longest).count(), 3 * 154);
    let report = String::from_utf8(whole_report(text.as_bytes(), Price::BLOCKS));
    assert!(report.expect("a report is text").contains(line));
    assert_1024_points(&largest());
}
