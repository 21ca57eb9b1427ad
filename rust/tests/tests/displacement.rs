//! The shortest displacement of a function by whole walks: d of single functions, and what it changes on the sheet against the smallest of all calls.

use std::collections::{BTreeMap, BTreeSet};
use std::fmt::Display;
use std::path::PathBuf;

use generate::Price;
use second::figures::{Displacement, FuncFigures};
use second::sheet::{Foot, Last};
use second::text::{Point, Task};
use second::{admit, WORK_MIN};
use tests::{figures_of, rows, whole_report};
use vectors::{read, tasks};

/// How many generated texts of each kind are compared under both rules, and how many of the first kind are counted.
const WRAPPERS: u64 = 3_000;
const VALID: u64 = 1_000;
const COUNTED: u64 = 2_000;

/// The columns of a func line that the rule may change, those of an at line, and the total.
const SHORTEST: usize = 2;
const SPILL: usize = 4;
const HIGH: usize = 1;
const SAVE: usize = 4;
const COST: usize = 8;
const ONCE: usize = 10;
const TOTAL: usize = 0;

/// The report by the smallest of all calls.
fn report_before(text: &[u8], price: Price) -> String {
    tests::report_by(Displacement::Smallest, Last::Once, Foot::Total, text, price)
}

/// d of each function of a report.
fn shortest(report: &[u8]) -> Vec<u32> {
    let lines = rows(report).into_iter();
    let funcs = lines.filter(|(word, _)| *word == "func");
    funcs.map(|(_, numbers)| numbers[SHORTEST]).collect()
}

/// d of each function: by the smallest of all calls, and in the report, in which both implementations agree.
fn both(text: &str) -> [Vec<u32>; 2] {
    let before = report_before(text.as_bytes(), Price::BLOCKS);
    let since = whole_report(text.as_bytes(), Price::BLOCKS);
    [shortest(before.as_bytes()), shortest(&since)]
}

/// d of function 0, likewise.
fn first(text: &str) -> [u32; 2] {
    both(text).map(|shortest| shortest[0])
}

/// The text of a function, with its points in a row.
fn func(frame: usize, points: &str) -> String {
    let points = points.split(", ").map(|point| format!("  ({point})\n"));
    format!("(func {frame}\n{})\n", points.collect::<String>())
}

/// d of function 0, which has two blocks and these points. Function 1, and so on, has so many blocks and makes no call.
fn d_of(points: &str, callees: &[usize]) -> [u32; 2] {
    let callees = callees.iter().map(|&frame| func(frame, "return"));
    let funcs = func(2, points) + &callees.collect::<String>();
    first(&format!("(stack 8)\n{funcs}"))
}

#[test]
fn a_small_call_and_then_always_a_large_one() {
    let in_a_row = "call 1, ensure 2, call 2, ensure 2, return";
    assert_eq!(d_of(in_a_row, &[1, 5]), [3, 7]);
    assert_eq!(d_of(in_a_row, &[5, 1]), [3, 7]);
    let passed_by = "either 1 3, call 1, ensure 2, call 2, ensure 2, return";
    assert_eq!(d_of(passed_by, &[1, 5]), [3, 7]);
    assert_eq!(d_of(passed_by, &[5, 1]), [3, 3]);
}

#[test]
fn the_side_with_the_smaller_call_decides() {
    let joined = "either 1 4, call 1, ensure 2, goto 6, call 2, ensure 2, return";
    let apart = "either 1 4, call 1, ensure 2, return, call 2, ensure 2, return";
    for points in [joined, apart] {
        assert_eq!(d_of(points, &[1, 5]), [3, 3]);
        assert_eq!(d_of(points, &[5, 1]), [3, 3]);
    }
    // Each side has a call that is not the smallest.
    let behind = "call 3, ensure 2, either 3 6, call 1, ensure 2, goto 8, call 2, ensure 2, return";
    assert_eq!(d_of(behind, &[5, 8, 1]), [3, 7]);
    assert_eq!(d_of(behind, &[8, 5, 1]), [3, 7]);
}

#[test]
fn a_loop_counts_where_no_walk_passes_it_by() {
    let passed_by = "either 1 4, call 2, ensure 2, goto 0, call 1, ensure 2, return";
    assert_eq!(d_of(passed_by, &[1, 5]), [3, 3]);
    let alone = "either 1 4, call 1, ensure 2, goto 0, return";
    assert_eq!(d_of(alone, &[5]), [2, 2]);
    let entered = "call 2, ensure 2, either 0 3, call 1, ensure 2, return";
    assert_eq!(d_of(entered, &[1, 5]), [3, 7]);
}

#[test]
fn without_a_return_the_smallest_of_all_calls_counts() {
    let in_turn = "call 2, ensure 2, call 1, ensure 2, goto 0";
    assert_eq!(d_of(in_turn, &[1, 5]), [3, 3]);
    assert_eq!(d_of(in_turn, &[5, 0]), [2, 2]);
    assert_eq!(d_of("call 1, ensure 2, goto 0", &[5]), [7, 7]);
    assert_eq!(d_of("goto 0", &[]), [2, 2]);
}

#[test]
fn a_walk_that_comes_to_no_return_does_not_count() {
    let small = "either 1 4, call 1, ensure 2, goto 1, call 2, ensure 2, return";
    assert_eq!(d_of(small, &[1, 5]), [3, 7]);
    let none = "either 1 2, goto 1, call 1, ensure 2, call 2, ensure 2, return";
    assert_eq!(d_of(none, &[1, 5]), [3, 7]);
}

#[test]
fn a_call_that_displaces_nothing() {
    let in_a_row = "call 1, ensure 2, call 2, ensure 2, return";
    assert_eq!(d_of(in_a_row, &[0, 5]), [2, 7]);
    assert_eq!(d_of(in_a_row, &[0, 0]), [2, 2]);
    let one_of_both = "either 1 4, call 1, ensure 2, return, call 2, ensure 2, return";
    assert_eq!(d_of(one_of_both, &[0, 5]), [2, 2]);
    let for_ever = "either 1 4, call 1, ensure 2, goto 1, call 2, ensure 2, return";
    assert_eq!(d_of(for_ever, &[0, 5]), [2, 7]);
}

/// 63 functions, each of which calls the last one of the task and then the next.
#[test]
fn a_chain_of_wrappers() {
    let wrapper = |next| format!("call 63, ensure 1, call {next}, ensure 1, return");
    let wrappers: String = (1..64).map(|next| func(1, &wrapper(next))).collect();
    let [before, since] = both(&format!("(stack 64)\n{wrappers}{}", func(1, "return")));
    assert!(before.into_iter().eq([2; 63].into_iter().chain([1])));
    assert!(since.into_iter().eq((1..=64).rev()));
}

/// The functions after function 0, rising, falling and mixed. 5 and 64 have no common divisor, so each stands once in the last.
fn orders() -> [Vec<usize>; 3] {
    let rising = (1..64).collect();
    let falling = (1..64).rev().collect();
    let mixed = (1..64).map(|number| 5 * number % 64).collect();
    [rising, falling, mixed]
}

/// A task whose function 0 has no block and calls the 63 others in this order. Walks may pass by those that are not `forced`.
fn with_63_calls(order: &[usize], forced: &[usize], others: &str) -> String {
    let mut points = Vec::new();
    for &callee in order {
        if !forced.contains(&callee) {
            let at = points.len();
            points.push(format!("either {} {}", at + 1, at + 3));
        }
        points.extend([format!("call {callee}"), "ensure 0".to_string()]);
    }
    points.push("return".to_string());
    format!("(stack 64)\n{}{others}", func(0, &points.join(", ")))
}

/// Function N has N blocks.
#[test]
fn calls_of_63_functions_that_differ() {
    let others: String = (1..64).map(|frame| func(frame, "return")).collect();
    for order in orders() {
        let of = |forced: &[usize]| first(&with_63_calls(&order, forced, &others));
        assert_eq!(of(&[]), [0, 0]);
        assert_eq!(of(&order), [1, 63]);
        for number in 1..64 {
            assert_eq!(of(&[number]), [1, number as u32]);
            let larger = number.max(64 - number);
            assert_eq!(of(&[number, 64 - number]), [1, larger as u32]);
        }
    }
}

/// Function N has 64 blocks and calls the next, so that 64 - N frames are displaced.
#[test]
fn calls_of_63_functions_of_which_each_calls_the_next() {
    let caller = |number| func(64, &format!("call {}, ensure 64, return", number + 1));
    let others = (1..63).map(caller).collect::<String>() + &func(64, "return");
    for order in orders() {
        let of = |forced: &[usize]| first(&with_63_calls(&order, forced, &others));
        assert_eq!(of(&[]), [0, 0]);
        for number in 1..64 {
            assert_eq!(of(&[number]), [64, 64 * (64 - number as u32)]);
        }
    }
}

#[test]
fn calls_of_63_functions_that_are_equal() {
    for frame in [0, 5, 64] {
        let others = func(frame, "return").repeat(63);
        for order in orders() {
            let of = |forced: &[usize]| first(&with_63_calls(&order, forced, &others));
            assert_eq!(of(&[]), [0, 0]);
            for forced in [&[1][..], &[32], &[63], &[7, 9], &order] {
                assert_eq!(of(forced), [frame as u32; 2]);
            }
        }
    }
}

/// Function N has N blocks. Function 0 calls one of every two in turn, and the last one or none.
#[test]
fn one_of_every_two_calls() {
    let others: String = (1..64).map(|frame| func(frame, "return")).collect();
    for order in orders() {
        let pairs = order.chunks_exact(2);
        let mut points: Vec<String> = Vec::new();
        for pair in pairs.clone() {
            let at = points.len();
            points.push(format!("either {} {}", at + 1, at + 4));
            points.extend([format!("call {}", pair[0]), "ensure 0".to_string()]);
            points.push(format!("goto {}", at + 6));
            points.extend([format!("call {}", pair[1]), "ensure 0".to_string()]);
        }
        let (at, last) = (points.len(), order[62]);
        let rest = format!(
            "either {} {}, call {last}, ensure 0, return",
            at + 1,
            at + 3
        );
        points.push(rest);
        let smaller = pairs.map(|pair| pair[0].min(pair[1]));
        let wanted = smaller.max().expect("31 pairs");
        let text = format!("(stack 64)\n{}{others}", func(0, &points.join(", ")));
        assert_eq!(first(&text), [1, wanted as u32]);
    }
}

/// How many lines a rule has changed in a column.
#[derive(Debug, Default)]
struct Changed {
    shortest: u32,
    spill: u32,
    high: u32,
    save: u32,
    cost: u32,
    once: u32,
    total: u32,
}

impl Changed {
    /// Compares a line of the report with the one by the smallest of all calls: d may only rise, spill, high, save, cost, once and the total may only fall, and
    /// nothing else may differ.
    fn count(&mut self, word: &str, before: &[u32], since: &[u32], case: &impl Display) {
        assert_eq!(before.len(), since.len(), "{case}");
        for (column, (&before, &since)) in before.iter().zip(since).enumerate() {
            let (changed, fits) = match (word, column) {
                ("func", SHORTEST) => (&mut self.shortest, before <= since),
                ("func", SPILL) => (&mut self.spill, since <= before),
                ("at", HIGH) => (&mut self.high, since <= before),
                ("at", SAVE) => (&mut self.save, since <= before),
                ("at", COST) => (&mut self.cost, since <= before),
                ("at", ONCE) => (&mut self.once, since <= before),
                ("total", TOTAL) => (&mut self.total, since <= before),
                _ => (&mut 0, since == before),
            };
            assert!(fits, "{case} {word} {column}: {before} {since}");
            *changed += u32::from(since != before);
        }
    }

    /// Compares the reports of an accepted text in blocks, at a price with a start, and at the price of a seed.
    fn count_all(&mut self, text: &[u8], seed: u64, case: &impl Display) {
        let with_start = Price { start: 10, each: 3 };
        for price in [Price::BLOCKS, with_start, generate::price(seed)] {
            let before = report_before(text, price);
            let since = whole_report(text, price);
            let (before, since) = (rows(before.as_bytes()), rows(&since));
            assert_eq!(before.len(), since.len(), "{case} {price:?}");
            for ((word, before), (also, since)) in before.iter().zip(&since) {
                assert_eq!(word, also, "{case} {price:?}");
                self.count(word, before, since, &format!("{case} {price:?}"));
            }
        }
    }

    /// Requires that each column has changed in at least so many lines.
    fn assert_strict(&self, least: u32) {
        let Changed {
            shortest,
            spill,
            high,
            save,
            cost,
            once,
            total,
        } = *self;
        let all = [shortest, spill, high, save, cost, once, total];
        assert!(all.into_iter().all(|lines| lines >= least), "{self:?}");
    }
}

#[test]
fn nothing_rises_in_the_vectors_and_the_examples() {
    // The examples stand beside the folder of the vectors.
    let folders = ["report", "run", "../examples"];
    let paths: Vec<PathBuf> = folders.into_iter().flat_map(tasks).collect();
    assert_eq!(paths.len(), 76 + 86 + 6);
    let mut changed = Changed::default();
    for (seed, path) in (0..).zip(&paths) {
        changed.count_all(&read(path), seed, &path.display());
    }
    changed.assert_strict(1);
}

#[test]
fn nothing_rises_in_generated_texts() {
    let mut changed = Changed::default();
    let wrappers = (17_000_000..)
        .take(WRAPPERS as usize)
        .map(generate::wrappers);
    let valid = (18_000_000..).take(VALID as usize).map(generate::valid);
    for case in wrappers.chain(valid) {
        changed.count_all(&case.text, case.seed, &case);
    }
    changed.assert_strict(WRAPPERS as u32 / 10);
}

/// What the rule looks at in a function, and whether it is so, by the figures under both rules.
fn shapes(
    task: &Task,
    number: usize,
    before: &[FuncFigures],
    since: &[FuncFigures],
) -> [(&'static str, bool); 7] {
    let func = &task.funcs[number];
    let points = task.points_of(func);
    let callee = |point: &Point| match point {
        Point::Call(callee) => Some(usize::from(*callee)),
        _ => None,
    };
    let callees: BTreeSet<usize> = points.iter().filter_map(callee).collect();
    let called: BTreeSet<u32> = callees.iter().map(|&g| since[g].shortest).collect();
    let own = since[number].shortest - func.frame;
    let inside = called.first() < Some(&own) && Some(&own) < called.last();
    let returns = points.contains(&Point::Return);
    let more = |number: usize| before[number].shortest < since[number].shortest;
    let none = returns && own == 0 && !called.contains(&0);
    [
        ("more than the smallest call", more(number)),
        ("neither the smallest nor the largest call", inside),
        (
            "more, and so for a callee",
            more(number) && callees.iter().any(|&g| more(g)),
        ),
        ("equal d of two callees", called.len() < callees.len()),
        ("a callee with d 0", called.contains(&0)),
        ("no return, and two d called", called.len() > 1 && !returns),
        (
            "a walk without a call, and two d called",
            called.len() > 1 && none,
        ),
    ]
}

/// Each is found in at least one of fifty functions of the generated wrappers.
#[test]
fn wrappers_have_all_that_the_rule_looks_at() {
    let mut met = BTreeMap::new();
    let mut funcs = 0;
    for seed in 0..COUNTED {
        let case = generate::wrappers(seed + 19_000_000);
        let task = admit(&case.text, WORK_MIN).expect("a valid text");
        let by = |rule| figures_of(rule, &case.text, Price::BLOCKS).funcs;
        let (before, since) = (by(Displacement::Smallest), by(Displacement::Walks));
        for number in 0..task.funcs.len() {
            for (shape, is_so) in shapes(&task, number, &before, &since) {
                *met.entry(shape).or_insert(0) += u32::from(is_so);
            }
            funcs += 1;
        }
    }
    println!("{funcs} functions of wrappers: {met:?}");
    assert!(met.values().all(|&count| count * 50 >= funcs), "{met:?}");
}
