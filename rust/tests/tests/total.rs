//! The total of a report, in the line before its last: the sum of the costs of all points. On generated texts in blocks and at prices, on tasks whose totals
//! are worked out by hand, of one to eight digits, and in outputs that are too short for the line or for a part of it.

use std::collections::{BTreeMap, BTreeSet};

use generate::{Case, Price};
use second::figures::Displacement;
use second::sheet::{Foot, Last};
use second::WORK_MIN;
use tests::{
    called, deep, largest, report_at, report_by, rows, split_total, sum_of_costs, text,
    whole_report, TWO,
};

/// How many generated texts of each kind have their totals compared, and how many of both kinds have them told from other sums.
const VALID: usize = 4_000;
const WRAPPERS: usize = 4_000;
const TOLD: usize = 1_000;

const START_OF_10: Price = Price { start: 10, each: 1 };
const DEAREST: Price = Price {
    start: 255,
    each: 255,
};

/// The columns of an at line.
const POINT: usize = 0;
const SAVE: usize = 4;
const RELOAD: usize = 5;
const LATER: usize = 6;
const COST: usize = 8;
const FILL: usize = 9;

/// The bytes of the line of a total but for its digits.
const LINE: usize = 11;

/// The report without its total.
fn without_total(text: &[u8], price: Price) -> String {
    report_by(Displacement::Walks, Last::Once, Foot::None, text, price)
}

/// The price of a move at the largest start and each.
fn dearest(blocks: u64) -> u64 {
    match blocks {
        0 => 0,
        _ => 255 + 255 * blocks,
    }
}

/// The most bytes that the lines of a report have together: the first and the last, and one for each function and each point, and the total.
fn most_bytes(report: &[u8]) -> usize {
    let most = |(word, _)| match word {
        "func" => 39,
        "at" => 60,
        _ => LINE + 10,
    };
    10 + rows(report).into_iter().map(most).sum::<usize>()
}

/// Requires that the report has one line of a total, before the last, with the sum of the costs, and that nothing else has changed by it. An output that is
/// too short for the line, by a number of bytes that the seed chooses, gets nothing. One that is about long enough for every report of so many functions and
/// points gets all of it; the report need not be measured for this one.
fn assert_total(case: &Case, price: Price) {
    let named = format!("{case} {price:?}");
    let report = whole_report(&case.text, price);
    let (rest, total) = split_total(&report);
    assert_eq!(total, sum_of_costs(&report), "{named}");
    let lines = rows(&report);
    let totals = lines.iter().filter(|(word, _)| *word == "total");
    assert_eq!(totals.count(), 1, "{named}");
    let wanted = without_total(&case.text, price);
    assert!(rest == wanted.as_bytes(), "{named}");
    let line = report.len() - rest.len();
    assert_eq!(line, LINE + total.to_string().len(), "{named}");
    let most = most_bytes(&report);
    assert!(report.len() <= most, "{named}");
    let seed = case.seed as usize;
    for output in [report.len() - 1 - seed % line, most - 1 + seed % 3] {
        let reported = report_at(&case.text, price, output, WORK_MIN);
        reported.assert_whole_or_none(&report, &named);
    }
}

/// In blocks, with a start, at the largest prices and at the price of the seed.
fn assert_totals(cases: impl Iterator<Item = Case>) {
    for case in cases {
        for price in [
            Price::BLOCKS,
            START_OF_10,
            DEAREST,
            generate::price(case.seed),
        ] {
            assert_total(&case, price);
        }
    }
}

#[test]
fn totals_of_accepted_texts() {
    assert_totals((20_000_000..).take(VALID).map(generate::valid));
}

#[test]
fn totals_of_wrappers() {
    assert_totals((21_000_000..).take(WRAPPERS).map(generate::wrappers));
}

/// Sums of a report that are not its total, by what they leave out or count too often. `blocks` is the total in blocks.
fn other_sums(report: &[u8], price: Price, blocks: u64) -> [(&'static str, u64); 13] {
    let mut func = 0;
    let mut points: Vec<(u32, Vec<u32>)> = Vec::new();
    for (word, numbers) in rows(report) {
        match word {
            "func" => func = numbers[0],
            "at" => points.push((func, numbers)),
            _ => assert_eq!(word, "total"),
        }
    }
    let sum = |column: usize| -> u64 {
        let numbers = points.iter().map(|(_, numbers)| numbers[column]);
        numbers.map(u64::from).sum()
    };
    let sum_where = |counts: &dyn Fn(u32, u32) -> bool| -> u64 {
        let counted = points
            .iter()
            .filter(|(func, numbers)| counts(*func, numbers[POINT]));
        counted.map(|(_, numbers)| u64::from(numbers[COST])).sum()
    };
    let costs = || points.iter().map(|(_, numbers)| u64::from(numbers[COST]));
    let total = sum(COST);
    let differing: BTreeSet<u64> = costs().collect();
    let dearest = costs().max().expect("a point");
    let last = costs().next_back().expect("a point");
    [
        ("saves", sum(SAVE)),
        ("no chains", sum(SAVE) + sum(RELOAD) + sum(LATER)),
        ("fills too", total + sum(FILL)),
        ("first points alone", sum_where(&|_, point| point == 0)),
        ("no first points", sum_where(&|_, point| point > 0)),
        ("no first function", sum_where(&|of, _| of > 0)),
        ("no last function", sum_where(&|of, _| of < func)),
        ("the last point twice", total + last),
        ("the dearest point twice", total + dearest),
        ("equal costs once", differing.into_iter().sum()),
        ("blocks", blocks),
        ("the price of all blocks", price.of(blocks as u32).into()),
        ("sixteen bits", total % 65_536),
    ]
}

/// Each of them is another number than the total in at least a quarter of the generated texts, at the largest prices.
#[test]
fn other_sums_are_told_from_totals() {
    let valid = (20_000_000..).take(TOLD / 2).map(generate::valid);
    let wrappers = (21_000_000..).take(TOLD / 2).map(generate::wrappers);
    let mut told = BTreeMap::new();
    for case in valid.chain(wrappers) {
        let report = whole_report(&case.text, DEAREST);
        let (_, total) = split_total(&report);
        let blocks = sum_of_costs(&whole_report(&case.text, Price::BLOCKS));
        for (name, sum) in other_sums(&report, DEAREST, blocks) {
            *told.entry(name).or_insert(0) += usize::from(sum != total);
        }
    }
    println!("{TOLD} texts, those in which another sum differs: {told:?}");
    assert!(told.values().all(|&texts| texts * 4 >= TOLD), "{told:?}");
}

/// Requires a report with this total: in outputs of no bytes and of one, in all from two bytes less than the report has without the line to one that is
/// just too short, and in some that are long enough.
fn has_total(text: &str, price: Price, total: u64) {
    let without = without_total(text.as_bytes(), price);
    let lines = without.strip_suffix(")\n").expect("the last line");
    let wanted = format!("{lines}  (total {total})\n)\n");
    let line = wanted.len() - without.len();
    assert_eq!(line, LINE + total.to_string().len());
    let case = format!("{total} {price:?}");
    let around = without.len() - 2..wanted.len() + 3;
    for output in (0..2).chain(around) {
        let reported = report_at(text.as_bytes(), price, output, WORK_MIN + output % 3);
        reported.assert_whole_or_none(wanted.as_bytes(), &case);
    }
}

#[test]
fn total_of_two() {
    has_total(TWO, Price::BLOCKS, 16);
    has_total(TWO, START_OF_10, 136);
}

/// Functions without frames, a frame that is never used, and one that is stored to and never loaded from.
#[test]
fn nothing_costs() {
    let callee: (usize, &[&str]) = (0, &["return"]);
    let texts = [
        text(1, &[callee]),
        text(64, &[(64, &["return"])]),
        text(2, &[(2, &["store 0", "store 1", "goto 0"])]),
        called(64, &[callee; 63]),
        deep(0, &["return"]),
    ];
    for text in texts {
        for price in [Price::BLOCKS, START_OF_10, DEAREST] {
            has_total(&text, price, 0);
        }
    }
}

/// A store and a return of a function of one block, and so many loads between them.
fn loads(count: usize) -> Vec<&'static str> {
    let mut points = vec!["load 0"; count + 2];
    points[0] = "store 0";
    points[count + 1] = "return";
    points
}

/// One function. The store and the return cost nothing, and a load costs two moves of one block: out and back. The totals stand on both sides of each number
/// of digits.
#[test]
fn totals_of_one_to_six_digits() {
    for (count, start, each, total) in [
        (0, 255, 255, 0),
        (1, 0, 1, 2),
        (4, 0, 1, 8),
        (5, 0, 1, 10),
        (49, 0, 1, 98),
        (50, 0, 1, 100),
        (1, 244, 255, 998),
        (1, 245, 255, 1_000),
        (14, 102, 255, 9_996),
        (10, 245, 255, 10_000),
        (99, 250, 255, 99_990),
        (100, 245, 255, 100_000),
        (254, 255, 255, 259_080),
    ] {
        let text = text(1, &[(1, &loads(count))]);
        has_total(&text, Price { start, each }, total);
    }
}

/// Function N has N callers of one block each. Their blocks are saved in one move, and each comes back by an ensure of its own. At a call and at an ensure
/// the function's own block is to be filled too. At a load it is saved and comes back.
#[test]
fn totals_of_many_functions() {
    for count in [0, 1, 3, 254] {
        let text = deep(1, &loads(count));
        let total = |price: fn(u64) -> u64| -> u64 {
            let callers = |number| price(number) + number * price(1);
            let calling = (0..63).map(|number| 3 * callers(number) + 2 * price(1));
            let load = price(64) + price(1) + 63 * price(1);
            calling.sum::<u64>() + 2 * callers(63) + count as u64 * load
        };
        has_total(&text, Price::BLOCKS, total(|blocks| blocks));
        has_total(&text, DEAREST, total(dearest));
    }
}

/// The total of the largest task, function by function. Function N has 3 + N blocks of callers, which are saved, and at each point its own block is to be
/// filled. At a load of the last four functions 64 blocks are saved, and one comes back.
#[test]
fn a_total_of_eight_digits() {
    let chain = |number: u64| dearest(4) + (number - 1) * dearest(1);
    let caller = |number: u64| dearest(3 + number) + dearest(1) + chain(number);
    let first = 3 * dearest(4);
    let callers: u64 = (1..59).map(|number| 3 * caller(number)).sum();
    let store = dearest(63) + chain(60);
    let load = dearest(64) + dearest(1) + chain(60);
    let total = first + callers + 9 * caller(59) + 4 * store + (1_024 - 3 * 59 - 9 - 4) * load;
    let text = largest();
    let report = whole_report(text.as_bytes(), DEAREST);
    let lines = rows(&report);
    let points = lines.iter().filter(|(word, _)| *word == "at");
    assert_eq!(points.count(), 1_024);
    assert_eq!(most_bytes(&report), 63_967);
    assert_eq!(sum_of_costs(&report), total);
    assert_eq!(total, 45_354_810);
    has_total(&text, DEAREST, total);
}
