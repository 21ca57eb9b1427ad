//! The ten dearest points: as the report itself gives them, on the vectors and on generated texts, with equal costs, whose saves differ or not, few points
//! and many, outputs of every length around the one wanted, any price, and the refusals of the report. Their costs are those by cost and place alone.

use std::cmp::Reverse;
use std::collections::{BTreeMap, BTreeSet};
use std::fmt::Display;

use generate::Price;
use second::WORK_MIN;
use tests::{called, dearest_points_at, deep, prices, report_at, rows, text, whole_report, Wanted};
use vectors::{expected, read, tasks};

/// How many texts of each kind are listed, and how many lists are held against the report.
const VALID: u64 = 100_000;
const PRICED: u64 = 8_000;
const DAMAGED: u64 = 20_000;
const COMPARED: u64 = 10_000;

/// A price at which a move of 3 blocks costs 97, and one of 4 blocks 127.
const PRICE: Price = Price { start: 7, each: 30 };

/// The most lines and bytes of a list.
const MOST: usize = 10;
const MOST_BYTES: usize = 220;

/// A line of a list: function, point and cost.
type Line = [u32; 3];

/// A record of a report. The order of the fields makes the order of the list.
#[derive(Clone, Copy, Debug, PartialEq, Eq, PartialOrd, Ord)]
struct Record {
    cost: Reverse<u32>,
    save: Reverse<u32>,
    func: u32,
    point: u32,
}

impl Record {
    fn line(&self) -> Line {
        [self.func, self.point, self.cost.0]
    }

    /// The order of a list in which saves do not count.
    fn by_place(&self) -> (Reverse<u32>, u32, u32) {
        (self.cost, self.func, self.point)
    }
}

/// The records of a report, in its order.
fn report_records(report: &[u8]) -> Vec<Record> {
    let mut func = 0;
    let mut records = Vec::new();
    for (word, numbers) in rows(report) {
        match (word, &numbers[..]) {
            ("func", &[number, _, _, _, _, _]) => func = number,
            // The last one is once, in a report in blocks.
            (
                "at",
                &[point, _, _, _, save, _, _, _, cost, _]
                | &[point, _, _, _, save, _, _, _, cost, _, _],
            ) => records.push(Record {
                cost: Reverse(cost),
                save: Reverse(save),
                func,
                point,
            }),
            ("total", &[_]) => {}
            _ => panic!("a line {word} {numbers:?}"),
        }
    }
    records
}

fn printed(lines: &[Line]) -> Vec<u8> {
    let line = |[func, point, cost]: &Line| format!("(dear {func} {point} {cost})\n");
    lines.iter().map(line).collect::<String>().into_bytes()
}

/// The lines of the first ten of a report's records in an order.
fn first_by<K: Ord>(order: fn(&Record) -> K, report: &[u8]) -> Vec<Line> {
    let mut records = report_records(report);
    records.sort_by_key(order);
    records.iter().take(MOST).map(Record::line).collect()
}

/// The first ten of a report's records in the order of the list.
fn first_of(report: &[u8]) -> Vec<Line> {
    first_by(|record| *record, report)
}

/// The same, printed.
fn list_of(report: &[u8]) -> Vec<u8> {
    printed(&first_of(report))
}

/// Lists a text, and requires this list.
fn assert_list(text: &[u8], price: Price, output: usize, wanted: &[u8], case: &impl Display) {
    let work = WORK_MIN + output % 3;
    let listed = dearest_points_at(text, price, output, work);
    listed.assert_whole_or_none(wanted, case);
}

#[test]
fn vectors_dearest() {
    for path in tasks("report") {
        let text = read(&path);
        let wanted = list_of(&expected(&path));
        for output in wanted.len().saturating_sub(2)..wanted.len() + 3 {
            assert_list(&text, Price::BLOCKS, output, &wanted, &path.display());
        }
    }
}

#[test]
fn vectors_dearest_at_prices() {
    for path in tasks("report") {
        let text = read(&path);
        for price in prices() {
            let case = format!("{} {price:?}", path.display());
            if price.fits() {
                let wanted = list_of(&whole_report(&text, price));
                assert_list(&text, price, felknost::DEAREST_OUTPUT, &wanted, &case);
            } else {
                let listed = dearest_points_at(&text, price, 256, WORK_MIN);
                assert_eq!(listed.refusal(&case), (23, 0), "{case}");
            }
        }
    }
}

/// Requires that the list is refused as the report is, but for 14: it has the length of the list as its place, and a list of no line fits. Gives the code.
fn refused_like_report(text: &[u8], price: Price, work: usize, case: &impl Display) -> u32 {
    let listed = dearest_points_at(text, price, 3, work).refusal(case);
    let mut wanted = report_at(text, price, 3, work).refusal(case);
    if wanted.0 == 14 {
        wanted = match list_of(&whole_report(text, price)).len() {
            0 => (0, 0),
            length => (14, length as u32),
        };
    }
    assert_eq!(listed, wanted, "{case} {price:?} {work}");
    listed.0
}

/// Every text of the vectors, with prices that fit and that do not, and working spaces around the length wanted. The list of the empty text is accepted.
#[test]
fn refused_vectors() {
    let refused = vectors::refused().into_iter();
    let mut texts: Vec<_> = refused.map(|(name, text, ..)| (name, text)).collect();
    let accepted = tasks("report").into_iter();
    texts.extend(accepted.map(|path| (path.display().to_string(), read(&path))));
    let mut codes = BTreeSet::new();
    for (seed, (name, text)) in (0..).zip(&texts) {
        let fits = generate::price(seed);
        for price in [Price::BLOCKS, fits, generate::unfit_price(seed)] {
            for work in [0, WORK_MIN - 1, WORK_MIN, WORK_MIN + 2] {
                codes.insert(refused_like_report(text, price, work, name));
            }
        }
    }
    assert!(codes.into_iter().eq((0..=15).chain([23])));
}

/// Damaged texts at any price. One in fifty has a working space that is too short.
#[test]
fn refused_generated() {
    let mut codes = BTreeSet::new();
    for seed in 0..DAMAGED {
        let case = generate::damaged(seed + 10_000_000);
        let price = generate::any_price(seed);
        let work = WORK_MIN - 1 + seed as usize % 50;
        codes.insert(refused_like_report(&case.text, price, work, &case));
    }
    assert!(codes.into_iter().eq((1..=15).chain([23])));
}

#[test]
fn lists_of_accepted_texts() {
    for seed in 0..VALID {
        let case = generate::valid(seed + 11_000_000);
        Wanted::dearest_points(&case.text, Price::BLOCKS).write_around(&case, seed);
    }
}

#[test]
fn lists_at_any_price() {
    for seed in 0..PRICED {
        let case = generate::valid(seed + 12_000_000);
        let price = generate::any_price(seed);
        let named = format!("{case} {price:?}");
        if price.fits() {
            Wanted::dearest_points(&case.text, price).write_around(&named, seed);
        } else {
            let listed = dearest_points_at(&case.text, price, 256, WORK_MIN + seed as usize % 5);
            assert_eq!(listed.refusal(&named), (23, 0), "{named}");
        }
    }
}

/// Lists an accepted text. Each line has to be of the form.
fn listed_lines(text: &[u8], price: Price, case: &impl Display) -> Vec<Line> {
    let written = dearest_points_at(text, price, MOST_BYTES, WORK_MIN);
    assert_eq!(written.result.verdict, Ok(()), "{case}");
    let list = &written.output[..written.result.written as usize];
    let text = std::str::from_utf8(list).expect("a list is text");
    let line = |line: &str| -> Option<Line> {
        let numbers = line.strip_prefix("(dear ")?.strip_suffix(')')?.split(' ');
        let numbers: Vec<u32> = numbers.map_while(|number| number.parse().ok()).collect();
        numbers.try_into().ok()
    };
    let lines: Vec<Line> = text.lines().map(|of| line(of).expect("a line")).collect();
    assert_eq!(printed(&lines), list);
    lines
}

/// Requires the rules of a list by the report's records alone. Gives the records listed, and the one that the list leaves out first.
fn assert_first(
    case: &impl Display,
    lines: &[Line],
    records: &[Record],
) -> (Vec<Record>, Option<Record>) {
    assert_eq!(lines.len(), records.len().min(MOST), "{case}");
    let known: BTreeMap<Line, Record> = records.iter().map(|at| (at.line(), *at)).collect();
    assert_eq!(known.len(), records.len(), "{case}");
    // Each line is that of a record.
    let list: Vec<Record> = lines.iter().map(|line| known[line]).collect();
    // This rules out too that a record is listed twice.
    let ordered = list.windows(2).all(|pair| pair[0] < pair[1]);
    assert!(ordered, "{case}: {list:?}");
    let others = records.iter().filter(|record| !list.contains(record));
    let first = others.min().copied();
    assert!(
        first.is_none_or(|other| list.last() < Some(&other)),
        "{case}: {first:?}"
    );
    (list, first)
}

/// In blocks and at prices. Most lists leave points out, and most leave one out that has the cost of the tenth.
#[test]
fn lists_keep_to_the_report() {
    let (mut cut, mut tied) = (0, 0);
    for seed in 0..COMPARED {
        let case = generate::valid(seed + 13_000_000);
        let price = match seed % 2 {
            0 => Price::BLOCKS,
            _ => generate::price(seed),
        };
        let lines = listed_lines(&case.text, price, &case);
        let records = report_records(&whole_report(&case.text, price));
        let (list, next) = assert_first(&case, &lines, &records);
        cut += u64::from(next.is_some());
        tied += u64::from(next.is_some_and(|next| next.cost == list[MOST - 1].cost));
    }
    assert!(cut > COMPARED / 2 && tied > COMPARED / 2, "{cut} {tied}");
}

/// The list of a text, and the one in which saves do not count.
struct Lists {
    by_save: Vec<Line>,
    by_place: Vec<Line>,
}

impl Lists {
    /// Requires that both have the same costs, in the same sequence.
    fn of(text: &[u8], price: Price, case: &impl Display) -> Self {
        let by_save = listed_lines(text, price, case);
        let by_place = first_by(Record::by_place, &whole_report(text, price));
        let costs = |list: &[Line]| list.iter().map(|&[.., cost]| cost).collect::<Vec<_>>();
        assert_eq!(costs(&by_save), costs(&by_place), "{case} {price:?}");
        Lists { by_save, by_place }
    }

    fn differ(&self) -> bool {
        self.by_save != self.by_place
    }

    /// Whether some point is on one of them only.
    fn points_differ(&self) -> bool {
        self.by_save
            .iter()
            .any(|line| !self.by_place.contains(line))
    }

    /// How many bytes they have.
    fn lengths(&self) -> [usize; 2] {
        [&self.by_place, &self.by_save].map(|list| printed(list).len())
    }
}

/// The cases whose two lists differ in blocks, with the bytes of the one in which saves do not count and of the other.
const DIFFERENT: [(&str, [usize; 2]); 7] = [
    ("012", [132, 132]),
    ("018", [130, 130]),
    ("019", [132, 132]),
    ("022", [131, 130]),
    ("058", [131, 130]),
    ("065", [141, 140]),
    ("072", [144, 144]),
];

#[test]
fn vectors_have_the_costs_by_place() {
    let mut different = Vec::new();
    for path in tasks("report") {
        let text = read(&path);
        for price in prices().filter(|price| price.fits()) {
            let lists = Lists::of(&text, price, &path.display());
            if price == Price::BLOCKS && lists.differ() {
                let name = path.file_stem().and_then(|name| name.to_str());
                different.push((name.expect("a name").to_string(), lists.lengths()));
            }
        }
    }
    let wanted = DIFFERENT.map(|(name, lengths)| (name.to_string(), lengths));
    assert_eq!(different, wanted);
}

/// In blocks and at prices. Some lists differ, some list other points, and some have another length.
#[test]
fn generated_texts_have_the_costs_by_place() {
    let (mut lines, mut points, mut lengths) = (0, 0, 0);
    for seed in 0..COMPARED {
        let case = generate::valid(seed + 15_000_000);
        let price = match seed % 2 {
            0 => Price::BLOCKS,
            _ => generate::price(seed),
        };
        let lists = Lists::of(&case.text, price, &case);
        let [by_place, by_save] = lists.lengths();
        lines += u64::from(lists.differ());
        points += u64::from(lists.points_differ());
        lengths += u64::from(by_place != by_save);
    }
    assert!(
        lines > COMPARED / 20 && points > COMPARED / 40 && lengths > COMPARED / 200,
        "{lines} {points} {lengths}"
    );
}

/// Requires a list of these lines, in outputs around its length.
fn lists(text: &str, price: Price, lines: &[Line]) {
    let wanted = printed(lines);
    for output in [wanted.len() - 1, wanted.len(), felknost::DEAREST_OUTPUT] {
        assert_list(text.as_bytes(), price, output, &wanted, &text);
    }
}

/// 64 functions without frames: no point costs anything.
#[test]
fn equal_costs_go_by_function_and_then_by_point() {
    let first: Vec<Line> = (0..10).map(|index| [index / 3, index % 3, 0]).collect();
    for price in [Price::BLOCKS, generate::price(1)] {
        lists(&deep(0, &["return"]), price, &first);
    }
}

/// Twelve loads of three functions cost the same. Two of the third function are left out.
#[test]
fn equal_costs_across_the_tenth_place() {
    let callee: (usize, &[&str]) = (
        1,
        &["store 0", "load 0", "load 0", "load 0", "load 0", "return"],
    );
    let text = called(8, &[callee; 3]);
    let listed = |cost| (0..10).map(move |index| [1 + index / 4, 1 + index % 4, cost]);
    lists(&text, Price::BLOCKS, &listed(2).collect::<Vec<_>>());
    lists(&text, PRICE, &listed(74).collect::<Vec<_>>());
}

/// A case of the model, which proves the same list. Two points cost 6: point 4 saves 4 blocks and point 1 saves 3. Of those that cost 4 each saves 3.
#[test]
fn equal_costs_go_by_save() {
    let points = [
        "store 1", "store 3", "store 2", "store 0", "load 0", "goto 6", "load 1", "return",
    ];
    let text = text(8, &[(4, &points)]);
    let wanted = [
        (4, 6),
        (1, 6),
        (2, 5),
        (3, 4),
        (5, 4),
        (6, 4),
        (0, 0),
        (7, 0),
    ];
    lists(
        &text,
        Price::BLOCKS,
        &wanted.map(|(point, cost)| [0, point, cost]),
    );
}

/// A case of the model too. Point 1 costs 6 and saves 3 blocks, and point 4 costs 5 and saves 4.
#[test]
fn the_cost_decides_before_the_save() {
    let points = [
        "store 1", "store 3", "load 1", "store 0", "load 0", "return",
    ];
    let text = text(8, &[(4, &points)]);
    let wanted = [(1, 6), (4, 5), (2, 4), (0, 0), (3, 0), (5, 0)];
    lists(
        &text,
        Price::BLOCKS,
        &wanted.map(|(point, cost)| [0, point, cost]),
    );
}

/// Requires this list, written whole or refused with its length, in outputs of every length up to some bytes too many.
fn lists_at_every_length(text: &str, price: Price, lines: &[Line], length: usize) {
    let wanted = printed(lines);
    assert_eq!(wanted.len(), length);
    for output in 0..length + 8 {
        assert_list(text.as_bytes(), price, output, &wanted, &text);
    }
}

/// Twelve points of one function cost the same. Points 1 to 10 save 3 blocks, and points 12 and 13 save 4; so 9 and 10 are left out, and the list is longer
/// by the one digit that point 9 has less.
#[test]
fn saves_across_the_tenth_place_make_a_list_longer() {
    let mut points = vec!["store 3"; 11];
    points[0] = "store 1";
    points.extend(["store 0", "load 0", "load 0", "load 1", "return"]);
    let text = text(8, &[(4, &points)]);
    for (price, cost, length) in [(Price::BLOCKS, 6, 132), (PRICE, 194, 152)] {
        let listed = [12, 13].into_iter().chain(1..9);
        let wanted: Vec<Line> = listed.map(|point| [0, point, cost]).collect();
        lists_at_every_length(&text, price, &wanted, length);
    }
}

/// Twelve points cost the same. Points 10 to 19 of function 1 save 3 blocks, and points 1 and 2 of function 2 save 4; so two points of two digits are left
/// out for two of one.
#[test]
fn saves_across_the_tenth_place_make_a_list_shorter() {
    let mut first = vec!["store 1"; 10];
    first.extend(["store 3"; 10]);
    first.extend(["load 1", "return"]);
    let second = ["store 0", "store 1", "load 0", "load 1", "return"];
    let text = called(8, &[(4, &first), (4, &second)]);
    for (price, cost, length) in [(Price::BLOCKS, 6, 138), (PRICE, 194, 158)] {
        let mut wanted = vec![[2, 1, cost], [2, 2, cost]];
        wanted.extend((10..18).map(|point| [1, point, cost]));
        lists_at_every_length(&text, price, &wanted, length);
    }
}

/// Points 1 and 3 cost the same at the highest price. Point 3 saves 64 blocks, the most that any point saves, and point 1 saves 63.
#[test]
fn the_largest_saves() {
    let points = [
        "store 1", "store 63", "store 0", "load 0", "store 61", "load 1", "return",
    ];
    let text = text(64, &[(64, &points)]);
    let highest = Price {
        start: 255,
        each: 255,
    };
    let report = whole_report(text.as_bytes(), highest);
    let most = report_records(&report).iter().map(|at| at.save.0).max();
    assert_eq!(most, Some(16_575));
    let wanted = [
        (3, 32_640),
        (1, 32_640),
        (2, 32_130),
        (4, 32_130),
        (5, 16_830),
        (0, 0),
        (6, 0),
    ];
    lists(
        &text,
        highest,
        &wanted.map(|(point, cost)| [0, point, cost]),
    );
}

/// The two dearest points are in function 2. Of those that cost 2, the eight of function 1 come before one of function 2 and two of function 3.
#[test]
fn dearer_points_of_a_later_function_come_first() {
    let mut eight = vec!["load 0"; 10];
    eight[0] = "store 0";
    eight[9] = "return";
    let two = ["store 0", "store 1", "load 0", "load 1", "return"];
    let last = ["store 0", "load 0", "load 0", "return"];
    let text = called(8, &[(1, &eight), (2, &two), (1, &last)]);
    let mut wanted = vec![[2, 1, 4], [2, 2, 4]];
    wanted.extend((1..9).map(|point| [1, point, 2]));
    lists(&text, Price::BLOCKS, &wanted);
}

/// A case of the model, which proves the same list.
#[test]
fn ten_of_nineteen() {
    let funcs: [(usize, &[&str]); 3] = [
        (
            0,
            &["goto 1", "call 1", "ensure 0", "goto 4", "goto 5", "goto 4"],
        ),
        (
            6,
            &[
                "store 2",
                "store 5",
                "store 1",
                "call 2",
                "ensure 6",
                "call 2",
                "ensure 6",
                "store 2",
                "either 9 9",
                "return",
            ],
        ),
        (5, &["store 2", "store 0", "goto 2"]),
    ];
    let mut wanted = vec![[2, 0, 2], [2, 1, 2], [2, 2, 2]];
    wanted.extend((3..7).map(|point| [1, point, 1]));
    wanted.extend((0..3).map(|point| [0, point, 0]));
    lists(&text(6, &funcs), Price::BLOCKS, &wanted);
}

#[test]
fn one_point() {
    lists(&text(1, &[(1, &["return"])]), Price::BLOCKS, &[[0, 0, 0]]);
}

/// A store and a return, which cost nothing, and loads between them, which cost two blocks each.
#[test]
fn two_to_thirteen_points() {
    for count in 2..=13 {
        let mut points = vec!["load 0"; count];
        points[0] = "store 0";
        points[count - 1] = "return";
        let last = count as u32 - 1;
        let mut wanted: Vec<Line> = (1..last).map(|point| [0, point, 2]).collect();
        wanted.extend([[0, 0, 0], [0, last, 0]]);
        wanted.truncate(MOST);
        assert_eq!(wanted.len(), count.min(MOST));
        lists(&text(1, &[(1, &points)]), Price::BLOCKS, &wanted);
    }
}

/// Every length from 0 to some bytes too many, on small tasks.
#[test]
fn every_output_length() {
    for seed in 0..60 {
        let small = generate::small(seed + 14_000_000, 4 + seed as usize % 12);
        let price = match seed % 3 {
            0 => generate::price(seed),
            _ => Price::BLOCKS,
        };
        let list = Wanted::dearest_points(&small.text, price);
        for output in 0..list.bytes.len() + 8 {
            list.write_into(&small, output, WORK_MIN);
        }
    }
}

/// Functions of so many points, each calling the next.
fn functions(count: usize, points: usize) -> String {
    let mut text = String::from("(stack 64)\n");
    for callee in 1..=count {
        text += "(func 4\n";
        text += &match callee < count {
            true => format!("  (call {callee})\n  (ensure 4)\n"),
            false => "  (store 3)\n  (load 3)\n".to_string(),
        };
        text += &"  (store 3)\n  (load 3)\n".repeat(points / 2 - 2);
        text += "  (load 3)\n  (return)\n)\n";
    }
    text
}

#[test]
fn most_points() {
    for (count, points) in [(64, 16), (4, 256)] {
        let text = functions(count, points);
        for (start, each) in [(0, 1), (255, 255), (10, 1)] {
            let price = Price { start, each };
            let report = whole_report(text.as_bytes(), price);
            assert_eq!(report_records(&report).len(), 1_024);
            let wanted = list_of(&report);
            assert_list(text.as_bytes(), price, 256, &wanted, &text);
        }
    }
}

/// Two digits for the function, three for the point and five for the cost.
#[test]
fn a_list_of_200_bytes() {
    let mut points = vec!["load 0"; 256];
    points[..101].fill("store 0");
    points[255] = "return";
    let text = deep(1, &points);
    let dearest = Price {
        start: 255,
        each: 255,
    };
    let wanted: Vec<Line> = (101..111).map(|point| [63, point, 49_215]).collect();
    lists(&text, dearest, &wanted);
    lists_at_every_length(&text, dearest, &wanted, 200);
}

/// What only the archive can show.
mod in_archive {
    use super::*;
    use felknost::raw;
    use tests::{assert_binding, assert_short_results, TWO};

    #[test]
    fn a_result_that_is_too_short_leaves_all_as_it_was() {
        assert_short_results(raw::dearest_points, TWO.as_bytes());
    }

    #[test]
    fn binding() {
        let wanted = |text: &[u8], price| list_of(&whole_report(text, price));
        assert_binding(felknost::dearest_points, 104, wanted);
    }
}
