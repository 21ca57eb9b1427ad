//! Every case of the vectors folder, and those of report and run at other prices too. Which results request 4 amends, and the totals and once of the
//! reports.

use std::path::{Path, PathBuf};

use felknost::{RESULT_ALLOWED, RESULT_MOVED};
use generate::Price;
use second::figures::Displacement;
use second::sheet::{Foot, Last};
use second::WORK_MIN;
use tests::{
    func_lines, is_noise_from, once_of, prices, report, report_at, report_by, run, run_at,
    run_both_at, run_by, split_once, split_total, sum_of_costs, verdict, whole_report, Allowed,
    BothRan, Lent,
};
use vectors::{amended, expected, in_force, original, read, read_text, tasks};

/// The numbers on the line that begins with `name`.
fn numbers(text: &str, name: &str) -> Vec<u64> {
    let line = text
        .lines()
        .find(|line| line.split(' ').next() == Some(name))
        .unwrap_or_else(|| panic!("no line {name}"));
    line.split_whitespace()
        .skip(1)
        .map(|word| word.parse().expect("a number"))
        .collect()
}

fn blocks(text: &str, name: &str) -> Vec<u32> {
    numbers(text, name)
        .into_iter()
        .map(|number| number.try_into().expect("a 32-bit number"))
        .collect()
}

#[test]
fn vectors_refused() {
    let cases = vectors::refused();
    let names: Vec<&str> = cases.iter().map(|case| &case.0[..]).collect();
    // Request 14 accepts the text of case 005, which is report/075 and run/080 to run/085.
    let wanted: Vec<String> = (0..160)
        .filter(|&case| case != 5)
        .map(|case| format!("{case:03}"))
        .collect();
    assert_eq!(names, wanted);
    assert_eq!(cases.len(), tasks("refused").len());
    for (name, text, code, place) in cases {
        assert_eq!(verdict(&text), (code, place), "case {name}");
        let reported = report(&text, 64, WORK_MIN);
        let refused = [code.into(), place.into(), 0];
        assert_eq!(reported.result.numbers(), refused, "case {name}");
        assert!(is_noise_from(0, &reported.output), "case {name}");
        let lent = Lent::noisy(1, 1, 1);
        let ran = run(&text, &[0, 0], &lent, WORK_MIN);
        let refused = [code.into(), place.into(), 0, 0, 0];
        assert_eq!(ran.result.numbers(), refused, "case {name}");
        assert_eq!(ran.lent, lent, "case {name}");
    }
}

#[test]
fn vectors_accepted() {
    let mut tasks = vectors::tasks("report");
    tasks.extend(vectors::tasks("run"));
    tasks.extend(vectors::tasks("once"));
    assert_eq!(tasks.len(), 168);
    for path in tasks {
        assert_eq!(verdict(read(&path)), (0, 0), "{}", path.display());
    }
}

#[test]
fn vectors_report() {
    let tasks = tasks("report");
    assert_eq!(tasks.len(), 76);
    for path in tasks {
        let text = read(&path);
        let wanted = expected(&path);
        let length = wanted.len();
        for more in 0..3 {
            let reported = report(&text, length + more, WORK_MIN + more);
            let accepted = [0, 0, length as u64];
            assert_eq!(reported.result.numbers(), accepted, "{path:?}");
            let (report, rest) = reported.output.split_at(length);
            assert!(report == wanted, "{path:?}");
            assert!(is_noise_from(length, rest), "{path:?}");
        }
        for less in 1..3 {
            let reported = report(&text, length - less, WORK_MIN);
            let refused = [14, length as u64, 0];
            assert_eq!(reported.result.numbers(), refused, "{path:?}");
            assert!(is_noise_from(0, &reported.output), "{path:?}");
        }
    }
}

/// The report at a price: of the length that an output of none is told, with the sum of the costs at that price, and at 0 and 1, where alone it has once, the
/// one of the case.
#[test]
fn vectors_report_at_prices() {
    for path in tasks("report") {
        let text = read(&path);
        for price in prices() {
            let none = report_at(&text, price, 0, WORK_MIN).result.numbers();
            if !price.fits() {
                assert_eq!(none, [23, 0, 0], "{path:?} {price:?}");
                continue;
            }
            let [14, wanted, 0] = none else {
                panic!("{path:?} {price:?}: {none:?}");
            };
            let reported = report_at(&text, price, wanted as usize, WORK_MIN);
            assert_eq!(reported.result.numbers(), [0, 0, wanted], "{path:?}");
            let (rest, total) = split_total(&reported.output);
            assert_eq!(total, sum_of_costs(&rest), "{path:?} {price:?}");
            let points = func_lines(&reported.output).into_iter();
            let mut points = points.flat_map(|func| func.points);
            let in_blocks = price == Price::BLOCKS;
            let once = points.all(|at| at.once.is_some() == in_blocks);
            assert!(once, "{path:?} {price:?}");
            if in_blocks {
                let wanted = expected(&path);
                assert!(reported.output == wanted, "{path:?}");
            }
        }
    }
}

/// A run of the folder: its text and events, what it is lent, and what it gives back.
struct RunVector {
    name: String,
    text: Vec<u8>,
    events: Vec<u32>,
    lent: Lent,
    result: Vec<u64>,
    back: Lent,
}

impl RunVector {
    fn of(path: &Path) -> Self {
        let buffers = |of: &str| Lent {
            answers: blocks(of, "answers"),
            cache: blocks(of, "cache"),
            memory: blocks(of, "memory"),
        };
        let lent = read_text(&path.with_extension("lent"));
        let back = String::from_utf8(in_force(path, "back")).expect("the file is text");
        RunVector {
            name: path.display().to_string(),
            text: read(path),
            events: blocks(&lent, "events"),
            lent: buffers(&lent),
            result: numbers(&back, "result"),
            back: buffers(&back),
        }
    }

    /// The run in blocks, on both cores.
    fn run_both(&self) -> BothRan {
        run_both_at(
            &self.text,
            Price::BLOCKS,
            &self.events,
            &self.lent,
            WORK_MIN,
        )
    }
}

fn run_vectors() -> Vec<RunVector> {
    let tasks = tasks("run");
    assert_eq!(tasks.len(), 86);
    tasks.iter().map(|path| RunVector::of(path)).collect()
}

#[test]
fn vectors_run() {
    for case in run_vectors() {
        let ran = run(&case.text, &case.events, &case.lent, WORK_MIN);
        assert_eq!(ran.result.numbers()[..], case.result, "{}", case.name);
        assert_eq!(ran.lent, case.back, "{}", case.name);
    }
}

/// On the core with a lazy pointer every run gives the same, but for moved, which is no more.
#[test]
fn vectors_run_lazy() {
    let mut less = 0;
    for case in run_vectors() {
        let ran = case.run_both();
        let RunVector { name, result, .. } = &case;
        let numbers = ran.lazy.result.numbers();
        assert_eq!(numbers[..RESULT_MOVED], result[..RESULT_MOVED], "{name}");
        assert!(numbers[RESULT_MOVED] <= result[RESULT_MOVED], "{name}");
        assert_eq!(numbers[RESULT_ALLOWED], result[RESULT_ALLOWED], "{name}");
        assert_eq!(ran.lazy.lent, case.back, "{name}");
        less += usize::from(numbers[RESULT_MOVED] < result[RESULT_MOVED]);
    }
    assert_eq!(less, 12);
}

/// Runs with one preemption among the events done. They move all that the sheet allows with once of its point, which is less than it allows with the cost. On
/// the core with a lazy pointer some of them move less.
#[test]
fn vectors_run_once() {
    let tasks = tasks("once");
    assert_eq!(tasks.len(), 6);
    let mut less = 0;
    for case in tasks.iter().map(|path| RunVector::of(path)) {
        let ran = case.run_both();
        let RunVector { name, result, .. } = &case;
        assert_eq!(ran.eager.result.numbers()[..], *result, "{name}");
        assert_eq!(ran.eager.lent, case.back, "{name}");
        let sheet = func_lines(&whole_report(&case.text, Price::BLOCKS));
        let allowed = Allowed::of(&sheet, &case.text, &case.events);
        assert_eq!(allowed.preemptions, 1, "{name}");
        assert_eq!(result[RESULT_MOVED], allowed.with_once(), "{name}");
        assert_eq!(result[RESULT_ALLOWED], allowed.with_cost(), "{name}");
        assert!(result[RESULT_MOVED] < result[RESULT_ALLOWED], "{name}");
        less += usize::from(ran.lazy_moves_less());
    }
    assert_eq!(less, 2);
}

/// A price that fits changes nothing but moved and allowed.
#[test]
fn vectors_run_at_prices() {
    for case in run_vectors() {
        for price in prices() {
            let ran = run_at(&case.text, price, &case.events, &case.lent, WORK_MIN);
            let (numbers, result) = (ran.result.numbers(), &case.result);
            let name = format!("{} {price:?}", case.name);
            if price.fits() {
                assert_eq!(numbers[..RESULT_MOVED], result[..RESULT_MOVED], "{name}");
                assert_eq!(ran.lent, case.back, "{name}");
                assert!(numbers[RESULT_MOVED] <= numbers[RESULT_ALLOWED], "{name}");
            } else {
                assert_eq!(numbers, [23, 0, 0, 0, 0], "{name}");
                assert_eq!(ran.lent, case.lent, "{name}");
            }
        }
    }
}

/// The report of a case by a rule, as its file has it: without once and without its total.
fn report_file(rule: Displacement, path: &Path) -> String {
    report_by(rule, Last::Fill, Foot::None, &read(path), Price::BLOCKS)
}

/// What the run of a case gives back by a rule, as its file has it.
fn back_file(rule: Displacement, path: &Path) -> String {
    let case = RunVector::of(path);
    let ran = run_by(rule, &case.text, Price::BLOCKS, &case.events, &case.lent);
    [
        line("result", &ran.result.numbers()),
        line("answers", &ran.lent.answers),
        line("cache", &ran.lent.cache),
        line("memory", &ran.lent.memory),
    ]
    .concat()
}

fn line(name: &str, numbers: &[impl ToString]) -> String {
    let words = numbers
        .iter()
        .map(|number| format!(" {}", number.to_string()));
    format!("{name}{}\n", words.collect::<String>())
}

/// How many cases of a folder are amended. Requires that the rule before request 4 gives every original file, that the rule since gives another result in
/// exactly the amended cases, and that one, and that no other file is there.
fn count_amended(name: &str, ending: &str, file: fn(Displacement, &Path) -> String) -> usize {
    let tasks = tasks(name);
    let mut count = 0;
    for path in &tasks {
        let before = file(Displacement::Smallest, path).into_bytes();
        let since = file(Displacement::Walks, path).into_bytes();
        assert!(original(path, ending) == before, "{path:?}");
        let wanted = (since != before).then_some(since);
        count += usize::from(wanted.is_some());
        assert!(amended(path, ending) == wanted, "{path:?}");
    }
    let files = std::fs::read_dir(vectors::folder(name)).expect("the folder is there");
    let paths = files.map(|file| file.expect("the entry is readable").path());
    let results = paths.filter(|path| path.extension().is_some_and(|end| end == ending));
    assert_eq!(results.count(), tasks.len() + count);
    count
}

#[test]
fn vectors_amended_where_the_rules_differ() {
    assert_eq!(count_amended("report", "report", report_file), 29);
    assert_eq!(count_amended("run", "back", back_file), 0);
}

/// Once of each point of a file in force, by its formula.
fn once_of_points(file: &[u8]) -> Vec<u32> {
    let funcs = func_lines(file);
    let points = funcs.iter().flat_map(|func| &func.points);
    points.map(once_of).collect()
}

/// Once and the line of the total are all that a report has beside the file in force. Once is the formula over the numbers there, and the total is the sum of
/// the costs there.
#[test]
fn vectors_report_without_once_and_the_total() {
    for path in tasks("report") {
        let report = whole_report(&read(&path), Price::BLOCKS);
        let (without, total) = split_total(&report);
        let (without, once) = split_once(&without);
        let file = in_force(&path, "report");
        assert!(without == file, "{path:?}");
        assert_eq!(once, once_of_points(&file), "{path:?}");
        assert_eq!(total, sum_of_costs(&file), "{path:?}");
    }
}

/// Requires that a file has a line for each case, in order, with these numbers of the file in force, and no other line.
fn assert_lines(file: &str, numbers: fn(&[u8]) -> Vec<u64>) {
    let line = |path: &PathBuf| {
        let name = path.file_stem().expect("a name").to_string_lossy();
        line(&name, &numbers(&in_force(path, "report")))
    };
    let lines: String = tasks("report").iter().map(line).collect();
    assert_eq!(lines, file);
}

/// The sum of the costs.
#[test]
fn vectors_totals() {
    assert_lines(&vectors::totals(), |file| vec![sum_of_costs(file)]);
}

/// Once of each point.
#[test]
fn vectors_once() {
    let points = |file: &[u8]| once_of_points(file).into_iter().map(u64::from).collect();
    assert_lines(&vectors::once(), points);
}
