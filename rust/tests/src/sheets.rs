//! Reports, and the numbers in them.

use generate::Price;
use second::figures::PointFigures;
use second::WORK_MIN;

use crate::written::report_at;

/// The columns of the cost and of once in an `at` line, and how many columns it has with once.
const COST: usize = 8;
const ONCE: usize = 10;
const WITH_ONCE: usize = 11;

/// The report of an accepted text at a price that fits.
pub fn whole_report(text: &[u8], price: Price) -> Vec<u8> {
    let mut reported = report_at(text, price, felknost::OUTPUT, WORK_MIN);
    assert_eq!(reported.result.verdict, Ok(()));
    reported.output.truncate(reported.result.written as usize);
    reported.output
}

/// The words and numbers of the lines between the first and the last of a report.
pub fn rows(report: &[u8]) -> Vec<(&str, Vec<u32>)> {
    let report = std::str::from_utf8(report).expect("a report is text");
    report.lines().filter_map(row).collect()
}

/// The lines of a function in a report.
#[derive(Clone, Debug, PartialEq, Eq)]
pub struct FuncLines {
    pub spill: u32,
    /// The figures of its points, as they are printed.
    pub points: Vec<PointFigures>,
}

/// The lines of each function of a report. Requires that the points of each are numbered.
pub fn func_lines(report: &[u8]) -> Vec<FuncLines> {
    let mut funcs: Vec<FuncLines> = Vec::new();
    for (word, numbers) in rows(report) {
        match (word, &numbers[..]) {
            ("func", &[number, _, _, _, spill, _]) => {
                assert_eq!(number as usize, funcs.len());
                let points = Vec::new();
                funcs.push(FuncLines { spill, points });
            }
            ("at", &[number, ref figures @ ..]) => {
                let points = &mut funcs.last_mut().expect("a function").points;
                assert_eq!(number as usize, points.len());
                points.push(point_figures(figures));
            }
            ("total", &[_]) => {}
            _ => panic!("a line {word} {numbers:?}"),
        }
    }
    funcs
}

/// The figures in the line of a point. Once is in blocks alone.
fn point_figures(numbers: &[u32]) -> PointFigures {
    let &[high, dead, need, save, reload, later, chain, cost, fill, ref once @ ..] = numbers else {
        panic!("the figures {numbers:?}");
    };
    assert!(once.len() <= 1, "the figures {numbers:?}");
    PointFigures {
        high,
        dead,
        need,
        save,
        reload,
        later,
        chain,
        cost,
        fill,
        once: once.first().copied(),
    }
}

/// Once of a point by its formula, from the other figures of its line in blocks.
pub fn once_of(at: &PointFigures) -> u32 {
    let missing = at.high.saturating_sub(at.dead.max(at.need));
    at.save + at.reload + missing.min(at.later + at.chain)
}

/// The sum of the costs of the `at` lines of a report.
pub fn sum_of_costs(report: &[u8]) -> u64 {
    let lines = rows(report).into_iter();
    let points = lines.filter(|(word, _)| *word == "at");
    points.map(|(_, numbers)| u64::from(numbers[COST])).sum()
}

/// A report without the line of its total, and the total. Requires that the line stands before the last one.
pub fn split_total(report: &[u8]) -> (Vec<u8>, u64) {
    let report = std::str::from_utf8(report).expect("a report is text");
    let lines = report.strip_suffix("\n)\n").expect("the last line");
    let (lines, foot) = lines.rsplit_once('\n').expect("a line before the last");
    let total = match row(foot) {
        Some(("total", numbers)) => u64::from(numbers[0]),
        _ => panic!("{foot:?} is not the line of a total"),
    };
    // So it has one number, which is written in the shortest way.
    assert_eq!(foot, format!("  (total {total})"));
    (format!("{lines}\n)\n").into_bytes(), total)
}

/// A report in blocks without once, and once of each point. Requires that it is the last number in the line of each point.
pub fn split_once(report: &[u8]) -> (Vec<u8>, Vec<u32>) {
    let report = std::str::from_utf8(report).expect("a report is text");
    let mut points = Vec::new();
    let line = |line: &str| match row(line) {
        Some(("at", numbers)) => {
            assert_eq!(numbers.len(), WITH_ONCE, "{line}");
            let once = numbers[ONCE];
            points.push(once);
            let rest = line.strip_suffix(&format!(" {once})"));
            // So it is written in the shortest way.
            format!("{})\n", rest.expect("once at the end"))
        }
        _ => format!("{line}\n"),
    };
    let rest: String = report.lines().map(line).collect();
    (rest.into_bytes(), points)
}

fn row(line: &str) -> Option<(&str, Vec<u32>)> {
    let (word, numbers) = line.strip_prefix("  (")?.split_once(' ')?;
    let numbers = numbers.strip_suffix(')')?.split(' ');
    let numbers = numbers.map(|number| number.parse().expect("a number"));
    Some((word, numbers.collect()))
}
