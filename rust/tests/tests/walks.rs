//! The figures and the report again, by searching the walks themselves, on generated tasks.

use std::collections::HashSet;

use generate::{Case, Price};
use second::figures::{figures, Figures, FuncFigures, PointFigures};
use second::text::{Point, Task};
use second::{admit_at, sheet, WORK_MIN};
use tests::report_at;

/// The points that a point leads to.
fn leads(point: Point, index: usize) -> Vec<usize> {
    match point {
        Point::Goto(target) => vec![target.into()],
        Point::Either(first, second) => vec![first.into(), second.into()],
        Point::Return => vec![],
        _ => vec![index + 1],
    }
}

/// All points of walks from `start` that do not go on after a point where `stop` holds.
fn search(points: &[Point], start: usize, stop: impl Fn(Point) -> bool) -> Vec<usize> {
    let mut seen = vec![false; points.len()];
    let mut found = Vec::new();
    let mut pending = vec![start];
    while let Some(index) = pending.pop() {
        if !seen[index] {
            seen[index] = true;
            found.push(index);
            if !stop(points[index]) {
                pending.extend(leads(points[index], index));
            }
        }
    }
    found
}

/// All pairs of point and number that walks from point 0 have, where they begin with `start` and `after` gives the number behind a point.
fn pairs(points: &[Point], start: u32, after: impl Fn(Point, u32) -> u32) -> HashSet<(usize, u32)> {
    let mut seen = HashSet::new();
    let mut pending = vec![(0, start)];
    while let Some((index, number)) = pending.pop() {
        if seen.insert((index, number)) {
            let point = points[index];
            let number = after(point, number);
            let next = leads(point, index).into_iter();
            pending.extend(next.map(|index| (index, number)));
        }
    }
    seen
}

/// What is known of a task while the figures are worked out.
struct Search<'a> {
    task: &'a Task,
    price: Price,
    funcs: Vec<FuncFigures>,
    points: Vec<PointFigures>,
    /// What each ensure fills, in blocks.
    filled: Vec<u32>,
}

impl<'a> Search<'a> {
    /// The figures of an accepted task at a price.
    fn of(task: &'a Task, price: Price) -> Self {
        let mut search = Search {
            task,
            price,
            funcs: vec![FuncFigures::default(); task.funcs.len()],
            points: vec![PointFigures::default(); task.points.len()],
            filled: vec![0; task.points.len()],
        };
        for number in (0..task.funcs.len()).rev() {
            search.depths(number);
        }
        for number in 0..task.funcs.len() {
            search.highs(number);
            search.fills(number);
            search.rest(number);
        }
        search
    }

    fn points(&self, number: usize) -> &[Point] {
        self.task.points_of(&self.task.funcs[number])
    }

    /// The figures of the function that a point calls.
    fn called(&self, point: Point) -> Option<FuncFigures> {
        match point {
            Point::Call(callee) => Some(self.funcs[callee as usize]),
            _ => None,
        }
    }

    fn depths(&mut self, number: usize) {
        let frame = self.task.funcs[number].frame;
        let points = self.points(number);
        let callees: Vec<FuncFigures> = points.iter().filter_map(|&p| self.called(p)).collect();
        let longest = callees.iter().map(|callee| callee.longest).max();
        let smallest = callees.iter().map(|callee| callee.shortest).min();
        // The number of a walk is the largest that it has called.
        let walks = pairs(points, 0, |point, largest| match self.called(point) {
            Some(callee) => largest.max(callee.shortest),
            None => largest,
        });
        let returned = walks
            .into_iter()
            .filter(|&(index, _)| points[index] == Point::Return);
        let on_walks = returned.map(|(_, largest)| largest).min();
        self.funcs[number].longest = frame + longest.unwrap_or(0);
        self.funcs[number].shortest = frame + on_walks.or(smallest).unwrap_or(0);
    }

    /// The occupancy after a point on a walk where it is `high` before it.
    fn after(&self, frame: u32, point: Point, high: u32) -> u32 {
        match (point, self.called(point)) {
            (_, Some(callee)) => high.min(self.task.stack.saturating_sub(callee.shortest)),
            (Point::Ensure(_), _) => high.max(frame),
            _ => high,
        }
    }

    /// All pairs of point and occupancy that walks from point 0 have.
    fn highs(&mut self, number: usize) {
        let func = self.task.funcs[number];
        let points = self.points(number).to_vec();
        let wanted = self.funcs[number].entry + func.frame;
        self.funcs[number].spill = self.price.of(wanted.saturating_sub(self.task.stack));
        let start = wanted.min(self.task.stack);
        let walks = pairs(&points, start, |point, high| {
            self.after(func.frame, point, high)
        });
        for (index, high) in walks {
            let figure = &mut self.points[func.first + index];
            figure.high = figure.high.max(high);
            if let Point::Call(callee) = points[index] {
                let callee = &mut self.funcs[callee as usize];
                callee.entry = callee.entry.max(high);
            }
        }
    }

    /// The fill of each ensure, and from it the chain of the callee.
    fn fills(&mut self, number: usize) {
        let func = self.task.funcs[number];
        for index in 0..func.count {
            if let Point::Call(callee) = self.points(number)[index] {
                let longest = self.funcs[callee as usize].longest;
                let left = self.task.stack.saturating_sub(longest);
                let fill = func.frame.saturating_sub(left);
                self.filled[func.first + index + 1] = fill;
                let chain = self.funcs[number].chain + self.price.of(func.frame - fill);
                let callee = &mut self.funcs[callee as usize];
                callee.chain = callee.chain.max(chain);
            }
        }
    }

    fn dead(&self, number: usize, start: usize) -> u32 {
        let points = self.points(number);
        let frame = self.task.funcs[number].frame;
        let live = |offset: &u32| {
            let store = Point::Store(*offset as u16);
            search(points, start, |point| point == store)
                .into_iter()
                .any(|index| points[index] == Point::Load(*offset as u16))
        };
        (0..frame).find(live).unwrap_or(frame)
    }

    /// Need and later: what the walks from a point meet up to their first ensure.
    fn need_and_later(&self, number: usize, start: usize) -> (u32, u32) {
        let func = &self.task.funcs[number];
        let points = self.points(number);
        let (mut need, mut kept) = (0, 0);
        for index in search(points, start, |point| matches!(point, Point::Ensure(_))) {
            match points[index] {
                Point::Load(offset) | Point::Store(offset) => {
                    need = need.max(u32::from(offset) + 1);
                }
                Point::Ensure(frame) => {
                    kept = kept.max(u32::from(frame) - self.filled[func.first + index]);
                }
                _ => {}
            }
        }
        (need, kept.saturating_sub(need))
    }

    fn rest(&mut self, number: usize) {
        let func = self.task.funcs[number];
        for index in 0..func.count {
            let dead = self.dead(number, index);
            let (need, later) = self.need_and_later(number, index);
            let chain = self.funcs[number].chain;
            let fill = self.price.of(self.filled[func.first + index]);
            let figure = &mut self.points[func.first + index];
            let save = self.price.of(figure.high.saturating_sub(dead));
            let reload = self.price.of(need.saturating_sub(dead));
            let later = self.price.of(later);
            // By the formula; the second implementation tries every occupancy.
            let missing = figure.high.saturating_sub(dead.max(need));
            let once = save + reload + missing.min(later + chain);
            *figure = PointFigures {
                dead,
                need,
                save,
                reload,
                later,
                chain,
                cost: save + reload + later + chain,
                fill,
                once: (self.price == Price::BLOCKS).then_some(once),
                ..*figure
            };
        }
    }
}

/// Compares the figures and the report of a text, unless it is long.
fn compare(case: &Case, price: Price) -> bool {
    let admitted = admit_at(&case.text, price.start, price.each, WORK_MIN);
    let (task, of) = admitted.expect("a valid text");
    if task.points.len() > 200 {
        return false;
    }
    let Search { funcs, points, .. } = Search::of(&task, price);
    let got = figures(&task, of);
    assert_eq!(got.funcs, funcs, "{case} {price:?}");
    assert_eq!(got.points, points, "{case} {price:?}");
    let wanted = sheet::print(&task, &Figures { funcs, points });
    let reported = report_at(&case.text, price, wanted.len(), WORK_MIN);
    assert!(reported.output == wanted.as_bytes(), "{case} {price:?}");
    true
}

/// In blocks and at a price.
fn compare_all(cases: impl Iterator<Item = Case>) {
    let mut compared = 0;
    for case in cases {
        for price in [Price::BLOCKS, generate::price(case.seed)] {
            compared += u32::from(compare(&case, price));
        }
    }
    assert!(compared > 4_000);
}

#[test]
fn figures_equal_a_search_over_walks() {
    compare_all((100_000..104_000).map(generate::valid));
}

#[test]
fn figures_of_wrappers_equal_a_search_over_walks() {
    compare_all((104_000..108_000).map(generate::wrappers));
}
