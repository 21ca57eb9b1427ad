//! The examples that settle the rules, and one task for each known wrong turn.

use generate::Price;
use second::figures::{figures, Displacement, PointFigures};
use second::sheet::{Foot, Last};
use second::{admit, machine, plain, Row, RunResult, WORK_MIN};
use tests::{
    all_done, dearest_points_at, figures_of, report, report_at, report_by, run, run_at, run_by,
    steps, text, verdict, Lent, Ran, Written, TWO,
};

const TWO_REPORT: &str = "(report
  (func 0 2 6 6 0 0)
  (at 0 2 2 2 0 0 0 0 0 0 0)
  (at 1 2 1 0 1 0 1 0 2 0 2)
  (at 2 1 1 0 0 0 1 0 1 1 0)
  (at 3 2 1 2 1 1 0 0 2 0 2)
  (at 4 2 2 0 0 0 0 0 0 0 0)
  (func 1 4 4 4 1 1)
  (at 0 5 4 1 1 0 0 1 2 0 2)
  (at 1 5 0 1 5 1 0 1 7 0 7)
  (at 2 5 4 0 1 0 0 1 2 0 2)
  (total 16)
)
";

/// Its report where a move costs 10 to begin and 1 for each block.
const TWO_REPORT_AT_10: &str = "(report
  (func 0 2 6 6 0 0)
  (at 0 2 2 2 0 0 0 0 0 0)
  (at 1 2 1 0 11 0 11 0 22 0)
  (at 2 1 1 0 0 0 11 0 11 11)
  (at 3 2 1 2 11 11 0 0 22 0)
  (at 4 2 2 0 0 0 0 0 0 0)
  (func 1 4 4 4 11 11)
  (at 0 5 4 1 11 0 0 11 22 0)
  (at 1 5 0 1 15 11 0 11 37 0)
  (at 2 5 4 0 11 0 0 11 22 0)
  (total 136)
)
";

/// Its dearest points, which are all its points, in blocks and where a move costs 10 to begin.
const TWO_DEAREST: &str = "(dear 1 1 7)
(dear 0 1 2)
(dear 0 3 2)
(dear 1 0 2)
(dear 1 2 2)
(dear 0 2 1)
(dear 0 0 0)
(dear 0 4 0)
";
const TWO_DEAREST_AT_10: &str = "(dear 1 1 37)
(dear 0 1 22)
(dear 0 3 22)
(dear 1 0 22)
(dear 1 2 22)
(dear 0 2 11)
(dear 0 0 0)
(dear 0 4 0)
";

const START_OF_10: Price = Price { start: 10, each: 1 };

fn point_figures(text: &str) -> Vec<PointFigures> {
    let task = admit(text.as_bytes(), WORK_MIN).expect("an accepted text");
    figures(&task, second::Price::BLOCKS).points
}

/// Runs a text with a cache and a memory of these lengths, all their numbers 9.
fn run_on(text: &str, cache: usize, memory: usize, events: &[u32]) -> Ran {
    let lent = Lent {
        answers: vec![9; events.len() / 2],
        cache: vec![9; cache],
        memory: vec![9; memory],
    };
    run(text.as_bytes(), events, &lent, WORK_MIN)
}

/// Runs a text and requires that the plain stack gives the same.
fn run_like_plain(text: &str, cache: usize, memory: usize, events: &[u32]) -> RunResult {
    let ran = run_on(text, cache, memory, events);
    let plain = plain::run(text.as_bytes(), events).expect("an accepted text");
    let result = ran.result;
    assert_eq!((result.ending, result.done), (plain.ending, plain.done));
    assert_eq!(ran.lent.answers[..plain.answers.len()], plain.answers);
    assert!(result.moved <= result.allowed);
    result
}

#[test]
fn reserve() {
    assert_eq!(machine::reserve(5, 1, 4), (0, 5));
    assert_eq!(machine::reserve(5, 2, 4), (1, 5));
}

#[test]
fn ensure() {
    assert_eq!(machine::ensure(2, 2), (0, 2));
    assert_eq!(machine::ensure(1, 2), (1, 2));
}

#[test]
fn free() {
    assert_eq!(machine::free(1, 4), 0);
}

/// Five blocks of which the first is needed, and five of which four are dead; two where more are dead, and where more are needed.
#[test]
fn preempt() {
    assert_eq!(machine::preempt(5, 0, 1), (5, 1, 1));
    assert_eq!(machine::preempt(5, 4, 1), (1, 0, 4));
    assert_eq!(machine::preempt(2, 4, 0), (0, 0, 2));
    assert_eq!(machine::preempt(2, 1, 3), (1, 1, 2));
}

/// Requires that a service writes this of the task, into an output with room to spare.
fn of_two_is(service: fn(&[u8], Price, usize, usize) -> Written, price: Price, wanted: &str) {
    let written = service(TWO.as_bytes(), price, 400, WORK_MIN);
    written.assert_whole_or_none(wanted.as_bytes(), &"two");
}

#[test]
fn report_of_two() {
    of_two_is(report_at, Price::BLOCKS, TWO_REPORT);
}

#[test]
fn report_of_two_with_a_start() {
    of_two_is(report_at, START_OF_10, TWO_REPORT_AT_10);
}

#[test]
fn dearest_points_of_two() {
    of_two_is(dearest_points_at, Price::BLOCKS, TWO_DEAREST);
}

#[test]
fn dearest_points_of_two_with_a_start() {
    of_two_is(dearest_points_at, START_OF_10, TWO_DEAREST_AT_10);
}

#[test]
fn run_of_two_without_preemption() {
    let result = run_like_plain(TWO, 5, 6, &steps(7, 3));
    assert_eq!(result, all_done(7, 2, 2));
}

/// A preemption before the load of function 1.
fn preempted() -> Vec<u32> {
    [steps(3, 3), vec![1, 8], steps(4, 3)].concat()
}

#[test]
fn run_of_two_with_a_preemption() {
    let result = run_like_plain(TWO, 5, 6, &preempted());
    assert_eq!(result, all_done(8, 9, 9));
}

/// A spill and a fill of one block are 11 each. The preemption moves 5 blocks out and one back, and the fill after it has two: 11 + 15 + 11 + 12.
/// The sheet allows it 37 beside the spill and the fill.
#[test]
fn runs_of_two_with_a_start() {
    let of = |events: &[u32]| {
        let lent = Lent::noisy(8, 5, 6);
        run_at(TWO.as_bytes(), START_OF_10, events, &lent, WORK_MIN).result
    };
    assert_eq!(of(&steps(7, 3)), all_done(7, 22, 22));
    assert_eq!(of(&preempted()), all_done(8, 49, 59));
}

#[test]
fn run_without_events() {
    let ran = run_on(TWO, 5, 6, &[]);
    assert_eq!(ran.result, all_done(0, 0, 0));
    let held = (ran.lent.cache, ran.lent.memory);
    assert_eq!(held, (vec![9; 5], vec![9; 6]));
}

#[test]
fn run_to_the_end() {
    let events = [steps(2, 3), steps(6, 4)].concat();
    let ran = run_on(TWO, 5, 7, &events);
    assert_eq!((ran.result.ending, ran.result.done), (Ok(()), 8));
    let held = ran.lent;
    assert_eq!(held.answers, [0, 0, 0, 4, 0, 0, 3, 0]);
    // Offset 1 of function 0 is address 6, in block 1: spilled by the call, filled by the ensure.
    assert_eq!(held.memory, [9, 9, 9, 9, 9, 9, 3]);
    assert_eq!(held.cache, [9, 3, 9, 9, 9]);
}

/// Request 14 amends document 01's case; a line feed alone is refused.
#[test]
fn empty_text() {
    assert_eq!(verdict(""), (0, 0));
    assert_eq!(verdict("\n"), (2, 1));
}

#[test]
fn stack_of_65() {
    assert_eq!(verdict("(stack 65)\n"), (3, 1));
    assert_eq!(verdict(text(65, &[(0, &["return"])])), (3, 1));
}

#[test]
fn frame_at_the_stack() {
    assert_eq!(verdict(text(5, &[(5, &["return"])])), (0, 0));
    assert_eq!(verdict(text(5, &[(6, &["return"])])), (4, 2));
}

#[test]
fn load_without_frame() {
    assert_eq!(verdict(text(5, &[(0, &["load 0", "return"])])), (5, 3));
}

#[test]
fn code_and_place_as_one_number() {
    assert_eq!(Row::Form.at(1).packed(), 2 * 65_536 + 1);
    assert_eq!(Row::WorkTooSmall.at(16_384).packed(), 15 * 65_536 + 16_384);
}

/// A preemption two calls deep makes the ensures of both callers fill.
#[test]
fn ensures_of_all_callers_pay() {
    let caller = |call| {
        [
            "store 0", "store 1", call, "ensure 2", "load 0", "load 1", "return",
        ]
    };
    let text = text(
        6,
        &[
            (2, &caller("call 1")),
            (2, &caller("call 2")),
            (2, &["store 0", "load 0", "return"]),
        ],
    );
    let at = point_figures(&text)[14];
    assert_eq!((at.save, at.reload, at.later, at.chain), (4, 0, 0, 4));
    let events = [steps(6, 3), vec![1, 8], steps(11, 3)].concat();
    let result = run_like_plain(&text, 6, 6, &events);
    assert_eq!((result.moved, result.allowed), (8, 8));
}

/// After the first ensure the frame is cached again, so a second one has nothing to fill.
#[test]
fn only_the_first_ensure_pays() {
    let caller = [
        "store 0", "store 1", "call 1", "ensure 2", "call 1", "ensure 2", "load 1", "return",
    ];
    let text = text(4, &[(2, &caller), (1, &["return"])]);
    let at = point_figures(&text)[2];
    assert_eq!((at.save, at.reload, at.later), (1, 0, 2));
    let events = [steps(2, 3), vec![1, 8], steps(7, 3)].concat();
    let result = run_like_plain(&text, 4, 3, &events);
    assert_eq!((result.moved, result.allowed), (2, 3));
}

/// The store after the preemption lies above the live offset and must stay counted as cached.
#[test]
fn occupancy_covers_a_coming_store() {
    let caller = [
        "store 0", "store 1", "load 0", "call 1", "ensure 2", "load 1", "return",
    ];
    let text = text(2, &[(2, &caller), (2, &["store 0", "store 1", "return"])]);
    let at = point_figures(&text)[1];
    assert_eq!((at.dead, at.need), (0, 2));
    let events = [steps(1, 3), vec![1, 8], steps(9, 4)].concat();
    let result = run_like_plain(&text, 2, 4, &events);
    assert_eq!((result.ending, result.done), (Ok(()), 11));
}

/// One branch stores the offset, the other loads it: it is live before the branch.
#[test]
fn a_store_in_one_branch_leaves_the_offset_live() {
    let points = [
        "store 0",
        "either 2 4",
        "store 0",
        "goto 4",
        "load 0",
        "return",
    ];
    let text = text(3, &[(1, &points)]);
    let dead: Vec<u32> = point_figures(&text).iter().map(|at| at.dead).collect();
    assert_eq!(dead, [1, 0, 1, 0, 0, 1]);
    let events = [0, 3, 1, 8, 0, 1, 0, 0];
    run_like_plain(&text, 3, 1, &events);
}

/// A file of a shipped example.
fn shipped_file(name: &str, ending: &str) -> String {
    let folder = concat!(env!("CARGO_MANIFEST_DIR"), "/../../examples");
    std::fs::read_to_string(format!("{folder}/{name}.{ending}")).expect("a shipped file")
}

/// A shipped example: the task text and its sheet.
fn shipped(name: &str) -> (String, String) {
    (shipped_file(name, "task"), shipped_file(name, "sheet"))
}

#[test]
fn shipped_sheets() {
    for name in ["sample", "press", "loop", "chain", "forever", "wrapper"] {
        let (task, sheet) = shipped(name);
        let reported = report(task.as_bytes(), sheet.len(), WORK_MIN);
        assert_eq!(reported.result.verdict, Ok(()), "{name}");
        assert_eq!(reported.output, sheet.as_bytes(), "{name}");
    }
}

/// The second sheet of the wrapper, by the smallest of all calls.
#[test]
fn shipped_sheet_before() {
    let (task, before) = (
        shipped_file("wrapper", "task"),
        shipped_file("wrapper", "before"),
    );
    let printed = report_by(
        Displacement::Smallest,
        Last::Once,
        Foot::Total,
        task.as_bytes(),
        Price::BLOCKS,
    );
    assert_eq!(printed, before);
}

#[test]
fn shipped_list() {
    let (task, list) = (
        shipped_file("press", "task"),
        shipped_file("press", "dearest"),
    );
    let listed = dearest_points_at(task.as_bytes(), Price::BLOCKS, list.len(), WORK_MIN);
    assert_eq!(listed.result.verdict, Ok(()));
    assert_eq!(listed.output, list.as_bytes());
}

/// What examples/README.md says of the press: a sheet that charges the running frame alone is 9 blocks short.
#[test]
fn press_charges_the_callers() {
    let (task, _) = shipped("press");
    let figures = point_figures(&task);
    // Functions 0, 1 and 2 have 12, 6 and 7 points.
    let dearest = &figures[12 + 6 + 7 + 1];
    assert_eq!(dearest.save + dearest.reload + dearest.later, 14);
    assert_eq!(dearest.cost, 23);
    // To point 1 of function 3 through the branch of function 1; from there to the point behind the ensure of function 0.
    let before = steps(7, 0);
    let after = steps(8, 0);
    let undisturbed = run_like_plain(&task, 12, 17, &[&before[..], &after].concat());
    let preempted = run_like_plain(&task, 12, 17, &[&before[..], &[1, 5], &after].concat());
    assert_eq!((undisturbed.moved, preempted.moved), (2, 25));
    let chained = figures.iter().filter(|point| point.chain > 0).count();
    assert_eq!(chained, 18);
}

/// What examples/README.md says of a slot with one preemption: at the ensure of function 1 once is below the cost, and a run costs as much.
#[test]
fn press_with_one_preemption() {
    let (task, _) = shipped("press");
    let figures = point_figures(&task);
    let less = figures
        .iter()
        .filter(|point| point.once < Some(point.cost))
        .count();
    assert_eq!(less, 4);
    let ensure = &figures[12 + 3];
    assert_eq!((ensure.once, ensure.cost), (Some(12), 15));
    let most = figures.iter().map(|point| (point.once, point.cost)).max();
    assert_eq!(most, Some((Some(23), 23)));
    // To that ensure through the branch of function 1; from there to the point behind the ensure of function 0.
    let before = steps(11, 0);
    let after = steps(4, 0);
    let undisturbed = run_like_plain(&task, 12, 17, &[&before[..], &after].concat());
    let preempted = run_like_plain(&task, 12, 17, &[&before[..], &[1, 5], &after].concat());
    assert_eq!((undisturbed.moved, preempted.moved), (2, 14));
    assert_eq!((undisturbed.allowed, preempted.allowed), (4, 19));
}

/// What examples/README.md says of the wrapper: its two sheets.
#[test]
fn wrapper_costs_less_by_whole_walks() {
    let (task, _) = shipped("wrapper");
    let figures = [Displacement::Smallest, Displacement::Walks]
        .map(|rule| figures_of(rule, task.as_bytes(), Price::BLOCKS));
    let [before, since] = figures.each_ref().map(|of| &of.points);
    let fallen = before.iter().zip(since).filter(|(a, b)| a.cost > b.cost);
    assert_eq!((fallen.count(), since.len()), (20, 43));
    let totals = [before, since].map(|points| points.iter().map(|at| at.cost).sum::<u32>());
    assert_eq!(totals, [589, 557]);
    // Functions 0 to 5 have 8, 9, 7, 8, 3 and 3 points.
    let dearest = 8 + 9 + 7 + 8 + 3 + 3 + 1;
    let most = since.iter().map(|at| at.cost).max();
    assert_eq!(most, Some(since[dearest].cost));
    assert_eq!((before[dearest].cost, since[dearest].cost), (31, 30));
    let spills = figures.each_ref().map(|of| of.funcs[6].spill);
    assert_eq!(spills, [1, 0]);
}

/// What it says of a run: the preemption costs what the sheet says, and the run moves all that is allowed.
#[test]
fn wrapper_moves_what_is_allowed() {
    let (task, _) = shipped("wrapper");
    // To point 1 of function 6 through the branch of function 3 that calls function 4; from there to the point behind the ensure of function 0.
    let (there, back) = (steps(31, 0), steps(11, 0));
    let undisturbed = run_like_plain(&task, 16, 18, &[&there[..], &back].concat());
    assert_eq!((undisturbed.moved, undisturbed.allowed), (4, 4));
    let events = [&there[..], &[1, 5], &back].concat();
    let preempted = run_like_plain(&task, 16, 18, &events);
    assert_eq!((preempted.moved, preempted.allowed), (34, 34));
    let lent = Lent::noisy(43, 16, 18);
    let by_smallest = run_by(
        Displacement::Smallest,
        task.as_bytes(),
        Price::BLOCKS,
        &events,
        &lent,
    );
    assert_eq!(by_smallest.result, all_done(43, 34, 36));
}
