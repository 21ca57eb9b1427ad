//! The order of the refusals, and the line that each names.

use std::collections::BTreeSet;

use felknost::RESULT_DONE;
use generate::Price;
use second::WORK_MIN;
use tests::{dearest_points_at, report_at, run, run_at, steps, text, verdict, Lent, TWO};

#[test]
fn forms_of_lines() {
    let cases = [
        ("\n", 1),
        ("(stack 5)", 1),
        ("(stack 5)\r\n", 1),
        (" (stack 5)\n", 1),
        ("(stack 5)\n", 2),
        ("(stack 5)\n\n", 2),
        ("(stack 5)\n(stack 5)\n", 2),
        ("(stack 5)\n)\n", 2),
        ("(stack 5)\n(func 1)\n", 2),
        ("(stack 5)\n(func 1 \n", 2),
        ("(stack 5)\n(func 1", 2),
        ("(stack 5)\n(func 1\n", 3),
        ("(stack 5)\n(func 1\n)\n", 3),
        ("(stack 5)\n(func 1\n(func 1\n", 3),
        ("(stack 5)\n(func 1\n (return)\n)\n", 3),
        ("(stack 5)\n(func 1\n   (return)\n)\n", 3),
        ("(stack 5)\n(func 1\n  (return )\n)\n", 3),
        ("(stack 5)\n(func 1\n  (goto  0)\n)\n", 3),
        ("(stack 5)\n(func 1\n  (either 0)\n)\n", 3),
        ("(stack 5)\n(func 1\n  (either 0 0 0)\n)\n", 3),
        ("(stack 5)\n(func 1\n  (Return)\n)\n", 3),
        ("(stack 5)\n(func 1\n  (return)\n", 4),
        ("(stack 5)\n(func 1\n  (return)\n)", 4),
        ("(stack 5)\n(func 1\n  (return)\n) \n", 4),
        ("(stack 5)\n(func 1\n  (return)\n)\n\n", 5),
        ("(stack 5)\n(func 1\n  (return)\n)\n)\n", 5),
        ("(stack 5)\n(func 1\n  (return)\n)\n  (return)\n", 5),
    ];
    for (text, line) in cases {
        assert_eq!(verdict(text), (2, line), "{text:?}");
    }
}

#[test]
fn form_before_value_on_one_line() {
    assert_eq!(verdict("(stack 65)"), (2, 1));
    assert_eq!(verdict("(stack 5)\n(func 6"), (2, 2));
    assert_eq!(verdict("(stack 5)\n(func 1\n  (load 1)"), (2, 3));
}

#[test]
fn first_line_decides_among_2_to_6() {
    let offset = "(stack 5)\n(func 1\n  (load 1)\n  (retur)\n)\n";
    assert_eq!(verdict(offset), (5, 3));
    let frame = "(stack 5)\n(func 6\n  (load 9)\n";
    assert_eq!(verdict(frame), (4, 2));
    let stack = "(stack 0)\n(func 6\n";
    assert_eq!(verdict(stack), (3, 1));
}

#[test]
fn smallest_row_on_one_line_among_2_to_6() {
    let one: (usize, &[&str]) = (0, &["return"]);
    let mut funcs = vec![one; 64];
    funcs.push((2, &["return"]));
    assert_eq!(verdict(text(1, &funcs)), (4, 1 + 64 * 3 + 1));
    funcs[64].0 = 1;
    assert_eq!(verdict(text(1, &funcs)), (6, 1 + 64 * 3 + 1));
    let mut points = vec!["store 0"; 256];
    points.push("store 1");
    assert_eq!(verdict(text(1, &[(1, &points)])), (5, 259));
    points[256] = "ensure 7";
    assert_eq!(verdict(text(1, &[(1, &points)])), (6, 259));
}

#[test]
fn rows_2_to_6_before_7_to_10() {
    let points = ["goto 9", "call 0", "store 7", "ensure 3"];
    assert_eq!(verdict(text(5, &[(1, &points)])), (5, 5));
}

#[test]
fn callee() {
    let caller = |call, count: usize| {
        let mut funcs: Vec<(usize, &[&str])> = vec![(0, &["return"]); count];
        let points = ["call 2", "ensure 0", call, "ensure 0", "return"];
        funcs[1].1 = &points;
        let entry = ["call 1", "ensure 0", "return"];
        funcs[0].1 = &entry;
        verdict(text(1, &funcs))
    };
    assert_eq!(caller("call 2", 3), (0, 0));
    assert_eq!(caller("call 1", 3), (7, 10));
    assert_eq!(caller("call 0", 3), (7, 10));
    assert_eq!(caller("call 3", 3), (7, 10));
}

#[test]
fn calls_and_ensures() {
    let callee: (usize, &[&str]) = (0, &["return"]);
    let of = |points: &[&str]| verdict(text(5, &[(2, points), callee]));
    assert_eq!(of(&["call 1", "ensure 2", "return"]), (0, 0));
    // The call is named when its ensure is missing, the ensure when its call is.
    assert_eq!(of(&["call 1", "return"]), (8, 3));
    assert_eq!(of(&["call 1", "call 1", "ensure 2", "return"]), (8, 3));
    assert_eq!(of(&["ensure 2", "call 1", "ensure 2", "return"]), (8, 3));
    assert_eq!(of(&["call 1", "ensure 2", "ensure 2", "return"]), (8, 5));
    assert_eq!(of(&["call 1", "ensure 1", "return"]), (8, 4));
    // A number above the stack is not a frame above the stack.
    assert_eq!(of(&["call 1", "ensure 6", "return"]), (8, 4));
    assert_eq!(of(&["call 1", "ensure 9999", "return"]), (8, 4));
}

#[test]
fn jump_targets() {
    let callee: (usize, &[&str]) = (0, &["return"]);
    let of = |last: &str| {
        let points = ["call 1", "ensure 2", last];
        verdict(text(5, &[(2, &points), callee]))
    };
    assert_eq!(of("goto 2"), (0, 0));
    assert_eq!(of("goto 1"), (9, 5));
    assert_eq!(of("goto 3"), (9, 5));
    assert_eq!(of("either 0 2"), (0, 0));
    assert_eq!(of("either 2 2"), (0, 0));
    assert_eq!(of("either 1 0"), (9, 5));
    assert_eq!(of("either 0 1"), (9, 5));
    assert_eq!(of("either 0 3"), (9, 5));
    assert_eq!(of("either 3 0"), (9, 5));
}

#[test]
fn last_points() {
    let of = |points: &[&str]| verdict(text(5, &[(2, points), (0, &["return"])]));
    assert_eq!(of(&["call 1", "ensure 2", "store 0"]), (10, 5));
    assert_eq!(of(&["store 0", "load 0"]), (10, 4));
    assert_eq!(of(&["call 1", "ensure 2"]), (10, 4));
}

#[test]
fn smallest_row_on_one_line_among_7_to_10() {
    let of = |points: &[&str]| verdict(text(5, &[(2, points), (0, &["return"])]));
    assert_eq!(of(&["call 0"]), (7, 3));
    assert_eq!(of(&["call 1"]), (8, 3));
    assert_eq!(of(&["call 1", "ensure 1"]), (8, 4));
    // A call of no later function comes before its ensure with a wrong number, by line.
    assert_eq!(of(&["call 0", "ensure 1", "return"]), (7, 3));
}

#[test]
fn first_line_decides_among_7_to_10() {
    let of = |points: &[&str]| verdict(text(5, &[(2, points), (0, &["return"])]));
    assert_eq!(of(&["goto 9", "call 0", "ensure 2", "store 0"]), (9, 3));
    assert_eq!(of(&["ensure 2", "call 0", "goto 9", "store 0"]), (8, 3));
    let early_end = text(5, &[(2, &["store 0"]), (0, &["call 0", "goto 7"])]);
    assert_eq!(verdict(early_end), (10, 3));
}

#[test]
fn rows_7_to_10_before_11() {
    let points = ["return", "return", "goto 9"];
    assert_eq!(verdict(text(5, &[(0, &points)])), (9, 5));
}

#[test]
fn row_11_before_12_and_13() {
    let funcs: [(usize, &[&str]); 3] = [
        (1, &["load 0", "return"]),
        (0, &["return"]),
        (0, &["goto 2", "return", "return"]),
    ];
    assert_eq!(verdict(text(5, &funcs)), (11, 11));
}

#[test]
fn row_12_before_13() {
    let funcs: [(usize, &[&str]); 3] = [
        (1, &["load 0", "call 2", "ensure 1", "return"]),
        (0, &["return"]),
        (0, &["return"]),
    ];
    assert_eq!(verdict(text(5, &funcs)), (12, 8));
}

#[test]
fn row_13_names_the_first_load_by_line() {
    // The walk meets the load on the later line first.
    let points = ["goto 3", "load 0", "return", "load 1", "goto 1"];
    assert_eq!(verdict(text(5, &[(2, &points)])), (13, 4));
    let stored = ["store 0", "either 2 3", "store 1", "load 1", "return"];
    assert_eq!(verdict(text(5, &[(2, &stored)])), (13, 6));
    let loop_store = ["either 1 3", "load 0", "return", "store 0", "goto 0"];
    assert_eq!(verdict(text(5, &[(2, &loop_store)])), (13, 4));
}

/// Code and place of report, of the dearest points and of run, which agree, with an output and buffers that would be refused too. Nothing of these
/// changes.
fn priced(text: &[u8], price: Price, work: usize) -> (u32, u32) {
    let refusal = report_at(text, price, 3, work).refusal(&"report");
    let listed = dearest_points_at(text, price, 3, work);
    assert_eq!(listed.refusal(&"dearest points"), refusal);
    let lent = Lent::noisy(0, 1, 2);
    let ran = run_at(text, price, &[2, 0, 0], &lent, work);
    assert_eq!(ran.verdict(), refusal);
    assert_eq!(ran.result.numbers()[RESULT_DONE..], [0, 0, 0]);
    assert_eq!(ran.lent, lent);
    refusal
}

#[test]
fn row_15_before_23_before_1() {
    let long = vec![b'x'; 32_769];
    let unfit = Price {
        start: 256,
        each: 0,
    };
    assert_eq!(priced(&long, unfit, WORK_MIN - 1), (15, 16_384));
    assert_eq!(priced(&long, unfit, WORK_MIN), (23, 0));
    assert_eq!(priced(&long, Price::BLOCKS, WORK_MIN), (1, 0));
}

#[test]
fn row_23_before_the_rows_of_the_text() {
    let mut codes = BTreeSet::new();
    for (seed, (name, text, code, place)) in (0..).zip(vectors::refused()) {
        let unfit = generate::unfit_price(seed);
        assert_eq!(priced(&text, unfit, WORK_MIN), (23, 0), "case {name}");
        let fits = generate::price(seed);
        assert_eq!(priced(&text, fits, WORK_MIN), (code, place), "case {name}");
        codes.insert(code);
    }
    assert!(codes.into_iter().eq(1..=13));
}

#[test]
fn row_23_before_the_lengths() {
    let unfit = Price { start: 0, each: 0 };
    assert_eq!(priced(TWO.as_bytes(), unfit, WORK_MIN), (23, 0));
}

#[test]
fn output_length_after_the_checks() {
    let refused = text(5, &[(1, &["load 0", "return"])]);
    for service in [report_at, dearest_points_at] {
        let written = service(refused.as_bytes(), Price::BLOCKS, 0, WORK_MIN);
        assert_eq!(written.result.numbers(), [13, 3, 0]);
    }
}

/// Lengths that meet the rows 16 to 19 together, mended one after another.
#[test]
fn rows_16_to_19() {
    let of = |events: &[u32], answers, cache, memory| {
        let lent = Lent::noisy(answers, cache, memory);
        run(TWO.as_bytes(), events, &lent, WORK_MIN).verdict()
    };
    assert_eq!(of(&[0, 0, 0], 0, 0, 0), (16, 0));
    assert_eq!(of(&[0, 0, 7, 0], 1, 0, 0), (17, 2));
    assert_eq!(of(&[0, 0, 7, 0], 2, 0, 0), (18, 5));
    assert_eq!(of(&[0, 0, 7, 0], 2, 5, 0), (19, 6));
    assert_eq!(of(&[0, 0, 7, 0], 2, 5, 6), (20, 1));
}

#[test]
fn rows_of_one_event() {
    let of = |events: &[u32]| {
        let text = text(1, &[(0, &["either 1 1", "return"])]);
        let lent = Lent::noisy(events.len() / 2, 1, 0);
        let ran = run(text.as_bytes(), events, &lent, WORK_MIN);
        let done = ran.result.done as usize;
        assert_eq!(ran.lent.answers[done..], lent.answers[done..]);
        let (code, place) = ran.verdict();
        (code, place, ran.result.done)
    };
    assert_eq!(of(&[0, 2]), (21, 0, 0));
    assert_eq!(of(&[2, 2]), (20, 0, 0));
    assert_eq!(of(&[1, 2, 0, 1]), (0, 0, 2));
    assert_eq!(of(&[0, 0, 0, 7, 2, 2]), (22, 2, 2));
    assert_eq!(of(&[0, 0, 0, 7, 1, 0]), (22, 2, 2));
    assert_eq!(of(&[0, 0, 5, 0, 0, 7]), (20, 1, 1));
}

#[test]
fn refused_event_leaves_the_rest() {
    let events = [steps(4, 3), vec![2, 0], steps(3, 3)].concat();
    let lent = Lent {
        answers: vec![9; 8],
        cache: vec![9; 5],
        memory: vec![9; 6],
    };
    let ran = run(TWO.as_bytes(), &events, &lent, WORK_MIN);
    assert_eq!(ran.result.numbers(), [20, 4, 4, 1, 1]);
    assert_eq!(ran.lent.answers, [0, 0, 0, 3, 9, 9, 9, 9]);
    assert_eq!(ran.lent.memory, [9, 9, 9, 9, 9, 3]);
}
