//! Texts, event lists and prices that several tests use.

use std::ops::Range;

use generate::Price;

/// A task of two functions in which the callee spills one block.
pub const TWO: &str = "(stack 5)\n(func 2\n  (store 1)\n  (call 1)\n  (ensure 2)\n  (load 1)\n  \
                       (return)\n)\n(func 4\n  (store 0)\n  (load 0)\n  (return)\n)\n";

/// A text of the stack line and functions, each a frame and its points.
pub fn text(stack: usize, funcs: &[(usize, &[&str])]) -> String {
    let mut text = format!("(stack {stack})\n");
    for (frame, points) in funcs {
        text += &format!("(func {frame}\n");
        for point in *points {
            text += &format!("  ({point})\n");
        }
        text += ")\n";
    }
    text
}

/// A task of 64 functions with frames of this length, each calling the next. The last has these points.
pub fn deep(frame: usize, last: &[&str]) -> String {
    let calls: Vec<String> = (1..64).map(|callee| format!("call {callee}")).collect();
    let ensure = format!("ensure {frame}");
    let points: Vec<[&str; 3]> = calls.iter().map(|call| [call, &ensure, "return"]).collect();
    let mut funcs: Vec<(usize, &[&str])> =
        points.iter().map(|points| (frame, &points[..])).collect();
    funcs.push((frame, last));
    text(64, &funcs)
}

/// A task whose function 0 has no frame and calls each of these functions.
pub fn called(stack: usize, callees: &[(usize, &[&str])]) -> String {
    let numbers = 1..=callees.len();
    let calls: Vec<String> = numbers.map(|callee| format!("call {callee}")).collect();
    let mut points: Vec<&str> = calls.iter().flat_map(|call| [call, "ensure 0"]).collect();
    points.push("return");
    text(stack, &[&[(0, &points[..])], callees].concat())
}

/// A task of the most functions and points, 64 and 1,024. Function 0 has four blocks, each other one has one. Each of the functions 0 to 58 calls the next one
/// for ever, function 59 calls the last four in turn, and these store their block once and load it for ever.
pub fn largest() -> String {
    let caller = |callees: Range<usize>, frame: usize| {
        let call = |callee| format!("  (call {callee})\n  (ensure {frame})\n");
        let calls: String = callees.map(call).collect();
        format!("(func {frame}\n{calls}  (goto 0)\n)\n")
    };
    let mut text = String::from("(stack 64)\n");
    text += &caller(1..2, 4);
    text.extend((1..59).map(|number| caller(number + 1..number + 2, 1)));
    text += &caller(60..64, 1);
    for loads in [254, 254, 254, 68] {
        let loads = "  (load 0)\n".repeat(loads);
        text += &format!("(func 1\n  (store 0)\n{loads}  (goto 1)\n)\n");
    }
    text
}

/// The event list of `count` steps with this value.
pub fn steps(count: usize, value: u32) -> Vec<u32> {
    [0, value].repeat(count)
}

/// The prices at which every case of the vectors is tried: those at the ends of the ranges and past them, and some from inside.
pub fn prices() -> impl Iterator<Item = Price> {
    Price::at_ends().chain((0..6).map(generate::price))
}
