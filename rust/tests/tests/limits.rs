//! Each limit: accepted at the limit, refused one past it.

use generate::Price;
use second::{Row, WORK_MIN};
use tests::{
    called, deep, noise, report, report_at, run, run_at, steps, text, verdict, Lent, Ran, TWO,
};

fn run_on(text: &str, cache: usize, memory: usize, events: &[u32]) -> Ran {
    let lent = Lent::noisy(events.len() / 2, cache, memory);
    run(text.as_bytes(), events, &lent, WORK_MIN)
}

/// Code, place and events done.
fn ending(ran: &Ran) -> (u32, u32, u32) {
    let (code, place) = ran.verdict();
    (code, place, ran.result.done)
}

#[test]
fn working_space() {
    let text = TWO.as_bytes();
    let short = Err(Row::WorkTooSmall.at(16_384));
    for (work, wanted) in [
        (0, short),
        (16_383, short),
        (16_384, Ok(())),
        (16_385, Ok(())),
    ] {
        assert_eq!(second::check(text, work), wanted, "{work}");
        let reported = report(text, 400, work);
        assert_eq!(reported.result.verdict, wanted, "{work}");
        let ran = run(text, &[], &Lent::noisy(0, 5, 6), work);
        assert_eq!(ran.result.ending, wanted, "{work}");
    }
    // It comes before every other refusal, and nothing is touched.
    let reported = report(&[0; 40_000], 400, 16_383);
    assert_eq!(reported.result.numbers(), [15, 16_384, 0]);
    assert_eq!(reported.output, noise(400));
    let lent = Lent::noisy(1, 2, 3);
    let ran = run(b"\n", &[0], &lent, 16_383);
    assert_eq!(ran.result.numbers(), [15, 16_384, 0, 0, 0]);
    assert_eq!(ran.lent, lent);
}

#[test]
fn prices() {
    let of = |start, each| {
        let price = Price { start, each };
        let reported = report_at(TWO.as_bytes(), price, 400, WORK_MIN).result;
        let ran = run_at(TWO.as_bytes(), price, &[], &Lent::noisy(0, 5, 6), WORK_MIN);
        assert_eq!(ran.result.ending, reported.verdict);
        reported.verdict
    };
    for start in [0, 1, 254, 255] {
        for each in [1, 2, 254, 255] {
            assert_eq!(of(start, each), Ok(()), "{start} {each}");
        }
    }
    let outside = Err(Row::PriceRange.at(0));
    for number in [256, 257, 511, 65_536, 65_537, 1 << 31, u32::MAX] {
        assert_eq!(of(number, 1), outside, "start {number}");
        assert_eq!(of(0, number), outside, "each {number}");
        assert_eq!(of(number, number), outside, "both {number}");
    }
    assert_eq!(of(0, 0), outside);
    assert_eq!(of(255, 0), outside);
}

/// 64 functions of one block, of which nothing is spilled or filled. At the load every block is saved and one comes back, and 63 callers have a share of
/// one block each.
#[test]
fn largest_prices() {
    let text = deep(1, &["store 0", "load 0", "return"]);
    let dearest = Price {
        start: 255,
        each: 255,
    };
    let reported = report_at(text.as_bytes(), dearest, felknost::OUTPUT, WORK_MIN);
    let written = reported.result.written as usize;
    let sheet = std::str::from_utf8(&reported.output[..written]).expect("a report is text");
    let load = "  (at 1 64 0 1 16575 510 0 32130 49215 0)\n";
    assert!(sheet.contains(load), "{sheet}");
    // The first preemption saves 64 blocks, the later ones one.
    let preemptions = 65_536 - 64;
    let events = [steps(64, 5), [1, 7].repeat(preemptions)].concat();
    let lent = Lent::noisy(65_536, 64, 64);
    let ran = run_at(text.as_bytes(), dearest, &events, &lent, WORK_MIN);
    let preemptions = preemptions as u64;
    let moved = 16_575 - 510 + preemptions * 2 * 510;
    let numbers = [0, 0, 65_536, moved, preemptions * 49_215];
    assert_eq!(ran.result.numbers(), numbers);
}

#[test]
fn text_length() {
    // No accepted text is this long, so another row decides at the limit.
    assert_eq!(verdict(vec![b'x'; 32_768]), (2, 1));
    assert_eq!(verdict(vec![b'x'; 32_769]), (1, 0));
    let mut long = TWO.as_bytes().to_vec();
    long.resize(32_768, b'\n');
    assert_eq!(verdict(&long), (2, 14));
    long.push(b'\n');
    assert_eq!(verdict(&long), (1, 0));
}

#[test]
fn stack_size() {
    for (stack, wanted) in [(0, (3, 1)), (1, (0, 0)), (64, (0, 0)), (65, (3, 1))] {
        assert_eq!(verdict(text(stack, &[(0, &["return"])])), wanted, "{stack}");
    }
}

#[test]
fn frame_size() {
    for stack in [1, 5, 63, 64] {
        assert_eq!(verdict(text(stack, &[(stack, &["return"])])), (0, 0));
        assert_eq!(verdict(text(stack, &[(stack + 1, &["return"])])), (4, 2));
    }
}

#[test]
fn offsets() {
    for word in ["store", "load"] {
        let at = |offset| {
            let point = format!("{word} {offset}");
            verdict(text(64, &[(64, &["store 63", &point, "return"])]))
        };
        assert_eq!(at(63), (0, 0));
        assert_eq!(at(64), (5, 4));
    }
}

#[test]
fn digits() {
    let stack = |number: &str| verdict(format!("(stack {number})\n(func 0\n  (return)\n)\n"));
    assert_eq!(stack("9999"), (3, 1));
    assert_eq!(stack("10000"), (2, 1));
    assert_eq!(stack("00"), (2, 1));
    assert_eq!(stack("01"), (2, 1));
    assert_eq!(stack(""), (2, 1));
    assert_eq!(stack("-1"), (2, 1));
    let goto = |target: &str| verdict(text(5, &[(0, &[&format!("goto {target}")])]));
    assert_eq!(goto("0"), (0, 0));
    assert_eq!(goto("9999"), (9, 3));
    assert_eq!(goto("10000"), (2, 3));
    assert_eq!(goto("00"), (2, 3));
}

/// A task in which function 0 calls `count` - 1 others.
fn many_funcs(count: usize) -> String {
    let callee: (usize, &[&str]) = (0, &["return"]);
    called(1, &vec![callee; count - 1])
}

#[test]
fn functions() {
    assert_eq!(verdict(many_funcs(64)), (0, 0));
    // Line 1, function 0 with 129 points and two more lines, 63 functions of three lines.
    let line = 1 + 131 + 63 * 3 + 1;
    assert_eq!(verdict(many_funcs(65)), (6, line));
}

#[test]
fn points_of_a_function() {
    let points = |count: usize| {
        let mut points = vec!["store 0"; count - 1];
        points.push("return");
        verdict(text(1, &[(1, &points)]))
    };
    assert_eq!(points(256), (0, 0));
    assert_eq!(points(257), (6, 259));
}

/// A function of `count` points: a call with its ensure, stores, and a return.
fn caller(call: &'static str, count: usize) -> Vec<&'static str> {
    let mut points = vec![call, "ensure 1"];
    points.resize(count - 1, "store 0");
    points.push("return");
    points
}

#[test]
fn points_of_a_task() {
    let task = |last: &[&str]| {
        let funcs: [(usize, &[&str]); 5] = [
            (1, &caller("call 1", 256)),
            (1, &caller("call 2", 256)),
            (1, &caller("call 3", 256)),
            (1, &caller("call 4", 255)),
            (1, last),
        ];
        verdict(text(1, &funcs))
    };
    assert_eq!(task(&["return"]), (0, 0));
    // The stack line, four functions with two more lines each, and the third line of the last.
    assert_eq!(task(&["store 0", "return"]), (6, 1 + 3 * 258 + 257 + 3));
}

#[test]
fn output_length() {
    let text = TWO.as_bytes();
    let long = report(text, 300, WORK_MIN);
    let length = long.result.written as usize;
    let wanted = length as u64;
    let exact = report(text, length, WORK_MIN);
    assert_eq!(exact.result.numbers(), [0, 0, wanted]);
    assert_eq!(exact.output, long.output[..length]);
    for short in 0..length {
        let reported = report(text, short, WORK_MIN);
        assert_eq!(reported.result.numbers(), [14, wanted, 0], "{short}");
        assert_eq!(reported.output, noise(short));
    }
}

#[test]
fn event_count() {
    let endless = text(1, &[(1, &["store 0", "goto 0"])]);
    let most = run_on(&endless, 1, 1, &steps(65_536, 5));
    assert_eq!(ending(&most), (0, 0, 65_536));
    let odd = run_on(&endless, 1, 1, &vec![0; 131_071]);
    assert_eq!(ending(&odd), (16, 0, 0));
    let long = run_on(&endless, 1, 1, &steps(65_537, 5));
    assert_eq!(ending(&long), (16, 0, 0));
}

#[test]
fn lent_lengths() {
    let on = |cache, memory| ending(&run_on(TWO, cache, memory, &steps(1, 3)));
    assert_eq!(on(5, 6), (0, 0, 1));
    assert_eq!(on(4, 6), (18, 5, 0));
    assert_eq!(on(6, 6), (18, 5, 0));
    assert_eq!(on(5, 5), (19, 6, 0));
    let answers = |count| {
        let lent = Lent::noisy(6, 5, 6);
        ending(&run(TWO.as_bytes(), &steps(count, 3), &lent, WORK_MIN))
    };
    assert_eq!(answers(7), (17, 7, 0));
    assert_eq!(answers(6), (0, 0, 6));
}

#[test]
fn task_without_memory() {
    let empty = text(1, &[(0, &["return"])]);
    let ran = run_on(&empty, 1, 0, &[1, 4, 0, 0]);
    assert_eq!((ending(&ran), ran.result.moved), ((0, 0, 2), 0));
}
