//! The texts of the tables, by the names of their rows.

/// How many points a text has.
pub fn points(text: &[u8]) -> usize {
    text.windows(3).filter(|part| part == b"  (").count()
}

/// The cache blocks that the first line of a text states.
pub fn cache_blocks(text: &[u8]) -> usize {
    let digits = text.iter().skip(b"(stack ".len());
    let digits = digits.take_while(|byte| byte.is_ascii_digit());
    digits.fold(0, |number, digit| 10 * number + usize::from(digit - b'0'))
}

/// The rows of the tables of report and of lists: those of check, and fewer functions of 16 points, so that growth with the functions shows.
pub fn report_texts() -> Vec<(&'static str, Vec<u8>)> {
    let mut rows = texts();
    let whole = rows
        .iter()
        .position(|(name, _)| *name == "64 functions of 16 points");
    let whole = whole.expect("the row of 64 functions");
    rows.insert(whole, ("32 functions of 16 points", functions(32)));
    rows.insert(whole, ("16 functions of 16 points", functions(16)));
    rows
}

/// The rows of check's table.
pub fn texts() -> Vec<(&'static str, Vec<u8>)> {
    vec![
        ("empty text", Vec::new()),
        ("refused in line 1", first_line()),
        ("refused in line 3", third_line()),
        ("a function of three points", three_points()),
        ("two functions (`examples/sample.task`)", sample()),
        ("typical (`examples/press.task`)", typical()),
        ("one function of 256 points", straight(1)),
        ("two", straight(2)),
        ("four", straight(4)),
        (
            "four, each with a point that only a higher one leads to",
            led_back(0),
        ),
        ("four, the last of them so", led_back(3)),
        ("64 functions of 16 points", functions(64)),
        (
            "256 points, 64 offsets, a branch at every other point",
            branches(false),
        ),
        ("the same, each branch to lower points", branches(true)),
        ("32,768 bytes, refused at the point after 1,024", longest()),
        ("32,768 bytes, of which one line has 20,938", long_line()),
        ("32,769 bytes", too_long()),
    ]
}

fn put(text: &mut Vec<u8>, line: &str) {
    text.extend_from_slice(line.as_bytes());
    text.push(b'\n');
}

/// A text that is refused in its first line.
fn first_line() -> Vec<u8> {
    b"(stack 65)\n(func 2\n  (return)\n)\n".to_vec()
}

/// A text that is refused in its third line.
fn third_line() -> Vec<u8> {
    b"(stack 8)\n(func 2\n  (store 2)\n  (return)\n)\n".to_vec()
}

/// A function with a store, a load and a return.
fn three_points() -> Vec<u8> {
    b"(stack 64)\n(func 11\n  (store 10)\n  (load 10)\n  (return)\n)\n".to_vec()
}

/// Two functions, of which one calls the other.
fn sample() -> Vec<u8> {
    include_bytes!("../../../examples/sample.task").to_vec()
}

/// Four functions, calls in a row, a branch and a loop.
fn typical() -> Vec<u8> {
    include_bytes!("../../../examples/press.task").to_vec()
}

/// Functions of 256 points, one after the other, each called by the one before; loads and stores of eight offsets.
fn straight(count: usize) -> Vec<u8> {
    chain(count, |_| vec![])
}

/// Four such functions. Those from `first` on begin with points of which one is reached only by a lead from a higher one.
fn led_back(first: usize) -> Vec<u8> {
    chain(4, |function| {
        let points = if function < first {
            vec![]
        } else {
            vec!["  (goto 2)", "  (goto 4)", "  (either 1 3)", "  (goto 4)"]
        };
        points.into_iter().map(String::from).collect()
    })
}

fn chain(count: usize, opening: impl Fn(usize) -> Vec<String>) -> Vec<u8> {
    let mut text = Vec::new();
    put(&mut text, "(stack 16)");
    for function in 0..count {
        put(&mut text, "(func 8");
        let mut points = opening(function);
        if function + 1 < count {
            points.push(format!("  (call {})", function + 1));
            points.push("  (ensure 8)".to_string());
        }
        for index in 0..255 - points.len() {
            let word = if index % 2 == 0 { "store" } else { "load" };
            points.push(format!("  ({word} {})", index / 2 % 8));
        }
        points.push("  (return)".to_string());
        for point in &points {
            put(&mut text, point);
        }
        put(&mut text, ")");
    }
    text
}

/// So many functions of 16 points, each called by the one before.
fn functions(count: usize) -> Vec<u8> {
    let mut text = Vec::new();
    put(&mut text, "(stack 64)");
    for function in 0..count {
        put(&mut text, "(func 4");
        if function + 1 < count {
            put(&mut text, &format!("  (call {})", function + 1));
            put(&mut text, "  (ensure 4)");
        } else {
            put(&mut text, "  (store 2)");
            put(&mut text, "  (load 2)");
        }
        for _ in 0..6 {
            put(&mut text, "  (store 3)");
            put(&mut text, "  (load 3)");
        }
        put(&mut text, "  (either 0 15)");
        put(&mut text, "  (return)");
        put(&mut text, ")");
    }
    text
}

/// One function of 256 points and 64 offsets. Every other point is a branch; in the backward chain each branch leads to lower points, so that
/// facts travel against the order of the points.
fn branches(backward: bool) -> Vec<u8> {
    let mut text = Vec::new();
    put(&mut text, "(stack 64)");
    put(&mut text, "(func 64");
    if backward {
        put(&mut text, "  (goto 253)");
        for point in 1..255 {
            let line = match point % 2 {
                1 => format!("  (store {})", point / 2 % 64),
                _ if point > 2 => format!("  (either {} {})", point - 3, 255),
                _ => "  (goto 255)".to_string(),
            };
            put(&mut text, &line);
        }
    } else {
        for point in 0..255 {
            let line = match point % 2 {
                0 => format!("  (store {})", point / 2 % 64),
                _ => format!("  (either {} {})", point + 1, (point * 7 + 3) % 255 / 2 * 2),
            };
            put(&mut text, &line);
        }
    }
    put(&mut text, "  (return)");
    put(&mut text, ")");
    text
}

/// As many bytes as a text may have. It is refused at the point after 1,024.
fn longest() -> Vec<u8> {
    let mut text = straight(12);
    text.truncate(32_767);
    text.push(b'\n');
    text
}

/// The same length: 1,024 points and then one line of no form. Its first bytes decide.
fn long_line() -> Vec<u8> {
    let mut text = straight(4);
    text.truncate(text.len() - 2);
    text.resize(32_767, b' ');
    text.push(b'\n');
    text
}

/// One byte more than a text may have.
fn too_long() -> Vec<u8> {
    let mut text = longest();
    text.push(b'\n');
    text
}
