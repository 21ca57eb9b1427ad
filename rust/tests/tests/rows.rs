//! Check, in the archive and in the second implementation, against a plain evaluation of each row by itself.

use generate::Case;
use tests::{text, verdict};

const TEXTS: u64 = 10_000;

/// Code and place, both 0 for acceptance.
type Answer = (u32, u32);

/// A line taken apart: its word and its numbers.
type Line = (&'static str, Vec<usize>);

/// The forms of a line with `?` for each number.
const FORMS: [(&str, &str); 10] = [
    ("stack", "(stack ?)\n"),
    ("func", "(func ?\n"),
    ("end", ")\n"),
    ("load", "  (load ?)\n"),
    ("store", "  (store ?)\n"),
    ("call", "  (call ?)\n"),
    ("ensure", "  (ensure ?)\n"),
    ("goto", "  (goto ?)\n"),
    ("either", "  (either ? ?)\n"),
    ("return", "  (return)\n"),
];

/// A line has a form if the form, printed with the numbers of the line, gives the line.
fn take_apart(line: &[u8]) -> Option<Line> {
    let text = std::str::from_utf8(line).ok()?;
    let numbers: Vec<usize> = text
        .split(|letter: char| !letter.is_ascii_digit())
        .filter(|digits| !digits.is_empty())
        .map(|digits| digits.parse().unwrap_or(usize::MAX))
        .collect();
    // A question mark in the text would pass for a number of a form.
    if text.contains('?') || numbers.iter().any(|&number| number > 9_999) {
        return None;
    }
    let fits = |form: &&(&str, &str)| {
        let printed = numbers.iter().fold(form.1.to_string(), |form, number| {
            form.replacen('?', &number.to_string(), 1)
        });
        printed == text
    };
    FORMS.iter().find(fits).map(|form| (form.0, numbers))
}

/// A function with the lines of its points.
struct Func {
    line: u32,
    frame: usize,
    points: Vec<Line>,
}

/// The words that may follow a line with `word` as its word.
fn follows(before: &str, word: &str) -> bool {
    match before {
        "" => word == "stack",
        "stack" | "end" => word == "func",
        "func" => !["stack", "func", "end"].contains(&word),
        _ => !["stack", "func"].contains(&word),
    }
}

/// What has been read up to some line.
#[derive(Default)]
struct Sofar {
    stack: usize,
    total: usize,
    word: &'static str,
    funcs: Vec<Func>,
}

impl Sofar {
    /// Takes one line, or gives the smallest of the rows 2 to 6 that it meets.
    fn take(&mut self, line: u32, bytes: &[u8]) -> Result<(), u32> {
        let (word, numbers) = take_apart(bytes).ok_or(2u32)?;
        if !follows(self.word, word) {
            return Err(2);
        }
        self.word = word;
        let frame = self.funcs.last().map_or(0, |func| func.frame);
        match word {
            "stack" if !(1..=64).contains(&numbers[0]) => return Err(3),
            "stack" => self.stack = numbers[0],
            "func" if numbers[0] > self.stack => return Err(4),
            "func" if self.funcs.len() == 64 => return Err(6),
            "func" => self.funcs.push(Func {
                line,
                frame: numbers[0],
                points: Vec::new(),
            }),
            "load" | "store" if numbers[0] >= frame => return Err(5),
            "end" => {}
            _ => {
                self.total += 1;
                let points = &mut self.funcs.last_mut().expect("a function is open").points;
                if self.total > 1_024 || points.len() == 256 {
                    return Err(6);
                }
                points.push((word, numbers));
            }
        }
        Ok(())
    }
}

/// The functions of a text, or its refusal by the rows 2 to 6.
fn read(text: &[u8]) -> Result<Vec<Func>, Answer> {
    let mut sofar = Sofar::default();
    let mut place = 1;
    for bytes in text.split_inclusive(|&byte| byte == b'\n') {
        let taken = sofar.take(place, bytes);
        taken.map_err(|code| (code, place))?;
        place += 1;
    }
    match sofar.word {
        // Behind a function, or where the text has no line.
        "end" | "" => Ok(sofar.funcs),
        _ => Err((2, place)),
    }
}

/// Whether point `index` of function `number` meets one of the rows 7 to 10.
fn meets(funcs: &[Func], number: usize, index: usize, code: u32) -> bool {
    let Func { frame, points, .. } = &funcs[number];
    let (word, numbers) = &points[index];
    let word_at = |at: usize| points.get(at).map_or("", |point| point.0);
    match (code, *word) {
        (7, "call") => numbers[0] <= number || numbers[0] >= funcs.len(),
        (8, "call") => word_at(index + 1) != "ensure",
        (8, "ensure") => index == 0 || word_at(index - 1) != "call" || numbers[0] != *frame,
        (9, "goto" | "either") => numbers
            .iter()
            .any(|&target| ["", "ensure"].contains(&word_at(target))),
        (10, _) => index + 1 == points.len() && !["goto", "either", "return"].contains(word),
        _ => false,
    }
}

/// The points of walks from 0 that do not go on after a point where `stop` holds.
fn reached(points: &[Line], stop: impl Fn(&Line) -> bool) -> Vec<bool> {
    let mut seen = vec![false; points.len()];
    let mut pending = vec![0];
    while let Some(index) = pending.pop() {
        if seen[index] {
            continue;
        }
        seen[index] = true;
        if stop(&points[index]) {
            continue;
        }
        match points[index].0 {
            "goto" | "either" => pending.extend(&points[index].1),
            "return" => {}
            _ => pending.push(index + 1),
        }
    }
    seen
}

/// The first point of a function that meets row 11.
fn unreached(func: &Func) -> Option<usize> {
    let seen = reached(&func.points, |_| false);
    seen.iter().position(|&seen| !seen)
}

/// The first point of a function that meets row 13.
fn unstored(func: &Func) -> Option<usize> {
    func.points.iter().enumerate().position(|(index, point)| {
        let store = ("store", point.1.clone());
        point.0 == "load" && reached(&func.points, |point| *point == store)[index]
    })
}

/// The refusal at the first point in text order that `row` gives for a function.
fn first(funcs: &[Func], code: u32, row: impl Fn(usize, &Func) -> Option<usize>) -> Option<Answer> {
    funcs.iter().enumerate().find_map(|(number, func)| {
        let index = row(number, func)?;
        Some((code, func.line + 1 + index as u32))
    })
}

fn never_called(funcs: &[Func]) -> Option<Answer> {
    let number = (1..funcs.len()).find(|&callee| {
        let call = ("call", vec![callee]);
        !funcs.iter().any(|func| func.points.contains(&call))
    })?;
    Some((12, funcs[number].line))
}

/// What check has to answer.
fn by_rows(text: &[u8]) -> Answer {
    if text.len() > 32_768 {
        return (1, 0);
    }
    let funcs = match read(text) {
        Ok(funcs) => funcs,
        Err(answer) => return answer,
    };
    let links = (7..=10).filter_map(|code| {
        first(&funcs, code, |number, func| {
            (0..func.points.len()).find(|&index| meets(&funcs, number, index, code))
        })
    });
    links
        .min_by_key(|&(code, place)| (place, code))
        .or_else(|| first(&funcs, 11, |_, func| unreached(func)))
        .or_else(|| never_called(&funcs))
        .or_else(|| first(&funcs, 13, |_, func| unstored(func)))
        .unwrap_or((0, 0))
}

fn compare(make: fn(u64) -> Case, first: u64, count: u64) {
    for seed in first..first + count {
        let case = make(seed);
        assert_eq!(verdict(&case.text), by_rows(&case.text), "{case}");
    }
}

#[test]
fn damaged_texts() {
    compare(generate::damaged, 1_000_000, TEXTS);
}

#[test]
fn near_valid_texts() {
    compare(generate::near, 2_000_000, TEXTS);
}

#[test]
fn valid_texts() {
    compare(generate::valid, 3_000_000, 2_000);
}

#[test]
fn refused_vectors() {
    for (name, text, code, place) in vectors::refused() {
        assert_eq!(by_rows(&text), (code, place), "case {name}");
    }
}

#[test]
fn empty_text() {
    assert_eq!(by_rows(b""), (0, 0));
    assert_eq!(verdict(b""), (0, 0));
}

/// The points of the small functions, with numbers at and past their limits.
fn small_points() -> Vec<String> {
    let mut points = vec!["return".to_string()];
    for number in 0..3 {
        for word in ["load", "store", "call", "ensure"] {
            points.push(format!("{word} {number}"));
        }
    }
    for first in 0..4 {
        points.push(format!("goto {first}"));
        points.extend((0..4).map(|second| format!("either {first} {second}")));
    }
    points
}

/// Every function of up to three such points, with each frame up to 2, alone and before a second function that returns.
#[test]
fn every_small_text() {
    let points = small_points();
    let mut met = [0; 14];
    let mut judge = |points: &[&str]| {
        for frame in 0..3 {
            let funcs: [(usize, &[&str]); 2] = [(frame, points), (0, &["return"])];
            for count in 1..=2 {
                let text = text(2, &funcs[..count]);
                let answer = verdict(&text);
                assert_eq!(answer, by_rows(text.as_bytes()), "{text}");
                met[answer.0 as usize] += 1;
            }
        }
    };
    for first in &points {
        judge(&[first]);
        for second in &points {
            judge(&[first, second]);
            for third in &points {
                judge(&[first, second, third]);
            }
        }
    }
    assert_eq!(met.iter().sum::<usize>(), 6 * (33 + 33 * 33 + 33 * 33 * 33));
    for code in [0, 5, 7, 8, 9, 10, 11, 12, 13] {
        assert!(met[code] > 0, "code {code} was not met");
    }
}
