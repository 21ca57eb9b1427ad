//! Damage of a text without regard to its structure.

use crate::rng::Rng;

/// The most bytes that a text may have.
const TEXT_MAX: usize = 32_768;

/// Damage of one kind.
type Damage = fn(&mut Rng, &mut Vec<u8>);

const DAMAGES: &[(&str, Damage)] = &[
    ("byte changed", byte_changed),
    ("byte dropped", byte_dropped),
    ("byte added", byte_added),
    ("line dropped", line_dropped),
    ("line doubled", line_doubled),
    ("lines swapped", lines_swapped),
    ("last line feed dropped", feed_dropped),
    ("number replaced", number_replaced),
    ("stack or frame replaced", size_replaced),
    ("word replaced", word_replaced),
    ("store made a load", store_to_load),
    ("last point of a function dropped", last_point_dropped),
    ("line repeated", line_repeated),
    ("function added", function_added),
    ("function doubled", function_doubled),
    ("made long", made_long),
];

/// Damages a text once and names the damage.
pub fn damage(rng: &mut Rng, text: &mut Vec<u8>) -> &'static str {
    let (name, damage) = rng.pick(DAMAGES);
    damage(rng, text);
    name
}

/// A byte, mostly one that a task text has.
fn byte(rng: &mut Rng) -> u8 {
    match rng.below(4) {
        0 => rng.below(256) as u8,
        _ => rng.pick(b"() \n0123456789adefgilnorstcuhk"),
    }
}

fn byte_changed(rng: &mut Rng, text: &mut Vec<u8>) {
    if !text.is_empty() {
        let at = rng.below(text.len());
        text.splice(at..=at, [byte(rng)]);
    }
}

fn byte_dropped(rng: &mut Rng, text: &mut Vec<u8>) {
    if !text.is_empty() {
        text.remove(rng.below(text.len()));
    }
}

fn byte_added(rng: &mut Rng, text: &mut Vec<u8>) {
    let at = rng.below(text.len() + 1);
    text.insert(at, byte(rng));
}

/// The lines with their line feeds.
fn lines(text: &[u8]) -> Vec<Vec<u8>> {
    text.split_inclusive(|&byte| byte == b'\n')
        .map(<[u8]>::to_vec)
        .collect()
}

fn line_dropped(rng: &mut Rng, text: &mut Vec<u8>) {
    let mut lines = lines(text);
    if !lines.is_empty() {
        lines.remove(rng.below(lines.len()));
    }
    *text = lines.concat();
}

fn line_doubled(rng: &mut Rng, text: &mut Vec<u8>) {
    let mut lines = lines(text);
    if !lines.is_empty() {
        let at = rng.below(lines.len());
        lines.insert(at, lines[at].clone());
    }
    *text = lines.concat();
}

fn lines_swapped(rng: &mut Rng, text: &mut Vec<u8>) {
    let mut lines = lines(text);
    if !lines.is_empty() {
        let (first, second) = (rng.below(lines.len()), rng.below(lines.len()));
        lines.swap(first, second);
    }
    *text = lines.concat();
}

fn feed_dropped(_: &mut Rng, text: &mut Vec<u8>) {
    if text.last() == Some(&b'\n') {
        text.pop();
    }
}

/// The numbers of the text as ranges of bytes.
fn numbers(text: &[u8]) -> Vec<std::ops::Range<usize>> {
    let mut found = Vec::new();
    let mut start = None;
    for (at, byte) in text.iter().chain(b"\n").enumerate() {
        match (byte.is_ascii_digit(), start) {
            (true, None) => start = Some(at),
            (false, Some(from)) => {
                found.push(from..at);
                start = None;
            }
            _ => {}
        }
    }
    found
}

/// The value of the first number after the last `word` in `text`.
fn number_after(text: &[u8], word: &[u8]) -> u32 {
    let at = text.windows(word.len()).rposition(|part| part == word);
    let digits = at.map_or(&[][..], |at| &text[at + word.len()..]);
    let digits = digits.iter().take_while(|byte| byte.is_ascii_digit());
    digits
        .take(4)
        .fold(0, |value, byte| value * 10 + u32::from(byte - b'0'))
}

/// A number at a limit. `frame` is the one of the function that the number is in.
fn number(rng: &mut Rng, frame: u32, stack: u32) -> String {
    match rng.below(8) {
        0 => frame.to_string(),
        1 => frame.saturating_sub(1).to_string(),
        2 => stack.to_string(),
        3 => (stack + 1).to_string(),
        _ => rng
            .pick(&[
                "0", "1", "64", "65", "255", "256", "1023", "1024", "9999", "10000", "00", "01",
            ])
            .to_string(),
    }
}

/// Replaces one of the numbers at these places.
fn replace_one(rng: &mut Rng, text: &mut Vec<u8>, places: &[std::ops::Range<usize>]) {
    if !places.is_empty() {
        let place = places[rng.below(places.len())].clone();
        let frame = number_after(&text[..place.end], b"(func ");
        let stack = number_after(text, b"(stack ");
        let new = number(rng, frame, stack);
        text.splice(place, new.into_bytes());
    }
}

fn number_replaced(rng: &mut Rng, text: &mut Vec<u8>) {
    let places = numbers(text);
    replace_one(rng, text, &places);
}

/// Replaces the number of a line that opens the task or a function.
fn size_replaced(rng: &mut Rng, text: &mut Vec<u8>) {
    let word: &[u8] = rng.pick(&[b"(stack ", b"(func "]);
    let mut places = numbers(text);
    places.retain(|place| text[..place.start].ends_with(word));
    replace_one(rng, text, &places);
}

const WORDS: &[&[u8]] = &[
    b"load ", b"store ", b"call ", b"ensure ", b"goto ", b"either ", b"return",
];

/// Puts another word in the place of the word of a point, mostly one that takes a number.
fn word_replaced(rng: &mut Rng, text: &mut Vec<u8>) {
    let mut lines = lines(text);
    if let Some(at) = pick_line(rng, &lines, |line| line.starts_with(b"  (")) {
        let line = &mut lines[at];
        if let Some(old) = WORDS.iter().find(|&word| line[3..].starts_with(word)) {
            let new = rng.pick(WORDS);
            line.splice(3..3 + old.len(), new.iter().copied());
        }
    }
    *text = lines.concat();
}

/// A random one of the lines that fit `wanted`.
fn pick_line(rng: &mut Rng, lines: &[Vec<u8>], wanted: impl Fn(&[u8]) -> bool) -> Option<usize> {
    let fit: Vec<usize> = (0..lines.len()).filter(|&at| wanted(&lines[at])).collect();
    (!fit.is_empty()).then(|| rng.pick(&fit))
}

fn store_to_load(rng: &mut Rng, text: &mut Vec<u8>) {
    let mut lines = lines(text);
    let store = b"  (store ";
    if let Some(at) = pick_line(rng, &lines, |line| line.starts_with(store)) {
        lines[at].splice(..store.len(), b"  (load ".iter().copied());
    }
    *text = lines.concat();
}

fn last_point_dropped(rng: &mut Rng, text: &mut Vec<u8>) {
    let mut lines = lines(text);
    if let Some(at) = pick_line(rng, &lines, |line| line == b")\n") {
        lines.remove(at.saturating_sub(1));
    }
    *text = lines.concat();
}

/// Repeats a line so often that a function or a task may get a point too many.
fn line_repeated(rng: &mut Rng, text: &mut Vec<u8>) {
    let mut lines = lines(text);
    if !lines.is_empty() {
        let at = rng.below(lines.len());
        let count = rng.pick(&[2, 3, 100, 255, 256, 256, 257, 1_024, 1_025]);
        let line = lines[at].clone();
        lines.splice(at..at, std::iter::repeat_n(line, count));
    }
    *text = lines.concat();
}

/// The places where a function opens, and the end of the text.
fn openings(text: &[u8]) -> Vec<usize> {
    let word = b"(func ";
    let mut found: Vec<usize> = (0..text.len())
        .filter(|&at| text[at..].starts_with(word))
        .collect();
    found.push(text.len());
    found
}

/// Adds one function that returns, or as many as are one too many, before a function or at the end.
fn function_added(rng: &mut Rng, text: &mut Vec<u8>) {
    let at = match rng.below(3) {
        0 => rng.pick(&openings(text)),
        _ => text.len(),
    };
    let count = rng.pick(&[1, 1, 1, 1, 1, 64]);
    let function = b"(func 0\n  (return)\n)\n";
    text.splice(at..at, function.repeat(count));
}

/// Puts a copy of a function behind it.
fn function_doubled(rng: &mut Rng, text: &mut Vec<u8>) {
    let openings = openings(text);
    if openings.len() > 1 {
        let number = rng.below(openings.len() - 1);
        let (start, end) = (openings[number], openings[number + 1]);
        let copy = text[start..end].to_vec();
        text.splice(end..end, copy);
    }
}

/// Makes the text as long as it may be, or longer: with line feeds or spaces at the end, or by writing it again and again.
fn made_long(rng: &mut Rng, text: &mut Vec<u8>) {
    let length = rng.pick(&[0, 1, 1, 1, 2, 3, 100, TEXT_MAX]) + TEXT_MAX;
    match rng.below(3) {
        0 => text.resize(length, b'\n'),
        1 => text.resize(length, b' '),
        _ if text.is_empty() => {}
        _ => *text = text.iter().copied().cycle().take(length).collect(),
    }
}
