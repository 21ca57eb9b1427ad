//! Calls that take turns: many short rounds each, and the smallest round of each counts, since other load on the machine only adds time.

use std::hint::black_box;
use std::time::{Duration, Instant};

/// A call that is timed. It gives a number, in which the calls of a row have to agree.
pub type Call<'a> = &'a mut dyn FnMut() -> u64;

/// How calls are timed.
#[derive(Clone, Copy)]
pub struct Rounds {
    /// How many rounds there are.
    pub count: usize,
    /// The least that a round takes.
    pub length: Duration,
    /// Calls between two readings of the clock, so that reading it costs little beside the shortest of them.
    pub pack: u32,
}

impl Rounds {
    /// Seconds for one call of each, the smallest over the rounds. All have to give the same number.
    pub fn times<const N: usize>(self, mut calls: [Call; N]) -> [f64; N] {
        let answers = calls.each_mut().map(|call| call());
        assert_eq!(answers, [answers[0]; N]);
        self.timed(calls)
    }

    /// The same of calls whose numbers may differ.
    pub fn timed<const N: usize>(self, mut calls: [Call; N]) -> [f64; N] {
        let mut best = [f64::MAX; N];
        for _ in 0..self.count {
            for (best, call) in best.iter_mut().zip(&mut calls) {
                *best = best.min(self.round(call));
            }
        }
        best
    }

    fn round(self, call: &mut Call) -> f64 {
        let start = Instant::now();
        let mut calls = 0;
        loop {
            for _ in 0..self.pack {
                black_box(call());
            }
            calls += self.pack;
            let spent = start.elapsed();
            if spent >= self.length {
                return spent.as_secs_f64() / f64::from(calls);
            }
        }
    }
}

/// Seconds as microseconds, the short ones with one place more.
pub fn micros(seconds: f64) -> String {
    let micros = seconds * 1e6;
    match micros < 0.1 {
        true => format!("{micros:.3}"),
        false => format!("{micros:.2}"),
    }
}

/// A number with commas between groups of three digits.
pub fn grouped(number: usize) -> String {
    let digits = number.to_string();
    let mut text = String::new();
    for (index, digit) in digits.chars().enumerate() {
        if index > 0 && (digits.len() - index).is_multiple_of(3) {
            text.push(',');
        }
        text.push(digit);
    }
    text
}

#[cfg(test)]
mod tests {
    use super::*;

    #[test]
    fn numbers_are_grouped() {
        let groups = [0, 407, 1_024, 32_768].map(grouped);
        assert_eq!(groups, ["0", "407", "1,024", "32,768"]);
    }
}
