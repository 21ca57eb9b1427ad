//! Check on generated texts, in the archive and in the second implementation, and how often each refusal is generated.

use generate::{Case, Rng};
use tests::{check, source, verdict};

/// How many texts of each kind are compared.
const VALID: u64 = 40_000;
const WRAPPERS: u64 = 10_000;
const NEAR: u64 = 60_000;
const DAMAGED: u64 = 100_000;
const BYTES: u64 = 20_000;

/// docs/TRUST.md and rust/README.md say how many they are.
#[test]
fn texts_are_counted() {
    let thousands = (VALID + WRAPPERS + NEAR + DAMAGED + BYTES) / 1_000;
    for page in ["docs/TRUST.md", "rust/README.md"] {
        let count = format!("{thousands},000 generated texts");
        assert!(
            source(page).contains(&count),
            "{page} does not say: {count}"
        );
    }
}

/// How often each code was met, 0 for acceptance.
type Met = [u64; 14];

fn met_by(cases: impl Iterator<Item = Case>) -> Met {
    let mut met = [0; 14];
    for case in cases {
        assert!(!case.text.is_empty(), "{case}");
        let (code, place) = verdict(&case.text);
        assert_eq!(code == 0 || code == 1, place == 0, "{case}");
        met[code as usize] += 1;
    }
    met
}

/// Requires that each of these codes is at least one in `rarest` of the texts.
fn assert_often(name: &str, met: Met, codes: &[usize], rarest: u64) {
    let all: u64 = met.iter().sum();
    for (code, count) in met.iter().enumerate() {
        let share = 100.0 * *count as f64 / all as f64;
        println!("{name}: code {code:2} {count:6} ({share:.2} %)");
    }
    for &code in codes {
        let count = met[code];
        assert!(count * rarest >= all, "code {code}: {count} of {all}");
    }
}

#[test]
fn generated_valid() {
    let met = met_by((0..VALID).map(generate::valid));
    assert_eq!(met[0], VALID);
}

#[test]
fn generated_wrappers() {
    let met = met_by((0..WRAPPERS).map(|seed| generate::wrappers(seed + 15_000_000)));
    assert_eq!(met[0], WRAPPERS);
}

#[test]
fn generated_near() {
    let met = met_by((0..NEAR).map(|seed| generate::near(seed + 1_000_000)));
    let codes: Vec<usize> = (3..=13).chain([0]).collect();
    assert_often("near", met, &codes, 200);
}

/// Each code that check can return, and acceptance, is at least one in a hundred.
#[test]
fn generated_damaged() {
    let met = met_by((0..DAMAGED).map(|seed| generate::damaged(seed + 2_000_000)));
    let codes: Vec<usize> = (0..=13).collect();
    assert_often("damaged", met, &codes, 100);
}

/// Arbitrary bytes, mostly from the alphabet of the format, after a good beginning or none. No byte at all is a task without a stack.
#[test]
fn arbitrary_bytes() {
    const ALPHABET: &[u8] = b"()\n 0123456789stackfuncloadstorecallensuregotoeitherreturn";
    for seed in 0..BYTES {
        let mut rng = Rng::new(seed + 3_000_000);
        let mut text: Vec<u8> = match rng.below(3) {
            0 => Vec::new(),
            1 => b"(stack 8)\n".to_vec(),
            _ => b"(stack 8)\n(func 2\n  (store 1)\n".to_vec(),
        };
        for _ in 0..rng.below(60) {
            text.push(match rng.below(20) {
                0 => rng.below(256) as u8,
                _ => rng.pick(ALPHABET),
            });
        }
        let accepted = check(&text).is_ok();
        assert_eq!(accepted, text.is_empty(), "bytes seed {}", seed + 3_000_000);
    }
}
