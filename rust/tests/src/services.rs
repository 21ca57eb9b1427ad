//! Check in both implementations, and what is required of every service.

use second::{code_and_place, Row, Verdict, WORK_MIN};

use generate::Price;

use crate::guarded::{is_noise_from, Guarded};

/// Requires that a service refuses a price that does not fit, then a text where check does, and likewise, and else by none of these rows.
pub(crate) fn assert_checked(text: &[u8], price: Price, work: usize, verdict: Verdict) {
    if work < WORK_MIN {
        return;
    }
    let checked = match price.fits() {
        true => check(text),
        false => Err(Row::PriceRange.at(0)),
    };
    match checked {
        Ok(()) => assert!(!matches!(code_and_place(verdict).0, 1..=13 | 15 | 23)),
        refused => assert_eq!(verdict, refused),
    }
}

/// Checks a text in both implementations.
pub fn check(text: &[u8]) -> Verdict {
    let verdict = second::check(text, WORK_MIN);
    let proved = felknost::check(text).map_err(|refusal| (refusal.row.code(), refusal.place));
    let wanted = verdict.map_err(|refusal| (refusal.row.code(), refusal.place));
    assert_eq!(proved, wanted, "the archive (left) and the second check");
    verdict
}

/// Code and place of a text.
pub fn verdict(text: impl AsRef<[u8]>) -> (u32, u32) {
    code_and_place(check(text.as_ref()))
}

/// Requires that a working space of noise was left as the rules say: the first 16,384 numbers 0, unless it is too short, and the rest as it was.
pub(crate) fn assert_cleared(work: &Guarded<u32>) {
    let held = work.held("the working space");
    let cleared = if held.len() < WORK_MIN { 0 } else { WORK_MIN };
    let (first, rest) = held.split_at(cleared);
    assert!(first.iter().all(|&number| number == 0), "not cleared");
    assert!(is_noise_from(cleared, rest), "past the working space");
}

/// Requires that a service of the archive answered 1 and wrote these numbers over the first of a result of noise.
pub(crate) fn assert_answered(name: &str, answer: u32, result: &Guarded<u64>, numbers: &[u64]) {
    assert_eq!(answer, 1);
    let held = result.held("the result");
    let (first, rest) = held.split_at(numbers.len());
    assert_eq!(first, numbers, "the archive's {name} (left) and the second");
    assert!(is_noise_from(numbers.len(), rest), "past the result");
}
