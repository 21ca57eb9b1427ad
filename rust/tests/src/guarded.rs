//! Buffers that hold noise and stand between guards.

use std::borrow::Cow;
use std::fmt::Debug;
use std::sync::OnceLock;

/// The elements of a guard, on each side.
const GUARD: usize = 8;

/// How much noise is kept, so that a working space, or an output for every report, is filled by copying.
const KEPT: usize = 70_000;

/// A number that noise is made of.
pub trait Noise: Copy + PartialEq + Debug + 'static {
    /// One of 64 random bits, not 0.
    fn of(bits: u64) -> Self;

    /// The first numbers of noise.
    fn kept() -> &'static [Self];
}

macro_rules! noise_of {
    ($($number:ty)*) => {
        $(impl Noise for $number {
            fn of(bits: u64) -> Self {
                bits as $number | 1
            }

            fn kept() -> &'static [Self] {
                static KEEP: OnceLock<Vec<$number>> = OnceLock::new();
                KEEP.get_or_init(|| make(0, KEPT))
            }
        })*
    };
}

noise_of!(u8 u32 u64);

fn make<T: Noise>(start: usize, length: usize) -> Vec<T> {
    let number = |index| T::of((index as u64 + 1).wrapping_mul(0x9e37_79b9_7f4a_7c15) >> 13);
    (start..start + length).map(number).collect()
}

/// Noise from `start` on.
fn part<T: Noise>(start: usize, length: usize) -> Cow<'static, [T]> {
    match T::kept().get(start..start + length) {
        Some(kept) => Cow::Borrowed(kept),
        None => Cow::Owned(make(start, length)),
    }
}

/// `length` numbers, none of them 0.
pub fn noise<T: Noise>(length: usize) -> Vec<T> {
    part(0, length).into_owned()
}

/// Whether numbers are those of noise from `index` on.
pub fn is_noise_from<T: Noise>(index: usize, numbers: &[T]) -> bool {
    *numbers == *part(index, numbers.len())
}

/// A buffer between guards. Its pointer and length are what a service is lent.
#[derive(Clone)]
pub struct Guarded<T>(Vec<T>);

impl<T: Noise> Guarded<T> {
    /// A buffer with these numbers.
    pub fn holding(numbers: &[T]) -> Self {
        let guard = part(0, GUARD);
        Guarded([&guard, numbers, &guard].concat())
    }

    /// A buffer of noise.
    pub fn noisy(length: usize) -> Self {
        Guarded::holding(&part(0, length))
    }

    /// What a service is lent.
    pub fn lent(&mut self) -> &mut [T] {
        let end = self.0.len() - GUARD;
        &mut self.0[GUARD..end]
    }

    /// What the buffer holds. Panics where a guard was written.
    pub fn held(&self, name: &str) -> &[T] {
        let guard = part(0, GUARD);
        let end = self.0.len() - GUARD;
        assert_eq!(self.0[..GUARD], *guard, "before {name}");
        assert_eq!(self.0[end..], *guard, "behind {name}");
        &self.0[GUARD..end]
    }
}
