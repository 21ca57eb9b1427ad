//! Random prices of moves.

use crate::rng::Rng;

/// What a move costs: nothing where it moves no block, else `start` and, for each block, `each`. Any two numbers.
#[derive(Clone, Copy, Debug, PartialEq, Eq)]
pub struct Price {
    /// The cost of beginning a move, 0 to 255 where it fits.
    pub start: u32,
    /// The cost of each block, 1 to 255 where it fits.
    pub each: u32,
}

/// The numbers at the ends of the ranges and past them: the first four fit as `start`, and all of these but 0 as `each`.
const ENDS: [u32; 6] = [0, 1, 254, 255, 256, u32::MAX];

impl Price {
    /// The price that counts blocks.
    pub const BLOCKS: Price = Price { start: 0, each: 1 };

    /// Whether both numbers are in their ranges.
    pub fn fits(self) -> bool {
        self.start <= 255 && (1..=255).contains(&self.each)
    }

    /// The price of a move of at most 64 blocks, where it fits.
    pub fn of(self, blocks: u32) -> u32 {
        match blocks {
            0 => 0,
            _ => self.start + self.each * blocks,
        }
    }

    /// Every price whose two numbers are at an end of a range or past it.
    pub fn at_ends() -> impl Iterator<Item = Price> {
        let with = |start| ENDS.map(|each| Price { start, each });
        ENDS.into_iter().flat_map(with)
    }
}

/// A price that fits, often one at an end.
pub fn price(rng: &mut Rng) -> Price {
    let start = match rng.below(4) {
        0 => rng.pick(&ENDS[..4]),
        _ => rng.below(256) as u32,
    };
    let each = match rng.below(4) {
        0 => rng.pick(&ENDS[1..4]),
        _ => rng.between(1, 255) as u32,
    };
    Price { start, each }
}

/// A price with one number or both outside the range. Some of them would fit if they were cut to 8 or 16 bits.
pub fn unfit(rng: &mut Rng) -> Price {
    let mut price = price(rng);
    let kind = rng.below(3);
    if kind != 0 {
        price.start = rng.pick(&[256, 257, 65_536, u32::MAX]);
    }
    if kind != 1 {
        price.each = rng.pick(&[0, 256, 257, 65_537, u32::MAX]);
    }
    price
}

#[cfg(test)]
mod tests {
    use super::*;

    #[test]
    fn prices_are_within_their_range_and_unfit_ones_outside() {
        let mut rng = Rng::new(5);
        let mut ends = [0; 4];
        for _ in 0..10_000 {
            let price = price(&mut rng);
            assert!(price.fits(), "{price:?}");
            for (end, met) in ends.iter_mut().zip([
                price.start == 0,
                price.start == 255,
                price.each == 1,
                price.each == 255,
            ]) {
                *end += u32::from(met);
            }
            assert!(!unfit(&mut rng).fits());
        }
        assert!(ends.iter().all(|&met| met > 500), "{ends:?}");
    }

    #[test]
    fn prices_at_ends() {
        let fitting: Vec<Price> = Price::at_ends().filter(|price| price.fits()).collect();
        assert_eq!((Price::at_ends().count(), fitting.len()), (36, 12));
        assert!(fitting.contains(&Price::BLOCKS));
    }
}
