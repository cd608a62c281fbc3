//! Shuffles: fixed permutations of the numbers below a span.

use crate::denial::Denial;

/// A permutation of the numbers below its span, and its inverse. A number at
/// or above the span comes back unaltered.
pub trait Shuffle {
    fn span(&self) -> u32;
    fn forward(&self, number: u32) -> u32;
    fn back(&self, number: u32) -> u32;
}

/// The two halves of a number in a Feistel network.
#[derive(Clone, Copy)]
struct Halves {
    left: u32,
    right: u32,
}

/// A Feistel network of three stages on numbers of 2 n bits.
#[derive(Clone, Copy, Debug)]
pub struct Feistel {
    half_width: u32,
    keys: [u32; 3],
}

impl Feistel {
    /// The network of half-width n, 1 to 6; the low n bits of the keys count.
    pub fn new(n: u8, keys: [u16; 3]) -> Result<Self, Denial> {
        Denial::SettingsOutOfRange.unless((1..=6).contains(&n))?;
        let half_width = u32::from(n);
        let mask = (1 << half_width) - 1;
        let keys = keys.map(|key| u32::from(key) & mask);
        Ok(Feistel { half_width, keys })
    }

    fn mask(&self) -> u32 {
        (1 << self.half_width) - 1
    }

    fn round(&self, half: u32, key: u32) -> u32 {
        let sum = half ^ key;
        (sum * sum) & self.mask()
    }

    fn split(&self, number: u32) -> Halves {
        Halves { left: number >> self.half_width, right: number & self.mask() }
    }

    fn join(&self, halves: Halves) -> u32 {
        halves.left << self.half_width | halves.right
    }

    fn stage(&self, halves: Halves, key: u32) -> Halves {
        Halves { left: halves.right ^ self.round(halves.left, key), right: halves.left }
    }

    fn undo_stage(&self, halves: Halves, key: u32) -> Halves {
        Halves { left: halves.right, right: halves.left ^ self.round(halves.right, key) }
    }
}

impl Shuffle for Feistel {
    fn span(&self) -> u32 {
        1 << (2 * self.half_width)
    }

    fn forward(&self, number: u32) -> u32 {
        if number >= self.span() {
            return number;
        }
        let stages = self.keys.iter();
        self.join(stages.fold(self.split(number), |halves, &key| self.stage(halves, key)))
    }

    fn back(&self, number: u32) -> u32 {
        if number >= self.span() {
            return number;
        }
        let stages = self.keys.iter().rev();
        self.join(stages.fold(self.split(number), |halves, &key| self.undo_stage(halves, key)))
    }
}

#[cfg(test)]
mod tests {
    use super::*;

    #[test]
    fn the_worked_example() {
        let feistel = Feistel::new(2, [1, 2, 3]).unwrap();
        assert_eq!([0, 6, 15].map(|number| feistel.forward(number)), [5, 9, 10]);
        assert_eq!([5, 9, 10].map(|number| feistel.back(number)), [0, 6, 15]);
    }

    #[test]
    fn only_1_to_6_are_half_widths() {
        for n in 0..=255 {
            assert_eq!(Feistel::new(n, [0; 3]).is_ok(), (1..=6).contains(&n));
        }
    }

    #[test]
    fn forward_permutes_and_back_undoes() {
        for n in 1..=6 {
            for keys in [[0; 3], [1, 2, 3], [65_535, 4_096, 12_345], [40, 7, 51]] {
                let feistel = Feistel::new(n, keys).unwrap();
                let span = feistel.span();
                assert_eq!(span, 4u32.pow(n.into()));
                let mut images: Vec<u32> = (0..span).map(|x| feistel.forward(x)).collect();
                assert!((0..span).all(|x| feistel.back(images[x as usize]) == x));
                images.sort_unstable();
                assert!(images.into_iter().eq(0..span));
                assert_eq!(feistel.forward(span), span);
                assert_eq!(feistel.back(span + 9), span + 9);
            }
        }
    }

    #[test]
    fn only_the_low_bits_of_a_key_count() {
        let low = Feistel::new(2, [1, 2, 3]).unwrap();
        let high = Feistel::new(2, [0xFF05, 6, 0x8003]).unwrap();
        assert!((0..16).all(|number| low.forward(number) == high.forward(number)));
    }
}
