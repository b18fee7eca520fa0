//! Lengths of outputs.

use crate::random::Random;

/// A length of the output, up to `most`, beside the result's: the same, short by one or more, longer, or 0.
pub fn room(random: &mut Random, length: usize, most: usize) -> usize {
    match random.below(10) {
        0..=3 => length,
        4..=5 => length - 1,
        6 => random.between(length + 1, length + 8),
        7 => random.between(length + 1, most),
        8 => random.below(length),
        _ => 0,
    }
}
