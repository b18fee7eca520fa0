//! Texts of about 16 KiB, just short of the longest input of the programs to well past it. No accepted text is that long.

use crate::frames::{digits, text};
use crate::printed::MOST_INPUT;
use crate::random::Random;

/// A text that begins with lines of the table and goes on to a length near the limit.
pub fn long(random: &mut Random, lines: Vec<Vec<u8>>) -> Vec<u8> {
    let length = random.pick(&[
        MOST_INPUT - 1,
        MOST_INPUT,
        MOST_INPUT + 1,
        MOST_INPUT + 2,
        MOST_INPUT + 400,
        2 * MOST_INPUT,
    ]);
    let kept = match random.below(3) {
        0 => 0,
        1 => random.below(lines.len()),
        _ => lines.len(),
    };
    let mut long = text(&lines[..kept]);
    let more = match random.below(5) {
        0 => text(&lines[..1]),
        1 => text(&lines[lines.len() - 1..]),
        2 => b"\n".to_vec(),
        3 => digits(&[random.between(1, 5) as u8]),
        _ => vec![random.byte()],
    };
    while long.len() < length {
        long.extend(&more);
    }
    long.truncate(length);
    if random.chance(30) {
        long[length - 1] = b'\n';
    }
    long
}
