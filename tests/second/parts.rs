//! Parts of a selector: disjoint ones that hold all its packets, those on the sides of a packet, and some that overlap and leave out one
//! packet.

use crate::random::Random;
use crate::relations::in_selector;
use crate::table::{Packet, Range, Selector, FIELDS};

/// A bound of overlapping parts is moved by up to one of these shares of the room that it has.
const SHARES: [u32; 4] = [4, 16, 64, 64];

/// Disjoint parts of the selector, at most so many, that hold all its packets.
pub fn cut(random: &mut Random, selector: &Selector, pieces: usize) -> Vec<Selector> {
    let mut parts = vec![*selector];
    for _ in 0..4 * pieces {
        if parts.len() == pieces {
            break;
        }
        let k = random.below(parts.len());
        let field = random.below(FIELDS);
        let Range { low, high } = parts[k][field];
        if low < high {
            let last = low + random.below((high - low) as usize) as u32;
            let mut upper = parts[k];
            upper[field].low = last + 1;
            parts[k][field].high = last;
            parts.push(upper);
        }
    }
    parts
}

/// The parts of a selector on each side of a packet in it, in each field: all that it has but the packet.
pub fn sides(selector: &Selector, packet: &Packet) -> Vec<Selector> {
    let mut sides = Vec::new();
    for (field, &value) in packet.iter().enumerate() {
        let [mut below, mut above] = [*selector; 2];
        if selector[field].low < value {
            below[field].high = value - 1;
            sides.push(below);
        }
        if value < selector[field].high {
            above[field].low = value + 1;
            sides.push(above);
        }
    }
    sides
}

/// Parts of the whole that leave out one packet, and no other if there may be enough of them: at most so many, each a little larger than
/// disjoint ones would be. Nearly every bound is another, so that the fields of a mesh have many intervals.
pub fn parts(random: &mut Random, whole: &Selector, most: usize) -> Vec<Selector> {
    let packet =
        whole.map(|Range { low, high }| random.between(low as usize, high as usize) as u32);
    let share = random.pick(&SHARES);
    let mut parts = Vec::new();
    for part in cut(random, whole, most.saturating_sub(2 * FIELDS).max(1)) {
        let lacking = if in_selector(&packet, &part) {
            sides(&part, &packet)
        } else {
            vec![part]
        };
        for part in lacking {
            parts.push(enlarged(random, whole, &part, &packet, share));
        }
    }
    random.shuffle(&mut parts);
    parts.truncate(most);
    parts
}

/// The part with its bounds moved outward. It lacks the packet still.
fn enlarged(
    random: &mut Random,
    whole: &Selector,
    part: &Selector,
    packet: &Packet,
    share: u32,
) -> Selector {
    let mut outward = |room: u32| random.between(0, room.min(1 + room / share) as usize) as u32;
    let mut larger = *part;
    for (range, whole) in larger.iter_mut().zip(whole) {
        range.low -= outward(range.low - whole.low);
        range.high += outward(whole.high - range.high);
    }
    while in_selector(packet, &larger) {
        let field = random.below(FIELDS);
        larger[field] = part[field];
    }
    larger
}

#[cfg(test)]
mod tests {
    use super::*;
    use crate::draft::everything;
    use std::collections::BTreeSet;

    #[test]
    fn sides_have_all_but_the_packet() {
        let whole = [Range { low: 1, high: 3 }; FIELDS];
        for packet in [[1, 2, 3, 2, 1], [1; FIELDS], [3; FIELDS], [2; FIELDS]] {
            let sides = sides(&whole, &packet);
            for number in 0..3u32.pow(5) {
                let other = [81, 27, 9, 3, 1].map(|place| 1 + number / place % 3);
                let held = sides.iter().any(|side| in_selector(&other, side));
                assert_eq!(held, other != packet);
            }
        }
        let only = [Range { low: 2, high: 2 }; FIELDS];
        assert!(sides(&only, &[2; FIELDS]).is_empty());
    }

    /// How many packets of five values a field, from 1 on, no part has, and how many more than one has.
    fn lacked_and_shared(parts: &[Selector]) -> (usize, usize) {
        let (mut lacked, mut shared) = (0, 0);
        for number in 0..5u32.pow(5) {
            let packet = [625, 125, 25, 5, 1].map(|place| 1 + number / place % 5);
            let having = parts.iter().filter(|part| in_selector(&packet, part));
            match having.count() {
                0 => lacked += 1,
                1 => {}
                _ => shared += 1,
            }
        }
        (lacked, shared)
    }

    #[test]
    fn disjoint_parts_have_each_packet_once() {
        let random = &mut Random::new(5);
        let whole = [Range { low: 1, high: 5 }; FIELDS];
        for pieces in [1, 2, 7, 50] {
            let parts = cut(random, &whole, pieces);
            assert_eq!(parts.len(), pieces);
            assert_eq!(lacked_and_shared(&parts), (0, 0));
        }
    }

    #[test]
    fn overlapping_parts_lack_one_packet() {
        let random = &mut Random::new(6);
        let whole = [Range { low: 1, high: 5 }; FIELDS];
        for most in [10, 20, 40, 62] {
            let parts = parts(random, &whole, most);
            assert!(parts.len() <= most);
            let (lacked, shared) = lacked_and_shared(&parts);
            assert_eq!(lacked, 1);
            assert!(shared > 500, "{shared}");
        }
        assert!(lacked_and_shared(&parts(random, &whole, 3)).0 > 1);
    }

    #[test]
    fn overlapping_parts_have_many_bounds() {
        let random = &mut Random::new(7);
        for _ in 0..100 {
            let parts = parts(random, &everything(), 62);
            let bounds = |field: usize| -> BTreeSet<u32> {
                let ranges = parts.iter().map(|part| part[field]);
                ranges.flat_map(|range| [range.low, range.high]).collect()
            };
            let cells: usize = (0..FIELDS).map(|field| bounds(field).len()).product();
            assert!(cells > 10_000_000, "{cells}");
        }
    }
}
