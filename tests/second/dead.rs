//! Dead rows and witnesses, by subtracting selectors; winners, by scanning.
//!
//! A row that wins a probe (a, b, packet) wins (s, d, packet) with its own ends too: an earlier
//! row matching the latter has ends above s and d, hence above a and b, and would have matched
//! the former. So only the row's own ends need be probed, and there the earlier rows of the
//! group that match are those whose ends are above the row's and whose selector has the packet.

use crate::relations::{above, ends_above, in_selector, intersection, low_corner, same_group};
use crate::table::{Packet, Range, Row, Selector, Table};
use std::cmp::Reverse;

/// Disjoint selectors that together hold the packets of `whole` outside `taken`.
fn subtract(whole: &Selector, taken: &Selector) -> Vec<Selector> {
    let Some(common) = intersection(whole, taken) else {
        return vec![*whole];
    };
    let mut left = Vec::new();
    let mut rest = *whole;
    for (field, shared) in common.iter().enumerate() {
        let range = rest[field];
        if range.low < shared.low {
            rest[field] = Range {
                low: range.low,
                high: shared.low - 1,
            };
            left.push(rest);
        }
        if shared.high < range.high {
            rest[field] = Range {
                low: shared.high + 1,
                high: range.high,
            };
            left.push(rest);
        }
        rest[field] = *shared;
    }
    left
}

/// The earlier rows of the group that match each probe from the row's own ends with a packet of theirs.
pub fn cover(table: &Table, row: usize) -> impl Iterator<Item = &Row> {
    let own = &table.rows[row];
    table.rows[..row]
        .iter()
        .filter(move |earlier| same_group(earlier, own) && ends_above(table, earlier, own))
}

/// Disjoint selectors of the packets with which the row wins the probe from its own ends. What has most packets is subtracted
/// first, so that the parts stay few.
fn unclaimed(table: &Table, row: usize) -> Vec<Selector> {
    let own = table.rows[row].selector;
    let mut taken: Vec<Selector> = cover(table, row)
        .filter_map(|earlier| intersection(&own, &earlier.selector))
        .collect();
    taken.sort_by_key(|selector| Reverse(packets(selector)));
    let mut left = vec![own];
    for selector in &taken {
        left = left
            .iter()
            .flat_map(|part| subtract(part, selector))
            .collect();
    }
    left
}

/// The number of packets in a selector.
fn packets(selector: &Selector) -> u128 {
    selector
        .iter()
        .map(|range| u128::from(range.high - range.low) + 1)
        .product()
}

/// The least packet with which the row wins the probe from its own ends; none if it is dead.
pub fn witness(table: &Table, row: usize) -> Option<Packet> {
    unclaimed(table, row).iter().map(low_corner).min()
}

/// Whether the row wins no probe in its group.
pub fn dead(table: &Table, row: usize) -> bool {
    unclaimed(table, row).is_empty()
}

/// The first row of the given row's group that matches the probe.
pub fn winner(table: &Table, row: usize, a: u8, b: u8, packet: &Packet) -> Option<usize> {
    (0..table.rows.len()).find(|&k| {
        let other = &table.rows[k];
        same_group(other, &table.rows[row])
            && above(table, other.source, a)
            && above(table, other.destination, b)
            && in_selector(packet, &other.selector)
    })
}

#[cfg(test)]
mod tests {
    use super::*;

    #[test]
    fn parts_of_a_subtraction_are_disjoint_and_lack_the_taken() {
        let whole = [Range { low: 0, high: 9 }; 5];
        let taken = [Range { low: 3, high: 5 }; 5];
        let left = subtract(&whole, &taken);
        assert_eq!(left.len(), 10);
        for (k, part) in left.iter().enumerate() {
            assert!(intersection(part, &taken).is_none());
            assert!(left[..k]
                .iter()
                .all(|other| intersection(part, other).is_none()));
        }
        let left: u128 = left.iter().map(packets).sum();
        assert_eq!(left, packets(&whole) - packets(&taken));
        assert_eq!(left, 100_000 - 243);
    }
}
