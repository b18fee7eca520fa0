//! Relations of entities, technologies, coefficients and selectors.

use crate::table::{Coefficients, Packet, Range, Row, Selector, Table, FIELDS, NONE};

/// The entity and its parents upward, the root last.
pub fn lineage(table: &Table, entity: u8) -> Vec<u8> {
    let mut upward = vec![entity];
    let mut parent = table.entities[usize::from(entity)].parent;
    while parent != NONE {
        upward.push(parent);
        parent = table.entities[usize::from(parent)].parent;
    }
    upward
}

/// The entity at the top of the entity's parents.
pub fn root(table: &Table, entity: u8) -> u8 {
    lineage(table, entity)
        .into_iter()
        .next_back()
        .unwrap_or(entity)
}

/// Whether `upper` is `lower` or among its parents upward.
pub fn above(table: &Table, upper: u8, lower: u8) -> bool {
    lineage(table, lower).contains(&upper)
}

/// The layer of a technology; NULL has none.
pub fn layer(technology: u8) -> Option<u8> {
    [None, Some(2), Some(2), Some(3), Some(5), Some(5), Some(7)][usize::from(technology)]
}

/// Whether the first technology has a smaller layer; NULL is comparable with none.
pub fn dominates(first: u8, second: u8) -> bool {
    match (layer(first), layer(second)) {
        (Some(upper), Some(lower)) => upper < lower,
        _ => false,
    }
}

/// Whether no coefficient of the first is smaller.
pub fn at_least(first: &Coefficients, second: &Coefficients) -> bool {
    (0..3).all(|k| first[k] >= second[k])
}

/// Whether every packet of the inner selector is in the outer.
pub fn contains(outer: &Selector, inner: &Selector) -> bool {
    (0..FIELDS).all(|f| outer[f].low <= inner[f].low && inner[f].high <= outer[f].high)
}

/// The packets in both selectors, if there are any.
pub fn intersection(first: &Selector, second: &Selector) -> Option<Selector> {
    let mut common = *first;
    for (range, other) in common.iter_mut().zip(second) {
        *range = Range {
            low: range.low.max(other.low),
            high: range.high.min(other.high),
        };
        if range.low > range.high {
            return None;
        }
    }
    Some(common)
}

/// Whether some packet is in both selectors.
pub fn overlap(first: &Selector, second: &Selector) -> bool {
    intersection(first, second).is_some()
}

/// The least packet of a selector.
pub fn low_corner(selector: &Selector) -> Packet {
    selector.map(|range| range.low)
}

/// Whether the packet is in the selector.
pub fn in_selector(packet: &Packet, selector: &Selector) -> bool {
    (0..FIELDS).all(|f| selector[f].low <= packet[f] && packet[f] <= selector[f].high)
}

/// Whether two rows belong to one group.
pub fn same_group(first: &Row, second: &Row) -> bool {
    first.holder == second.holder
        && first.technology == second.technology
        && first.gateways == second.gateways
}

/// Whether the source roots are the same and the destination roots are the same.
pub fn same_roots(table: &Table, first: &Row, second: &Row) -> bool {
    root(table, first.source) == root(table, second.source)
        && root(table, first.destination) == root(table, second.destination)
}

/// Whether the upper row's source and destination are above the lower row's.
pub fn ends_above(table: &Table, upper: &Row, lower: &Row) -> bool {
    above(table, upper.source, lower.source) && above(table, upper.destination, lower.destination)
}

#[cfg(test)]
mod tests {
    use super::*;

    /// A selector whose first range is the given one and whose others hold only 0.
    fn first_range(low: u32, high: u32) -> Selector {
        let mut selector = [Range { low: 0, high: 0 }; FIELDS];
        selector[0] = Range { low, high };
        selector
    }

    #[test]
    fn ranges_overlap_at_a_shared_bound() {
        assert!(overlap(&first_range(0, 8), &first_range(8, 9)));
        assert!(!overlap(&first_range(0, 7), &first_range(8, 9)));
    }

    #[test]
    fn coefficients_may_be_unordered() {
        assert!(!at_least(&[3, 1, 1], &[3, 0, 2]));
        assert!(!at_least(&[3, 0, 2], &[3, 1, 1]));
    }

    #[test]
    fn null_is_comparable_with_none() {
        assert!((0..=6).all(|t| !dominates(0, t) && !dominates(t, 0)));
        assert!(dominates(2, 3) && dominates(3, 5) && dominates(4, 6));
        assert!(!dominates(1, 2) && !dominates(5, 4));
    }
}
