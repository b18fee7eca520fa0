//! Boxes that together have all packets of a region. Families: each splits another field into parts, and has its own range of one field
//! more; in an order of the fields that ends with the latter each combination of parts has a cover of its own. Corners: most of them lie in
//! a larger one and are of no use, and a cell may be in nearly all of them.

use crate::table::{Range, Selector, FIELDS};

/// The boxes of the families, so many parts in each, that have their own ranges of the field `last`.
pub fn families(region: &Selector, last: usize, parts: usize) -> Vec<Selector> {
    let fields = (0..FIELDS).filter(|&field| field != last);
    let mut boxes = Vec::new();
    for (field, own) in fields.zip(split(region[last], FIELDS - 1)) {
        for part in split(region[field], parts) {
            boxes.push(with(&with(region, field, part), last, own));
        }
    }
    boxes
}

/// Boxes from the region's lows to ever larger highs, so many; one that is larger in each field; and of each field what lies past that.
pub fn corners(region: &Selector, nested: usize) -> Vec<Selector> {
    let steps = nested as u64 + 2;
    let corner = |step: u64| {
        region.map(|Range { low, high }| Range {
            low,
            high: low + (u64::from(high - low) * step / steps) as u32,
        })
    };
    let mut boxes: Vec<Selector> = (1..steps).map(corner).collect();
    for (field, Range { high, .. }) in corner(steps - 1).into_iter().enumerate() {
        let whole = region[field];
        if high < whole.high {
            let past = Range {
                low: high + 1,
                ..whole
            };
            boxes.push(with(region, field, past));
        }
    }
    boxes
}

/// The region in so many parts, by a field.
pub fn slices(region: &Selector, field: usize, parts: usize) -> Vec<Selector> {
    let slices = split(region[field], parts).into_iter();
    slices.map(|part| with(region, field, part)).collect()
}

/// The selector with another range in a field.
fn with(selector: &Selector, field: usize, range: Range) -> Selector {
    let mut other = *selector;
    other[field] = range;
    other
}

/// The range in so many parts of about the same size, or as many as it has values.
fn split(whole: Range, parts: usize) -> Vec<Range> {
    let values = u64::from(whole.high - whole.low) + 1;
    let parts = values.min(parts as u64);
    let begin = |k: u64| u64::from(whole.low) + k * values / parts;
    let part = |k| Range {
        low: begin(k) as u32,
        high: (begin(k + 1) - 1) as u32,
    };
    (0..parts).map(part).collect()
}

#[cfg(test)]
mod tests {
    use super::*;
    use crate::relations::in_selector;

    #[test]
    fn parts_are_the_range() {
        for (low, high, parts, expected) in [
            (0, u32::MAX, 2, vec![0, 1 << 31]),
            (7, 9, 2, vec![7, 8]),
            (7, 9, 9, vec![7, 8, 9]),
            (5, 5, 1, vec![5]),
        ] {
            let split = split(Range { low, high }, parts);
            let lows: Vec<u32> = split.iter().map(|part| part.low).collect();
            assert_eq!(lows, expected);
            let next = lows[1..].iter().map(|&low| low - 1).chain([high]);
            assert!(split.iter().map(|part| part.high).eq(next));
        }
    }

    #[test]
    fn families_have_all_packets() {
        let region = [Range { low: 2, high: 6 }; FIELDS];
        for last in 0..FIELDS {
            let boxes = families(&region, last, 3);
            assert_eq!(boxes.len(), 3 * (FIELDS - 1));
            for number in 0..5u32.pow(5) {
                let packet = [625, 125, 25, 5, 1].map(|place| 2 + number / place % 5);
                let holding = boxes
                    .iter()
                    .filter(|selector| in_selector(&packet, selector));
                assert_eq!(holding.count(), 1);
            }
        }
        let [lower, upper] = slices(&region, 3, 2)[..] else {
            panic!("two halves");
        };
        assert_eq!(
            (lower[3].low, lower[3].high + 1, upper[3].high),
            (2, upper[3].low, 6)
        );
    }

    #[test]
    fn corners_have_all_packets() {
        let mut region = [Range { low: 2, high: 6 }; FIELDS];
        for nested in 0..4 {
            let boxes = corners(&region, nested);
            assert_eq!(boxes.len(), nested + 1 + FIELDS);
            for number in 0..5u32.pow(5) {
                let packet = [625, 125, 25, 5, 1].map(|place| 2 + number / place % 5);
                assert!(boxes.iter().any(|selector| in_selector(&packet, selector)));
            }
            let past = |field: usize| boxes[nested + 1 + field][field].low - 1;
            assert_eq!(
                boxes[nested].map(|range| range.high),
                [0, 1, 2, 3, 4].map(past)
            );
        }
        region[1].high = 2;
        assert_eq!(corners(&region, 3).len(), 4 + FIELDS - 1);
    }
}
