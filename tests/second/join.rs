//! The row that joins two rows, by the chains from the roots down and by the sorted bounds.

use crate::relations::{lineage, same_group};
use crate::table::{Range, Row, Table};

/// The least row that is above both rows in ends, selector and coefficients; none if their group or a root of their ends differs.
pub fn joined(table: &Table, i: usize, j: usize) -> Option<Row> {
    let (one, other) = (&table.rows[i], &table.rows[j]);
    if !same_group(one, other) {
        return None;
    }
    let mut row = one.clone();
    row.source = lowest_above(table, one.source, other.source)?;
    row.destination = lowest_above(table, one.destination, other.destination)?;
    for (coefficient, &of_other) in row.coefficients.iter_mut().zip(&other.coefficients) {
        *coefficient = of_other.max(*coefficient);
    }
    for (range, &of_other) in row.selector.iter_mut().zip(&other.selector) {
        *range = span(*range, of_other);
    }
    Some(row)
}

/// The last entity that the chains of both entities, from the root down, have in common; none under different roots.
fn lowest_above(table: &Table, one: u8, other: u8) -> Option<u8> {
    let [one, other] = [one, other].map(|entity| lineage(table, entity).into_iter().rev());
    let common = one
        .zip(other)
        .take_while(|(of_one, of_other)| of_one == of_other);
    common.last().map(|(entity, _)| entity)
}

/// The smallest range that holds both ranges.
fn span(one: Range, other: Range) -> Range {
    let mut bounds = [one.low, one.high, other.low, other.high];
    bounds.sort_unstable();
    let [low, _, _, high] = bounds;
    Range { low, high }
}

#[cfg(test)]
mod tests {
    use super::*;
    use crate::table::{Entity, NONE};

    #[test]
    fn entities_meet_where_their_chains_part() {
        let entity = |&parent: &u8| Entity {
            parent,
            layer: 0,
            mask: 0,
        };
        let table = Table {
            entities: [NONE, 0, 1, 1, 0, NONE].iter().map(entity).collect(),
            ..Table::default()
        };
        for (one, other, met) in [
            (2, 2, Some(2)),
            (1, 3, Some(1)),
            (2, 3, Some(1)),
            (3, 4, Some(0)),
            (0, 2, Some(0)),
            (4, 5, None),
        ] {
            assert_eq!(lowest_above(&table, one, other), met);
            assert_eq!(lowest_above(&table, other, one), met);
        }
    }

    #[test]
    fn a_span_holds_both_ranges() {
        let range = |(low, high)| Range { low, high };
        for (one, other, both) in [
            ((0, 8), (9, 20), (0, 20)),
            ((0, 1), (7, 9), (0, 9)),
            ((3, 4), (0, 9), (0, 9)),
            ((2, 6), (4, 9), (2, 9)),
            ((5, 5), (5, 5), (5, 5)),
        ] {
            assert_eq!(span(range(one), range(other)), range(both));
            assert_eq!(span(range(other), range(one)), range(both));
        }
    }
}
