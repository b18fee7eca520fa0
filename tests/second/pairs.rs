//! The kinds of anomaly that hold of two rows.

use crate::relations::{
    at_least, contains, dominates, ends_above, overlap, root, same_group, same_roots,
};
use crate::table::{Row, Table};

/// Whether an anomaly of this kind holds of rows i and j.
pub fn holds(table: &Table, kind: u8, i: usize, j: usize) -> bool {
    let (first, second) = (&table.rows[i], &table.rows[j]);
    let earlier = i < j;
    let one_holder = first.holder == second.holder;
    let one_group = earlier && same_group(first, second);
    i != j
        && match kind {
            5 => one_group && shadowing(table, first, second),
            6 => one_group && redundancy(table, first, second),
            7 => one_group && exception(table, first, second),
            8 => one_group && correlation(table, first, second),
            9 => one_holder && inclusion(table, first, second),
            10 => one_holder && earlier && affinity(table, first, second),
            11 => one_holder && earlier && contradiction(table, first, second),
            13 => skewed(table, first, second),
            18 => monitorable(table, first, second),
            _ => false,
        }
}

/// Whether the upper row has the ends and the selector of the lower within its own.
fn covers(table: &Table, upper: &Row, lower: &Row) -> bool {
    ends_above(table, upper, lower) && contains(&upper.selector, &lower.selector)
}

/// Whether the row has technology NULL.
fn is_null(row: &Row) -> bool {
    row.technology == 0
}

/// Whether both ends have the same roots and the selectors overlap.
fn meet(table: &Table, first: &Row, second: &Row) -> bool {
    same_roots(table, first, second) && overlap(&first.selector, &second.selector)
}

/// Kind 5 of two rows of a group.
fn shadowing(table: &Table, first: &Row, second: &Row) -> bool {
    covers(table, first, second) && !at_least(&first.coefficients, &second.coefficients)
}

/// Kind 6 of two rows of a group.
fn redundancy(table: &Table, first: &Row, second: &Row) -> bool {
    covers(table, first, second) && at_least(&first.coefficients, &second.coefficients)
}

/// Kind 7 of two rows of a group.
fn exception(table: &Table, first: &Row, second: &Row) -> bool {
    let all_equal = first.source == second.source
        && first.destination == second.destination
        && first.selector == second.selector;
    covers(table, second, first)
        && !all_equal
        && !at_least(&first.coefficients, &second.coefficients)
}

/// Kind 8 of two rows of a group.
fn correlation(table: &Table, first: &Row, second: &Row) -> bool {
    meet(table, first, second)
        && !shadowing(table, first, second)
        && !redundancy(table, first, second)
        && !exception(table, first, second)
}

/// Kind 9 of two rows with one holder.
fn inclusion(table: &Table, first: &Row, second: &Row) -> bool {
    dominates(first.technology, second.technology)
        && covers(table, first, second)
        && at_least(&first.coefficients, &second.coefficients)
        && first.gateways == second.gateways
}

/// Kind 10 of two rows with one holder.
fn affinity(table: &Table, first: &Row, second: &Row) -> bool {
    first.technology != second.technology
        && !is_null(first)
        && !is_null(second)
        && meet(table, first, second)
        && !inclusion(table, first, second)
        && !inclusion(table, second, first)
}

/// Kind 11 of two rows with one holder.
fn contradiction(table: &Table, first: &Row, second: &Row) -> bool {
    is_null(first) != is_null(second) && meet(table, first, second)
}

/// Kind 13 of two rows.
fn skewed(table: &Table, first: &Row, second: &Row) -> bool {
    overlap(&first.selector, &second.selector)
        && !is_null(first)
        && !is_null(second)
        && first.gateways.contains(&root(table, second.source))
        && second.gateways.contains(&root(table, first.destination))
}

/// Kind 18 of two rows.
fn monitorable(table: &Table, first: &Row, second: &Row) -> bool {
    overlap(&first.selector, &second.selector)
        && root(table, first.destination) == root(table, second.source)
        && root(table, first.source) != root(table, second.destination)
        && first.coefficients[2] > 0
        && second.coefficients[2] > 0
}
