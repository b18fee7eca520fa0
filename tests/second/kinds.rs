//! The list of anomalies, and the kinds that hold of one row.

use crate::chains::alternative_path;
use crate::dead::dead;
use crate::filters::{self, filtered};
use crate::pairs;
use crate::relations::{at_least, contains, layer, root};
use crate::table::{Row, Selector, Table, NONE};

/// First number, kind, second number or FF; the numbers are those of rows or of filters, as the kind is.
pub type Entry = [u8; 3];

/// The table's anomalies: those of rows in ascending order, then those of filters, ascending too.
pub fn list(table: &Table) -> Vec<Entry> {
    let mut entries = of_rows(table);
    entries.extend(filters::entries(table));
    entries
}

/// The anomalies of rows in ascending order.
fn of_rows(table: &Table) -> Vec<Entry> {
    let mut entries = Vec::new();
    for i in 0..table.rows.len() {
        for kind in 1..=20 {
            for j in 0..table.rows.len() {
                if pairs::holds(table, kind, i, j) {
                    entries.push([i as u8, kind, j as u8]);
                }
            }
            if holds(table, kind, i) {
                entries.push([i as u8, kind, NONE]);
            }
        }
    }
    entries
}

/// Whether an anomaly of this kind holds of the row alone.
fn holds(table: &Table, kind: u8, i: usize) -> bool {
    let row = &table.rows[i];
    match kind {
        1 => root(table, row.source) == root(table, row.destination),
        2 => row.holder != root(table, row.source),
        3 => non_enforceable(table, row),
        4 => !table
            .floor
            .is_some_and(|floor| at_least(&row.coefficients, &floor)),
        12 => superfluous(table, i),
        14 => filtered(table, row),
        15 => layer(row.technology) == Some(2) && !row.gateways.is_empty(),
        16 => asymmetric(table, row),
        17 => cyclic(table, row),
        19 => alternative_path(table, i),
        20 => dead(table, i),
        _ => false,
    }
}

/// Kind 3: an end's root lacks the technology, or a coefficient exceeds its cap.
fn non_enforceable(table: &Table, row: &Row) -> bool {
    if row.technology == 0 {
        return false;
    }
    let lacks = |end: u8| {
        let mask = table.entities[usize::from(root(table, end))].mask;
        mask >> row.technology & 1 == 0
    };
    let cap = &table.caps[usize::from(row.technology) - 1];
    lacks(row.source) || lacks(row.destination) || !at_least(cap, &row.coefficients)
}

/// Kind 12: some row rides in row i, and each that does has at least its coefficients.
fn superfluous(table: &Table, i: usize) -> bool {
    let own = &table.rows[i].coefficients;
    let riders = riders(table, i);
    !riders.is_empty() && riders.iter().all(|row| at_least(&row.coefficients, own))
}

/// The rows that ride in row i, in their order.
pub fn riders(table: &Table, i: usize) -> Vec<&Row> {
    (0..table.rows.len())
        .filter(|&j| j != i && rides(table, &table.rows[j], &table.rows[i]))
        .map(|j| &table.rows[j])
        .collect()
}

/// Whether the rider's gateways pass the carrier's source root and later its destination root.
pub fn rides(table: &Table, rider: &Row, carrier: &Row) -> bool {
    let entry = root(table, carrier.source);
    let exit = root(table, carrier.destination);
    let passes = match rider.gateways.iter().position(|&gateway| gateway == entry) {
        Some(place) => rider.gateways[place + 1..].contains(&exit),
        None => false,
    };
    passes && contains(&carrier.selector, &rider.selector)
}

/// Kind 16: no row answers this one.
fn asymmetric(table: &Table, row: &Row) -> bool {
    let answer = exchanged(&row.selector);
    !table.rows.iter().any(|other| {
        other.source == row.destination
            && other.destination == row.source
            && other.coefficients == row.coefficients
            && other.selector == answer
    })
}

/// The selector with source and destination fields exchanged.
pub fn exchanged(selector: &Selector) -> Selector {
    let [source, destination, source_port, destination_port, protocol] = *selector;
    [destination, source, destination_port, source_port, protocol]
}

/// Kind 17: source root, gateways and destination root name a root twice.
fn cyclic(table: &Table, row: &Row) -> bool {
    let mut path = vec![root(table, row.source)];
    path.extend(&row.gateways);
    path.push(root(table, row.destination));
    path.sort_unstable();
    path.windows(2)
        .any(|neighbours| neighbours[0] == neighbours[1])
}
