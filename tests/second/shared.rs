//! Seeded probes that two rows of a group match, so that the first must win.

use crate::probes::{corner, Probe};
use crate::random::Random;
use crate::relations::{above, intersection, same_group};
use crate::table::{Selector, Table};

/// How many such probes are tried on a text that has some.
const SHARED: usize = 8;

/// The ends and packets of the probes that two rows of a group match, of which `row` is the earlier.
struct Share {
    row: u8,
    a: u8,
    b: u8,
    selector: Selector,
}

/// Probes at corners of what two of the table's rows share; none if no two do.
pub fn shared(random: &mut Random, table: &Table) -> Vec<Probe> {
    let shares: Vec<Share> = (0..table.rows.len())
        .flat_map(|later| (0..later).filter_map(move |earlier| share(table, earlier, later)))
        .collect();
    let count = if shares.is_empty() { 0 } else { SHARED };
    (0..count)
        .map(|_| {
            let share = &shares[random.below(shares.len())];
            Probe {
                row: share.row,
                a: share.a,
                b: share.b,
                packet: corner(random, &share.selector),
            }
        })
        .collect()
}

/// What the two rows share: one group, ends of which one is above the other, and packets; none if they lack one of these.
fn share(table: &Table, earlier: usize, later: usize) -> Option<Share> {
    let [first, second] = [earlier, later].map(|row| &table.rows[row]);
    if !same_group(first, second) {
        return None;
    }
    Some(Share {
        row: earlier as u8,
        a: lower(table, first.source, second.source)?,
        b: lower(table, first.destination, second.destination)?,
        selector: intersection(&first.selector, &second.selector)?,
    })
}

/// The lower of two entities, if one is above the other.
fn lower(table: &Table, one: u8, other: u8) -> Option<u8> {
    if above(table, one, other) {
        Some(other)
    } else {
        Some(one).filter(|&one| above(table, other, one))
    }
}
