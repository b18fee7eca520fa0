//! Alternative paths: sequences of two to four rows from a row's source root to its destination root.

use crate::relations::{intersection, root};
use crate::table::{Selector, Table};

const LEAST_ROWS: usize = 2;
const MOST_ROWS: usize = 4;

/// A sequence of rows, each beginning at the root where the former ends.
struct Sequence {
    rows: Vec<usize>,
    visited: Vec<u8>,
    common: Selector,
}

/// Whether two to four other rows chain from the row's source root to its destination root.
pub fn alternative_path(table: &Table, row: usize) -> bool {
    let own = &table.rows[row];
    let goal = root(table, own.destination);
    let mut sequences = vec![Sequence {
        rows: Vec::new(),
        visited: vec![root(table, own.source)],
        common: own.selector,
    }];
    for length in 1..=MOST_ROWS {
        sequences = sequences
            .iter()
            .flat_map(|shorter| extended(table, row, shorter))
            .collect();
        if length >= LEAST_ROWS && sequences.iter().any(|found| found.visited[length] == goal) {
            return true;
        }
    }
    false
}

/// The sequences one row longer: a row other than `avoided` and the former ones, to a new root,
/// with a packet common to all.
fn extended(table: &Table, avoided: usize, shorter: &Sequence) -> Vec<Sequence> {
    let mut longer = Vec::new();
    for (next, added) in table.rows.iter().enumerate() {
        let end = root(table, added.destination);
        if next == avoided
            || shorter.rows.contains(&next)
            || root(table, added.source) != shorter.visited[shorter.visited.len() - 1]
            || shorter.visited.contains(&end)
        {
            continue;
        }
        if let Some(common) = intersection(&shorter.common, &added.selector) {
            let mut sequence = Sequence {
                rows: shorter.rows.clone(),
                visited: shorter.visited.clone(),
                common,
            };
            sequence.rows.push(next);
            sequence.visited.push(end);
            longer.push(sequence);
        }
    }
    longer
}
