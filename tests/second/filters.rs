//! Filters: the kind that holds of a row by them, the kinds that hold of two of them, and the entries of these.

use crate::kinds::Entry;
use crate::relations::{contains, overlap};
use crate::table::{Action, Row, Table};

/// Kind 14: among a gateway's filters before the first that passes a packet of the row there is one that drops all of them.
pub fn filtered(table: &Table, row: &Row) -> bool {
    row.gateways.iter().any(|&gateway| {
        let of_gateway = table.filters.iter().filter(|filter| filter.root == gateway);
        of_gateway
            .take_while(|filter| {
                filter.action() == Action::Drop || !overlap(&filter.selector, &row.selector)
            })
            .any(|filter| {
                filter.action() == Action::Drop && contains(&filter.selector, &row.selector)
            })
    })
}

/// The anomalies of filters in ascending order.
pub fn entries(table: &Table) -> Vec<Entry> {
    let mut entries = Vec::new();
    for k in 0..table.filters.len() {
        for kind in 21..=22 {
            for m in 0..table.filters.len() {
                if holds(table, kind, k, m) {
                    entries.push([k as u8, kind, m as u8]);
                }
            }
        }
    }
    entries
}

/// Whether an anomaly of this kind holds of filters k and m.
fn holds(table: &Table, kind: u8, k: usize, m: usize) -> bool {
    let (first, second) = (&table.filters[k], &table.filters[m]);
    let one_root = first.root == second.root;
    let actions = [first.action(), second.action()];
    contains(&first.selector, &second.selector)
        && match kind {
            21 => k < m && one_root && actions[0] != actions[1],
            22 => !one_root && actions == [Action::Drop; 2],
            _ => false,
        }
}

#[cfg(test)]
mod tests {
    use super::*;
    use crate::draft::everything;
    use crate::table::{Filter, Range, Selector};

    /// A filter's root, destination ports and action.
    type Sketch = (u8, u32, u32, Action);
    use Action::{Drop, Pass};

    /// All packets to these ports.
    fn to_ports(low: u32, high: u32) -> Selector {
        let mut selector = everything();
        selector[3] = Range { low, high };
        selector
    }

    /// The filters, those that drop with or without a byte for it.
    fn filters(sketches: &[Sketch], drop: Option<Action>) -> Table {
        let filters = sketches.iter().map(|&(root, low, high, action)| Filter {
            root,
            selector: to_ports(low, high),
            written: if action == Drop { drop } else { Some(action) },
        });
        Table {
            filters: filters.collect(),
            ..Table::default()
        }
    }

    /// Whether kind 14 holds of a row to ports 10 to 19 through roots 2 and 3.
    fn is_filtered(sketches: &[Sketch]) -> bool {
        let row = Row {
            holder: 0,
            source: 0,
            destination: 1,
            technology: 3,
            coefficients: [1; 3],
            selector: to_ports(10, 19),
            gateways: vec![2, 3],
        };
        let [short, long] = [None, Some(Drop)].map(|drop| filtered(&filters(sketches, drop), &row));
        assert_eq!(short, long);
        short
    }

    /// The entries of the filters.
    fn entries_of(sketches: &[Sketch]) -> Vec<Entry> {
        let [short, long] = [None, Some(Drop)].map(|drop| entries(&filters(sketches, drop)));
        assert_eq!(short, long);
        short
    }

    #[test]
    fn a_gateway_drops_the_row() {
        for dropping in [
            &[(2, 10, 19, Drop)][..],
            &[(3, 0, 99, Drop)],
            &[(2, 0, 99, Drop), (2, 10, 19, Pass)],
            &[(2, 0, 9, Pass), (2, 10, 19, Drop)],
            &[(2, 20, 99, Pass), (2, 10, 19, Drop)],
            &[(3, 10, 19, Pass), (2, 10, 19, Drop)],
            &[(0, 10, 19, Pass), (2, 10, 19, Drop)],
            &[(2, 0, 99, Pass), (2, 10, 19, Drop), (3, 10, 19, Drop)],
            &[(2, 10, 19, Drop), (2, 10, 19, Pass), (2, 0, 99, Drop)],
        ] {
            assert!(is_filtered(dropping), "{dropping:?}");
        }
    }

    #[test]
    fn no_gateway_drops_the_row() {
        for passing in [
            &[][..],
            &[(2, 10, 19, Pass)],
            &[(2, 10, 18, Drop)],
            &[(2, 10, 14, Drop), (2, 15, 19, Drop)],
            &[(0, 10, 19, Drop), (1, 10, 19, Drop)],
            &[(2, 10, 19, Pass), (2, 10, 19, Drop)],
            &[(2, 0, 10, Pass), (2, 10, 19, Drop)],
            &[(2, 19, 99, Pass), (2, 10, 19, Drop)],
            &[(2, 15, 15, Pass), (2, 10, 19, Drop), (2, 0, 99, Drop)],
            &[(2, 10, 14, Drop), (2, 15, 15, Pass), (2, 10, 19, Drop)],
            &[(2, 0, 99, Pass), (2, 10, 19, Drop), (3, 10, 18, Drop)],
        ] {
            assert!(!is_filtered(passing), "{passing:?}");
        }
    }

    #[test]
    fn two_filters_of_one_root() {
        for (first, second, found) in [
            ((2, 0, 9, Pass), (2, 3, 5, Drop), true),
            ((2, 0, 9, Drop), (2, 3, 5, Pass), true),
            ((2, 0, 9, Drop), (2, 0, 9, Pass), true),
            ((2, 0, 9, Drop), (2, 3, 5, Drop), false),
            ((2, 0, 9, Pass), (2, 3, 5, Pass), false),
            ((2, 0, 9, Pass), (3, 3, 5, Drop), false),
            ((2, 3, 5, Pass), (2, 0, 9, Drop), false),
            ((2, 0, 9, Pass), (2, 9, 10, Drop), false),
        ] {
            let expected = if found { vec![[0, 21, 1]] } else { vec![] };
            assert_eq!(entries_of(&[first, second]), expected);
        }
    }

    #[test]
    fn two_filters_of_different_roots() {
        for (first, second, expected) in [
            ((2, 0, 9, Drop), (3, 3, 5, Drop), &[[0, 22, 1]][..]),
            ((2, 3, 5, Drop), (3, 0, 9, Drop), &[[1, 22, 0]]),
            ((2, 0, 9, Drop), (3, 0, 9, Drop), &[[0, 22, 1], [1, 22, 0]]),
            ((2, 0, 9, Drop), (2, 3, 5, Drop), &[]),
            ((2, 0, 9, Drop), (3, 3, 5, Pass), &[]),
            ((2, 0, 9, Pass), (3, 3, 5, Drop), &[]),
            ((2, 0, 9, Pass), (3, 0, 9, Pass), &[]),
            ((2, 0, 9, Drop), (3, 9, 10, Drop), &[]),
        ] {
            assert_eq!(entries_of(&[first, second]), expected);
        }
    }

    #[test]
    fn two_pairs_of_three_filters() {
        let three = [(2, 0, 5, Drop), (3, 3, 5, Drop), (2, 4, 5, Pass)];
        assert_eq!(entries_of(&three), [[0, 21, 2], [0, 22, 1]]);
        let three = [(3, 3, 5, Drop), (2, 0, 9, Pass), (2, 3, 5, Drop)];
        let expected = [[0, 22, 2], [1, 21, 2], [2, 22, 0]];
        assert_eq!(entries_of(&three), expected);
    }

    #[test]
    fn every_two_of_32_filters() {
        let all: Vec<Sketch> = (0..32).map(|root| (root, 0, 99, Drop)).collect();
        let others = |k| (0..32).filter(move |&m| m != k).map(move |m| [k, 22, m]);
        let expected: Vec<Entry> = (0..32).flat_map(others).collect();
        assert_eq!(expected.len(), 992);
        assert_eq!(entries_of(&all), expected);
    }
}
