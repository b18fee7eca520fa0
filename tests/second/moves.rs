//! Small changes of rows' boxes and of their order, which keep a table lawful.

use crate::grid::Grid;
use crate::random::Random;
use crate::table::{Range, Row, FIELDS};

/// Changes one thing: a range or a box, by the grid or to what another row has, or the place of a row.
pub fn change(random: &mut Random, grid: &Grid, rows: &mut Vec<Row>) {
    let [i, other] = [(); 2].map(|()| random.below(rows.len()));
    let field = random.below(FIELDS);
    let range = rows[i].selector[field];
    match random.below(12) {
        0 => rows.swap(i, other),
        1 => {
            let row = rows.remove(i);
            rows.insert(other, row);
        }
        2 => rows[i].selector = grid.selector(random),
        3 => {
            rows[i].selector = rows[other].selector;
            rows[i].selector[field] = grid.range(random, field);
        }
        4 => {
            let mut upper = rows[i].selector;
            let last = grid.high(random, field, range.low);
            if last < range.high {
                rows[i].selector[field].high = last;
                upper[field].low = last + 1;
                rows[other].selector = upper;
            }
        }
        5 => rows[i].selector[field] = rows[other].selector[field],
        6 => rows[i].selector[field] = grid.range(random, field),
        7 => rows[i].selector[field] = grid.whole[field],
        8 => rows[i].selector[field].low = grid.low(random, field, range.high),
        9 => rows[i].selector[field].high = grid.high(random, field, range.low),
        _ => rows[i].selector[field] = shifted(random, grid, field, range),
    }
}

/// The range with its low, its high or both shifted by a cell, up or down, as far as there is room.
fn shifted(random: &mut Random, grid: &Grid, field: usize, range: Range) -> Range {
    let Range { low, high } = range;
    let all = grid.whole[field];
    let step = grid.step(field);
    let (lower, higher) = (step.min(low - all.low), step.min(all.high - high));
    let inward = step.min(high - low);
    let (low, high) = match random.below(6) {
        0 => (low - lower, high),
        1 => (low + inward, high),
        2 => (low, high - inward),
        3 => (low, high + higher),
        4 => (low - lower, high - lower),
        _ => (low + higher, high + higher),
    };
    Range { low, high }
}

#[cfg(test)]
mod tests {
    use super::*;
    use crate::draft::everything;
    use crate::frames::{lines, text};
    use crate::reader::read;
    use crate::stored::STORED;

    #[test]
    fn changed_tables_are_lawful() {
        let random = &mut Random::new(4);
        for (_, stored) in STORED {
            let mut table = read(stored).unwrap();
            let before = table.rows.clone();
            let grid = Grid::new(random, &everything(), &[2, 8, 100]);
            for _ in 0..400 {
                change(random, &grid, &mut table.rows);
                let again = read(&text(&lines(&table))).unwrap();
                assert_eq!(again.rows, table.rows);
            }
            let changed = table.rows.iter().filter(|row| !before.contains(row));
            assert_eq!(table.rows.len(), before.len());
            assert!(changed.count() > before.len() / 2);
        }
    }
}
