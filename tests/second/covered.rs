//! Seeded lawful tables of rows of one group that mostly cover each other: many are dead by several others together, or just not.

use crate::draft::{draft, everything, few, Draft, Scale};
use crate::families::{corners, families, slices};
use crate::grid::Grid;
use crate::moves::change;
use crate::parts::{parts, sides};
use crate::random::Random;
use crate::reader::{read, MOST_ROWS};
use crate::relations::in_selector;
use crate::stored::STORED;
use crate::table::{Selector, Table, FIELDS};

/// How many tables of a hundred, but tiny ones, are stored ones with a few changes: they have all rows, and take long.
const STORED_PERCENT: usize = 12;
/// The numbers of cells in a field.
const CELLS: [u32; 7] = [2, 3, 4, 5, 6, 7, 8];

/// A table of such rows.
pub fn covered(random: &mut Random, scale: Scale) -> Table {
    if scale != Scale::Tiny && random.chance(STORED_PERCENT) {
        return stored(random);
    }
    let mut draft = draft(random, scale);
    let mut rows = draft.row_count();
    let family = draft.random.below(9);
    // Only with many parts do they take long.
    if family < 4 && scale != Scale::Tiny && draft.random.chance(50) {
        rows = MOST_ROWS;
    }
    let boxes = match family {
        0 | 1 => draft.families(rows),
        2 | 3 => draft.parts(rows),
        4 => draft.stairs(rows),
        5 => draft.cells(rows),
        6 => draft.corners(rows),
        _ => draft.all_but_one(rows),
    };
    draft.add_group(&boxes[..rows.min(boxes.len())]);
    draft.table
}

/// One of the stored tables with a few changes.
fn stored(random: &mut Random) -> Table {
    let (_, text) = random.pick(STORED);
    let mut table = read(text).expect("stored tables are lawful");
    table.row_places.clear();
    let grid = Grid::new(random, &everything(), &CELLS);
    for _ in 0..random.between(1, 4) {
        change(random, &grid, &mut table.rows);
    }
    table
}

impl Draft<'_> {
    /// Adds rows with these boxes, all or most of them with the same ends.
    fn add_group(&mut self, boxes: &[Selector]) {
        let model = self.row();
        let apart = self.random.pick(&[0, 10]);
        for selector in boxes {
            let mut row = model.clone();
            row.selector = *selector;
            if self.random.chance(apart) {
                row.source = self.near(model.source);
                row.destination = self.near(model.destination);
            }
            if self.random.chance(50) {
                row.coefficients = few(self.random);
            }
            self.push(row);
        }
    }

    /// Two boxes that split the protocols, or leave one of them out, and have all else; boxes from the lows to ever larger highs; and
    /// all packets. So many in all, and at least three.
    fn stairs(&mut self, count: usize) -> Vec<Selector> {
        let [mut lower, mut upper] = [self.whole; 2];
        let protocols = self.whole[FIELDS - 1];
        let last = self
            .random
            .between(protocols.low as usize, protocols.high as usize - 1) as u32;
        lower[FIELDS - 1].high = last;
        upper[FIELDS - 1].low = protocols.high.min(last + self.random.pick(&[1, 1, 1, 2]));
        let stairs = count.saturating_sub(3) as u32;
        let steps = self.whole.map(|range| {
            let values = range.high - range.low;
            self.random.pick(&[1, 2, values / (stairs + 1)])
        });
        let mut boxes = vec![lower, upper];
        for k in 0..stairs {
            let mut stair = self.whole;
            for (range, step) in stair.iter_mut().zip(steps) {
                range.high = range.low + (k * step).min(range.high - range.low);
            }
            boxes.push(stair);
        }
        boxes.push(self.whole);
        boxes
    }

    /// Boxes of a few cells a field.
    fn cells(&mut self, count: usize) -> Vec<Selector> {
        let grid = Grid::new(self.random, &self.whole, &CELLS);
        (0..count).map(|_| grid.selector(self.random)).collect()
    }

    /// Families of boxes, of all packets or of each of their halves, which have all of these packets or miss some by one bound; then all
    /// packets. At most so many in all, and at least one.
    fn families(&mut self, count: usize) -> Vec<Selector> {
        let regions = if self.random.chance(50) {
            vec![self.whole]
        } else {
            slices(&self.whole, self.random.below(FIELDS), 2)
        };
        let parts = count.saturating_sub(1) / (regions.len() * (FIELDS - 1));
        let mut boxes = Vec::new();
        for region in regions {
            boxes.extend(families(&region, self.random.below(FIELDS), parts));
        }
        self.miss_some(&mut boxes);
        boxes.push(self.whole);
        boxes
    }

    /// Makes, in half of the cases, one of the boxes smaller by a value.
    fn miss_some(&mut self, boxes: &mut [Selector]) {
        if !boxes.is_empty() && self.random.chance(50) {
            let k = self.random.below(boxes.len());
            let range = &mut boxes[k][self.random.below(FIELDS)];
            range.high = range.low.max(range.high.saturating_sub(1));
        }
    }

    /// Corners and what lies past them, in any order, which have all packets or miss some by one bound; then all packets, twice.
    fn corners(&mut self, count: usize) -> Vec<Selector> {
        let nested = count.saturating_sub(FIELDS + 3);
        let mut boxes = corners(&self.whole, nested);
        self.miss_some(&mut boxes);
        self.random.shuffle(&mut boxes);
        boxes.truncate(count.saturating_sub(2));
        boxes.extend([self.whole; 2]);
        boxes
    }

    /// Parts that leave out one packet, each made a little larger; then all packets, twice.
    fn parts(&mut self, count: usize) -> Vec<Selector> {
        let mut boxes = parts(self.random, &self.whole, count.saturating_sub(2));
        boxes.extend([self.whole; 2]);
        boxes
    }

    /// Boxes that leave out one packet, and no other if there are enough of them; then all packets, twice.
    fn all_but_one(&mut self, count: usize) -> Vec<Selector> {
        let grid = Grid::new(self.random, &self.whole, &CELLS);
        let corner = grid.selector(self.random);
        let packet = corner.map(|range| self.random.pick(&[range.low, range.high]));
        let pieces = self.random.between(1, 1 + count / 20);
        let mut boxes = Vec::new();
        for side in sides(&self.whole, &packet) {
            boxes.extend(self.cut(&side, pieces));
        }
        while boxes.len() + 2 < count {
            let drawn = grid.selector(self.random);
            if in_selector(&packet, &drawn) {
                let mut parts = sides(&drawn, &packet);
                self.random.shuffle(&mut parts);
                boxes.extend(parts.pop());
            } else {
                boxes.push(drawn);
            }
        }
        self.random.shuffle(&mut boxes);
        boxes.truncate(count.saturating_sub(2));
        boxes.extend([self.whole; 2]);
        boxes
    }
}

#[cfg(test)]
mod tests {
    use super::*;
    use crate::cases::{case, COVERED};
    use crate::dead::{dead, witness};
    use crate::relations::{contains, same_group};
    use crate::table::Range;

    #[test]
    fn rows_are_dead_by_several_together_or_just_not() {
        let (mut full, mut together, mut just_not) = (0, 0, 0);
        for number in 0..300 {
            let table = read(&case(1, COVERED * number).text).unwrap_or_default();
            full += usize::from(table.rows.len() == 64);
            for (row, own) in table.rows.iter().enumerate() {
                let contained = table.rows[..row].iter().any(|other| {
                    same_group(other, own) && contains(&other.selector, &own.selector)
                });
                match witness(&table, row) {
                    None => together += usize::from(!contained),
                    Some(packet) => {
                        let mut fuller = table.clone();
                        let mut only = own.clone();
                        only.selector = packet.map(|value| Range {
                            low: value,
                            high: value,
                        });
                        let more_than_one = only.selector != own.selector;
                        fuller.rows.insert(row, only);
                        just_not += usize::from(more_than_one && dead(&fuller, row + 1));
                    }
                }
            }
        }
        assert!(full > 5, "{full}");
        assert!(together > 200, "{together}");
        assert!(just_not > 20, "{just_not}");
    }
}
