//! Selectors whose bounds lie on a grid: the values of each field in a few cells of about the same size.

use crate::random::Random;
use crate::table::{Range, Selector, FIELDS};

/// The packets that all selectors keep to, and the number of cells in each field.
#[derive(Clone)]
pub struct Grid {
    pub whole: Selector,
    cells: [u32; FIELDS],
}

impl Grid {
    /// A grid of these packets with numbers of cells drawn from the choices, in half of the cases the same for all fields. No
    /// field has more cells than values.
    pub fn new(random: &mut Random, whole: &Selector, choices: &[u32]) -> Grid {
        let same = random.pick(choices);
        let all_same = random.chance(50);
        let cells = whole.map(|range| {
            let drawn = if all_same { same } else { random.pick(choices) };
            drawn.min((range.high - range.low).saturating_add(1))
        });
        Grid {
            whole: *whole,
            cells,
        }
    }

    /// The number of values in a cell of the field; its last cell may have more.
    pub fn step(&self, field: usize) -> u32 {
        let Range { low, high } = self.whole[field];
        let values = u64::from(high - low) + 1;
        (values / u64::from(self.cells[field])) as u32
    }

    /// The number of the field's cell that has the value.
    fn cell(&self, field: usize, value: u32) -> usize {
        let place = (value - self.whole[field].low) / self.step(field);
        place.min(self.cells[field] - 1) as usize
    }

    /// The first value of one of the field's cells, up to the one that has the value.
    pub fn low(&self, random: &mut Random, field: usize, most: u32) -> u32 {
        let cell = random.between(0, self.cell(field, most)) as u32;
        self.whole[field].low + cell * self.step(field)
    }

    /// The last value of one of the field's cells, from the one that has the value on.
    pub fn high(&self, random: &mut Random, field: usize, least: u32) -> u32 {
        let last = self.cells[field] as usize - 1;
        let cell = random.between(self.cell(field, least), last);
        if cell == last {
            self.whole[field].high
        } else {
            self.whole[field].low + (cell as u32 + 1) * self.step(field) - 1
        }
    }

    /// A range of the field's cells: in half of the cases all of them, or from the first or to the last.
    pub fn range(&self, random: &mut Random, field: usize) -> Range {
        let all = self.whole[field];
        let low = self.low(random, field, all.high);
        let high = self.high(random, field, low);
        match random.below(6) {
            0 => all,
            1 => Range { high, ..all },
            2 => Range { low, ..all },
            _ => Range { low, high },
        }
    }

    /// A range of cells for each field.
    pub fn selector(&self, random: &mut Random) -> Selector {
        [0, 1, 2, 3, 4].map(|field| self.range(random, field))
    }
}

#[cfg(test)]
mod tests {
    use super::*;
    use crate::draft::everything;
    use std::collections::BTreeSet;

    #[test]
    fn ranges_are_runs_of_the_cells() {
        let random = &mut Random::new(1);
        let mut whole = everything();
        whole[3] = Range { low: 7, high: 9 };
        let grid = Grid::new(random, &whole, &[4]);
        let mut bounds = [(); FIELDS].map(|()| (BTreeSet::new(), BTreeSet::new()));
        for _ in 0..500 {
            for (range, (lows, highs)) in grid.selector(random).iter().zip(&mut bounds) {
                assert!(range.low <= range.high);
                lows.insert(range.low);
                highs.insert(range.high);
            }
        }
        let quarter = 1 << 14;
        let lows = [0, 1, 2, 3].map(|cell| cell * quarter);
        assert_eq!(bounds[2].0, lows.into());
        assert_eq!(bounds[2].1, lows.map(|low| low + quarter - 1).into());
        assert_eq!(bounds[3], ([7, 8, 9].into(), [7, 8, 9].into()));
        assert_eq!(bounds[0].1.last(), Some(&u32::MAX));
    }

    #[test]
    fn the_last_cell_has_what_is_left() {
        let random = &mut Random::new(2);
        let grid = Grid::new(random, &everything(), &[100]);
        for _ in 0..1000 {
            let Range { low, high } = grid.range(random, 4);
            assert!(low % 2 == 0 && low <= 198 && (high % 2 == 1 && high < 198 || high == 255));
        }
    }
}
