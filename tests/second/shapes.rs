//! Seeded lawful tables of many shapes, made of families of rows that regard one another.

use crate::draft::{draft, few, Draft, Scale, BUSY_ROOTS};
use crate::kinds::exchanged;
use crate::random::Random;
use crate::reader::MOST_ROWS;
use crate::relations::root;
use crate::table::{Row, Table, FIELDS};

/// A lawful table.
pub fn table(random: &mut Random, scale: Scale) -> Table {
    let mut draft = draft(random, scale);
    let rows = draft.row_count();
    while draft.table.rows.len() < rows {
        draft.add_family();
    }
    draft.table.rows.truncate(rows);
    if draft.random.chance(20) {
        draft.random.shuffle(&mut draft.table.rows);
    }
    draft.add_filters();
    draft.table
}

impl Draft<'_> {
    /// How many rows the table gets.
    pub fn row_count(&mut self) -> usize {
        match self.random.below(20) {
            _ if self.scale == Scale::Tiny => self.random.between(1, 12),
            _ if self.scale == Scale::Full => MOST_ROWS,
            0 => self.random.below(2),
            1..=9 => self.random.between(2, 9),
            10..=16 => self.random.between(10, 24),
            17..=18 => self.random.between(25, MOST_ROWS - 1),
            _ => MOST_ROWS,
        }
    }

    /// Adds rows of one of the families.
    fn add_family(&mut self) {
        match self.random.below(18) {
            0 => self.add_plain(),
            1..=2 => self.add_crowd(),
            3..=4 => self.add_hidden(),
            5..=6 => self.add_path(),
            7 => self.add_answer(),
            8..=9 => self.add_riders(),
            10..=11 => self.add_variant(),
            12 => self.add_other_technology(),
            13 => self.add_skewed(),
            14..=15 => self.add_unlike(),
            _ => self.add_kin(),
        }
    }

    /// Adds a row that regards no other.
    fn add_plain(&mut self) {
        let row = self.row();
        self.push(row);
    }

    /// Adds rows of one group between the same roots.
    fn add_crowd(&mut self) {
        let model = self.row();
        let count = match self.random.below(12) {
            0 => self.random.between(13, MOST_ROWS),
            _ => self.random.between(3, 12),
        };
        for _ in 0..count {
            let mut row = model.clone();
            row.source = self.near(model.source);
            row.destination = self.near(model.destination);
            row.selector = self.selector();
            if self.random.chance(50) {
                row.coefficients = few(self.random);
            }
            self.push(row);
        }
    }

    /// Adds a row after others of its group that claim its packets together, or all but a few.
    fn add_hidden(&mut self) {
        let hidden = self.row();
        let pieces = match self.random.below(12) {
            0 => self.random.between(9, MOST_ROWS - 1),
            _ => self.random.between(2, 8),
        };
        let mut parts = self.cut(&hidden.selector, pieces);
        self.random.shuffle(&mut parts);
        let flaw = self.random.below(6);
        for (k, part) in parts.iter().enumerate() {
            let mut row = hidden.clone();
            row.source = self.upward(hidden.source);
            row.destination = self.upward(hidden.destination);
            row.selector = *part;
            row.coefficients = few(self.random);
            let field = self.random.below(FIELDS);
            if k == 0 && flaw == 0 && part[field].low < part[field].high {
                row.selector[field].low += 1;
            } else if k == 0 && flaw == 1 {
                row.source = self.near(hidden.source);
            } else if flaw > 2 && self.random.chance(30) {
                row.selector[field] = self.whole[field];
            }
            self.push(row);
        }
        self.push(hidden);
    }

    /// Adds a row and a sequence of rows that leads from its source root to its destination root.
    fn add_path(&mut self) {
        let mut stops = self.roots.clone();
        if self.random.chance(70) {
            stops.truncate(BUSY_ROOTS + 1);
        }
        self.random.shuffle(&mut stops);
        let hops = self.random.between(2, 5).min(stops.len() - 1);
        if hops < 2 {
            return self.add_plain();
        }
        let mut direct = self.row_between(stops[0], stops[hops]);
        if self.random.chance(10) {
            stops[1] = stops[hops];
        }
        let mut rows = Vec::new();
        for hop in 0..hops {
            let mut row = self.row_between(stops[hop], stops[hop + 1]);
            if self.random.chance(75) {
                row.selector = direct.selector;
            }
            rows.push(row);
        }
        if self.random.chance(30) {
            direct.selector = self.selector();
        }
        rows.push(direct);
        self.random.shuffle(&mut rows);
        for row in rows {
            self.push(row);
        }
    }

    /// Adds the answer to an earlier row, now and then with something altered.
    fn add_answer(&mut self) {
        let Some(asked) = self.earlier() else {
            return self.add_plain();
        };
        let mut row = asked.clone();
        row.source = asked.destination;
        row.destination = asked.source;
        row.holder = root(&self.table, row.source);
        row.selector = exchanged(&asked.selector);
        row.gateways.reverse();
        if self.random.chance(30) {
            self.alter(&mut row);
        }
        self.push(row);
    }

    /// Adds one to three rows that ride in an earlier row, of which in half of the cases one is to be weaker in a coefficient.
    fn add_riders(&mut self) {
        let Some(carrier) = self.earlier() else {
            return self.add_plain();
        };
        let count = self.random.between(1, 3);
        let weak = self.random.below(2 * count);
        for k in 0..count {
            self.add_rider(&carrier, k == weak);
        }
    }

    /// Adds a row whose gateways pass both end roots of the carrier, mostly in order: as strong as it or stronger in one coefficient,
    /// and weak ones weaker in another.
    fn add_rider(&mut self, carrier: &Row, weak: bool) {
        let mut row = self.row();
        let mut passed = vec![
            root(&self.table, carrier.source),
            root(&self.table, carrier.destination),
        ];
        if self.random.chance(15) {
            passed.swap(0, 1);
        }
        for _ in 0..self.random.below(3) {
            let place = self.random.below(passed.len() + 1);
            let gateway = self.root();
            passed.insert(place, gateway);
        }
        row.gateways = passed;
        row.selector = carrier.selector;
        if self.random.chance(40) {
            row.selector = self.cut(&carrier.selector, 2)[0];
        }
        row.coefficients = carrier.coefficients;
        let k = self.random.below(3);
        if self.random.chance(50) {
            row.coefficients[k] = row.coefficients[k].saturating_add(1);
        }
        if weak {
            let other = (k + 1) % 3;
            row.coefficients[other] = row.coefficients[other].saturating_sub(1);
        }
        self.push(row);
    }

    /// Adds a copy of an earlier row with one to three things altered.
    fn add_variant(&mut self) {
        let Some(mut row) = self.earlier() else {
            return self.add_plain();
        };
        for _ in 0..self.random.between(1, 3) {
            self.alter(&mut row);
        }
        self.push(row);
    }

    /// Adds a copy of an earlier row under another technology, now and then weaker or narrower.
    fn add_other_technology(&mut self) {
        let Some(mut row) = self.earlier() else {
            return self.add_plain();
        };
        row.technology = self.technology();
        if self.random.chance(40) {
            let k = self.random.below(3);
            row.coefficients[k] = row.coefficients[k].saturating_sub(1);
        }
        if self.random.chance(40) {
            row.selector = self.cut(&row.selector, 2)[0];
        }
        self.push(row);
    }

    /// Adds a copy of an earlier row, with other packets, that differs in one thing which keeps the two from being joined; or two
    /// copies with two gateways in either order.
    fn add_unlike(&mut self) {
        let Some(mut row) = self.earlier() else {
            return self.add_plain();
        };
        row.selector = self.selector();
        match self.random.below(6) {
            0 => row.holder = self.other_root(row.holder),
            1 => row.technology = self.technology(),
            2 => {
                row.gateways = vec![row.holder, self.other_root(row.holder)];
                self.push(row.clone());
                row.gateways.reverse();
            }
            3 => row.gateways.truncate(1),
            4 => row.source = self.other_root(row.source),
            _ => row.destination = self.other_root(row.destination),
        }
        self.push(row);
    }

    /// Adds two rows of one group, of which the sources or the destinations are kin, or both.
    fn add_kin(&mut self) {
        let (Some((source, of_source)), Some((destination, of_destination))) =
            (self.kin(), self.kin())
        else {
            return self.add_variant();
        };
        let mut first = self.row();
        first.source = source;
        first.destination = destination;
        let mut second = first.clone();
        let ends = self.random.below(3);
        if ends != 0 {
            second.source = of_source;
        }
        if ends != 1 {
            second.destination = of_destination;
        }
        second.selector = self.selector();
        second.coefficients = few(self.random);
        self.push(first);
        self.push(second);
    }

    /// Adds two rows, each with a gateway at an end of the other.
    fn add_skewed(&mut self) {
        let mut first = self.row();
        let mut second = self.row();
        first.gateways.insert(0, root(&self.table, second.source));
        second.gateways.push(root(&self.table, first.destination));
        if self.random.chance(60) {
            second.selector = first.selector;
        }
        self.push(first);
        self.push(second);
    }
}
