//! Seeded filters of a lawful table: of few roots, near rows' selectors and near each other, dropping and passing.

use crate::draft::{Draft, Scale};
use crate::reader::MOST_FILTERS;
use crate::table::{Action, Filter, Range, Selector, FIELDS};

/// How many tables of a hundred have filters that all drop the same packets.
const EQUAL_PERCENT: usize = 10;

impl Draft<'_> {
    /// Adds filters. Now and then they all drop the same packets, and are of as many roots as there are.
    pub fn add_filters(&mut self) {
        let count = self.filter_count();
        if self.random.chance(EQUAL_PERCENT) {
            return self.add_equal_filters(count);
        }
        let passing = self.random.pick(&[0, 25, 50, 50, 80]);
        for _ in 0..count {
            let (root, model) = self.root_and_model();
            let filter = Filter {
                root,
                selector: self.near_selector(&model),
                written: self.written_action(passing),
            };
            self.table.filters.push(filter);
        }
    }

    /// How many filters the table gets.
    fn filter_count(&mut self) -> usize {
        match self.random.below(10) {
            _ if self.scale == Scale::Full => MOST_FILTERS,
            0..=2 => 0,
            3..=8 => self.random.between(1, 6),
            _ => self.random.between(7, MOST_FILTERS),
        }
    }

    /// Adds so many filters with one selector that all drop, of one root after the other.
    fn add_equal_filters(&mut self, count: usize) {
        let selector = self.selector();
        for k in 0..count {
            let filter = Filter {
                root: self.roots[k % self.roots.len()],
                selector,
                written: self.written_action(0),
            };
            self.table.filters.push(filter);
        }
    }

    /// The root of a filter, and the selector that its own is to be near: a gateway of some row and that row's; an earlier filter's, the
    /// root now and then another; or any.
    fn root_and_model(&mut self) -> (u8, Selector) {
        let filters = &self.table.filters;
        let rows = self.table.rows.iter();
        let passed: Vec<_> = rows.filter(|row| !row.gateways.is_empty()).collect();
        match self.random.below(10) {
            0..=4 if !passed.is_empty() => {
                let row = self.random.pick(&passed);
                (self.random.pick(&row.gateways), row.selector)
            }
            5..=8 if !filters.is_empty() => {
                let Filter { root, selector, .. } = filters[self.random.below(filters.len())];
                if self.random.chance(70) {
                    (root, selector)
                } else {
                    (self.other_root(root), selector)
                }
            }
            _ => (self.root(), self.selector()),
        }
    }

    /// A selector that has all packets of the model, some of them or none: equal, wider, narrower, from its last value of a field up, or
    /// beside it.
    fn near_selector(&mut self, model: &Selector) -> Selector {
        let mut selector = *model;
        let field = self.random.below(FIELDS);
        let Range { low, high } = model[field];
        let whole = self.whole[field];
        match self.random.below(10) {
            0..=2 => {}
            3..=5 => {
                for field in 0..FIELDS {
                    if self.random.chance(50) {
                        selector[field] = self.whole[field];
                    }
                }
            }
            6 => selector = self.cut(model, 2)[0],
            7 if low < high => selector[field].low += 1,
            8 => selector[field] = Range { low: high, ..whole },
            _ if high < whole.high => {
                selector[field] = Range {
                    low: high + 1,
                    ..whole
                };
            }
            _ if whole.low < low => {
                selector[field] = Range {
                    high: low - 1,
                    ..whole
                };
            }
            _ => selector = self.selector(),
        }
        selector
    }

    /// An action, passing in so many cases of a hundred; half of those that drop have no byte for it.
    fn written_action(&mut self, passing: usize) -> Option<Action> {
        if self.random.chance(passing) {
            Some(Action::Pass)
        } else {
            self.random.pick(&[None, Some(Action::Drop)])
        }
    }
}

#[cfg(test)]
mod tests {
    use super::*;
    use crate::cases::case;
    use crate::filters::{entries, filtered};
    use crate::reader::read;
    use crate::relations::{contains, overlap};
    use crate::table::{Row, Table};
    use std::collections::BTreeMap;

    /// The seeded tables.
    fn tables() -> impl Iterator<Item = Table> {
        (0..2000).filter_map(|number| read(&case(1, number).text).ok())
    }

    #[test]
    fn filters_have_every_form_and_number() {
        let mut forms = [0; 3];
        let mut of_kind: BTreeMap<u8, usize> = BTreeMap::new();
        let mut most = 0;
        for table in tables() {
            for filter in &table.filters {
                forms[match filter.written {
                    None => 0,
                    Some(Action::Drop) => 1,
                    Some(Action::Pass) => 2,
                }] += 1;
            }
            let entries = entries(&table);
            most += usize::from(entries.len() == MOST_FILTERS * (MOST_FILTERS - 1));
            for entry in entries {
                *of_kind.entry(entry[1]).or_default() += 1;
            }
        }
        assert!(forms.iter().all(|&count| count > 1000), "{forms:?}");
        assert!(of_kind[&21] > 500 && of_kind[&22] > 1000, "{of_kind:?}");
        assert!(most > 0);
    }

    /// A filter and its number.
    type Numbered<'f> = (usize, &'f Filter);
    /// Whether a filter that passes excepts one that drops all packets of a row with this selector.
    type Reading = fn(Numbered, Numbered, &Selector) -> bool;

    /// Kind 14 by a reading of what is excepted.
    fn filtered_by(excepts: Reading, table: &Table, row: &Row) -> bool {
        let of_action = |action| {
            let numbered = table.filters.iter().enumerate();
            numbered.filter(move |(_, filter)| filter.action() == action)
        };
        of_action(Action::Drop).any(|drop| {
            row.gateways.contains(&drop.1.root)
                && contains(&drop.1.selector, &row.selector)
                && !of_action(Action::Pass).any(|pass| excepts(pass, drop, &row.selector))
        })
    }

    #[test]
    fn wrong_readings_of_kind_14_show() {
        let right: Reading = |(m, pass), (k, drop), own| {
            m < k && pass.root == drop.root && overlap(&pass.selector, own)
        };
        let wrong: [(&str, Reading); 6] = [
            ("nothing is excepted", |_, _, _| false),
            ("overlapping or not", |(m, pass), (k, drop), _| {
                m < k && pass.root == drop.root
            }),
            ("of any root", |(m, pass), (k, _), own| {
                m < k && overlap(&pass.selector, own)
            }),
            ("earlier or later", |(_, pass), (_, drop), own| {
                pass.root == drop.root && overlap(&pass.selector, own)
            }),
            ("later", |(m, pass), (k, drop), own| {
                m > k && pass.root == drop.root && overlap(&pass.selector, own)
            }),
            ("containing", |(m, pass), (k, drop), own| {
                m < k && pass.root == drop.root && contains(&pass.selector, own)
            }),
        ];
        let mut held = 0;
        let mut shown: BTreeMap<&str, usize> = BTreeMap::new();
        for table in tables() {
            for row in &table.rows {
                let holds = filtered(&table, row);
                assert_eq!(filtered_by(right, &table, row), holds);
                held += usize::from(holds);
                for (name, excepts) in wrong {
                    let differs = filtered_by(excepts, &table, row) != holds;
                    *shown.entry(name).or_default() += usize::from(differs);
                }
            }
        }
        assert!(held > 1000, "{held}");
        assert!(shown.values().all(|&count| count > 100), "{shown:?}");
    }

    #[test]
    fn each_condition_of_the_kinds_of_filters_decides() {
        let mut alone = [[0; 4]; 2];
        for table in tables() {
            for (k, first) in table.filters.iter().enumerate() {
                for (m, second) in table.filters.iter().enumerate() {
                    if k == m || !overlap(&first.selector, &second.selector) {
                        continue;
                    }
                    let one_root = first.root == second.root;
                    let actions = [first, second].map(Filter::action);
                    let contained = contains(&first.selector, &second.selector);
                    let drop = actions.map(|action| action == Action::Drop);
                    let conditions = [
                        [k < m, one_root, actions[0] != actions[1], contained],
                        [!one_root, drop[0], drop[1], contained],
                    ];
                    for (counts, holds) in alone.iter_mut().zip(conditions) {
                        let lacking: Vec<usize> = (0..4).filter(|&c| !holds[c]).collect();
                        if let [only] = lacking[..] {
                            counts[only] += 1;
                        }
                    }
                }
            }
        }
        let enough = |&count: &usize| count > 200;
        assert!(alone.as_flattened().iter().all(enough), "{alone:?}");
    }
}
