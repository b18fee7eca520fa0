//! Dead rows and witnesses once more, by the mesh of document 02, [8]: the row's selector is cut before each low and after each high of the
//! selectors of its cover, and the least packets of the cells are examined in ascending order.
//!
//! As in document 002, the intervals of a field are gone through below each interval of the field before, with the selectors that have all
//! those so far. Where none is left, the least packet that goes on from there is in no selector. Two things make the cells that go on from
//! there be passed over: one selector that is left has them all, or the same selectors were left before and had them all.

use crate::dead::cover;
use crate::relations::low_corner;
use crate::table::{Packet, Range, Selector, Table, FIELDS};
use std::collections::{BTreeSet, HashSet};

/// What lies from one cut of a field up to the next.
#[derive(Clone, Copy, Debug, PartialEq, Eq)]
struct Interval {
    low: u32,
    /// The selectors that have it, the one at place k as bit k: a row has at most 63 before it.
    holding: u64,
}

/// A selector, cut by others.
struct Mesh {
    least: Packet,
    intervals: [Vec<Interval>; FIELDS],
    /// For each field, and past the last, the selectors that alone have every cell of the fields from it on.
    alone: [u64; FIELDS + 1],
    /// For each field, the sets of selectors that were found to have every cell of the fields from it on together.
    together: [HashSet<u64>; FIELDS],
}

/// The least packet with which the row wins the probe from its own ends; none if it is dead.
pub fn witness(table: &Table, row: usize) -> Option<Packet> {
    let others: Vec<Selector> = cover(table, row).map(|earlier| earlier.selector).collect();
    first_free(&table.rows[row].selector, &others)
}

/// The least packet of the selector that none of the others has.
fn first_free(own: &Selector, others: &[Selector]) -> Option<Packet> {
    let all = (0..others.len()).fold(0, |all, k| all | 1 << k);
    Mesh::new(own, others).first_free(0, all)
}

/// The values of the range that begin an interval: its low, each low of the others, and what comes after each high.
fn cuts(own: Range, others: &[Range]) -> BTreeSet<u32> {
    let lows = others.iter().map(|other| other.low);
    let afters = others.iter().filter_map(|other| other.high.checked_add(1));
    let inside = |&cut: &u32| own.low <= cut && cut <= own.high;
    let cuts = lows.chain(afters).filter(inside);
    cuts.chain([own.low]).collect()
}

/// The intervals into which the others cut the range. What has the low of an interval has all of it.
fn intervals(own: Range, others: &[Range]) -> Vec<Interval> {
    let interval = |low: u32| {
        let has = |other: &Range| other.low <= low && low <= other.high;
        let bits = (0..others.len()).map(|k| u64::from(has(&others[k])) << k);
        Interval {
            low,
            holding: bits.sum(),
        }
    };
    cuts(own, others).into_iter().map(interval).collect()
}

impl Mesh {
    fn new(own: &Selector, others: &[Selector]) -> Mesh {
        let intervals = [0, 1, 2, 3, 4].map(|field| {
            let ranges: Vec<Range> = others.iter().map(|other| other[field]).collect();
            intervals(own[field], &ranges)
        });
        let mut alone = [u64::MAX; FIELDS + 1];
        for field in (0..FIELDS).rev() {
            let holding = intervals[field].iter().map(|interval| interval.holding);
            alone[field] = holding.fold(alone[field + 1], |alone, holding| alone & holding);
        }
        Mesh {
            least: low_corner(own),
            intervals,
            alone,
            together: [(); FIELDS].map(|()| HashSet::new()),
        }
    }

    /// The least packet of the first cell in no selector, of those cells that go on with this field where these selectors are left.
    /// What it has in the fields before is for the caller to say.
    fn first_free(&mut self, field: usize, left: u64) -> Option<Packet> {
        if left == 0 {
            return Some(self.least);
        }
        if left & self.alone[field] != 0 || self.together[field].contains(&left) {
            return None;
        }
        for place in 0..self.intervals[field].len() {
            let Interval { low, holding } = self.intervals[field][place];
            if let Some(mut packet) = self.first_free(field + 1, left & holding) {
                packet[field] = low;
                return Some(packet);
            }
        }
        self.together[field].insert(left);
        None
    }
}

#[cfg(test)]
mod tests {
    use super::*;
    use crate::cases::case;
    use crate::dead;
    use crate::draft::everything;
    use crate::grid::Grid;
    use crate::random::Random;
    use crate::reader::read;
    use crate::relations::in_selector;

    /// The range of the given bounds.
    fn range((low, high): (u32, u32)) -> Range {
        Range { low, high }
    }

    /// The cuts of a range by others.
    fn cuts_of(own: (u32, u32), others: &[(u32, u32)]) -> Vec<u32> {
        let others: Vec<Range> = others.iter().copied().map(range).collect();
        cuts(range(own), &others).into_iter().collect()
    }

    #[test]
    fn cuts_are_before_lows_and_after_highs_inside_the_range() {
        assert_eq!(cuts_of((2, 9), &[]), [2]);
        assert_eq!(cuts_of((2, 9), &[(4, 6)]), [2, 4, 7]);
        assert_eq!(cuts_of((2, 9), &[(4, 4)]), [2, 4, 5]);
        assert_eq!(cuts_of((2, 9), &[(2, 9), (0, 9), (2, 20)]), [2]);
        assert_eq!(cuts_of((2, 9), &[(2, 8), (3, 9)]), [2, 3, 9]);
        assert_eq!(cuts_of((2, 9), &[(0, 1), (10, 12), (0, 0)]), [2]);
        assert_eq!(cuts_of((2, 9), &[(0, 2), (9, 12)]), [2, 3, 9]);
        assert_eq!(cuts_of((2, 9), &[(6, 7), (4, 5), (4, 7)]), [2, 4, 6, 8]);
        assert_eq!(cuts_of((5, 5), &[(5, 5), (4, 5), (5, 6), (4, 4)]), [5]);
        let all = (0, u32::MAX);
        assert_eq!(cuts_of(all, &[all]), [0]);
        assert_eq!(cuts_of(all, &[(1, u32::MAX - 1)]), [0, 1, u32::MAX]);
    }

    #[test]
    fn sixty_three_ranges_cut_in_126_places() {
        let others: Vec<(u32, u32)> = (0..63).map(|k| (1 + 4 * k, 2 + 4 * k)).collect();
        assert_eq!(cuts_of((0, 255), &others).len(), 127);
    }

    #[test]
    fn intervals_have_their_selectors() {
        let others = [(0, 4), (3, 9), (5, 6)].map(range);
        let expected = [(1, 0b001), (3, 0b011), (5, 0b110), (7, 0b010)];
        let expected = expected.map(|(low, holding)| Interval { low, holding });
        assert_eq!(intervals(range((1, 9)), &others), expected);
    }

    /// A selector that has the ranges in these fields, and in the others those of the whole.
    fn with(whole: &Selector, ranges: &[(usize, u32, u32)]) -> Selector {
        let mut selector = *whole;
        for &(field, low, high) in ranges {
            selector[field] = Range { low, high };
        }
        selector
    }

    #[test]
    fn the_cut_comes_after_the_high() {
        let own = [range((0, 9)); FIELDS];
        for field in 0..FIELDS {
            let to_the_fifth = with(&own, &[(field, 0, 4)]);
            let mut after = [0; FIELDS];
            after[field] = 5;
            assert_eq!(first_free(&own, &[to_the_fifth]), Some(after));
            let from_the_sixth = with(&own, &[(field, 5, 9)]);
            assert_eq!(first_free(&own, &[from_the_sixth]), Some([0; FIELDS]));
            assert_eq!(first_free(&own, &[from_the_sixth, to_the_fifth]), None);
            let past_the_sixth = with(&own, &[(field, 6, 9)]);
            let one_left = first_free(&own, &[to_the_fifth, past_the_sixth]);
            assert_eq!(one_left, Some(after));
        }
    }

    #[test]
    fn earlier_fields_count_first() {
        let own = [range((0, 9)); FIELDS];
        for field in 1..FIELDS {
            let all_but_two = [
                with(&own, &[(field - 1, 0, 0), (field, 0, 8)]),
                with(&own, &[(field - 1, 1, 9), (field, 1, 9)]),
            ];
            let mut first = [0; FIELDS];
            first[field] = 9;
            assert_eq!(first_free(&own, &all_but_two), Some(first));
            let mut second = [0; FIELDS];
            second[field - 1] = 1;
            let with_the_first = [&all_but_two[..], &[with(&own, &[(field - 1, 0, 0)])]].concat();
            assert_eq!(first_free(&own, &with_the_first), Some(second));
        }
    }

    #[test]
    fn selectors_at_the_edges_of_the_row() {
        let own = [range((3, 6)); FIELDS];
        let lows = [3; FIELDS];
        assert_eq!(first_free(&own, &[]), Some(lows));
        let beside = [with(&own, &[(0, 0, 2)]), with(&own, &[(4, 7, 9)])];
        assert_eq!(first_free(&own, &beside), Some(lows));
        assert_eq!(first_free(&own, &[own]), None);
        assert_eq!(first_free(&own, &[own, own]), None);
        let larger = [range((0, 9)); FIELDS];
        assert_eq!(first_free(&own, &[larger]), None);
        let half = with(&larger, &[(2, 0, 3)]);
        assert_eq!(first_free(&own, &[half, half]), Some([3, 3, 4, 3, 3]));
        let at_the_low = with(&own, &[(1, 3, 3)]);
        let at_the_high = with(&own, &[(1, 6, 6)]);
        let ends = [at_the_low, at_the_high];
        assert_eq!(first_free(&own, &ends), Some([3, 4, 3, 3, 3]));
    }

    #[test]
    fn single_values_and_all_packets() {
        let all = everything();
        let least = [range((0, 0)); FIELDS];
        assert_eq!(first_free(&least, &[least]), None);
        assert_eq!(first_free(&all, &[least]), Some([0, 0, 0, 0, 1]));
        assert_eq!(first_free(&all, &[all]), None);
        let greatest = all.map(|range| range.high);
        let below: Vec<Selector> = (0..FIELDS)
            .map(|field| with(&all, &[(field, 0, greatest[field] - 1)]))
            .collect();
        assert_eq!(first_free(&all, &below), Some(greatest));
        let last = greatest.map(|value| range((value, value)));
        assert_eq!(first_free(&all, &[&below[..], &[last]].concat()), None);
        assert_eq!(first_free(&last, &below), Some(greatest));
    }

    /// The packets with these values in each field, ascending.
    fn product(values: impl Fn(usize) -> Vec<u32>) -> Vec<Packet> {
        let mut packets = vec![[0; FIELDS]];
        for field in 0..FIELDS {
            let values = values(field);
            packets = packets
                .iter()
                .flat_map(|packet| {
                    values.iter().map(move |&value| {
                        let mut packet = *packet;
                        packet[field] = value;
                        packet
                    })
                })
                .collect();
        }
        packets
    }

    #[test]
    fn cells_one_after_another_and_packets_one_after_another_give_the_same() {
        let random = &mut Random::new(8);
        let whole = [range((0, 4)); FIELDS];
        let (mut dead, mut found) = (0, 0);
        for _ in 0..300 {
            let grid = Grid::new(random, &whole, &[2, 3, 5]);
            let own = grid.selector(random);
            let count = random.between(0, 12);
            let others: Vec<Selector> = (0..count).map(|_| grid.selector(random)).collect();
            let holding = |packet: &Packet| -> Vec<bool> {
                let has = |other: &Selector| in_selector(packet, other);
                others.iter().map(has).collect()
            };
            let free = |packet: &Packet| !holding(packet).contains(&true);
            let cells = product(|field| {
                let ranges: Vec<Range> = others.iter().map(|other| other[field]).collect();
                cuts(own[field], &ranges).into_iter().collect()
            });
            assert!(cells.is_sorted_by(|one, next| one < next));
            let by_cells = cells.iter().copied().find(free);
            assert_eq!(first_free(&own, &others), by_cells);
            let packets = product(|field| (own[field].low..=own[field].high).collect());
            assert_eq!(packets.iter().copied().find(free), by_cells);
            for packet in &packets {
                let at_or_before = |cell: &&Packet| (0..FIELDS).all(|f| cell[f] <= packet[f]);
                let own_cell = cells.iter().rfind(at_or_before).unwrap();
                assert_eq!(holding(own_cell), holding(packet));
            }
            match by_cells {
                Some(_) => found += 1,
                None => dead += 1,
            }
        }
        assert!(dead > 50 && found > 50, "{dead} {found}");
    }

    #[test]
    fn seeded_rows_have_the_witness_that_subtracting_gives() {
        let mut rows = 0;
        for number in 0..3000 {
            let table = read(&case(9, number).text).unwrap_or_default();
            for row in 0..table.rows.len() {
                let subtracted = dead::witness(&table, row);
                assert_eq!(witness(&table, row), subtracted, "row {row} of {number}");
                rows += 1;
            }
        }
        assert!(rows > 10_000);
    }
}
