//! Sides of rows to write prefixes of, their digits, and seeded ones.

use crate::frames::digits;
use crate::prefixes::{prefixes, ADDRESS_BITS, PREFIX_BYTES};
use crate::random::Random;
use crate::reader::decode;
use crate::rooms::room;
use crate::table::{Range, Row, Table};

/// How many sides are tried on a text.
const SIDES: usize = 6;
/// How many sides a row has: the source, then the destination.
const ROW_SIDES: usize = 2;
/// The longest output that Prefixes gets.
const MOST_ROOM: u16 = 512;

/// The numbers of a row and of a side of it, and the length of the output that Prefixes gets.
#[derive(Clone, Copy, Debug, PartialEq, Eq)]
pub struct Side {
    pub row: u8,
    pub number: u8,
    pub room: u16,
}

impl Side {
    /// The side's digits: the row, the side, and the length of the output.
    pub fn digits(&self) -> Vec<u8> {
        let [upper, lower] = self.room.to_be_bytes();
        digits(&[self.row, self.number, upper, lower])
    }

    /// The side that the digits say.
    pub fn read(line: &[u8]) -> Option<Side> {
        match decode(line)?[..] {
            [row, number, upper, lower] => {
                let room = u16::from_be_bytes([upper, lower]);
                (room <= MOST_ROOM).then_some(Side { row, number, room })
            }
            _ => None,
        }
    }

    /// The addresses that the row has on this side, if it is one.
    pub fn addresses(&self, row: &Row) -> Option<Range> {
        let sides = &row.selector[..ROW_SIDES];
        sides.get(usize::from(self.number)).copied()
    }
}

/// Both sides of the table's rows, and some with numbers of no side or no row.
pub fn sides(random: &mut Random, table: &Table) -> Vec<Side> {
    (0..SIDES).map(|_| side(random, table)).collect()
}

/// One such side.
fn side(random: &mut Random, table: &Table) -> Side {
    let row = match table.rows.len() {
        rows if rows == 0 || random.chance(10) => random.pick(&[rows, 64, 255]),
        rows => random.below(rows),
    };
    let number = if random.chance(10) {
        random.pick(&[ROW_SIDES, 255])
    } else {
        random.below(ROW_SIDES)
    };
    let mut side = Side {
        row: row as u8,
        number: number as u8,
        room: 0,
    };
    let range = table.rows.get(row).and_then(|row| side.addresses(row));
    let count = range.map_or(1, |range| prefixes(range, ADDRESS_BITS).len());
    side.room = room(random, PREFIX_BYTES * count, usize::from(MOST_ROOM)) as u16;
    side
}

#[cfg(test)]
mod tests {
    use super::*;
    use crate::cases::case;
    use crate::reader::read;

    /// The address ranges of the seeded tables' rows that are asked for, on either side.
    fn seeded_ranges() -> [Vec<Range>; ROW_SIDES] {
        let mut ranges = [Vec::new(), Vec::new()];
        for number in 0..1000 {
            let case = case(1, number);
            let table = read(&case.text).unwrap_or_default();
            for side in &case.questions.sides {
                let row = table.rows.get(usize::from(side.row));
                if let Some(range) = row.and_then(|row| side.addresses(row)) {
                    ranges[usize::from(side.number)].push(range);
                }
            }
        }
        ranges
    }

    #[test]
    fn seeded_sides_have_ranges_of_every_sort() {
        let last = u32::MAX;
        let edges = [
            (0, 0),
            (last, last),
            (0, last),
            (0, last - 1),
            (1, last),
            (1, last - 1),
            (0x7FFF_FFFF, 0x8000_0000),
        ];
        let count = |range: &Range| prefixes(*range, ADDRESS_BITS).len();
        let inner = |range: &Range| 16 < range.low && range.high < last - 16;
        let single = |range: &Range| range.low == range.high;
        let block = |range: &Range| range.high - range.low > 16 && count(range) == 1;
        let ragged = |range: &Range| inner(range) && count(range) > 20;
        for ranges in seeded_ranges() {
            for (low, high) in edges {
                assert!(ranges.contains(&Range { low, high }), "{low:X} {high:X}");
            }
            let some = |sort: &dyn Fn(&Range) -> bool| ranges.iter().any(sort);
            assert!(some(&|range| !single(range) && range.high < 16));
            assert!(some(&|range| !single(range) && range.low > last - 16));
            assert!(some(&|range| inner(range) && single(range)));
            assert!(some(&|range| inner(range) && block(range)));
            for parities in [[0, 0], [0, 1], [1, 0], [1, 1]] {
                let ends = |range: &Range| [range.low % 2, range.high % 2];
                assert!(some(&|range| ragged(range) && ends(range) == parities));
            }
        }
    }

    #[test]
    fn digits_are_read_as_written() {
        let side = Side {
            row: 63,
            number: 1,
            room: 310,
        };
        assert_eq!(side.digits(), b"3F010136");
        assert_eq!(Side::read(b"3f010136"), Some(side));
        for none in [&b"3F01"[..], b"3F0101360", b"3F01013600", b"3F01013G"] {
            assert_eq!(Side::read(none), None);
        }
        assert!(Side::read(b"FFFF0200").is_some());
        assert_eq!(Side::read(b"00000201"), None);
    }
}
