//! Couples of rows to join, their digits, and seeded ones.

use crate::frames::digits;
use crate::random::Random;
use crate::reader::decode;
use crate::relations::{above, lineage, root};
use crate::rooms::room;
use crate::table::{Row, Table};
use std::collections::BTreeMap;

/// How many couples are tried on a text, at least.
const COUPLES: usize = 6;
/// How many bytes a row's frame has, without gateways.
const ROW_BYTES: usize = 35;
/// The longest output that Join gets.
const MOST_ROOM: usize = 255;

/// The numbers of two rows, and the length of the output that Join gets.
#[derive(Clone, Copy, Debug, PartialEq, Eq)]
pub struct Couple {
    pub i: u8,
    pub j: u8,
    pub room: u8,
}

impl Couple {
    /// The couple's digits: both rows, and the length of the output.
    pub fn digits(&self) -> Vec<u8> {
        digits(&[self.i, self.j, self.room])
    }

    /// The couple that the digits say.
    pub fn read(line: &[u8]) -> Option<Couple> {
        match decode(line)?[..] {
            [i, j, room] => Some(Couple { i, j, room }),
            _ => None,
        }
    }

    /// The same rows in the other order.
    pub fn exchanged(&self) -> Couple {
        Couple {
            i: self.j,
            j: self.i,
            room: self.room,
        }
    }
}

/// How two different rows stand to each other as to joining them.
#[derive(Clone, Copy, Debug, PartialEq, Eq, PartialOrd, Ord)]
enum Standing {
    /// They can be joined, and at both ends one's entity is above the other's.
    Ordered,
    /// They can be joined, and at one end the lowest entity above both is another, which may be their root.
    Kin { at_root: bool },
    /// They differ in one of the things that must be the same, and in no other: holder, technology, gateways, their order, the
    /// root of the source or that of the destination.
    Unlike(usize),
}

/// The couples of a table's rows by their standing; those that differ in several things are left out.
type Standings = BTreeMap<Standing, Vec<(usize, usize)>>;

/// Couples of the table's rows, half of them in both orders: rows that can be joined, rows that differ in one thing that must be
/// the same, a row with itself, any two rows, and some with numbers of no row.
pub fn couples(random: &mut Random, table: &Table) -> Vec<Couple> {
    let standings = standings(table);
    let mut couples = Vec::new();
    while couples.len() < COUPLES {
        let (i, j) = rows(random, table.rows.len(), &standings);
        let gateways = table.rows.get(i).map_or(0, |row| row.gateways.len());
        let couple = Couple {
            i: i as u8,
            j: j as u8,
            room: room(random, 2 * (ROW_BYTES + gateways), MOST_ROOM) as u8,
        };
        couples.push(couple);
        if random.chance(50) {
            couples.push(couple.exchanged());
        }
    }
    couples
}

/// The numbers of such a couple.
fn rows(random: &mut Random, rows: usize, standings: &Standings) -> (usize, usize) {
    if rows == 0 {
        return (random.pick(&[0, 63, 255]), random.pick(&[0, 64]));
    }
    let one = random.below(rows);
    let another = random.below(rows);
    let no_row = random.pick(&[rows, 63, 64, 255]);
    let alike = |standing: &Standing| !matches!(standing, Standing::Unlike(_));
    match random.below(20) {
        0..=1 => (one, one),
        2 => (one, no_row),
        3 => random.pick(&[(no_row, one), (no_row, no_row)]),
        4 => (one, another),
        5..=12 => of_standing(random, standings, alike).unwrap_or((one, another)),
        _ => of_standing(random, standings, |standing| !alike(standing)).unwrap_or((one, another)),
    }
}

/// A couple of one of the wanted standings that the table has.
fn of_standing(
    random: &mut Random,
    standings: &Standings,
    wanted: impl Fn(&Standing) -> bool,
) -> Option<(usize, usize)> {
    let of_wanted: Vec<&Vec<(usize, usize)>> = standings
        .iter()
        .filter(|(standing, _)| wanted(standing))
        .map(|(_, couples)| couples)
        .collect();
    if of_wanted.is_empty() {
        None
    } else {
        let couples = random.pick(&of_wanted);
        Some(random.pick(couples))
    }
}

/// The standings of the table's rows.
fn standings(table: &Table) -> Standings {
    let mut standings = Standings::new();
    for (i, one) in table.rows.iter().enumerate() {
        for (j, other) in table.rows.iter().enumerate() {
            match standing(table, one, other) {
                Some(standing) if i != j => standings.entry(standing).or_default().push((i, j)),
                _ => {}
            }
        }
    }
    standings
}

/// How two rows stand to each other, unless they differ in several things that must be the same.
fn standing(table: &Table, one: &Row, other: &Row) -> Option<Standing> {
    let ends = [
        [one.source, other.source],
        [one.destination, other.destination],
    ];
    let [sources_meet, destinations_meet] = ends.map(|[a, b]| root(table, a) == root(table, b));
    let [one_sorted, other_sorted] = [one, other].map(|row| {
        let mut gateways = row.gateways.clone();
        gateways.sort_unstable();
        gateways
    });
    let other_order = one_sorted == other_sorted && one.gateways != other.gateways;
    let same = [
        one.holder == other.holder,
        one.technology == other.technology,
        one_sorted == other_sorted,
        !other_order,
        sources_meet,
        destinations_meet,
    ];
    let mut unlike = (0..same.len()).filter(|&k| !same[k]);
    match (unlike.next(), unlike.next()) {
        (None, _) => Some(
            ends.into_iter()
                .find_map(|[a, b]| kinship(table, a, b))
                .unwrap_or(Standing::Ordered),
        ),
        (Some(thing), None) => Some(Standing::Unlike(thing)),
        _ => None,
    }
}

/// The standing of two entities of one root, neither of which is above the other.
fn kinship(table: &Table, a: u8, b: u8) -> Option<Standing> {
    if above(table, a, b) || above(table, b, a) {
        return None;
    }
    let both = lineage(table, a)
        .into_iter()
        .filter(|&e| above(table, e, b));
    Some(Standing::Kin {
        at_root: both.count() == 1,
    })
}

#[cfg(test)]
mod tests {
    use super::*;
    use crate::cases::case;
    use crate::reader::read;

    #[test]
    fn seeded_tables_have_every_standing() {
        let mut met = Standings::new();
        for number in 0..200 {
            if let Ok(table) = read(&case(1, number).text) {
                met.extend(standings(&table));
            }
        }
        let mut every = vec![
            Standing::Ordered,
            Standing::Kin { at_root: false },
            Standing::Kin { at_root: true },
        ];
        every.extend((0..6).map(Standing::Unlike));
        assert_eq!(met.into_keys().collect::<Vec<_>>(), every);
    }

    #[test]
    fn digits_are_read_as_written() {
        let couple = Couple {
            i: 63,
            j: 255,
            room: 70,
        };
        assert_eq!(couple.digits(), b"3FFF46");
        assert_eq!(Couple::read(b"3FfF46"), Some(couple));
        assert_eq!(couple.exchanged().digits(), b"FF3F46");
        assert_eq!(Couple::read(b"3FFF"), None);
        assert_eq!(Couple::read(b"3FFF4"), None);
    }
}
