//! Probes, their digits, and seeded ones that meet a table's rows.

use crate::draft::greatest;
use crate::frames::digits;
use crate::random::Random;
use crate::reader::decode;
use crate::relations::above;
use crate::table::{Packet, Selector, Table, FIELDS, WIDTHS};

/// How many probes near rows are tried on a text.
const PROBES: usize = 8;
/// How many bytes a probe's digits say.
const PROBE_BYTES: usize = 16;

/// A row that names a group, two entities and a packet.
#[derive(Clone, Debug, PartialEq, Eq)]
pub struct Probe {
    pub row: u8,
    pub a: u8,
    pub b: u8,
    pub packet: Packet,
}

impl Probe {
    /// The probe's digits: row, a, b, and the packet's fields.
    pub fn digits(&self) -> Vec<u8> {
        let mut line = digits(&[self.row, self.a, self.b]);
        line.extend(packet_digits(&self.packet));
        line
    }

    /// The probe that the digits say.
    pub fn read(line: &[u8]) -> Option<Probe> {
        let bytes = decode(line).filter(|bytes| bytes.len() == PROBE_BYTES)?;
        let mut packet = [0; FIELDS];
        let mut at = 3;
        for (value, width) in packet.iter_mut().zip(WIDTHS) {
            for byte in &bytes[at..at + width] {
                *value = *value << 8 | u32::from(*byte);
            }
            at += width;
        }
        Some(Probe {
            row: bytes[0],
            a: bytes[1],
            b: bytes[2],
            packet,
        })
    }
}

/// A packet's digits, each field in its width.
pub fn packet_digits(packet: &Packet) -> Vec<u8> {
    packet
        .iter()
        .zip(WIDTHS)
        .flat_map(|(value, width)| digits(&value.to_be_bytes()[4 - width..]))
        .collect()
}

/// Probes at and near the ends and corners of the table's rows, some with numbers of no row or entity.
pub fn probes(random: &mut Random, table: &Table) -> Vec<Probe> {
    (0..PROBES).map(|_| probe(random, table)).collect()
}

/// One such probe.
fn probe(random: &mut Random, table: &Table) -> Probe {
    let rows = table.rows.len();
    if rows == 0 {
        return Probe {
            row: random.pick(&[0, 1, 255]),
            a: any_entity(random, table),
            b: any_entity(random, table),
            packet: [0; FIELDS],
        };
    }
    let near = random.below(rows);
    let row = match random.below(10) {
        0..=4 => near,
        5..=8 => random.below(rows),
        _ => random.pick(&[rows, rows + 1, 255]),
    };
    Probe {
        row: row as u8,
        a: entity(random, table, table.rows[near].source),
        b: entity(random, table, table.rows[near].destination),
        packet: packet(random, table, near),
    }
}

/// The end, an entity under it, another, or a number of none.
fn entity(random: &mut Random, table: &Table, end: u8) -> u8 {
    match random.below(10) {
        0..=3 => end,
        4..=6 => {
            let under: Vec<u8> = (0..table.entities.len() as u8)
                .filter(|&e| above(table, end, e))
                .collect();
            random.pick(&under)
        }
        _ => any_entity(random, table),
    }
}

/// An entity, now and then a number of none.
fn any_entity(random: &mut Random, table: &Table) -> u8 {
    let count = table.entities.len();
    match random.below(10) {
        0 => random.pick(&[count as u8, 255]),
        _ => random.below(count) as u8,
    }
}

/// A packet at a bound of each of the selector's ranges.
pub fn corner(random: &mut Random, selector: &Selector) -> Packet {
    selector.map(|range| random.pick(&[range.low, range.high]))
}

/// A corner of the row's selector, or a packet that differs from one in a field: just outside, or at another row's bound.
fn packet(random: &mut Random, table: &Table, row: usize) -> Packet {
    let selector = &table.rows[row].selector;
    let mut packet = corner(random, selector);
    if random.chance(60) {
        let field = random.below(FIELDS);
        let range = selector[field];
        let other = table.rows[random.below(table.rows.len())].selector[field];
        packet[field] = random.pick(&[
            range.low.saturating_sub(1),
            range.high.saturating_add(1).min(greatest(WIDTHS[field])),
            other.low,
            other.high,
        ]);
    }
    packet
}

#[cfg(test)]
mod tests {
    use super::*;

    #[test]
    fn digits_are_read_as_written() {
        let probe = Probe {
            row: 63,
            a: 127,
            b: 255,
            packet: [0x0102_0304, u32::MAX, 0xFFFE, 7, 255],
        };
        assert_eq!(probe.digits(), b"3F7FFF01020304FFFFFFFFFFFE0007FF");
        assert_eq!(Probe::read(&probe.digits()), Some(probe));
        assert_eq!(Probe::read(b"3F7FFF"), None);
    }
}
