//! Reading a text to a table or to the refusal of its first faulty line.

use crate::table::{Action, Coefficients, Entity, Filter, Range, Refusal, Row, Selector, Table};
use crate::table::{FIELDS, NONE, WIDTHS};
use std::ops::Range as Place;

pub const MOST_ENTITIES: usize = 128;
pub const MOST_FILTERS: usize = 32;
pub const MOST_ROWS: usize = 64;
pub const MOST_GATEWAYS: usize = 8;
pub const TECHNOLOGIES: usize = 6;
/// How many bytes a filter frame has without its action.
pub const FILTER_BYTES: usize = 28;
/// Where a row frame holds its number of gateways.
const GATEWAY_COUNT_AT: usize = 34;
const ENTITY_LAYERS: [u8; 4] = [2, 3, 5, 7];

/// The table of `text`, or the refusal of its first faulty line.
pub fn read(text: &[u8]) -> Result<Table, Refusal> {
    let mut table = Table::default();
    let mut start = 0;
    let mut line = 1;
    while start < text.len() {
        let length = text[start..].iter().position(|&c| c == b'\n');
        let number = match length {
            None => Some(1),
            Some(length) => take_line(&mut table, text, start, start + length),
        };
        if let Some(number) = number {
            return Err(Refusal { number, line });
        }
        start += length.unwrap_or(0) + 1;
        line += 1;
    }
    match table.floor {
        Some(_) => Ok(table),
        None => Err(Refusal { number: 3, line }),
    }
}

/// Adds the line between two places of the text to the table, or gives its least refusal number.
fn take_line(table: &mut Table, text: &[u8], start: usize, end: usize) -> Option<usize> {
    let Some(frame) = decode(&text[start..end]) else {
        return Some(1);
    };
    if !well_formed(&frame) {
        return Some(2);
    }
    if !may_follow(table, &frame) {
        return Some(3);
    }
    match frame[0] {
        1 => take_entity(table, &frame),
        2 => {
            table.caps.push(coefficients(&frame[2..]));
            None
        }
        3 => {
            table.floor = Some(coefficients(&frame[1..]));
            None
        }
        4 => take_filter(table, &frame),
        _ => take_row(table, &frame, start..end),
    }
}

/// The bytes of a line of digit pairs; none if it is empty, odd or has another character.
pub fn decode(line: &[u8]) -> Option<Vec<u8>> {
    if line.is_empty() || line.len() % 2 == 1 {
        return None;
    }
    line.chunks(2)
        .map(|pair| Some(digit(pair[0])? * 16 + digit(pair[1])?))
        .collect()
}

/// The value of a digit 0-9 A-F a-f, by the standard library.
fn digit(character: u8) -> Option<u8> {
    char::from(character).to_digit(16).map(|value| value as u8)
}

/// Whether the kind is known, the length is the kind's, a filter's action is at most 1, and a row has at most eight gateways.
fn well_formed(frame: &[u8]) -> bool {
    match frame[0] {
        1 => frame.len() == 4,
        2 => frame.len() == 5,
        3 => frame.len() == 4,
        4 => matches!(frame.get(FILTER_BYTES..), Some([] | [0 | 1])),
        5 => match frame.get(GATEWAY_COUNT_AT) {
            Some(&count) => {
                usize::from(count) <= MOST_GATEWAYS
                    && frame.len() == GATEWAY_COUNT_AT + 1 + usize::from(count)
            }
            None => false,
        },
        _ => false,
    }
}

/// Whether the sequence can go on with the frame after what the table holds.
fn may_follow(table: &Table, frame: &[u8]) -> bool {
    let caps = table.caps.len();
    match frame[0] {
        1 => caps == 0 && table.entities.len() < MOST_ENTITIES,
        2 => !table.entities.is_empty() && caps < TECHNOLOGIES && usize::from(frame[1]) == caps + 1,
        3 => caps == TECHNOLOGIES && table.floor.is_none(),
        4 => table.floor.is_some() && table.rows.is_empty() && table.filters.len() < MOST_FILTERS,
        _ => table.floor.is_some() && table.rows.len() < MOST_ROWS,
    }
}

/// Adds an entity, or gives 4.
fn take_entity(table: &mut Table, frame: &[u8]) -> Option<usize> {
    let entity = Entity {
        parent: frame[1],
        layer: frame[2],
        mask: frame[3],
    };
    let lawful = if entity.parent == NONE {
        entity.layer == 0 && entity.mask & 0b1000_0001 == 0
    } else {
        ENTITY_LAYERS.contains(&entity.layer)
            && entity.mask == 0
            && table
                .entities
                .get(usize::from(entity.parent))
                .is_some_and(|p| p.layer < entity.layer)
    };
    if !lawful {
        return Some(4);
    }
    table.entities.push(entity);
    None
}

/// Adds a filter, or gives 5 or 6.
fn take_filter(table: &mut Table, frame: &[u8]) -> Option<usize> {
    let filter = Filter {
        root: frame[1],
        selector: selector(&frame[2..]),
        written: frame.get(FILTER_BYTES).map(|&action| match action {
            0 => Action::Drop,
            _ => Action::Pass,
        }),
    };
    if !is_root(table, filter.root) {
        return Some(5);
    }
    if !ordered(&filter.selector) {
        return Some(6);
    }
    table.filters.push(filter);
    None
}

/// Adds a row and the place of its line, or gives 5, 6 or 7.
fn take_row(table: &mut Table, frame: &[u8], place: Place<usize>) -> Option<usize> {
    let row = Row {
        holder: frame[1],
        source: frame[2],
        destination: frame[3],
        technology: frame[4],
        coefficients: coefficients(&frame[5..]),
        selector: selector(&frame[8..]),
        gateways: frame[GATEWAY_COUNT_AT + 1..].to_vec(),
    };
    let names_known = is_root(table, row.holder)
        && is_entity(table, row.source)
        && is_entity(table, row.destination)
        && usize::from(row.technology) <= TECHNOLOGIES
        && row.gateways.iter().all(|&gateway| is_root(table, gateway));
    if !names_known {
        return Some(5);
    }
    if !ordered(&row.selector) {
        return Some(6);
    }
    if row.technology == 0 && row.coefficients != [0; 3] {
        return Some(7);
    }
    table.rows.push(row);
    table.row_places.push(place);
    None
}

/// Whether the number is an entity's.
pub fn is_entity(table: &Table, number: u8) -> bool {
    usize::from(number) < table.entities.len()
}

/// Whether the number is a root's.
fn is_root(table: &Table, number: u8) -> bool {
    table
        .entities
        .get(usize::from(number))
        .is_some_and(|entity| entity.parent == NONE)
}

/// Whether no low of the selector is above its high.
fn ordered(selector: &Selector) -> bool {
    selector.iter().all(|range| range.low <= range.high)
}

/// The first three bytes as coefficients.
fn coefficients(bytes: &[u8]) -> Coefficients {
    [bytes[0], bytes[1], bytes[2]]
}

/// The first 26 bytes as a selector.
fn selector(bytes: &[u8]) -> Selector {
    let mut numbers = [[0; 2]; FIELDS];
    let mut at = 0;
    for (field, width) in WIDTHS.into_iter().enumerate() {
        for bound in &mut numbers[field] {
            *bound = bytes[at..at + width]
                .iter()
                .fold(0u32, |number, &b| number << 8 | u32::from(b));
            at += width;
        }
    }
    numbers.map(|[low, high]| Range { low, high })
}
