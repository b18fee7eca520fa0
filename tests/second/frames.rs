//! Writing a table as frames of digits, the inverse of reading.

use crate::table::{Filter, Row, Selector, Table, WIDTHS};

/// The digits of each frame of the table, in text order, without line feeds.
pub fn lines(table: &Table) -> Vec<Vec<u8>> {
    let entities = table
        .entities
        .iter()
        .map(|entity| vec![1, entity.parent, entity.layer, entity.mask]);
    let caps = table
        .caps
        .iter()
        .zip(1..)
        .map(|(cap, technology)| vec![2, technology, cap[0], cap[1], cap[2]]);
    let floor = table
        .floor
        .iter()
        .map(|floor| vec![3, floor[0], floor[1], floor[2]]);
    let filters = table.filters.iter().map(filter_frame);
    let rows = table.rows.iter().map(row_frame);
    entities
        .chain(caps)
        .chain(floor)
        .chain(filters)
        .chain(rows)
        .map(|frame| digits(&frame))
        .collect()
}

/// The text of the lines, each ended by a line feed.
pub fn text(lines: &[Vec<u8>]) -> Vec<u8> {
    lines
        .iter()
        .flat_map(|line| line.iter().copied().chain([b'\n']))
        .collect()
}

/// Two digits for each byte.
pub fn digits(bytes: &[u8]) -> Vec<u8> {
    bytes
        .iter()
        .flat_map(|byte| format!("{byte:02X}").into_bytes())
        .collect()
}

/// The bytes of a filter's frame.
fn filter_frame(filter: &Filter) -> Vec<u8> {
    let mut frame = vec![4, filter.root];
    push_selector(&mut frame, &filter.selector);
    frame.extend(filter.written.map(|action| action as u8));
    frame
}

/// The digits of a row's frame.
pub fn row_line(row: &Row) -> Vec<u8> {
    digits(&row_frame(row))
}

/// The bytes of a row's frame.
fn row_frame(row: &Row) -> Vec<u8> {
    let mut frame = vec![5, row.holder, row.source, row.destination, row.technology];
    frame.extend(row.coefficients);
    push_selector(&mut frame, &row.selector);
    frame.push(row.gateways.len() as u8);
    frame.extend(&row.gateways);
    frame
}

/// Adds low and high of each field to the frame, most significant byte first.
fn push_selector(frame: &mut Vec<u8>, selector: &Selector) {
    for (range, width) in selector.iter().zip(WIDTHS) {
        for bound in [range.low, range.high] {
            frame.extend(&bound.to_be_bytes()[4 - width..]);
        }
    }
}
