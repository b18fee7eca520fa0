//! The tables that are measured, but for those of tests/second/stored.rs, and what they are made of.

use crate::draft::everything;
use crate::families::{self, families, slices};
use crate::reader::read;
use crate::table::{Entity, Filter, Range, Row, Selector, Table, FIELDS, NONE};

/// The values from low to high.
fn range(low: u32, high: u32) -> Range {
    Range { low, high }
}

/// A table of these entities, and no filters and rows yet.
fn of_entities(entities: Vec<Entity>) -> Table {
    Table {
        entities,
        caps: vec![[0xFF; 3]; 6],
        floor: Some([1; 3]),
        ..Table::default()
    }
}

/// A root that supports every technology.
const ROOT: Entity = Entity {
    parent: NONE,
    layer: 0,
    mask: 0x7E,
};

/// An entity below another.
fn below(parent: usize, layer: u8) -> Entity {
    Entity {
        parent: parent as u8,
        layer,
        mask: 0,
    }
}

/// A table of roots with a line of three entities below each.
pub fn roots(count: usize) -> Table {
    let line = |root: usize| {
        let first = 4 * root;
        [
            ROOT,
            below(first, 3),
            below(first + 1, 5),
            below(first + 2, 7),
        ]
    };
    of_entities((0..count).flat_map(line).collect())
}

/// A table of two roots, the second of which, the last entity, has nothing below it, and the first so many entities side by side.
pub fn fan(count: usize) -> Table {
    let mut entities = vec![below(0, 3); count + 2];
    entities[0] = ROOT;
    entities[count + 1] = ROOT;
    of_entities(entities)
}

/// A row installed at its source's root.
pub fn row(source: usize, destination: usize, selector: Selector) -> Row {
    Row {
        holder: (source / 4 * 4) as u8,
        source: source as u8,
        destination: destination as u8,
        technology: 3,
        coefficients: [1; 3],
        selector,
        gateways: Vec::new(),
    }
}

/// The addresses of a root's network.
fn network(base: u32, root: usize) -> Range {
    let low = base + 256 * root as u32;
    range(low, low + 255)
}

/// A typical table: rows between the networks of half as many roots, a third of them from any address, and as many filters.
/// With 64 rows it is full: 128 entities and 32 filters.
pub fn typical(rows: usize) -> Table {
    let nodes = rows / 2;
    let mut table = roots(nodes);
    for f in 0..nodes {
        let mut selector = everything();
        selector[0] = network(0x0A00_0000, f);
        selector[3] = range(80, 80);
        let root = (4 * (f * 7 % nodes)) as u8;
        table.filters.push(Filter {
            root,
            selector,
            written: None,
        });
    }
    for k in 0..rows {
        let (from, to) = (k * 5 % nodes, (k * 11 + 3) % nodes);
        let mut selector = everything();
        if k % 3 != 0 {
            selector[0] = network(0x0A00_0000, from);
        }
        selector[1] = network(0x0B00_0000, to);
        let port = [80, 443, 8080, 22][k % 4];
        selector[3] = range(port, port + [0, 0, 10, 1000][k / 4 % 4]);
        selector[4] = range(6, 6);
        table.rows.push(Row {
            technology: (2 + k % 5) as u8,
            coefficients: [k, k / 2, k / 3].map(|c| (1 + c % 8) as u8),
            gateways: gateways(k, k % 4, nodes),
            ..row(4 * from + k % 4, 4 * to + k / 2 % 4, selector)
        });
    }
    table
}

/// So many gateways of row k, roots that differ.
fn gateways(k: usize, count: usize, roots: usize) -> Vec<u8> {
    (0..count)
        .map(|g| (4 * ((k + 9 * g + 1) % roots)) as u8)
        .collect()
}

/// The longest text: the typical full table with rows of eight gateways and full boxes, so that all meet, from each root to the
/// next and to the one after it, so that chains go on past four rows.
pub fn fullest() -> Table {
    let mut table = typical(64);
    for k in 0..64 {
        let (from, to) = (k % 32, (k + k / 32 + 1) % 32);
        table.rows[k] = Row {
            gateways: gateways(k, 8, 32),
            ..row(4 * from, 4 * to, everything())
        };
    }
    table
}

/// The table that has the largest list: each two of its 64 rows have as many entries as two can have, and so have each two of its 32
/// filters.
pub fn largest_list() -> Table {
    read(include_bytes!("../crates/answers/data/largest_list")).expect("stored tables are lawful")
}

/// Worst for kind 19: rows from the first root to the last, and the others in four layers from root to root, whose last layer
/// shares no packet with them. Every chain is followed to its end, and there is none.
pub fn layers(rows: usize) -> Table {
    let mut table = roots(5);
    let [mut upper, mut lower] = [everything(); 2];
    upper[3] = range(0x8000, 0xFFFF);
    lower[3] = range(0, 0x7FFF);
    let whole = 3 * rows / 16;
    table.rows = vec![row(0, 16, upper); whole];
    for k in 0..rows - whole {
        let layer = k % 4;
        let selector = if layer == 3 { lower } else { upper };
        table.rows.push(row(4 * layer, 4 * layer + 4, selector));
    }
    table
}

/// Worst for a search in the order of the fields: families of rows that have their own ranges of protocols, and rows that they hide.
pub fn slabs(rows: usize) -> Table {
    hiding(rows, families(&everything(), FIELDS - 1, 3 * rows / 16))
}

/// Worst for walks that begin with each field in turn, of those built by hand: families of rows for each half of the source ports, of
/// which one has its own ranges of protocols, the other of destination addresses; and rows that they hide.
pub fn split_slabs(rows: usize) -> Table {
    let parts = 5 * rows / 64;
    let regions = slices(&everything(), 2, 2).into_iter().zip([FIELDS - 1, 1]);
    let boxes = regions.flat_map(|(region, last)| families(&region, last, parts));
    hiding(rows, boxes.collect())
}

/// Hard for blocks of cells if they go by the box that ends first: boxes in ever larger ones, and a row that is hidden by the largest and
/// what lies past it.
pub fn corners(rows: usize) -> Table {
    let boxes = families::corners(&everything(), rows - FIELDS - 2);
    one_group(boxes.into_iter().chain([everything()]))
}

/// Deepest for blocks of cells: boxes that each have another part of the source addresses, and then a row of all packets, which they hide.
pub fn strips(rows: usize) -> Table {
    let strips = slices(&everything(), 0, rows - 1);
    one_group(strips.into_iter().chain([everything()]))
}

/// A table of rows with these boxes, all from the first root to the second.
pub fn one_group(boxes: impl IntoIterator<Item = Selector>) -> Table {
    let mut table = fan(0);
    table.rows = boxes
        .into_iter()
        .map(|selector| row(0, 1, selector))
        .collect();
    table
}

/// A table of so many rows: these boxes, then rows of all packets whose sources stand side by side, so that none covers another.
fn hiding(rows: usize, boxes: Vec<Selector>) -> Table {
    let hidden = rows - boxes.len();
    let mut table = fan(hidden);
    let last = hidden + 1;
    table.rows = boxes
        .into_iter()
        .map(|selector| row(0, last, selector))
        .collect();
    table.rows.extend((1..=hidden).map(|source| Row {
        holder: 0,
        ..row(source, last, everything())
    }));
    table
}

/// Worst for kind 19 of the tables that bench/hunt found in four minutes, by the seeds 1 and 2 with chains.
pub fn chains() -> Table {
    read(include_bytes!("tables/chains.table")).expect("stored tables are lawful")
}

/// One row with these sources.
pub fn sources(low: u32, high: u32) -> Table {
    let mut table = roots(2);
    let mut selector = everything();
    selector[0] = range(low, high);
    table.rows.push(row(0, 4, selector));
    table
}
