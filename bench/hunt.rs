//! A seeded hunt for lawful tables on which List takes long, or Mesh: climbs one after another, from new tables and from the slowest so far.

use crate::climb::{Climber, Cost, Ends, Tried};
use crate::clock::{in_turn, ms, ratio};
use crate::draft::everything;
use crate::families::{corners, families, slices};
use crate::grid::Grid;
use crate::library::{Call, Text, OUT_BYTES};
use crate::parts::parts;
use crate::random::Random;
use crate::reader::{read, MOST_ROWS};
use crate::stored::STORED;
use crate::table::{Selector, Table, FIELDS};
use crate::tables;
use std::path::Path;
use std::time::{Duration, Instant};

/// The numbers of cells that the fields of a table are divided in.
const CELLS: [u32; 4] = [8, 16, 32, 100];
/// How many of the slowest tables are kept, and how many changes are made to one before it is climbed from again.
const KEPT: usize = 6;
const SHAKES: (usize, usize) = (2, 10);
/// What part of the time that is left a climb by values tried may take, and one by blocks examined.
const BY_VALUES: u32 = 2;
const BY_BLOCKS: u32 = 6;

/// The roots of a table for chains.
const ROOTS: [usize; 8] = [0, 4, 8, 12, 16, 20, 24, 28];

/// How many entities stand side by side below the first root of a table of one group, and the sources that rows are drawn from: the root
/// as often as one of them.
const WIDTH: usize = 16;
const SIDE_BY_SIDE: [usize; 2 * WIDTH] = {
    let mut sources = [0; 2 * WIDTH];
    let mut k = 0;
    while k < WIDTH {
        sources[k] = k + 1;
        k += 1;
    }
    sources
};

/// What the tables are like.
#[derive(Clone, Copy)]
pub enum Sort {
    /// Rows of one group, most of them with the same ends, so that the search takes long.
    Group,
    /// Rows from root to root, so that kind 19 does.
    Chains,
    /// Rows of one group with the same ends, of which the last has all packets, so that its mesh does.
    Mesh,
}

impl Sort {
    /// The ends of its rows.
    fn ends(self) -> Ends {
        match self {
            Sort::Group => Ends {
                holder: Some(0),
                sources: &SIDE_BY_SIDE,
                destinations: &[WIDTH + 1],
                percent: 2,
                last_stays: false,
            },
            Sort::Chains => Ends {
                holder: None,
                sources: &ROOTS,
                destinations: &ROOTS,
                percent: 40,
                last_stays: false,
            },
            Sort::Mesh => Ends {
                holder: Some(0),
                sources: &[0],
                destinations: &[1],
                percent: 0,
                last_stays: true,
            },
        }
    }

    /// What its tables are compared by.
    fn cost(self) -> Cost {
        match self {
            Sort::Group | Sort::Chains => Cost::Time,
            Sort::Mesh => Cost::Blocks,
        }
    }

    /// When a climb that begins now ends at the latest.
    fn climb_end(self, end: Instant) -> Instant {
        match self {
            Sort::Group | Sort::Chains => end,
            Sort::Mesh => part_of(end, BY_BLOCKS),
        }
    }
}

/// The end of such a part of the time that is left.
fn part_of(end: Instant, part: u32) -> Instant {
    let now = Instant::now();
    now + end.saturating_duration_since(now) / part
}

/// Hunts for so many seconds, and writes the text of the table that costs most to the file.
pub fn hunt(seconds: u64, seed: u64, file: &Path, sort: Sort) -> Result<(), String> {
    let end = Instant::now() + Duration::from_secs(seconds);
    let climber = &mut Climber::new(seed, sort.ends());
    let mut kept: Vec<Tried> = Vec::new();
    let mut climbs = 0;
    while climbs == 0 || Instant::now() < end {
        let again = if kept.is_empty() || climber.random.chance(50) {
            None
        } else {
            let from = &kept[climber.random.below(kept.len())];
            climber.changed(from, SHAKES, sort.cost())
        };
        let Some(start) = again.or_else(|| begun(climber, sort, end)) else {
            continue;
        };
        kept.push(start.clone());
        kept.push(climber.climb(start, sort.cost(), sort.climb_end(end)));
        if sort.cost() == Cost::Time {
            climber.time(&mut kept);
        }
        kept.sort_by(|one, other| other.cost.total_cmp(&one.cost));
        kept.truncate(KEPT);
        climbs += 1;
        std::fs::write(file, &kept[0].text.bytes)
            .map_err(|error| format!("{}: {error}", file.display()))?;
    }
    println!("{} tables tried in {climbs} climbs", climber.tried);
    match sort {
        Sort::Group | Sort::Chains => report_list(&kept[0].text),
        Sort::Mesh => report_mesh(&kept[0]),
    }
    Ok(())
}

/// A new table to climb from.
fn begun(climber: &mut Climber, sort: Sort, end: Instant) -> Option<Tried> {
    let grid = Grid::new(&mut climber.random, &everything(), &CELLS);
    match sort {
        Sort::Group => {
            // What the search takes of a random table is little beside the rest of List: its values are told exactly.
            let table = group(climber, &grid);
            let start = climber.tried(table, grid, Cost::Values)?;
            Some(climber.climb(start, Cost::Values, part_of(end, BY_VALUES)))
        }
        Sort::Chains => {
            let table = chains(climber, &grid);
            climber.tried(table, grid, Cost::Time)
        }
        Sort::Mesh => {
            let table = hidden(climber, &grid);
            climber.tried(table, grid, Cost::Blocks)
        }
    }
}

/// Rows of one group with boxes at random, or, in a quarter of the cases, those that are hardest in the order of the fields.
fn group(climber: &mut Climber, grid: &Grid) -> Table {
    if climber.random.chance(25) {
        return tables::slabs(MOST_ROWS);
    }
    let mut table = tables::fan(WIDTH);
    for _ in 0..MOST_ROWS {
        let selector = grid.selector(&mut climber.random);
        table.rows.push(tables::row(0, WIDTH + 1, selector));
    }
    table
}

/// Rows in layers from root to root, or, in half of the cases, between any roots and with boxes that are narrow in one field.
fn chains(climber: &mut Climber, grid: &Grid) -> Table {
    let mut table = tables::roots(ROOTS.len());
    table.rows = tables::layers(MOST_ROWS).rows;
    if climber.random.chance(50) {
        for row in &mut table.rows {
            let field = climber.random.below(FIELDS);
            row.selector = everything();
            row.selector[field] = grid.range(&mut climber.random, field);
            *row = climber.with_ends(row);
        }
    }
    table
}

/// Rows of one group and one of all packets: boxes that are narrow in one to five fields, families with their own ranges of a field, such
/// families in each half, corners, overlapping parts, or the boxes of a stored table.
fn hidden(climber: &mut Climber, grid: &Grid) -> Table {
    let random = &mut climber.random;
    let all = everything();
    let most = MOST_ROWS - 1;
    let mut boxes = match random.below(6) {
        0 => {
            let fields = random.between(1, FIELDS);
            (0..most).map(|_| narrow(random, grid, fields)).collect()
        }
        1 => families(&all, random.below(FIELDS), most / (FIELDS - 1)),
        2 => {
            let regions = slices(&all, random.below(FIELDS), 2).into_iter();
            let parts = most / (2 * (FIELDS - 1));
            let of_region = |region| families(&region, random.below(FIELDS), parts);
            regions.flat_map(of_region).collect()
        }
        3 => corners(&all, random.between(FIELDS, most - FIELDS - 1)),
        4 => parts(random, &all, most),
        _ => {
            let (_, text) = random.pick(STORED);
            let table = read(text).expect("stored tables are lawful");
            table.rows.iter().map(|row| row.selector).collect()
        }
    };
    boxes.truncate(most);
    while boxes.len() < most {
        let fields = random.between(1, FIELDS);
        boxes.push(narrow(random, grid, fields));
    }
    tables::one_group(boxes.into_iter().chain([all]))
}

/// All packets but in so many fields, which have ranges of the grid.
fn narrow(random: &mut Random, grid: &Grid, fields: usize) -> Selector {
    let mut order = vec![0, 1, 2, 3, 4];
    random.shuffle(&mut order);
    let mut selector = everything();
    for &field in &order[..fields] {
        selector[field] = grid.range(random, field);
    }
    selector
}

/// Prints how many blocks are examined for the last row, and the times of Mesh and Witness of it.
fn report_mesh(worst: &Tried) {
    let [mut mesh, mut witness] = [Call::Mesh, Call::Witness].map(|call| {
        let text = &worst.text;
        move || {
            text.here(call, &mut []);
        }
    });
    let [mesh, witness] = in_turn([&mut mesh, &mut witness]);
    println!("Blocks of the worst:  {:>10}", worst.cost);
    println!("Mesh of its last row: {:>10} ms", ms(mesh));
    println!("Witness of it:        {:>10} ms", ms(witness));
}

/// Prints the time of List on the text beside that on the typical full table.
fn report_list(text: &Text) {
    let typical = Text::of(&tables::typical(MOST_ROWS));
    let [mut worst, mut typical] = [text, &typical].map(|text| {
        let mut out = vec![0; OUT_BYTES];
        move || {
            text.here(Call::List, &mut out);
        }
    });
    let [worst, typical] = in_turn([&mut worst, &mut typical]);
    println!("List of the worst:              {:>10} ms", ms(worst));
    println!("List of the typical full table: {:>10} ms", ms(typical));
    println!(
        "Ratio:                          {:>10.2}",
        ratio(worst, typical)
    );
}
