//! The tables on which List takes longest, beside the typical one, and the rows whose search does, beside the same search in Rust.

use crate::clock::{in_turn, ms, ratio};
use crate::dead;
use crate::library::{Call, Text};
use crate::measured::Measured;
use crate::search::{hidden, search, Bounds, Number};
use crate::table::{Row, Table};
use crate::targets::Target;
use std::hint::black_box;
use std::time::Duration;

/// What List may take, in times of the typical full table's: on the table of this name, and on others.
const MOST_NESTED: (&str, f64) = ("nested", 5.0);
const MOST_LIST: f64 = 250.0;
/// What a row's search may take, in times of the same search in Rust.
const MOST_SEARCH: f64 = 1.5;
/// With fewer values tried, a search is too short to be timed apart from reading.
const LEAST_TRIED: u64 = 1000;

/// List on each of the tables, and how many values are tried for its dead rows.
pub fn lists(typical: Duration, tables: &[&Measured]) -> Vec<Target> {
    println!("\nWorst tables: List, in times of the typical full table's, and the values tried to tell which rows are dead");
    println!(
        "{:16}{:>12}{:>12}{:>14}{:>14}",
        "table", "List", "times", "in all rows", "of one row"
    );
    let target = |measured: &&Measured| {
        let (name, list) = (measured.name, measured.list());
        let times = ratio(list, typical);
        let values = dead_values(&measured.table);
        let (sum, most) = (values.iter().sum::<u64>(), values.iter().max());
        println!(
            "{name:16}{:>12}{times:>12.2}{sum:>14}{:>14}",
            ms(list),
            most.unwrap_or(&0)
        );
        let most = match name {
            name if name == MOST_NESTED.0 => MOST_NESTED.1,
            _ => MOST_LIST,
        };
        Target {
            line: format!("List of {name}: {times:.2} times the typical, at most {most}"),
            met: times <= most,
        }
    };
    tables.iter().map(target).collect()
}

/// The search of each table's row for which Witness tries most values, reading apart, where it tries enough of them.
pub fn searches(tables: &[&Measured]) -> Vec<Target> {
    println!("\nWitness of the worst row, reading apart, beside the same search in Rust");
    println!(
        "{:16}{:>6}{:>14}{:>12}{:>12}{:>9}",
        "table", "row", "values tried", "here", "in Rust", "ratio"
    );
    let worst = |measured: &&Measured| {
        let Measured { name, table, .. } = measured;
        let rows = 0..table.rows.len();
        let (tried, row) = rows.map(|row| (tried(table, row), row)).max()?;
        print!("{name:16}{row:>6}{tried:>14}");
        if tried < LEAST_TRIED {
            println!("{:>12}", "too few");
            return None;
        }
        let [here, rust] = times(table, row);
        let ratio = ratio(here, rust);
        println!("{:>12}{:>12}{ratio:>9.2}", ms(here), ms(rust));
        Some(Target {
            line: format!("search of {name}'s row {row}: {ratio:.2} times the same in Rust, at most {MOST_SEARCH}"),
            met: ratio <= MOST_SEARCH,
        })
    };
    tables.iter().filter_map(worst).collect()
}

/// How many values the row's search in Rust tries. What it finds is to be the second implementation's witness.
fn tried(table: &Table, row: usize) -> u64 {
    let (own, cover) = boxes(table, row);
    let (packet, tried) = search(&own, &cover);
    let witness = dead::witness(table, row);
    assert_eq!(packet, witness.map(|packet| packet.map(Number::from)));
    tried
}

/// How many values are tried in Rust to tell whether each row is dead.
pub fn dead_values(table: &Table) -> Vec<u64> {
    let values = |row| {
        let (own, cover) = boxes(table, row);
        hidden(&own, &cover).1
    };
    (0..table.rows.len()).map(values).collect()
}

/// The times of the row's search here, which is what Witness takes longer than Check, and in Rust.
fn times(table: &Table, row: usize) -> [Duration; 2] {
    let text = Text::up_to(table, row);
    let (own, cover) = boxes(table, row);
    let mut check = || assert_eq!(text.here(Call::Check, &mut []), 0);
    let mut witness = || {
        black_box(text.here(Call::Witness, &mut []));
    };
    let mut rust = || {
        black_box(search(black_box(&own), black_box(&cover)));
    };
    let [check, witness, rust] = in_turn([&mut check, &mut witness, &mut rust]);
    [witness.saturating_sub(check), rust]
}

/// The row's box, and those of the rows that cover it.
pub fn boxes(table: &Table, row: usize) -> (Bounds, Vec<Bounds>) {
    let cover = dead::cover(table, row).map(bounds);
    (bounds(&table.rows[row]), cover.collect())
}

fn bounds(row: &Row) -> Bounds {
    row.selector
        .map(|range| (range.low.into(), range.high.into()))
}
