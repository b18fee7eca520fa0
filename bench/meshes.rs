//! The rows that take Mesh longest, beside Witness of the same rows and the same mesh in Rust.

use crate::blocks::mesh;
use crate::clock::{in_turn, ms, ratio};
use crate::dead;
use crate::library::{Call, Text};
use crate::measured::Measured;
use crate::search::Number;
use crate::table::Table;
use crate::targets::Target;
use crate::worst::boxes;
use std::hint::black_box;
use std::time::{Duration, Instant};

/// What Mesh of a row may take.
const MOST_MESH: Duration = Duration::from_secs(1);
/// How often Mesh of each row is called to tell which takes longest.
const TURNS: usize = 3;

/// Mesh of each table's row that takes it longest, reading apart, and what it takes of any row, with reading.
pub fn meshes(tables: &[&Measured]) -> Target {
    println!(
        "\nMesh of the row that takes it longest, reading apart, beside Witness and the same mesh in Rust"
    );
    println!(
        "{:16}{:>6}{:>14}{:>12}{:>12}{:>12}{:>9}",
        "table", "row", "blocks", "here", "Witness", "in Rust", "ratio"
    );
    let mut longest = (Duration::ZERO, "", 0);
    let mut most = (0, "", 0);
    for Measured { name, table, .. } in tables {
        let rows = 0..table.rows.len();
        let examined: Vec<u64> = rows.clone().map(|row| checked_blocks(table, row)).collect();
        let taken = rows.map(|row| (least_time(table, row), *name, row));
        let slowest = taken.max().unwrap_or_default();
        let row = slowest.2;
        let [here, witness, rust] = times(table, row);
        println!(
            "{name:16}{row:>6}{:>14}{:>12}{:>12}{:>12}{:>9.2}",
            examined[row],
            ms(here),
            ms(witness),
            ms(rust),
            ratio(here, rust)
        );
        longest = longest.max(slowest);
        let numbered = examined.iter().enumerate();
        most = numbered.fold(most, |most, (row, &blocks)| most.max((blocks, *name, row)));
    }
    let (blocks, name, row) = most;
    println!("Most blocks of any row: {blocks}, of {name}'s row {row}");
    let (time, name, row) = longest;
    Target {
        line: format!(
            "Mesh of any row, with reading: {} ms, of {name}'s row {row}, at most {}",
            ms(time),
            MOST_MESH.as_millis()
        ),
        met: time <= MOST_MESH,
    }
}

/// How many blocks are examined in Rust for the row.
pub fn blocks(table: &Table, row: usize) -> u64 {
    let (own, cover) = boxes(table, row);
    mesh(&own, &cover).1
}

/// The same; what is found is to be the second implementation's witness.
fn checked_blocks(table: &Table, row: usize) -> u64 {
    let (own, cover) = boxes(table, row);
    let (packet, blocks) = mesh(&own, &cover);
    let witness = dead::witness(table, row);
    assert_eq!(packet, witness.map(|packet| packet.map(Number::from)));
    blocks
}

/// The least time of a few calls of Mesh for the row.
fn least_time(table: &Table, row: usize) -> Duration {
    let text = Text::up_to(table, row);
    let time = |_| {
        let start = Instant::now();
        black_box(text.here(Call::Mesh, &mut []));
        start.elapsed()
    };
    (0..TURNS).map(time).min().unwrap_or_default()
}

/// The times of Mesh and Witness of the row here, what they take longer than Check, and of the mesh in Rust.
fn times(table: &Table, row: usize) -> [Duration; 3] {
    let text = Text::up_to(table, row);
    let (own, cover) = boxes(table, row);
    let mut check = || assert_eq!(text.here(Call::Check, &mut []), 0);
    let [mut here, mut witness] = [Call::Mesh, Call::Witness].map(|call| {
        let text = &text;
        move || {
            black_box(text.here(call, &mut []));
        }
    });
    let mut rust = || {
        black_box(mesh(black_box(&own), black_box(&cover)));
    };
    let calls: [&mut dyn FnMut(); 4] = [&mut check, &mut here, &mut witness, &mut rust];
    let [check, here, witness, rust] = in_turn(calls);
    [
        here.saturating_sub(check),
        witness.saturating_sub(check),
        rust,
    ]
}
