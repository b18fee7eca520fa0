//! The page: the calls' times, how they grow with the rows, the worst tables and rows, the library's size, the stack, and the targets.

use crate::clock::{ms, ratio};
use crate::library::{Call, Text, CALLS, OUT_BYTES};
use crate::measured::{measure, Measured};
use crate::reader::{read, MOST_ROWS};
use crate::stack;
use crate::stored::STORED;
use crate::table::Table;
use crate::targets::{self, Target};
use crate::{meshes, size, tables, worst};
use std::time::Duration;

/// What List of a typical full table is to stay under.
const MOST_LIST: Duration = Duration::from_millis(1);
/// What Check of it may take, in times of the second implementation's.
const MOST_CHECK: f64 = 1.5;
/// What code and tables may take, and the stack.
const MOST_BYTES: usize = 32 * 1024;
const MOST_STACK: usize = 40 * 1024;

const SIZES: [usize; 4] = [8, 16, 32, 64];

/// Prints the page, and gives whether all targets were met.
pub fn print(library: &str) -> bool {
    let load = std::fs::read_to_string("/proc/loadavg").unwrap_or_default();
    println!("Load before: {}", load.trim_end());
    println!("Times are the least of repeated calls, in ms. Each call reads its text.");
    let families = [
        ("typical", tables::typical as fn(usize) -> Table),
        ("layers", tables::layers),
        ("slabs", tables::slabs),
        ("split slabs", tables::split_slabs),
        ("corners", tables::corners),
    ];
    let families = families.map(|(name, make)| SIZES.map(|rows| measure(name, make(rows))));
    let [[.., typical], [.., layers], [.., slabs], [.., split_slabs], [.., corners]] = &families;
    let fullest = measure("fullest", tables::fullest());
    let largest_list = measure("largest list", tables::largest_list());
    let measure_stored = |&(name, text): &(&'static str, _)| {
        measure(name, read(text).expect("stored tables are lawful"))
    };
    let chains = measure("chains", tables::chains());
    let strips = measure("strips", tables::strips(MOST_ROWS));
    let stored: Vec<Measured> = STORED.iter().map(measure_stored).collect();
    let worst = [layers, &chains, slabs, split_slabs, corners, &strips].into_iter();
    let worst: Vec<&Measured> = worst.chain(&stored).collect();
    let full = [typical, &fullest, &largest_list].into_iter();
    print_calls(full.chain(worst.iter().copied()));
    families.iter().for_each(|family| print_growth(family));
    prefix_lists();
    let [check, second] = typical.times[Call::Check as usize];
    let check = ratio(check, second);
    let mut targets = vec![
        Target {
            line: format!(
                "List of the typical full table: {} ms, under 1",
                ms(typical.list())
            ),
            met: typical.list() < MOST_LIST,
        },
        Target {
            line: format!(
                "Check of it: {check:.2} times the second implementation's, at most {MOST_CHECK}"
            ),
            met: check <= MOST_CHECK,
        },
    ];
    targets.extend(worst::lists(typical.list(), &worst));
    targets.extend(worst::searches(&worst));
    targets.push(meshes::meshes(&worst));
    targets.push(code(library));
    targets.push(stacks(
        families
            .iter()
            .flatten()
            .chain([&fullest, &largest_list, &chains, &strips])
            .chain(&stored),
    ));
    targets::print(&targets)
}

/// The times of each call beside the second implementation's.
fn print_calls<'m>(tables: impl Iterator<Item = &'m Measured>) {
    println!("\nBeside the second implementation");
    println!("{:12}{:>12}{:>12}{:>9}", "call", "here", "second", "ratio");
    for measured in tables {
        let Text { rows, bytes } = &measured.text;
        println!("{}, {rows} rows, {} bytes", measured.name, bytes.len());
        for (call, [here, second]) in CALLS.iter().zip(measured.times) {
            let name = format!("  {call:?}");
            let ratio = ratio(here, second);
            println!("{name:12}{:>12}{:>12}{ratio:>9.2}", ms(here), ms(second));
        }
    }
}

/// How the times grow with the rows.
fn print_growth(family: &[Measured]) {
    println!("\nGrowth: {}", family[0].name);
    print!("{:10}", "rows");
    family
        .iter()
        .for_each(|measured| print!("{:>18}", measured.text.rows));
    println!();
    for call in CALLS {
        print!("{:10}", format!("{call:?}"));
        let mut before = None;
        for measured in family {
            let time = measured.times[call as usize][0];
            let factor = before.map_or(String::new(), |before| {
                format!("x{:.1}", ratio(time, before))
            });
            print!("{factor:>8}{:>10}", ms(time));
            before = Some(time);
        }
        println!();
    }
}

/// The longest list of prefixes and the shortest, of texts that differ in one row's sources alone.
fn prefix_lists() {
    println!("\nPrefixes of a text of one row");
    println!("{:12}{:>12}{:>12}{:>9}", "count", "here", "second", "ratio");
    for table in [tables::sources(1, 1), tables::sources(1, u32::MAX - 1)] {
        let measured = measure("sources", table);
        let count = measured.text.here(Call::Prefixes, &mut vec![0; OUT_BYTES]);
        let [here, second] = measured.times[Call::Prefixes as usize];
        let ratio = ratio(here, second);
        println!("{count:<12}{:>12}{:>12}{ratio:>9.2}", ms(here), ms(second));
    }
}

/// The bytes of the static library that are loaded.
fn code(library: &str) -> Target {
    println!("\nSections of {library}, in bytes");
    let sizes = size::of(library);
    for (name, bytes) in size::LOADED.iter().zip(sizes) {
        println!("{name:10}{bytes:>8}");
    }
    let sum: usize = sizes.iter().sum();
    Target {
        line: format!("code and tables: {sum} bytes, at most {MOST_BYTES}"),
        met: sum <= MOST_BYTES,
    }
}

/// The stack that each call uses at most on the tables.
fn stacks<'a>(tables: impl Iterator<Item = &'a Measured> + Clone) -> Target {
    println!("\nStack, in bytes, the most on all these tables");
    let most = CALLS.map(|call| {
        let mut out = vec![0; OUT_BYTES];
        let used = |measured: &Measured| {
            stack::used(|| {
                measured.text.here(call, &mut out);
            })
        };
        let most = tables.clone().map(used).max().unwrap_or(0);
        println!("{:10}{most:>8}", format!("{call:?}"));
        most
    });
    let most = most.into_iter().max().unwrap_or(0);
    Target {
        line: format!("stack: {most} bytes, at most {MOST_STACK}"),
        met: most <= MOST_STACK,
    }
}
