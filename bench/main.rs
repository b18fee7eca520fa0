//! Times the calls of the static libraries beside the second implementation and beside the same search and the same mesh in Rust, in one
//! run, and measures the library's size and the stack that the calls use. Looks for tables on which List or Mesh takes long.
//!
//! bench page LIBRARY                           prints the page; LIBRARY is the archive whose size is told
//! bench hunt SECONDS SEED FILE [chains|mesh]   writes the table on which List takes longest of those tried in the time; with `chains`
//!                                              they are tables of rows from root to root; with `mesh` the one whose last row has most
//!                                              blocks examined by the mesh in Rust

mod blocks;
mod climb;
mod clock;
mod hunt;
mod library;
mod measured;
mod meshes;
mod page;
mod search;
mod size;
mod stack;
mod tables;
mod targets;
mod worst;

// Of the second implementation, whose modules name each other from the crate's root.
#[allow(dead_code)]
#[path = "../tests/second/calls.rs"]
mod calls;
#[path = "../tests/second/chains.rs"]
mod chains;
#[allow(dead_code)]
#[path = "../tests/second/dead.rs"]
mod dead;
#[allow(dead_code)]
#[path = "../tests/second/draft.rs"]
mod draft;
#[path = "../tests/second/families.rs"]
mod families;
#[path = "../tests/second/filters.rs"]
mod filters;
#[path = "../tests/second/frames.rs"]
mod frames;
#[path = "../tests/second/grid.rs"]
mod grid;
#[path = "../tests/second/join.rs"]
mod join;
#[path = "../tests/second/kinds.rs"]
mod kinds;
#[path = "../tests/second/mesh.rs"]
mod mesh;
#[path = "../tests/second/moves.rs"]
mod moves;
#[path = "../tests/second/pairs.rs"]
mod pairs;
#[path = "../tests/second/parts.rs"]
mod parts;
#[path = "../tests/second/prefixes.rs"]
mod prefixes;
#[allow(dead_code)]
#[path = "../tests/second/probes.rs"]
mod probes;
#[allow(dead_code)]
#[path = "../tests/second/random.rs"]
mod random;
#[allow(dead_code)]
#[path = "../tests/second/reader.rs"]
mod reader;
#[allow(dead_code)]
#[path = "../tests/second/relations.rs"]
mod relations;
#[path = "../tests/second/rooms.rs"]
mod rooms;
#[allow(dead_code)]
#[path = "../tests/second/sides.rs"]
mod sides;
#[path = "../tests/second/stored.rs"]
mod stored;
#[path = "../tests/second/table.rs"]
mod table;

use std::path::Path;
use std::process::ExitCode;

fn main() -> ExitCode {
    let arguments: Vec<String> = std::env::args().skip(1).collect();
    let words: Vec<&str> = arguments.iter().map(String::as_str).collect();
    match run(&words) {
        Ok(true) => ExitCode::SUCCESS,
        Ok(false) => ExitCode::FAILURE,
        Err(message) => {
            eprintln!("bench: {message}");
            ExitCode::FAILURE
        }
    }
}

/// Does what the command line says, and gives whether no target was missed.
fn run(words: &[&str]) -> Result<bool, String> {
    match *words {
        ["page", library] => Ok(page::print(library)),
        ["hunt", seconds, seed, file, ref sort @ ..] => {
            let sort = match sort {
                [] => hunt::Sort::Group,
                ["chains"] => hunt::Sort::Chains,
                ["mesh"] => hunt::Sort::Mesh,
                _ => return Err("the word after the file is chains or mesh, or none".into()),
            };
            hunt::hunt(number(seconds)?, number(seed)?, Path::new(file), sort)?;
            Ok(true)
        }
        _ => Err("page LIBRARY or hunt SECONDS SEED FILE [chains|mesh]".into()),
    }
}

/// The word as a number.
fn number(word: &str) -> Result<u64, String> {
    word.parse()
        .map_err(|_| format!("{word} is no such number"))
}
