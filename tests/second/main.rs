//! A second implementation of the documents, and the comparison of the product with it.
//!
//! second answers TEXT QUESTIONS ...         what the product's program `answers` prints of these files
//! second compare SEED COUNT BINARIES        compares the programs in a directory, and the static library, on seeded texts
//! second write SEED NUMBER TEXT QUESTIONS   writes one of these texts and its questions to files

mod added;
mod calls;
mod cases;
mod chains;
mod compare;
mod couples;
mod cover;
mod covered;
mod damage;
mod dead;
mod differences;
mod draft;
mod families;
mod filters;
mod firewalls;
mod frames;
mod grid;
mod join;
mod kinds;
mod letters;
mod library;
mod long;
mod mesh;
mod moves;
mod pairs;
mod parts;
mod prefixes;
mod printed;
mod probes;
mod programs;
mod promises;
mod questions;
mod random;
mod reader;
mod relations;
mod rest;
mod rooms;
mod shapes;
mod shared;
mod sides;
mod stored;
mod table;
#[cfg(test)]
mod tests;
mod upper;

use questions::Questions;
use std::io::Write;
use std::path::Path;
use std::process::ExitCode;

fn main() -> ExitCode {
    let arguments: Vec<String> = std::env::args().skip(1).collect();
    let words: Vec<&str> = arguments.iter().map(String::as_str).collect();
    match run(&words) {
        Ok(()) => ExitCode::SUCCESS,
        Err(message) => {
            eprintln!("second: {message}");
            ExitCode::FAILURE
        }
    }
}

/// Does what the command line says.
fn run(words: &[&str]) -> Result<(), String> {
    match words {
        ["answers", files @ ..] if files.len() % 2 == 0 => {
            for pair in files.chunks(2) {
                let printed = answers(Path::new(""), pair[0], pair[1])?;
                std::io::stdout()
                    .write_all(&printed)
                    .map_err(|error| error.to_string())?;
            }
            Ok(())
        }
        ["compare", seed, count, binaries] => {
            let count = number(count)?;
            let tally = compare::compare(number(seed)?, count, Path::new(binaries))?;
            println!(
                "{} accepted, {} refused; {} tiny tables with every probe, {} texts of about 16 KiB or more",
                tally.accepted, tally.refused, tally.tiny, tally.long
            );
            println!(
                "{} texts cut at every row, {} cuts in all",
                tally.cut, tally.cuts
            );
            println!("the same on all {count} texts");
            Ok(())
        }
        ["write", seed, text_number, text, questions] => {
            let case = cases::case(number(seed)?, number(text_number)?);
            programs::write_files(&case, Path::new(text), Path::new(questions))
        }
        _ => Err(
            "answers TEXT QUESTIONS ..., compare SEED COUNT BINARIES or write SEED NUMBER TEXT QUESTIONS"
                .into(),
        ),
    }
}

/// What `answers` prints of two files in the directory.
fn answers(directory: &Path, text: &str, questions: &str) -> Result<Vec<u8>, String> {
    let contents = |file: &str| {
        std::fs::read(directory.join(file)).map_err(|error| format!("{file}: {error}"))
    };
    let questions = Questions::read(&contents(questions)?)
        .ok_or(format!("{questions} has a line that is no question"))?;
    Ok(printed::answers(text, &contents(text)?, &questions).all())
}

/// The word as a number.
fn number(word: &str) -> Result<u64, String> {
    word.parse()
        .map_err(|_| format!("{word} is no such number"))
}
