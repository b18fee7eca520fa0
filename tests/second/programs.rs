//! Running the proved programs.

use crate::cases::Case;
use std::fs;
use std::io::{ErrorKind, Write};
use std::path::{Path, PathBuf};
use std::process::{Command, Stdio};
use std::thread::sleep;
use std::time::Duration;

/// Where the programs are, and a directory for the files that `answers` reads.
pub struct Programs {
    pub answers: PathBuf,
    pub rowlist: PathBuf,
    pub strike: PathBuf,
    pub directory: PathBuf,
}

impl Programs {
    /// The programs in `binaries`, with a new directory for the worker of this number.
    pub fn new(binaries: &Path, worker: usize) -> Result<Programs, String> {
        let program = |name: &str| {
            let path = binaries.join(name);
            fs::canonicalize(&path).map_err(|error| format!("{}: {error}", path.display()))
        };
        let name = format!("second-{}-{worker}", std::process::id());
        let programs = Programs {
            answers: program("answers")?,
            rowlist: program("rowlist")?,
            strike: program("strike")?,
            directory: std::env::temp_dir().join(name),
        };
        fs::create_dir(&programs.directory).map_err(message)?;
        Ok(programs)
    }

    /// What `answers` prints of the cases, whose texts are named by their places.
    pub fn answers<'c>(&self, cases: impl Iterator<Item = &'c Case>) -> Result<Vec<u8>, String> {
        let mut command = Command::new(&self.answers);
        command.current_dir(&self.directory).stdin(Stdio::null());
        for (place, case) in cases.enumerate() {
            let name = name(place);
            let questions = format!("{name}-questions");
            write_files(
                case,
                &self.directory.join(&name),
                &self.directory.join(&questions),
            )?;
            command.arg(name).arg(questions);
        }
        let output = command.output().map_err(message)?;
        if !output.status.success() {
            return Err(format!("answers ended with {}", output.status));
        }
        Ok(output.stdout)
    }
}

impl Drop for Programs {
    fn drop(&mut self) {
        // Files left in the system's temporary directory do no harm.
        let _ = fs::remove_dir_all(&self.directory);
    }
}

/// The name of the text at this place.
pub fn name(place: usize) -> String {
    format!("text-{place}")
}

/// Writes a case's text and questions to two files.
pub fn write_files(case: &Case, text_file: &Path, questions_file: &Path) -> Result<(), String> {
    fs::write(text_file, &case.text).map_err(message)?;
    fs::write(questions_file, case.questions.lines()).map_err(message)
}

/// What the program prints of an input that comes in these pieces, with a pause between them.
pub fn piped(program: &Path, pieces: &[&[u8]]) -> Result<Vec<u8>, String> {
    let mut child = Command::new(program)
        .stdin(Stdio::piped())
        .stdout(Stdio::piped())
        .spawn()
        .map_err(|error| format!("{}: {error}", program.display()))?;
    if let Some(mut input) = child.stdin.take() {
        for (place, piece) in pieces.iter().enumerate() {
            if place > 0 {
                sleep(Duration::from_millis(2));
            }
            match input.write_all(piece) {
                // A program need not read what lies past the longest input.
                Err(error) if error.kind() == ErrorKind::BrokenPipe => {}
                written => written.map_err(message)?,
            }
        }
    }
    let output = child.wait_with_output().map_err(message)?;
    if output.status.code().is_none() {
        return Err(format!(
            "{} ended with {}",
            program.display(),
            output.status
        ));
    }
    Ok(output.stdout)
}

/// What an error says.
fn message(error: std::io::Error) -> String {
    error.to_string()
}
