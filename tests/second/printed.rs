//! What the product's programs print: `answers`, `rowlist` and `strike`.

use crate::calls::{write, Reading};
use crate::couples::Couple;
use crate::differences::shown;
use crate::frames::digits;
use crate::kinds::Entry;
use crate::prefixes::{Prefix, PREFIX_BYTES};
use crate::probes::packet_digits;
use crate::questions::Questions;
use crate::sides::Side;
use crate::table::{Packet, Refusal};

/// What fills the output of Join and of Prefixes before the call.
pub const UNTOUCHED: u8 = b'.';
/// The longest input that `rowlist` and `strike` read.
pub const MOST_INPUT: usize = 16_384;

/// What `answers` prints of a text, call by call.
pub struct Answers {
    pub check: Vec<u8>,
    pub lines: Vec<u8>,
    pub list: Vec<u8>,
    pub witnesses: Vec<u8>,
    pub meshes: Vec<u8>,
    pub struck: Vec<u8>,
    pub winners: Vec<u8>,
    pub joins: Vec<u8>,
    pub prefixes: Vec<u8>,
}

/// What `answers` prints of a text with this name and these questions. Subtracting and the mesh are to give the same of each row: else one
/// of them is wrong here.
pub fn answers(name: &str, text: &[u8], questions: &Questions) -> Answers {
    let reading = Reading::of(text);
    let rows = reading.check().map_or(0, |counts| counts[2]);
    let witnesses: Vec<u8> = (0..=rows)
        .flat_map(|row| ended(witness(reading.witness(row))))
        .collect();
    let meshes: Vec<u8> = (0..=rows)
        .flat_map(|row| ended(witness(reading.mesh(row))))
        .collect();
    assert!(
        witnesses == meshes,
        "in the second implementation the mesh gives\n{}and subtracting\n{}of the text\n{}",
        shown(&meshes),
        shown(&witnesses),
        shown(text)
    );
    Answers {
        check: check(name, &reading),
        lines: (0..=rows)
            .flat_map(|row| ended(reading.line(row).to_vec()))
            .collect(),
        list: list(&reading),
        witnesses,
        meshes,
        struck: reading.strike().unwrap_or_else(refused_line),
        winners: questions
            .probes
            .iter()
            .flat_map(|probe| ended(winner(reading.winner(probe))))
            .collect(),
        joins: questions
            .couples
            .iter()
            .flat_map(|couple| ended(join(&reading, couple)))
            .collect(),
        prefixes: questions
            .sides
            .iter()
            .flat_map(|side| ended(prefixes(&reading, side)))
            .collect(),
    }
}

impl Answers {
    /// All of it, in the order in which it is printed.
    pub fn all(&self) -> Vec<u8> {
        [
            &self.check[..],
            &self.lines,
            &self.list,
            &self.witnesses,
            &self.meshes,
            &self.struck,
            &self.winners,
            &self.joins,
            &self.prefixes,
        ]
        .concat()
    }
}

/// What `rowlist` or `strike` prints of an input, given what `answers` prints of List or Strike.
pub fn of_input<'a>(input: &[u8], answer: &'a [u8]) -> &'a [u8] {
    if input.len() > MOST_INPUT {
        b"!00\n"
    } else {
        answer
    }
}

/// The name, and the counts or the refusal.
fn check(name: &str, reading: &Reading) -> Vec<u8> {
    let counts = reading
        .check()
        .map_or_else(refused, |counts| digits(&counts.map(|count| count as u8)));
    ended([name.as_bytes(), b" ", &counts].concat())
}

/// The anomalies, six digits a line, or the refusal.
fn list(reading: &Reading) -> Vec<u8> {
    let lines = |entries: Vec<Entry>| {
        entries
            .iter()
            .flat_map(|entry| ended(digits(entry)))
            .collect()
    };
    reading.list().map_or_else(refused_line, lines)
}

/// A witness's digits, `dead` or the refusal.
fn witness(witness: Result<Option<Packet>, Refusal>) -> Vec<u8> {
    match witness {
        Ok(Some(packet)) => packet_digits(&packet),
        Ok(None) => b"dead".to_vec(),
        Err(refusal) => refused(refusal),
    }
}

/// A winner's digits, `none` or the refusal.
fn winner(winner: Result<Option<usize>, Refusal>) -> Vec<u8> {
    match winner {
        Ok(Some(row)) => digits(&[row as u8]),
        Ok(None) => b"none".to_vec(),
        Err(refusal) => refused(refusal),
    }
}

/// The digits of the joined line's length or the refusal, and all of the output after the call.
fn join(reading: &Reading, couple: &Couple) -> Vec<u8> {
    let line = reading.join(usize::from(couple.i), usize::from(couple.j));
    let [answer, output] = written(line, 1, usize::from(couple.room));
    [&answer[..], b" ", &output].concat()
}

/// The digits of the number of prefixes or the refusal, and those of all of the output after the call.
fn prefixes(reading: &Reading, side: &Side) -> Vec<u8> {
    let bytes = |list: Vec<Prefix>| list.iter().flat_map(Prefix::bytes).collect();
    let list = reading.prefixes(side).map(bytes);
    let [answer, output] = written(list, PREFIX_BYTES, usize::from(side.room));
    [&answer[..], b" ", &digits(&output)].concat()
}

/// What a call answers that writes this result, and its output of the length `room` after the call. The answer is the number of
/// the result's parts of so many bytes, or the refusal.
fn written(result: Result<Vec<u8>, Refusal>, part: usize, room: usize) -> [Vec<u8>; 2] {
    let mut output = vec![UNTOUCHED; room];
    let answer = result.and_then(|bytes| {
        write(&bytes, &mut output)?;
        Ok(digits(&[(bytes.len() / part) as u8]))
    });
    [answer.unwrap_or_else(refused), output]
}

/// `!` and two digits each of number and line.
fn refused(refusal: Refusal) -> Vec<u8> {
    format!("!{:02X}{:02X}", refusal.number, refusal.line).into_bytes()
}

/// The same with a line feed.
fn refused_line(refusal: Refusal) -> Vec<u8> {
    ended(refused(refusal))
}

/// The line with its line feed.
fn ended(mut line: Vec<u8>) -> Vec<u8> {
    line.push(b'\n');
    line
}
