//! The seven calls that are measured, of the static libraries and of the second implementation. Each reads its text.

use crate::calls::{write, Reading};
use crate::frames;
use crate::prefixes::Prefix;
use crate::sides::Side;
use crate::table::{Refusal, Table};

extern "C" {
    fn lainukesk_list(text: *const u8, len: usize, out: *mut u8, out_len: usize) -> u64;
    fn timed_check(text: *const u8, len: usize) -> u64;
    fn timed_witness(text: *const u8, len: usize, row: usize) -> u64;
    fn timed_mesh(text: *const u8, len: usize, row: usize) -> u64;
    fn timed_strike(text: *const u8, len: usize, out: *mut u8, out_len: usize) -> u64;
    fn timed_join(
        text: *const u8,
        len: usize,
        i: usize,
        j: usize,
        out: *mut u8,
        out_len: usize,
    ) -> u64;
    fn timed_prefixes(
        text: *const u8,
        len: usize,
        row: usize,
        side: u8,
        out: *mut u8,
        out_len: usize,
    ) -> u64;
}

/// The side that the prefixes are asked of.
const SOURCE: u8 = 0;

/// A buffer of this many bytes holds any list and any struck text.
pub const OUT_BYTES: usize = 41_376;

#[derive(Clone, Copy, Debug)]
pub enum Call {
    Check,
    List,
    Witness,
    Mesh,
    Strike,
    Join,
    Prefixes,
}

pub const CALLS: [Call; 7] = [
    Call::Check,
    Call::List,
    Call::Witness,
    Call::Mesh,
    Call::Strike,
    Call::Join,
    Call::Prefixes,
];

/// A text and the number of its rows.
#[derive(Clone)]
pub struct Text {
    pub bytes: Vec<u8>,
    pub rows: usize,
}

impl Text {
    /// The table's text.
    pub fn of(table: &Table) -> Text {
        Text {
            bytes: frames::text(&frames::lines(table)),
            rows: table.rows.len(),
        }
    }

    /// The text of the table up to the row, which is the last.
    pub fn up_to(table: &Table, row: usize) -> Text {
        let mut table = table.clone();
        table.rows.truncate(row + 1);
        Text::of(&table)
    }

    /// What the static library answers: 0 for a text that Check accepts, List's count, Witness and Mesh of the last row as 0 or, where
    /// it is dead, 1, the length of Strike's text, and that of the line of the last row joined with itself, the count of its source's
    /// prefixes.
    pub fn here(&self, call: Call, out: &mut [u8]) -> u64 {
        let (text, len) = (self.bytes.as_ptr(), self.bytes.len());
        // The slices are not null and have the lengths given.
        unsafe {
            match call {
                Call::Check => timed_check(text, len),
                Call::List => lainukesk_list(text, len, out.as_mut_ptr(), out.len()),
                Call::Witness => timed_witness(text, len, self.rows - 1),
                Call::Mesh => timed_mesh(text, len, self.rows - 1),
                Call::Strike => timed_strike(text, len, out.as_mut_ptr(), out.len()),
                Call::Join => {
                    let last = self.rows - 1;
                    timed_join(text, len, last, last, out.as_mut_ptr(), out.len())
                }
                Call::Prefixes => {
                    let last = self.rows - 1;
                    timed_prefixes(text, len, last, SOURCE, out.as_mut_ptr(), out.len())
                }
            }
        }
    }

    /// The same of the second implementation.
    pub fn second(&self, call: Call, out: &mut [u8]) -> Result<u64, Refusal> {
        let reading = Reading::of(&self.bytes);
        Ok(match call {
            Call::Check => reading.check().map(|_| 0)?,
            Call::List => {
                let entries = reading.list()?;
                write(&entries.concat(), out)?;
                entries.len() as u64
            }
            Call::Witness => reading.witness(self.rows - 1)?.is_none() as u64,
            Call::Mesh => reading.mesh(self.rows - 1)?.is_none() as u64,
            Call::Strike => {
                let struck = reading.strike()?;
                write(&struck, out)?;
                struck.len() as u64
            }
            Call::Join => {
                let line = reading.join(self.rows - 1, self.rows - 1)?;
                write(&line, out)?;
                line.len() as u64
            }
            Call::Prefixes => {
                let source = Side {
                    row: (self.rows - 1) as u8,
                    number: SOURCE,
                    room: 0,
                };
                let list = reading.prefixes(&source)?;
                let bytes: Vec<u8> = list.iter().flat_map(Prefix::bytes).collect();
                write(&bytes, out)?;
                list.len() as u64
            }
        })
    }
}
