//! The nine calls on a text, with their refusals.

use crate::dead;
use crate::frames::row_line;
use crate::join::joined;
use crate::kinds::{self, Entry};
use crate::mesh;
use crate::prefixes::{prefixes, Prefix, ADDRESS_BITS};
use crate::probes::Probe;
use crate::reader::{is_entity, read};
use crate::sides::Side;
use crate::table::{Packet, Refusal, Table};

/// The refusal of an output shorter than the result.
const SHORT_OUTPUT: Refusal = Refusal { number: 8, line: 0 };
/// The refusal of a row number that is no row's.
const NO_SUCH_ROW: Refusal = Refusal { number: 9, line: 0 };
/// The refusal of a probe whose a or b is no entity.
const NO_SUCH_ENTITY: Refusal = Refusal {
    number: 10,
    line: 0,
};
/// The refusal of two rows that have no joined one.
const NOT_ALIKE: Refusal = Refusal {
    number: 11,
    line: 0,
};
/// The refusal of a side that is neither source nor destination.
const NO_SUCH_SIDE: Refusal = Refusal {
    number: 12,
    line: 0,
};

/// A text, read once for all calls on it.
pub struct Reading<'t> {
    text: &'t [u8],
    table: Result<Table, Refusal>,
}

impl<'t> Reading<'t> {
    /// The reading of a text.
    pub fn of(text: &'t [u8]) -> Reading<'t> {
        Reading {
            text,
            table: read(text),
        }
    }

    /// The numbers of entities, filters and rows.
    pub fn check(&self) -> Result<[usize; 3], Refusal> {
        let table = self.table()?;
        Ok([table.entities.len(), table.filters.len(), table.rows.len()])
    }

    /// The row's line in the text without line feed; empty on any refusal.
    pub fn line(&self, row: usize) -> &'t [u8] {
        match self.table_with_row(row) {
            Ok(table) => &self.text[table.row_places[row].clone()],
            Err(_) => &[],
        }
    }

    /// The anomalies: those of rows in ascending order, then those of filters.
    pub fn list(&self) -> Result<Vec<Entry>, Refusal> {
        Ok(kinds::list(self.table()?))
    }

    /// The row's least winning packet, or none if it is dead.
    pub fn witness(&self, row: usize) -> Result<Option<Packet>, Refusal> {
        Ok(dead::witness(self.table_with_row(row)?, row))
    }

    /// The same by the mesh.
    pub fn mesh(&self, row: usize) -> Result<Option<Packet>, Refusal> {
        Ok(mesh::witness(self.table_with_row(row)?, row))
    }

    /// The text without its dead rows' lines.
    pub fn strike(&self) -> Result<Vec<u8>, Refusal> {
        let table = self.table()?;
        let mut struck = Vec::new();
        let mut kept_from = 0;
        for (row, place) in table.row_places.iter().enumerate() {
            if dead::dead(table, row) {
                struck.extend_from_slice(&self.text[kept_from..place.start]);
                kept_from = place.end + 1;
            }
        }
        struck.extend_from_slice(&self.text[kept_from..]);
        Ok(struck)
    }

    /// The row that wins the probe in the group that the probe's row names.
    pub fn winner(&self, probe: &Probe) -> Result<Option<usize>, Refusal> {
        let row = usize::from(probe.row);
        let table = self.table_with_row(row)?;
        if !is_entity(table, probe.a) || !is_entity(table, probe.b) {
            return Err(NO_SUCH_ENTITY);
        }
        Ok(dead::winner(table, row, probe.a, probe.b, &probe.packet))
    }

    /// The line of the row that joins two rows, without line feed.
    pub fn join(&self, i: usize, j: usize) -> Result<Vec<u8>, Refusal> {
        let table = self.table_with_row(i.max(j))?;
        let row = joined(table, i, j).ok_or(NOT_ALIKE)?;
        Ok(row_line(&row))
    }

    /// The prefixes of the addresses on a side of a row, ascending.
    pub fn prefixes(&self, side: &Side) -> Result<Vec<Prefix>, Refusal> {
        let row = usize::from(side.row);
        let table = self.table_with_row(row)?;
        let addresses = side.addresses(&table.rows[row]).ok_or(NO_SUCH_SIDE)?;
        Ok(prefixes(addresses, ADDRESS_BITS))
    }

    /// The table of an accepted text.
    fn table(&self) -> Result<&Table, Refusal> {
        self.table.as_ref().map_err(|&refusal| refusal)
    }

    /// The table of a text that has the row.
    fn table_with_row(&self, row: usize) -> Result<&Table, Refusal> {
        let table = self.table()?;
        if row < table.rows.len() {
            Ok(table)
        } else {
            Err(NO_SUCH_ROW)
        }
    }
}

/// Copies the result to the start of the output if it fits.
pub fn write(result: &[u8], output: &mut [u8]) -> Result<(), Refusal> {
    output
        .get_mut(..result.len())
        .ok_or(SHORT_OUTPUT)?
        .copy_from_slice(result);
    Ok(())
}
