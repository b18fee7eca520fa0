//! The tables of rows of one group stored in bench/tables, on which List or Mesh took long.

macro_rules! stored {
    ($($name:literal),*) => {
        &[$((
            $name,
            include_bytes!(concat!("../../bench/tables/", $name, ".table")),
        )),*]
    };
}

/// Their names and texts:
/// - nested: two rows that split the protocols and have all else, boxes from 0 to ever larger highs, and all packets again;
/// - hunted-1, hunted-2: boxes found by small changes of random ones that made List slower while it tried all candidates of a field;
///   the last row has all packets of the others;
/// - hunted-3, hunted-4, hunted-5: the worst that bench/hunt found in four minutes each, by the seeds 3, 1 and 2;
/// - mesh-1, mesh-2: those whose last row has most blocks examined of what bench/hunt found in 240 seconds each, by the seeds 1 and 2 with
///   mesh.
pub const STORED: &[(&str, &[u8])] = stored![
    "nested", "hunted-1", "hunted-2", "hunted-3", "hunted-4", "hunted-5", "mesh-1", "mesh-2"
];

#[cfg(test)]
mod tests {
    use super::*;
    use crate::reader::{read, MOST_ROWS};

    #[test]
    fn stored_tables_are_full() {
        for (name, text) in STORED {
            let rows = read(text).map(|table| table.rows.len());
            assert_eq!(rows, Ok(MOST_ROWS), "{name}");
        }
    }
}
