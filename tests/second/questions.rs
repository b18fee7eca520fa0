//! What is asked of a text: probes for Winner, couples of rows for Join, and sides of rows for Prefixes.

use crate::couples::{couples, Couple};
use crate::frames::text;
use crate::probes::{probes, Probe};
use crate::random::Random;
use crate::shared::shared;
use crate::sides::{sides, Side};
use crate::table::Table;

/// The questions that one file holds.
#[derive(Clone, Debug, Default, PartialEq, Eq)]
pub struct Questions {
    pub probes: Vec<Probe>,
    pub couples: Vec<Couple>,
    pub sides: Vec<Side>,
}

impl Questions {
    /// The questions that the lines of a file say, or none if one of them says none.
    pub fn read(file: &[u8]) -> Option<Questions> {
        let mut questions = Questions::default();
        for line in file.split_inclusive(|&c| c == b'\n') {
            let line = line.strip_suffix(b"\n")?;
            if let Some(couple) = Couple::read(line) {
                questions.couples.push(couple);
            } else if let Some(side) = Side::read(line) {
                questions.sides.push(side);
            } else {
                questions.probes.push(Probe::read(line)?);
            }
        }
        Some(questions)
    }

    /// The lines of a file of these questions, the couples first, then the sides.
    pub fn lines(&self) -> Vec<u8> {
        let couples = self.couples.iter().map(Couple::digits);
        let sides = self.sides.iter().map(Side::digits);
        let probes = self.probes.iter().map(Probe::digits);
        text(&couples.chain(sides).chain(probes).collect::<Vec<_>>())
    }
}

/// Seeded questions about the table.
pub fn questions(random: &mut Random, table: &Table) -> Questions {
    let mut questions = Questions {
        probes: probes(random, table),
        couples: couples(random, table),
        sides: sides(random, table),
    };
    questions.probes.extend(shared(random, table));
    questions
}

#[cfg(test)]
mod tests {
    use super::*;

    #[test]
    fn lines_are_read_in_any_order() {
        let file =
            b"00010300000000000000000000000000\n3F010136\n000146\n02000103000000000000000000000000\n\
            3fFF00\nfFfF0000\n";
        let questions = Questions::read(file).unwrap();
        assert_eq!(questions.probes.len(), 2);
        assert_eq!(
            questions.lines(),
            b"000146\n3FFF00\n3F010136\nFFFF0000\n\
            00010300000000000000000000000000\n02000103000000000000000000000000\n"
        );
        assert_eq!(Questions::read(&questions.lines()), Some(questions));
        for wrong in [
            &b"000146"[..],
            b"0001\n",
            b"\n",
            b"00014g\n",
            b"00000005",
            b"00000201\n",
        ] {
            assert_eq!(Questions::read(wrong), None);
        }
    }
}
