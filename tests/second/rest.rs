//! What the proved program `answers` printed, compared call by call with the second implementation's answers; and its own answers of Witness
//! and of Mesh, held against each other.

use crate::differences::{shown, Difference};
use crate::printed::Answers;

/// What is not compared yet.
pub struct Rest<'p> {
    printed: &'p [u8],
}

impl Rest<'_> {
    /// All that was printed.
    pub fn new(printed: &[u8]) -> Rest<'_> {
        Rest { printed }
    }

    /// Compares the answers to the numbered text, which come first, and gives them. Mesh's are held against Witness's before.
    pub fn same(&mut self, number: u64, second: &Answers) -> Result<Answers, Difference> {
        let mut same = |call: &str, second: &[u8]| self.same_block(number, call, second);
        let check = same("Check", &second.check)?;
        let lines = same("Line", &second.lines)?;
        let list = same("List", &second.list)?;
        let witnesses = same("Witness", &second.witnesses)?;
        self.check_mesh(number, &witnesses)?;
        let mut same = |call: &str, second: &[u8]| self.same_block(number, call, second);
        Ok(Answers {
            check,
            lines,
            list,
            witnesses,
            meshes: same("Mesh", &second.meshes)?,
            struck: same("Strike", &second.struck)?,
            winners: same("Winner", &second.winners)?,
            joins: same("Join", &second.joins)?,
            prefixes: same("Prefixes", &second.prefixes)?,
        })
    }

    /// Checks that nothing is left.
    pub fn end(&self, number: u64) -> Result<(), Difference> {
        if self.printed.is_empty() {
            return Ok(());
        }
        let what = "the end of answers";
        Err(Difference::between(number, what, b"", self.printed))
    }

    /// Compares the call's answers, which come first, and gives them.
    fn same_block(
        &mut self,
        number: u64,
        call: &str,
        second: &[u8],
    ) -> Result<Vec<u8>, Difference> {
        let Some(after) = self.printed.strip_prefix(second) else {
            let what = format!("{call} by answers");
            let shown = beginning(self.printed, lines(second) + 1);
            return Err(Difference::between(number, &what, second, shown));
        };
        let proved = self.printed[..second.len()].to_vec();
        self.printed = after;
        Ok(proved)
    }

    /// Checks that Mesh's answers, which come first, are Witness's.
    fn check_mesh(&self, number: u64, witnesses: &[u8]) -> Result<(), Difference> {
        let meshes = beginning(self.printed, lines(witnesses));
        if meshes == witnesses {
            return Ok(());
        }
        let told = format!(
            "Mesh by answers differs from Witness by answers\nWitness:\n{}Mesh:\n{}",
            shown(witnesses),
            shown(meshes)
        );
        Err(Difference { number, told })
    }
}

/// How many lines were printed.
fn lines(printed: &[u8]) -> usize {
    printed.split_inclusive(|&byte| byte == b'\n').count()
}

/// The first lines of what was printed, so many or all.
fn beginning(printed: &[u8], count: usize) -> &[u8] {
    let lines = printed.split_inclusive(|&byte| byte == b'\n');
    &printed[..lines.take(count).map(<[u8]>::len).sum()]
}

#[cfg(test)]
mod tests {
    use super::*;
    use crate::printed::answers;
    use crate::questions::Questions;

    /// Three rows of one group, the third hidden by the other two together.
    const TEXT: &[u8] = b"01FF007E\n\
        0201FFFFFF\n0202FFFFFF\n0203FFFFFF\n0204FFFFFF\n0205FFFFFF\n0206FFFFFF\n03000000\n\
        0500000003030303000000000000000000000000000000000000000000000001000000\n\
        0500000003030303000000000000000000000000000000000000000000020003000000\n\
        0500000003030303000000000000000000000000000000000000000000010003000000\n";

    /// The second implementation's answers to the text.
    fn second() -> Answers {
        let questions = Questions::read(b"00000000000000000000000000000000\n000146\n00000006\n");
        answers("text", TEXT, &questions.unwrap())
    }

    /// What is told of the answers after `alter` has changed them, if something differs.
    fn told(alter: fn(&mut Answers)) -> Option<String> {
        let mut proved = second();
        alter(&mut proved);
        let printed = proved.all();
        let mut rest = Rest::new(&printed);
        let compared = rest.same(7, &second()).and_then(|answers| {
            assert_eq!(answers.all(), second().all());
            rest.end(7)
        });
        compared.err().map(|Difference { number, told }| {
            assert_eq!(number, 7);
            told
        })
    }

    #[test]
    fn the_same_answers_differ_nowhere() {
        assert_eq!(told(|_| {}), None);
        let twice = [second().all(), second().all()].concat();
        let mut rest = Rest::new(&twice);
        for _ in 0..2 {
            assert!(rest.same(7, &second()).is_ok());
        }
        assert!(rest.end(7).is_ok());
    }

    #[test]
    fn each_call_is_compared() {
        let all_alter: [(&str, fn(&mut Answers)); 9] = [
            ("Check by answers", |answers| answers.check[0] = b'T'),
            ("Line by answers", |answers| answers.lines[0] = b'1'),
            ("List by answers", |answers| answers.list[0] = b'1'),
            ("Witness by answers", |answers| answers.witnesses[0] = b'1'),
            ("Strike by answers", |answers| answers.struck[0] = b'1'),
            ("Winner by answers", |answers| answers.winners[0] = b'1'),
            ("Join by answers", |answers| answers.joins[0] = b'1'),
            ("Prefixes by answers", |answers| answers.prefixes[1] = b'2'),
            ("the end of answers", |answers| {
                answers.prefixes.push(b'\n');
            }),
        ];
        for (what, alter) in all_alter {
            let told = told(alter).unwrap();
            assert!(told.starts_with(&format!("{what} differs")), "{told}");
        }
    }

    #[test]
    fn mesh_is_held_against_witness() {
        let all_alter: [fn(&mut Answers); 6] = [
            |answers| answers.meshes[21] = b'1',
            |answers| answers.meshes.splice(..26, *b"dead").for_each(drop),
            |answers| answers.meshes.splice(54..58, [b'0'; 26]).for_each(drop),
            |answers| answers.meshes[61] = b'8',
            |answers| answers.meshes.clear(),
            |answers| {
                answers.meshes.drain(..27);
            },
        ];
        for (place, alter) in all_alter.into_iter().enumerate() {
            let told = told(alter).unwrap();
            let differs = told.starts_with("Mesh by answers differs from Witness by answers");
            assert!(differs, "alteration {place}: {told}");
        }
    }

    #[test]
    fn mesh_is_held_against_the_second_implementation() {
        let printed = second().all();
        let mut other = second();
        other.meshes[21] = b'1';
        let told = Rest::new(&printed).same(7, &other).err().unwrap().told;
        assert!(
            told.starts_with("Mesh by answers differs at line 1"),
            "{told}"
        );
    }
}
