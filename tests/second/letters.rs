//! The case of letters: texts in other cases, and what the answers to two texts that differ only so owe each other.

use crate::printed::Answers;
use crate::random::Random;

/// How the letters A to F of a text are written.
#[derive(Clone, Copy, PartialEq, Eq)]
enum Style {
    Capital,
    Small,
    /// Each line in one case.
    ByLine,
    /// Each letter in a case of its own.
    ByLetter,
}

/// The text with its letters A to F in capitals, in small letters or in both; every other character stays.
pub fn recased(random: &mut Random, text: &[u8]) -> Vec<u8> {
    let style = random.pick(&[
        Style::Capital,
        Style::Capital,
        Style::Small,
        Style::ByLine,
        Style::ByLetter,
    ]);
    let mut small = style == Style::Small;
    let mut line_start = true;
    text.iter()
        .map(|&character| {
            if style == Style::ByLetter || style == Style::ByLine && line_start {
                small = random.chance(50);
            }
            line_start = character == b'\n';
            match character {
                b'A'..=b'F' | b'a'..=b'f' if small => character.to_ascii_lowercase(),
                b'A'..=b'F' | b'a'..=b'f' => character.to_ascii_uppercase(),
                other => other,
            }
        })
        .collect()
}

/// Whether two texts are as long, and have at each place the same byte or the two cases of a letter a to f.
pub fn same_but_case(one: &[u8], other: &[u8]) -> bool {
    let letter = |byte: u8| matches!(byte.to_ascii_lowercase(), b'a'..=b'f');
    one.len() == other.len()
        && one
            .iter()
            .zip(other)
            .all(|(&a, &b)| a == b || letter(a) && a.eq_ignore_ascii_case(&b))
}

/// Checks the answers to two texts that differ only in the case of letters, or says what differs.
pub fn check(one: &Answers, other: &Answers) -> Result<(), String> {
    let differing = [
        ("Check", one.check == other.check),
        ("Line", same_but_case(&one.lines, &other.lines)),
        ("List", one.list == other.list),
        ("Witness", one.witnesses == other.witnesses),
        ("Mesh", one.meshes == other.meshes),
        ("Strike", same_but_case(&one.struck, &other.struck)),
        ("Winner", one.winners == other.winners),
        ("Join", one.joins == other.joins),
        ("Prefixes", one.prefixes == other.prefixes),
    ]
    .into_iter()
    .find(|&(_, same)| !same);
    match differing {
        Some((call, _)) => Err(format!(
            "{call} answers otherwise to the text in another case"
        )),
        None => Ok(()),
    }
}

#[cfg(test)]
mod tests {
    use super::*;
    use crate::couples::Couple;
    use crate::printed::answers;
    use crate::questions::Questions;

    const CAPITALS: &[u8] = b"01FF007E\n0201ABCDEF\n";

    #[test]
    fn texts_that_differ_only_in_case() {
        assert!(same_but_case(CAPITALS, CAPITALS));
        assert!(same_but_case(CAPITALS, b"01fF007e\n0201AbcdEf\n"));
        assert!(!same_but_case(CAPITALS, &CAPITALS[1..]));
        assert!(!same_but_case(b"01G", b"01g"));
        assert!(!same_but_case(b"01A", b"01b"));
        assert!(!same_but_case(b"01@", b"01`"));
        assert!(!same_but_case(b"0\x01", b"0!"));
    }

    #[test]
    fn other_cases_of_a_text() {
        let random = &mut Random::new(1);
        let texts: Vec<Vec<u8>> = (0..100).map(|_| recased(random, CAPITALS)).collect();
        assert!(texts.iter().all(|text| same_but_case(text, CAPITALS)));
        for style in [
            &b"01FF007E\n0201ABCDEF\n"[..],
            b"01ff007e\n0201abcdef\n",
            b"01FF007E\n0201abcdef\n",
        ] {
            assert!(texts.iter().any(|text| text == style));
        }
        assert!(texts.iter().any(|text| text.starts_with(b"01fF")));
    }

    #[test]
    fn joined_lines_are_in_capitals() {
        let capitals =
            b"01FF007E\n0201FFFFFF\n0202FFFFFF\n0203FFFFFF\n0204FFFFFF\n0205FFFFFF\n0206FFFFFF\n\
            03000000\n05000000030A0B0C0A0A0A0A0B0B0B0B0C0C0C0C0D0D0D0D0E0E0E0F0F0F0FFF00FF0100\n";
        let small = capitals.to_ascii_lowercase();
        let questions = Questions {
            couples: vec![Couple {
                i: 0,
                j: 0,
                room: 74,
            }],
            ..Questions::default()
        };
        let of_capitals = answers("text", capitals, &questions);
        let mut of_small = answers("text", &small, &questions);
        assert_eq!(
            of_capitals.joins,
            b"48 05000000030A0B0C0A0A0A0A0B0B0B0B0C0C0C0C0D0D0D0D0E0E0E0F0F0F0FFF00FF0100..\n"
        );
        assert!(check(&of_capitals, &of_small).is_ok());
        of_small.joins.make_ascii_lowercase();
        assert!(check(&of_capitals, &of_small).is_err());
    }

    #[test]
    fn answers_that_differ_are_found() {
        let right = || answers("text", b"01FF007E\n", &Questions::default());
        assert!(check(&right(), &right()).is_ok());
        let all_alter: [fn(&mut Answers); 9] = [
            |answers| answers.check = b"text 010000\n".to_vec(),
            |answers| answers.lines = b"05\n".to_vec(),
            |answers| answers.list.clear(),
            |answers| answers.witnesses = b"dead\n".to_vec(),
            |answers| answers.meshes = b"dead\n".to_vec(),
            |answers| answers.struck[1] = b'9',
            |answers| answers.winners = b"00\n".to_vec(),
            |answers| answers.joins = b"!0900 \n".to_vec(),
            |answers| answers.prefixes = b"!0900 \n".to_vec(),
        ];
        for (place, alter) in all_alter.into_iter().enumerate() {
            let mut wrong = right();
            alter(&mut wrong);
            assert!(check(&right(), &wrong).is_err(), "alteration {place}");
        }
    }
}
