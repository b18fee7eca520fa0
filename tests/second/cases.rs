//! Seeded texts, each with the questions to ask of it.

use crate::covered::covered;
use crate::damage::damaged;
use crate::draft::Scale;
use crate::frames::{lines, text};
use crate::letters::recased;
use crate::long::long;
use crate::questions::{questions, Questions};
use crate::random::Random;
use crate::shapes::table;

/// Every so many cases the table is one of rows that mostly cover each other.
pub const COVERED: u64 = 21;

/// A text, the same in another case of its letters, its questions, and whether every probe of it can be tried.
pub struct Case {
    pub text: Vec<u8>,
    pub recased: Vec<u8>,
    pub questions: Questions,
    pub tiny: bool,
}

impl Case {
    /// A case of the text and questions alone.
    pub fn of_text(text: &[u8], questions: &Questions) -> Case {
        Case {
            text: text.to_vec(),
            recased: text.to_vec(),
            questions: questions.clone(),
            tiny: false,
        }
    }
}

/// The seed's case of this number: a lawful text, in a third of the cases damaged or too long, or one of a tiny table.
pub fn case(seed: u64, number: u64) -> Case {
    let random = &mut Random::new(seed.wrapping_mul(0x1_0000_0001).wrapping_add(number));
    let draw = random.below(100);
    let tiny = draw < 12;
    let scale = match draw {
        _ if tiny => Scale::Tiny,
        12..=15 => Scale::Full,
        _ => Scale::Usual,
    };
    let table = if number % COVERED == 0 {
        covered(random, scale)
    } else {
        table(random, scale)
    };
    let lines = lines(&table);
    let text = match random.below(100) {
        _ if tiny => text(&lines),
        0..=37 => damaged(random, lines),
        38..=39 => long(random, lines),
        _ => text(&lines),
    };
    Case {
        recased: recased(random, &text),
        text: recased(random, &text),
        questions: questions(random, &table),
        tiny,
    }
}
