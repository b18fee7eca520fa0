//! What is told where answers part.

use crate::cases::case;

/// The number of the text on which answers part, and what is to be told of it.
pub struct Difference {
    pub number: u64,
    pub told: String,
}

impl Difference {
    /// Two answers that differ.
    pub fn between(number: u64, what: &str, second: &[u8], proved: &[u8]) -> Difference {
        let same = second.iter().zip(proved).take_while(|(s, p)| s == p);
        let line = 1 + same.filter(|(&byte, _)| byte == b'\n').count();
        let told = format!(
            "{what} differs at line {line}\nthe second implementation:\n{}the proved program:\n{}",
            shown(second),
            shown(proved)
        );
        Difference { number, told }
    }

    /// The difference, told of the text that was made of the numbered one.
    pub fn of(self, made: &str) -> Difference {
        Difference {
            told: format!("of the {made} text, {}", self.told),
            ..self
        }
    }

    /// The difference with the seed's text, the same in another case, and its questions.
    pub fn report(&self, seed: u64) -> String {
        let case = case(seed, self.number);
        format!(
            "text {} of seed {seed}: {}\nthe text:\n{}the same, recased:\n{}its questions:\n{}",
            self.number,
            self.told,
            shown(&case.text),
            shown(&case.recased),
            shown(&case.questions.lines())
        )
    }
}

/// The bytes for reading: other characters escaped, and a last line without line feed marked.
pub fn shown(bytes: &[u8]) -> String {
    let mut shown: String = bytes
        .split_inclusive(|&byte| byte == b'\n')
        .map(|line| match line.split_last() {
            Some((b'\n', line)) => format!("{}\n", line.escape_ascii()),
            _ => format!("{} (no line feed)\n", line.escape_ascii()),
        })
        .collect();
    if bytes.is_empty() {
        shown += "(nothing)\n";
    }
    shown
}
