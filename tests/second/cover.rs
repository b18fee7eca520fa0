//! What is promised of Prefixes held against what the proved program prints: the prefixes hold just the addresses of the range, and
//! no fewer do.
//!
//! Nothing of the second implementation's methods is used: addresses are tried one by one, and the fewest prefixes are counted by
//! steps from one end of the range to the other.

use crate::frames::digits;
use crate::prefixes::PREFIX_BYTES;
use crate::printed::Answers;
use crate::promises::{answer_and_output, bytes, check_output, ensure, nth_line, policy, Policy};
use crate::sides::Side;
use crate::table::Range;

/// Checks Prefixes' answers to the sides of an accepted text, or says what is broken.
pub fn check(text: &[u8], sides: &[Side], answers: &Answers) -> Result<(), String> {
    let policy = policy(text);
    for (place, side) in sides.iter().enumerate() {
        check_answer(&policy, side, nth_line(&answers.prefixes, place))
            .map_err(|broken| format!("Prefixes of side {place} {broken}"))?;
    }
    Ok(())
}

/// Checks the returned count or the refusal, the prefixes, and that all else of the output is untouched.
fn check_answer(policy: &Policy, side: &Side, printed: &[u8]) -> Result<(), String> {
    let [answer, in_digits] = answer_and_output(printed);
    let output = bytes(in_digits);
    ensure(digits(&output) == in_digits, || {
        "gives an output of other characters than digits in capitals".into()
    })?;
    ensure(output.len() == usize::from(side.room), || {
        "leaves another number of bytes than it got".into()
    })?;
    let asked = addresses(policy, side).and_then(|range| match fewest(range) {
        count if PREFIX_BYTES * count > output.len() => Err("!0800"),
        count => Ok((range, count)),
    });
    match asked {
        Ok((range, count)) => {
            let expected = format!("{count:02X}");
            let length = PREFIX_BYTES * count;
            let list = check_output(answer, expected.as_bytes(), &output, length)?;
            check_list(list, range)
        }
        Err(refusal) => check_output(answer, refusal.as_bytes(), &output, 0).map(drop),
    }
}

/// The addresses on the side of the row, or the refusal.
fn addresses(policy: &Policy, side: &Side) -> Result<Range, &'static str> {
    let row = policy.rows.get(usize::from(side.row)).ok_or("!0900")?;
    match usize::from(side.number) {
        field @ 0..=1 => Ok(Range {
            low: row.low[field],
            high: row.high[field],
        }),
        _ => Err("!0C00"),
    }
}

/// How many prefixes lead from the range's low to its high, each as short as one can be that begins past the former ones and ends
/// inside the range.
fn fewest(range: Range) -> usize {
    let mut at = u64::from(range.low);
    let behind = u64::from(range.high) + 1;
    let mut count = 0;
    while at < behind {
        let mut held = 1;
        while at % (2 * held) == 0 && at + 2 * held <= behind {
            held *= 2;
        }
        at += held;
        count += 1;
    }
    count
}

/// Checks that the prefixes ascend and hold just the addresses of the range. The latter is tried at all ends of prefixes and range
/// and next to them; every other address is in the same of these as its neighbours.
fn check_list(list: &[u8], range: Range) -> Result<(), String> {
    let prefixes: Vec<&[u8]> = list.chunks(PREFIX_BYTES).collect();
    ensure(prefixes.windows(2).all(|pair| pair[0] < pair[1]), || {
        "writes prefixes that do not ascend".into()
    })?;
    let mut blocks = Vec::new();
    for prefix in prefixes {
        blocks.push(block(prefix).ok_or("writes a length above 32, or a bit past the length")?);
    }
    let ends = blocks
        .iter()
        .chain([&range])
        .flat_map(|block| [block.low, block.high]);
    for address in ends.flat_map(|end| [end.saturating_sub(1), end, end.saturating_add(1)]) {
        let held = blocks.iter().any(|block| within(address, block));
        ensure(held == within(address, &range), || {
            format!("has {address:08X} in some prefix and not in the range, or the reverse")
        })?;
    }
    Ok(())
}

/// The addresses that a prefix's bytes stand for, if its length is at most 32 and the bits past it are 0.
fn block(prefix: &[u8]) -> Option<Range> {
    let address = prefix[..4]
        .iter()
        .fold(0, |value, &b| value << 8 | u32::from(b));
    let past = u32::MAX.checked_shr(u32::from(prefix[4])).unwrap_or(0);
    let lawful = prefix[4] <= 32 && address & past == 0;
    lawful.then_some(Range {
        low: address,
        high: address | past,
    })
}

/// Whether the address is in the range.
fn within(address: u32, range: &Range) -> bool {
    range.low <= address && address <= range.high
}

#[cfg(test)]
mod tests {
    use super::*;
    use crate::cases::case;
    use crate::printed::answers;
    use crate::questions::Questions;
    use crate::reader::read;

    /// One row, with sources 10.1.0.10 to 10.1.0.29 and destinations 127.255.255.255 to 128.0.0.0.
    const TEXT: &str = "01FF007E\n01FF007E\n\
        0201FFFFFF\n0202FFFFFF\n0203FFFFFF\n0204FFFFFF\n0205FFFFFF\n0206FFFFFF\n03000000\n\
        05000001030102030A01000A0A01001D7FFFFFFF800000000000000000000000000000\n";

    /// Whether the promises hold of Prefixes' answers to these sides after a part of them, if it is there, was replaced.
    fn holds(sides: &[u8], part: &str, replacement: &str) -> bool {
        let questions = Questions::read(sides).unwrap();
        let mut answers = answers("text", TEXT.as_bytes(), &questions);
        let prefixes = String::from_utf8(answers.prefixes).unwrap();
        assert!(prefixes.contains(part), "{part} is not in {prefixes}");
        answers.prefixes = prefixes.replacen(part, replacement, 1).into_bytes();
        check(TEXT.as_bytes(), &questions.sides, &answers).is_ok()
    }

    #[test]
    fn right_answers_keep_the_promises() {
        let sides =
            b"00000019\n00000018\n0000001A\n0001000A\n00010200\n00010000\n00020005\n01000019\nFFFF0000\n";
        assert!(holds(sides, "", ""));
    }

    #[test]
    fn wrong_answers_break_them() {
        // The prefixes are 0A01000A1F 0A01000C1E 0A0100101D 0A0100181E 0A01001C1F.
        for (part, replacement) in [
            ("05 ", "04 "),
            ("05 ", "06 "),
            ("05 ", "!0800 "),
            ("0A01000A1F", "0A01000A20"),
            ("0A01000A1F", "0A01000A1E"),
            ("0A01000A1F", "0A01000A3F"),
            ("0A01000A1F", "0A01000B20"),
            ("0A01000A1F", "0a01000a1f"),
            ("0A0100101D", "0A0100111D"),
            ("0A01000A1F0A01000C1E", "0A01000C1E0A01000A1F"),
            ("0A0100181E0A01001C1F", "0A0100181E0A0100181E"),
            ("0A01000C1E", "0A01000A1F"),
            ("0A01001C1F", "0A01001C1E"),
            ("0A01001C1F", "0A01001C20"),
            ("0A01001C1F", "0A01001E1F"),
            (
                "05 0A01000A1F0A01000C1E0A0100101D0A0100181E0A01001C1F2E2E2E2E2E",
                "06 0A01000A1F0A01000C1E0A0100101D0A0100181E0A01001C200A01001D20",
            ),
            ("2E2E", "2E00"),
            ("2E2E", "2E"),
        ] {
            assert!(
                !holds(b"0000001E\n", part, replacement),
                "{part} {replacement}"
            );
        }
        for (side, part, replacement) in [
            (b"0001000A\n", "02 7FFFFFFF20", "02 7FFFFFFF00"),
            (b"0001000A\n", "8000000020", "8000000001"),
            (b"00010009\n", "!0800", "02"),
            (b"00010009\n", "!0800 2E", "!0800 7F"),
            (b"00020009\n", "!0C00", "!0800"),
            (b"00020009\n", "!0C00 2E", "!0C00 7F"),
            (b"01020009\n", "!0900", "!0C00"),
            (b"01000009\n", "!0900", "!0800"),
        ] {
            assert!(!holds(side, part, replacement), "{part} {replacement}");
        }
    }

    #[test]
    fn seeded_answers_keep_the_promises() {
        for number in 0..300 {
            let case = case(4, number);
            if read(&case.text).is_ok() {
                let answers = answers("text", &case.text, &case.questions);
                assert_eq!(check(&case.text, &case.questions.sides, &answers), Ok(()));
            }
        }
    }
}
