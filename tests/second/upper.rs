//! What is promised of Join held against what the proved program prints of a tiny table: the joined row is the least that is ⪰
//! both rows.
//!
//! Nothing of the second implementation's methods is used: entities, coefficients and packets are tried one by one.

use crate::couples::Couple;
use crate::printed::{Answers, UNTOUCHED};
use crate::promises::{
    answer_and_output, bytes, check_output, ensure, in_box, nth_line, packets, policy, row, upward,
    Policy, Row,
};
use crate::table::{Packet, FIELDS};

/// The kind of a row's frame.
const KIND: u8 = 5;
/// How many bytes a row's frame has without gateways; the last of these is their number.
const ROW_BYTES: usize = 35;

/// Checks Join's answers to the couples, or says what is broken.
pub fn check(text: &[u8], couples: &[Couple], answers: &Answers) -> Result<(), String> {
    let policy = policy(text);
    let packets = packets(&[&policy])?;
    for (place, couple) in couples.iter().enumerate() {
        let printed = nth_line(&answers.joins, place);
        let mut exchanged = (0..couples.len()).filter(|&k| couples[k] == couple.exchanged());
        ensure(
            exchanged.all(|k| nth_line(&answers.joins, k) == printed),
            || format!("Join of couple {place} answers otherwise in the other order"),
        )?;
        let joined = check_answer(&policy, couple, printed)
            .map_err(|broken| format!("Join of couple {place} {broken}"))?;
        if let Some(line) = joined {
            check_line(&policy, &packets, couple, line, &answers.lines)
                .map_err(|broken| format!("the line joined of couple {place} {broken}"))?;
        }
    }
    Ok(())
}

/// The text with the first line that Join wrote added to it, if it wrote one.
pub fn extended(text: &[u8], answers: &Answers) -> Option<Vec<u8>> {
    let mut printed = answers.joins.split(|&c| c == b'\n');
    let joined = printed.find(|line| !line.starts_with(b"!"))?;
    let output = joined.splitn(2, |&c| c == b' ').nth(1)?;
    let line = output.split(|&byte| byte == UNTOUCHED).next()?;
    Some([text, line, b"\n"].concat())
}

/// Checks that the extended text is accepted, or says that it is not: Line gives its last line as that of its last row.
pub fn check_extended(text: &[u8], answers: &Answers) -> Result<(), String> {
    let line = text.split_inclusive(|&c| c == b'\n').last();
    let last_row = [line.unwrap_or_default(), b"\n"].concat();
    ensure(answers.lines.ends_with(&last_row), || {
        "the text with the line that Join wrote is not accepted".into()
    })
}

/// Checks the returned length or the refusal, and that all else of the output is untouched. Gives the line that was written.
fn check_answer<'p>(
    policy: &Policy,
    couple: &Couple,
    printed: &'p [u8],
) -> Result<Option<&'p [u8]>, String> {
    let [answer, output] = answer_and_output(printed);
    ensure(output.len() == usize::from(couple.room), || {
        "leaves another number of bytes than it got".into()
    })?;
    let (expected, length) = match [couple.i, couple.j].map(|k| policy.rows.get(usize::from(k))) {
        [Some(one), Some(other)] if !alike(policy, one, other) => (b"!0B00".to_vec(), 0),
        [Some(one), Some(_)] => match 2 * (ROW_BYTES + gateways(one)) {
            length if length > output.len() => (b"!0800".to_vec(), 0),
            length => (format!("{length:02X}").into_bytes(), length),
        },
        _ => (b"!0900".to_vec(), 0),
    };
    let line = check_output(answer, &expected, output, length)?;
    Ok(Some(line).filter(|line| !line.is_empty()))
}

/// How many gateways the row has, which its group names after holder and technology.
fn gateways(row: &Row) -> usize {
    row.group.len() - 2
}

/// Whether two rows have one group, and some entity is above both sources and some above both destinations.
fn alike(policy: &Policy, one: &Row, other: &Row) -> bool {
    let meet =
        |a: u8, b: u8| entities(policy).any(|e| upward(policy, a, e) && upward(policy, b, e));
    one.group == other.group
        && meet(one.source, other.source)
        && meet(one.destination, other.destination)
}

/// All entities.
fn entities(policy: &Policy) -> std::ops::Range<u8> {
    0..policy.parents.len() as u8
}

/// Checks the joined row's line against the couple's two rows and, if they are one, against its own line.
fn check_line(
    policy: &Policy,
    packets: &[Packet],
    couple: &Couple,
    line: &[u8],
    lines: &[u8],
) -> Result<(), String> {
    let digits = b"0123456789ABCDEF";
    ensure(line.iter().all(|c| digits.contains(c)), || {
        "has other characters than digits in capitals".into()
    })?;
    let frame = bytes(line);
    let named = usize::from(frame[ROW_BYTES - 1]);
    ensure(frame[0] == KIND && frame.len() == ROW_BYTES + named, || {
        "is no row's".into()
    })?;
    let own = bytes(nth_line(lines, usize::from(couple.i)));
    ensure(couple.i != couple.j || frame == own, || {
        "has other fields than the row joined with itself".into()
    })?;
    let both = [couple.i, couple.j].map(|k| &policy.rows[usize::from(k)]);
    check_row(policy, packets, &row(&frame), both)
}

/// Checks that what is above the joined row is what is above both rows, and that nothing but their bounds are its box's.
fn check_row(
    policy: &Policy,
    packets: &[Packet],
    joined: &Row,
    both: [&Row; 2],
) -> Result<(), String> {
    ensure(joined.group == both[0].group, || "has another group".into())?;
    let ends: [fn(&Row) -> u8; 2] = [|row| row.source, |row| row.destination];
    for end in ends {
        let least = entities(policy).contains(&end(joined))
            && entities(policy).all(|upper| {
                let above = |row: &Row| upward(policy, end(row), upper);
                above(joined) == both.into_iter().all(above)
            });
        ensure(least, || {
            "has an end that is not the lowest above both".into()
        })?;
    }
    for k in 0..joined.coefficients.len() {
        let least = (0..=u8::MAX).all(|upper| {
            let above = |row: &Row| upper >= row.coefficients[k];
            above(joined) == both.into_iter().all(above)
        });
        ensure(least, || format!("has not the larger coefficient {k}"))?;
    }
    let holds_both = packets
        .iter()
        .all(|packet| in_box(joined, packet) || !both.iter().any(|row| in_box(row, packet)));
    ensure(holds_both, || "has a box without a packet of theirs".into())?;
    for field in 0..FIELDS {
        let bounded = both.iter().any(|row| row.low[field] == joined.low[field])
            && both.iter().any(|row| row.high[field] == joined.high[field]);
        ensure(bounded, || {
            format!("has a bound of field {field} that neither row has")
        })?;
    }
    Ok(())
}

#[cfg(test)]
mod tests {
    use super::*;
    use crate::printed::answers;
    use crate::questions::Questions;

    /// Rows 0 and 1 with kin sources under entity 1, and row 2 with another holder.
    const TEXT: &str = "01FF007E\n01000200\n01010300\n01010300\n01FF007E\n\
        0201FFFFFF\n0202FFFFFF\n0203FFFFFF\n0204FFFFFF\n0205FFFFFF\n0206FFFFFF\n03000000\n\
        0500020403010203000000000000000000000000000000000000000000000001000000\n\
        0500030403030201000000000000000000000000000000000000000000020003000000\n\
        0504020403010203000000000000000000000000000000000000000000000001000000\n";

    /// Whether the promises hold of Join's answers to these couples after a part of them, if it is there, was replaced.
    fn holds(couples: &[u8], part: &str, replacement: &str) -> bool {
        let questions = Questions::read(couples).unwrap();
        let mut answers = answers("text", TEXT.as_bytes(), &questions);
        let joins = String::from_utf8(answers.joins).unwrap();
        assert!(joins.contains(part), "{part} is not in {joins}");
        answers.joins = joins.replacen(part, replacement, 1).into_bytes();
        check(TEXT.as_bytes(), &questions.couples, &answers).is_ok()
    }

    #[test]
    fn right_answers_keep_the_promises() {
        let couples = b"000146\n010046\n000048\n020246\n000246\n000346\nFF0300\n000145\n010000\n";
        assert!(holds(couples, "", ""));
    }

    #[test]
    fn wrong_answers_break_them() {
        // The line is 0500010403030203, a box of zeros but for destination ports 0000 to 0003, and 00.
        for (part, replacement) in [
            ("46 05", "46 04"),
            ("46 05", "45 05"),
            ("46 05", "!0B00 05"),
            ("46 050001", "46 050401"),
            ("46 050001", "46 050000"),
            ("46 050001", "46 050002"),
            ("46 050001", "46 0500FF"),
            ("46 05000104", "46 05000100"),
            ("040303", "040403"),
            ("03030203", "03010203"),
            ("03030203", "03040203"),
            ("03030203", "03030202"),
            ("00030000", "00020000"),
            ("00030000", "00040000"),
            ("00030000", "00030001"),
            ("..", "0."),
            ("..", "."),
        ] {
            assert!(
                !holds(b"000148\n", part, replacement),
                "{part} {replacement}"
            );
        }
        for (couple, part, replacement) in [
            (b"000046\n", "46 050002", "46 050001"),
            (b"000046\n", "00010000", "00020000"),
            (b"000202\n", "!0B00", "!0800"),
            (b"000302\n", "!0900", "!0B00"),
            (b"000302\n", "!0900 .", "!0900 0"),
            (b"000145\n", "!0800", "!0B00"),
            (b"000145\n", "!0800 .", "!0800 0"),
        ] {
            assert!(!holds(couple, part, replacement), "{part} {replacement}");
        }
    }

    #[test]
    fn a_text_takes_the_line() {
        let given =
            |text: &[u8], couples| answers("text", text, &Questions::read(couples).unwrap());
        let joined = given(TEXT.as_bytes(), b"000246\n000148\n");
        let longer = extended(TEXT.as_bytes(), &joined).unwrap();
        assert!(longer.ends_with(
            b"01000000\n0500010403030203000000000000000000000000000000000000000000000003000000\n"
        ));
        assert!(check_extended(&longer, &given(&longer, b"")).is_ok());
        let wrong = [&longer[..longer.len() - 2], b"1\n"].concat();
        assert!(check_extended(&wrong, &given(&wrong, b"")).is_err());
        let refused = given(TEXT.as_bytes(), b"000246\n000145\n");
        assert_eq!(extended(TEXT.as_bytes(), &refused), None);
    }

    #[test]
    fn letters_and_order_matter() {
        let small = TEXT.replace("05000204030102", "05000204030a02");
        let questions = Questions::read(b"000046\n000146\n010046\n").unwrap();
        let mut given = answers("text", small.as_bytes(), &questions);
        assert!(check(small.as_bytes(), &questions.couples, &given).is_ok());
        let right = given.joins.clone();
        given.joins.make_ascii_lowercase();
        assert!(check(small.as_bytes(), &questions.couples, &given).is_err());
        given.joins = right;
        given.joins.truncate(2 * 74);
        given.joins.extend(b"!0B00 \n");
        assert!(check(small.as_bytes(), &questions.couples, &given).is_err());
    }
}
