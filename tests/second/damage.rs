//! Seeded faulty texts: each condition of each refusal, alone and together with others.

use crate::frames::{digits, text};
use crate::random::Random;
use crate::reader::{FILTER_BYTES, MOST_ENTITIES, MOST_FILTERS, MOST_ROWS};
use crate::table::{FIELDS, WIDTHS};

/// The characters before and after 0-9, A-F and a-f.
const NEXT_TO_DIGITS: &[u8] = b"/:@G`g";
/// Other characters that are no digits.
const OTHER_CHARACTERS: &[u8] = b"\0\r\t xz~\x7F\x80\xB0\xC1\xE1\xE6\xFF";
/// Kind bytes of no frame.
const UNKNOWN_KINDS: [u8; 7] = [0x00, 0x06, 0x07, 0x08, 0x10, 0x50, 0xFF];

/// A text made of the lines with one to three faults, some of them on one line.
pub fn damaged(random: &mut Random, mut lines: Vec<Vec<u8>>) -> Vec<u8> {
    let faults = random.pick(&[1, 1, 1, 1, 2, 2, 3]);
    let one_line = random.chance(50);
    let mut at = any_line(random, &lines);
    for _ in 0..faults {
        if !one_line {
            at = any_line(random, &lines);
        }
        match random.below(13) {
            0..=1 => spoil_digits(random, &mut lines[at]),
            2..=3 => spoil_form(random, &mut lines[at]),
            4..=5 => {
                at = spoil_sequence(random, &mut lines, at);
                act_now_and_then(random, &mut lines[at]);
            }
            _ => spoil_content(random, &mut lines[at]),
        }
    }
    let mut text = text(&lines);
    if random.chance(8) {
        spoil_end(random, &mut text);
    }
    text
}

/// The number of a line, rows and filters most often.
fn any_line(random: &mut Random, lines: &[Vec<u8>]) -> usize {
    let kind = random.pick(b"1234445555");
    let of_kind: Vec<usize> = (0..lines.len())
        .filter(|&k| lines[k].get(1) == Some(&kind))
        .collect();
    if of_kind.is_empty() {
        random.below(lines.len())
    } else {
        random.pick(&of_kind)
    }
}

/// Makes the line one of refusal 1.
fn spoil_digits(random: &mut Random, line: &mut Vec<u8>) {
    if line.is_empty() {
        return;
    }
    let at = random.below(line.len());
    match random.below(5) {
        0 => line.clear(),
        1 => {
            line.remove(at);
        }
        2 => line.insert(at, b'0'),
        3 => line.push(no_digit(random)),
        _ => line[at] = no_digit(random),
    }
}

/// A character that is no digit, half of the time one next to digits.
fn no_digit(random: &mut Random) -> u8 {
    let characters = if random.chance(50) {
        NEXT_TO_DIGITS
    } else {
        OTHER_CHARACTERS
    };
    random.pick(characters)
}

/// Makes the line one of refusal 2, unless a filter's line gets the action 0 or loses its action.
fn spoil_form(random: &mut Random, line: &mut Vec<u8>) {
    let of_its_kind = random.chance(55);
    match line.get(1) {
        Some(b'4') if of_its_kind => spoil_filter_form(random, line),
        Some(b'5') if of_its_kind => spoil_row_form(random, line),
        _ => match random.below(4) {
            0 => set(line, 0, random.pick(&UNKNOWN_KINDS)),
            1 => line.truncate(line.len().saturating_sub(2)),
            2 => line.extend(b"00"),
            _ => line.truncate(2),
        },
    }
}

/// Gives a filter's line an action above 1, or a length that is no filter's.
fn spoil_filter_form(random: &mut Random, line: &mut Vec<u8>) {
    match random.below(4) {
        0 => line.resize(2 * (FILTER_BYTES - 1), b'0'),
        1 => line.resize(2 * (FILTER_BYTES + 2), b'0'),
        _ => set_action(line, random.pick(&[2, 3, 0x80, 0xFF])),
    }
}

/// Now and then gives a filter's line an action; half of these are above 1.
fn act_now_and_then(random: &mut Random, line: &mut Vec<u8>) {
    if line.starts_with(b"04") && random.chance(40) {
        set_action(line, random.pick(&[0, 1, 2, 0xFF]));
    }
}

/// Gives a filter's line this action.
fn set_action(line: &mut Vec<u8>, action: u8) {
    line.resize(2 * FILTER_BYTES, b'0');
    line.extend(digits(&[action]));
}

/// Gives a row's line a number of gateways that is too great or not its own, or none.
fn spoil_row_form(random: &mut Random, line: &mut Vec<u8>) {
    match random.below(5) {
        0 => set_gateways(line, 9, 9),
        1 => set_gateways(line, 9, 8),
        2 => set_gateways(line, random.between(1, 8), 0),
        3 => set_gateways(line, 255, random.below(9)),
        _ => line.truncate(68),
    }
}

/// Gives a row's line a number of gateways, and so many gateway bytes.
fn set_gateways(line: &mut Vec<u8>, number: usize, bytes: usize) {
    line.truncate(68);
    line.extend(digits(&[number as u8]));
    line.extend(b"00".repeat(bytes));
}

/// Makes the sequence one of refusal 3, and gives the number of a line concerned.
fn spoil_sequence(random: &mut Random, lines: &mut Vec<Vec<u8>>, at: usize) -> usize {
    match random.below(8) {
        0 => {
            let line = lines.remove(at);
            let place = random.below(lines.len() + 1);
            lines.insert(place, line);
            place
        }
        1 => {
            let place = random.between(at, lines.len());
            lines.insert(place, lines[at].clone());
            place
        }
        2 => {
            let other = random.below(lines.len());
            lines.swap(at, other);
            at.min(other)
        }
        3 if lines.len() > 1 => {
            lines.remove(at);
            at.min(lines.len() - 1)
        }
        4 => {
            lines.truncate(at + 1);
            at
        }
        5 => {
            let caps: Vec<usize> = (0..lines.len())
                .filter(|&k| lines[k].starts_with(b"02"))
                .collect();
            let cap = if caps.is_empty() {
                at
            } else {
                random.pick(&caps)
            };
            set(
                &mut lines[cap],
                1,
                random.pick(&[0, 1, 2, 3, 4, 5, 6, 7, 255]),
            );
            cap
        }
        _ => {
            let (kind, most) = random.pick(&[
                (b'1', MOST_ENTITIES),
                (b'4', MOST_FILTERS),
                (b'5', MOST_ROWS),
            ]);
            add_surplus(lines, kind, most).unwrap_or(at)
        }
    }
}

/// Repeats the last line of a kind until there is one too many, and gives the surplus line.
fn add_surplus(lines: &mut Vec<Vec<u8>>, kind: u8, most: usize) -> Option<usize> {
    let of_kind = |line: &Vec<u8>| line.get(1) == Some(&kind);
    let last = lines.iter().rposition(of_kind)?;
    let missing = (most + 1).saturating_sub(lines.iter().filter(|line| of_kind(line)).count());
    for _ in 0..missing {
        lines.insert(last, lines[last].clone());
    }
    Some(last + missing)
}

/// Makes the line one of refusals 4 to 7, as its kind allows.
fn spoil_content(random: &mut Random, line: &mut Vec<u8>) {
    match line.get(1) {
        Some(b'1') => spoil_entity(random, line),
        Some(b'4') => {
            if random.chance(50) {
                set(line, 1, stranger(random));
            } else {
                spoil_bounds(random, line, 2);
            }
            act_now_and_then(random, line);
        }
        Some(b'5') => spoil_row(random, line),
        _ => set(line, 1, random.byte()),
    }
}

/// Breaks a rule of the entity.
fn spoil_entity(random: &mut Random, line: &mut [u8]) {
    match random.below(4) {
        0 => set(
            line,
            1,
            random.pick(&[0x00, 0x01, 0x02, 0x10, 0x7F, 0x80, 0xFE, 0xFF]),
        ),
        1 => set(line, 2, random.pick(&[0, 1, 2, 3, 4, 5, 6, 7, 8, 255])),
        2 => set(line, 3, random.pick(&[0x01, 0x02, 0x7F, 0x80, 0xFE, 0xFF])),
        _ => {
            set(line, 1, random.byte());
            set(line, 2, random.pick(&[0, 2, 3, 5, 7]));
        }
    }
}

/// Breaks a rule of the row.
fn spoil_row(random: &mut Random, line: &mut Vec<u8>) {
    match random.below(10) {
        0 => set(line, 1, stranger(random)),
        1 => set(line, 2, stranger(random)),
        2 => set(line, 3, stranger(random)),
        3 => set(line, 4, random.pick(&[7, 8, 255])),
        4 => {
            let last = (line.len() / 2).saturating_sub(1);
            if last > 34 {
                set(line, random.between(35, last), stranger(random));
            } else {
                set_gateways(line, 1, 0);
                line.extend(digits(&[stranger(random)]));
            }
        }
        5..=6 => spoil_bounds(random, line, 8),
        _ => {
            set(line, 4, 0);
            set(line, random.between(5, 7), random.pick(&[1, 255]));
        }
    }
}

/// A number that often is no root's and often no entity's.
fn stranger(random: &mut Random) -> u8 {
    random.pick(&[0x01, 0x02, 0x03, 0x04, 0x08, 0x10, 0x20, 0x7F, 0x80, 0xFF])
}

/// Makes one field's low greater by one than its high, now and then only equal to it.
fn spoil_bounds(random: &mut Random, line: &mut [u8], start: usize) {
    let field = random.below(FIELDS);
    let width = WIDTHS[field];
    let low_at = start + 2 * WIDTHS[..field].iter().sum::<usize>();
    let high = random.pick(&[0, 1, 0x7F, 0xFE, 0xFF, 0x00FF_FFFF]) & ((1u64 << (8 * width)) - 2);
    let low = if random.chance(85) { high + 1 } else { high };
    for k in 0..width {
        let shift = 8 * (width - 1 - k);
        set(line, low_at + k, (low >> shift) as u8);
        set(line, low_at + width + k, (high >> shift) as u8);
    }
}

/// Writes a byte's digits into the line, if it is long enough.
fn set(line: &mut [u8], at: usize, value: u8) {
    if let Some(place) = line.get_mut(2 * at..2 * at + 2) {
        place.copy_from_slice(&digits(&[value]));
    }
}

/// Spoils the end of the text, or leaves little of it.
fn spoil_end(random: &mut Random, text: &mut Vec<u8>) {
    match random.below(6) {
        0..=1 => text.truncate(text.len().saturating_sub(1)),
        2 => text.truncate(random.below(text.len() + 1)),
        3 => text.push(b'\n'),
        4 => text.clear(),
        _ => *text = b"\n".to_vec(),
    }
}

#[cfg(test)]
mod tests {
    use super::*;
    use crate::cases::case;
    use crate::reader::{decode, read};
    use std::collections::BTreeMap;

    /// The filter's line by which the text is refused: the number of the refusal, the line's bytes, and the number by which it would be
    /// refused if its last byte were 1, if any.
    fn refused_filter(text: &[u8]) -> Option<(usize, Vec<u8>, Option<usize>)> {
        let refusal = read(text).err()?;
        let mut lines: Vec<Vec<u8>> = text.split(|&c| c == b'\n').map(<[u8]>::to_vec).collect();
        let line = lines.get_mut(refusal.line - 1)?;
        let frame = decode(line).filter(|frame| frame[0] == 4)?;
        set(line, frame.len() - 1, 1);
        let other = read(&lines.join(&b'\n')).err();
        let other = other.filter(|other| other.line == refusal.line);
        Some((refusal.number, frame, other.map(|other| other.number)))
    }

    #[test]
    fn seeded_filters_have_every_fault() {
        let mut actions: BTreeMap<_, usize> = BTreeMap::new();
        let mut lengths: BTreeMap<_, usize> = BTreeMap::new();
        for number in 0..10_000 {
            if let Some((refusal, frame, other)) = refused_filter(&case(1, number).text) {
                *lengths.entry((refusal, frame.len())).or_default() += 1;
                if frame.len() == FILTER_BYTES + 1 {
                    let action = frame[FILTER_BYTES];
                    *actions.entry((refusal, action, other)).or_default() += 1;
                }
            }
        }
        let often = |count: Option<&usize>| count.is_some_and(|&count| count > 3);
        for refusal in [3, 5, 6] {
            for action in [0, 1] {
                assert!(often(actions.get(&(refusal, action, Some(refusal)))));
            }
            for action in [2, 0xFF] {
                assert!(often(actions.get(&(2, action, Some(refusal)))));
            }
            assert!(often(lengths.get(&(refusal, 28))) && often(lengths.get(&(refusal, 29))));
        }
        for action in [2, 3, 0x80, 0xFF] {
            assert!(often(actions.get(&(2, action, None))));
        }
        for length in [1, 27, 29, 30] {
            assert!(often(lengths.get(&(2, length))));
        }
        assert_eq!(lengths.get(&(2, 28)), None);
    }
}
