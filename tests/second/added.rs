//! What is promised of rows added at the end held against what the proved program prints: each old row keeps its dead mark or its
//! witness, by the mesh as well, and a probe that had a winner keeps that winner. Every other entry of old rows stands too, and so do those of filters.
//!
//! Nothing of the second implementation's methods is used: a text is cut at its lines, and what was printed before and after is
//! compared line by line. Kinds 12, 16 and 19, pairs with a new row and probes that had no winner are left out: they may change.

use crate::printed::Answers;
use crate::probes::Probe;
use crate::promises::{dead_rows, ensure, entries, nth_line, of_filters};

/// What a row's line begins with.
const ROW: &[u8] = b"05";
/// The kinds that may change for old rows.
const MAY_CHANGE: [u8; 3] = [12, 16, 19];
/// The second number of an entry of one row.
const NO_SECOND: u8 = 0xFF;

/// An accepted text cut before each of its rows: the first cut has none of them, and each has one more than the former.
pub fn cuts(text: &[u8]) -> Vec<&[u8]> {
    let mut cuts = Vec::new();
    let mut start = 0;
    for line in text.split_inclusive(|&c| c == b'\n') {
        if line.starts_with(ROW) {
            cuts.push(&text[..start]);
        }
        start += line.len();
    }
    cuts
}

/// Checks the answers to a text of so many rows and to the same with rows added at its end, or says what is broken.
pub fn check(
    rows: usize,
    probes: &[Probe],
    before: &Answers,
    after: &Answers,
) -> Result<(), String> {
    check_rows(rows, before, after)
        .and_then(|()| check_entries(rows, &before.list, &after.list))
        .and_then(|()| check_winners(rows, probes, &before.winners, &after.winners))
        .map_err(|broken| format!("with rows added after the first {rows}, {broken}"))
}

/// Checks that each old row keeps its dead mark, or has none again, and that Witness and Mesh say the same of it.
fn check_rows(rows: usize, before: &Answers, after: &Answers) -> Result<(), String> {
    let [old, new] = [before, after].map(|answers| dead_rows(&answers.list));
    for row in 0..rows {
        ensure(old.contains(&row) == new.contains(&row), || {
            format!("row {row} gets a dead mark, or loses its own")
        })?;
        for (call, old, new) in [
            ("Witness", &before.witnesses, &after.witnesses),
            ("Mesh", &before.meshes, &after.meshes),
        ] {
            ensure(nth_line(old, row) == nth_line(new, row), || {
                format!("{call} answers otherwise for row {row}")
            })?;
        }
    }
    Ok(())
}

/// Checks that the entries of old rows stand, but for those of kinds that may change, and then those of filters.
fn check_entries(rows: usize, old: &[u8], new: &[u8]) -> Result<(), String> {
    ensure(standing(rows, old) == standing(rows, new), || {
        "an entry of old rows or of filters comes or goes that is of none of the kinds that may change"
            .into()
    })
}

/// The listed entries of filters, and those that have the numbers of old rows alone and are of none of the kinds that may change.
fn standing(rows: usize, list: &[u8]) -> Vec<Vec<u8>> {
    let old = |row: u8| usize::from(row) < rows;
    let stands = |entry: &Vec<u8>| {
        of_filters(entry)
            || old(entry[0])
                && (old(entry[2]) || entry[2] == NO_SECOND)
                && !MAY_CHANGE.contains(&entry[1])
    };
    entries(list).filter(stands).collect()
}

/// Checks that each probe that names an old row and had a winner keeps it.
fn check_winners(rows: usize, probes: &[Probe], old: &[u8], new: &[u8]) -> Result<(), String> {
    for (place, probe) in probes.iter().enumerate() {
        let winner = nth_line(old, place);
        let had_none = winner == b"none" || winner.starts_with(b"!");
        if usize::from(probe.row) < rows && !had_none {
            ensure(nth_line(new, place) == winner, || {
                format!("probe {place} has another winner, or none")
            })?;
        }
    }
    Ok(())
}

#[cfg(test)]
mod tests {
    use super::*;
    use crate::cases::case;
    use crate::compare;
    use crate::printed::answers;
    use crate::questions::Questions;

    /// Six roots, caps, a floor, and filters whose bounds are all made of fives: two that drop, and one that passes.
    const START: &str = "01FF007E\n01ff007e\n01FF007E\n01FF007E\n01FF007E\n01FF007E\n\
        0201FFFFFF\n0202FFFFFF\n0203ffffff\n0204FFFFFF\n0205FFFFFF\n0206FFFFFF\n03000000\n\
        04030505050505050505050505050505050505050505050505050505\n\
        0404050505050505050505050505050505050505050505050505050500\n\
        0403050505050505050505050505050505050505050505050505050501\n";
    /// The entries of these filters.
    const OF_FILTERS: &[u8] = b"001502\n001601\n011600\n";
    /// All ports.
    const ALL: &str = "0000FFFF";

    /// A row's line with these ends, coefficients, destination ports and gateways, their number first.
    fn row(ends: &str, coefficients: &str, ports: &str, gateways: &str) -> String {
        let addresses = "00000000FFFFFFFF";
        format!("0500{ends}03{coefficients}{addresses}{addresses}{ALL}{ports}00ff{gateways}\n")
    }

    /// The text with these rows.
    fn text(rows: &[String]) -> Vec<u8> {
        [START, &rows.concat()].concat().into_bytes()
    }

    /// A probe from root 0 to root 1 in the group of this row, with this destination port.
    fn probe(row: u8, port: u32) -> Probe {
        Probe {
            row,
            a: 0,
            b: 1,
            packet: [0, 0, 0, port, 0],
        }
    }

    /// The answers to the text of the old rows, and to the same with the others added.
    fn before_and_after(old: &[String], added: &[String], probes: &[Probe]) -> [Answers; 2] {
        let questions = Questions {
            probes: probes.to_vec(),
            ..Questions::default()
        };
        [text(old), text(&[old, added].concat())].map(|text| answers("text", &text, &questions))
    }

    /// Whether the promise holds of three rows, of which the first two hide the third, and one added that matches what they match,
    /// after `alter` has changed the answers to all four.
    fn holds(alter: fn(&mut Answers)) -> bool {
        let rows =
            ["00007FFF", "8000FFFF", ALL, ALL].map(|ports| row("0001", "020202", ports, "00"));
        let probes = [probe(2, 0x8000)];
        let (old, added) = rows.split_at(3);
        let [before, mut after] = before_and_after(old, added, &probes);
        alter(&mut after);
        check(3, &probes, &before, &after).is_ok()
    }

    #[test]
    fn cuts_are_beginnings_of_the_text() {
        let rows = ["0001", "0502", "0105"].map(|ends| row(ends, "020202", ALL, "020503"));
        let expected: Vec<Vec<u8>> = (0..rows.len()).map(|count| text(&rows[..count])).collect();
        assert_eq!(cuts(&text(&rows)), expected);
        assert!(cuts(&text(&[])).is_empty());
    }

    #[test]
    fn right_answers_keep_the_promise() {
        assert!(holds(|after| {
            let witnesses =
                b"00000000000000000000000000\n00000000000000000000800000\ndead\ndead\n!0900\n";
            assert_eq!(after.witnesses, witnesses);
            assert_eq!(after.meshes, witnesses);
            assert_eq!(after.winners, b"01\n");
        }));
    }

    #[test]
    fn wrong_answers_break_it() {
        let all_alter: [fn(&mut Answers); 20] = [
            |after| after.list = without(&after.list, b"0214FF\n"),
            |after| after.list.extend(b"0114FF\n"),
            |after| after.list = without(&after.list, b"000802\n"),
            |after| after.list.extend(b"000801\n"),
            |after| after.list.extend(b"0004FF\n"),
            |after| after.list.extend(b"000802\n"),
            |after| after.list = without(&after.list, b"001502\n"),
            |after| after.list = without(&after.list, b"011600\n"),
            |after| after.list.extend(b"021601\n"),
            |after| after.list.rotate_right(OF_FILTERS.len()),
            |after| after.witnesses[..26].copy_from_slice(b"00000000000000000000000100"),
            |after| after.witnesses.splice(..26, *b"dead").for_each(drop),
            |after| after.witnesses.splice(54..58, [b'0'; 26]).for_each(drop),
            |after| after.meshes[..26].copy_from_slice(b"00000000000000000000000100"),
            |after| after.meshes.splice(..26, *b"dead").for_each(drop),
            |after| after.meshes.splice(54..58, [b'0'; 26]).for_each(drop),
            |after| after.winners = b"03\n".to_vec(),
            |after| after.winners = b"00\n".to_vec(),
            |after| after.winners = b"none\n".to_vec(),
            |after| after.winners = b"!0900\n".to_vec(),
        ];
        for (place, alter) in all_alter.into_iter().enumerate() {
            assert!(!holds(alter), "alteration {place}");
        }
    }

    /// What was printed without this line, which is there.
    fn without(printed: &[u8], line: &[u8]) -> Vec<u8> {
        let mut lines: Vec<&[u8]> = printed.split_inclusive(|&c| c == b'\n').collect();
        let place = lines.iter().position(|&other| other == line).unwrap();
        lines.remove(place);
        lines.concat()
    }

    #[test]
    fn entries_of_filters_stand_whatever_their_numbers() {
        let rows = [row("0001", "020202", ALL, "00")];
        let [before, mut after] = before_and_after(&[], &rows, &[]);
        assert_eq!(before.list, OF_FILTERS);
        assert!(after.list.ends_with(OF_FILTERS));
        assert_eq!(check(0, &[], &before, &after), Ok(()));
        after.list = without(&after.list, b"001502\n");
        assert!(check(0, &[], &before, &after).is_err());
    }

    #[test]
    fn of_new_rows_nothing_is_said() {
        assert!(holds(|after| after.list = without(&after.list, b"0314FF\n")));
        assert!(holds(|after| after.list = without(&after.list, b"000803\n")));
        assert!(holds(|after| after.witnesses[59..].fill(b'0')));
        assert!(holds(|after| after.meshes[59..].fill(b'0')));
    }

    #[test]
    fn what_is_left_out_may_change() {
        let between = |ends: &str| row(ends, "020202", ALL, "00");
        let riding = |coefficients: &str| row("0203", coefficients, ALL, "020001");
        let [tunnel, answer, hop, next_hop] = ["0001", "0100", "0002", "0201"].map(between);
        let [rider, weak_rider] = ["020202", "020102"].map(riding);
        let tunnel = &[tunnel][..];
        let ridden = &[tunnel, &[rider.clone()]].concat()[..];
        for (old, added, entry, appears) in [
            (tunnel, &[rider][..], b"000CFF", true),
            (ridden, &[weak_rider], b"000CFF", false),
            (tunnel, &[answer], b"0010FF", false),
            (tunnel, &[hop, next_hop], b"0013FF", true),
            (tunnel, tunnel, b"000601", true),
        ] {
            let [before, after] = before_and_after(old, added, &[]);
            let [listed_before, listed_after] = [&before, &after].map(|answers| {
                let mut lines = answers.list.split(|&c| c == b'\n');
                lines.any(|line| line == entry)
            });
            assert_eq!((listed_before, listed_after), (!appears, appears));
            assert_eq!(check(old.len(), &[], &before, &after), Ok(()));
        }
    }

    #[test]
    fn a_probe_may_get_its_first_winner() {
        let rows = ["00000001", "00020003"].map(|ports| row("0001", "020202", ports, "00"));
        let probes = [probe(0, 2), probe(1, 2), probe(1, 1)];
        let (old, added) = rows.split_at(1);
        let [before, after] = before_and_after(old, added, &probes);
        assert_eq!(before.winners, b"none\n!0900\n!0900\n");
        assert_eq!(after.winners, b"01\n01\n00\n");
        assert_eq!(check(1, &probes, &before, &after), Ok(()));
    }

    #[test]
    fn seeded_answers_keep_the_promise() {
        for number in 0..300 {
            let case = case(6, number);
            let texts = [compare::cuts(number, &case.text), vec![&case.text]].concat();
            let all: Vec<Answers> = texts
                .iter()
                .map(|text| answers("text", text, &case.questions))
                .collect();
            for (rows, pair) in all.windows(2).enumerate() {
                let checked = check(rows, &case.questions.probes, &pair[0], &pair[1]);
                assert_eq!(checked, Ok(()), "text {number}");
            }
        }
    }
}
