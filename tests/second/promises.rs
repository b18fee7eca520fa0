//! Demand 3 held against what the proved programs print of a tiny table, by trying every probe.
//!
//! Nothing of the second implementation's methods is used: a text is taken apart here, and a group's first matching row wins.

use crate::printed::{Answers, UNTOUCHED};
use crate::probes::Probe;
use crate::table::{Coefficients, Packet, FIELDS, WIDTHS};

/// How many packets the boxes of a tiny table span at most.
const MOST_PACKETS: u64 = 1024;
/// The kind of a dead row's entry.
const DEAD: u8 = 20;
/// The kinds of entries of filters.
const OF_FILTERS: [u8; 2] = [21, 22];

/// A row's group (holder, technology and gateways), ends, coefficients and box.
pub struct Row {
    pub group: Vec<u8>,
    pub source: u8,
    pub destination: u8,
    pub coefficients: Coefficients,
    pub low: Packet,
    pub high: Packet,
}

/// What winners and joined rows depend on.
pub struct Policy {
    pub parents: Vec<u8>,
    pub rows: Vec<Row>,
}

/// Checks the promises on the answers to a text and to its struck text, or says what is broken.
pub fn check(
    text: &[u8],
    probes: &[Probe],
    before: &Answers,
    after: &Answers,
) -> Result<(), String> {
    let old = policy(text);
    let new = policy(&before.struck);
    let dead = dead_rows(&before.list);
    let kept: Vec<usize> = (0..old.rows.len())
        .filter(|row| !dead.contains(row))
        .collect();
    let least = try_every_probe(&old, &new, &kept)?;
    for (row, least) in least.iter().enumerate() {
        ensure(dead.contains(&row) == least.is_none(), || {
            format!("row {row} is listed as dead, or not listed, against the probes it wins")
        })?;
        for (call, answers) in [("Witness", &before.witnesses), ("Mesh", &before.meshes)] {
            check_witness(&old, row, least, nth_line(answers, row))
                .map_err(|broken| format!("{call} is wrong: {broken}"))?;
        }
    }
    check_struck(&kept, before, after)?;
    check_winners(&old, probes, &before.winners)
}

/// Checks that the same rows win in the struck text, in each group, and that each of its rows wins. Gives the least packet
/// with which each old row wins a probe.
fn try_every_probe(
    old: &Policy,
    new: &Policy,
    kept: &[usize],
) -> Result<Vec<Option<Packet>>, String> {
    let packets = packets(&[old, new])?;
    let mut least: Vec<Option<Packet>> = vec![None; old.rows.len()];
    let mut wins_after = vec![false; new.rows.len()];
    for group in groups(old) {
        for (a, b) in pairs(old.parents.len()) {
            for packet in &packets {
                let won = winner(old, group, a, b, packet);
                if let Some(row) = won {
                    let smaller = least[row].map_or(*packet, |least| least.min(*packet));
                    least[row] = Some(smaller);
                }
                let wins = winner(new, group, a, b, packet);
                if let Some(row) = wins {
                    wins_after[row] = true;
                }
                let same = wins.map(|row| kept.get(row)) == won.as_ref().map(Some);
                ensure(same, || {
                    format!("in the struck text another row wins the probe {a} {b} {packet:X?}")
                })?;
            }
        }
    }
    ensure(wins_after.iter().all(|&wins| wins), || {
        "a row of the struck text wins no probe".into()
    })?;
    Ok(least)
}

/// Checks the answer of Witness or Mesh for a row against the least packet with which it wins a probe.
fn check_witness(
    policy: &Policy,
    row: usize,
    least: &Option<Packet>,
    witness: &[u8],
) -> Result<(), String> {
    if witness == b"dead" {
        return ensure(least.is_none(), || {
            format!("row {row} is called dead, and wins a probe")
        });
    }
    let packet = packet(&bytes(witness));
    let own = &policy.rows[row];
    let won = winner(policy, &own.group, own.source, own.destination, &packet);
    ensure(won == Some(row), || {
        format!("row {row} does not win the probe from its own ends with its witness")
    })?;
    ensure(least.is_some_and(|least| packet <= least), || {
        format!("row {row} wins a probe with a packet smaller than its witness")
    })
}

/// Checks that the struck text is accepted with the kept rows, that the answers to it name none dead, and that the entries of filters
/// stand.
fn check_struck(kept: &[usize], before: &Answers, after: &Answers) -> Result<(), String> {
    let [mut expected, counts] = [before, after].map(|answers| counts(&answers.check));
    if let Some(rows) = expected.get_mut(2) {
        *rows = kept.len() as u8;
    }
    ensure(counts == expected, || {
        "Check of the struck text does not give the counts without the dead rows".into()
    })?;
    let called_dead = |answers: &[u8]| (0..kept.len()).any(|row| nth_line(answers, row) == b"dead");
    ensure(
        dead_rows(&after.list).is_empty()
            && !called_dead(&after.witnesses)
            && !called_dead(&after.meshes),
        || "a row of the struck text is called dead".into(),
    )?;
    let [old, new] = [before, after].map(|answers| filter_entries(&answers.list));
    ensure(old == new, || {
        "the struck text has other entries of filters".into()
    })
}

/// Checks Winner's answers to the probes that name a row and two entities.
fn check_winners(policy: &Policy, probes: &[Probe], winners: &[u8]) -> Result<(), String> {
    let entities = policy.parents.len();
    for (place, probe) in probes.iter().enumerate() {
        let Some(naming) = policy.rows.get(usize::from(probe.row)) else {
            continue;
        };
        if usize::from(probe.a.max(probe.b)) >= entities {
            continue;
        }
        let won = winner(policy, &naming.group, probe.a, probe.b, &probe.packet);
        let said = match nth_line(winners, place) {
            b"none" => None,
            line => Some(usize::from(bytes(line)[0])),
        };
        ensure(said == won, || {
            format!("Winner names another row for probe {place}")
        })?;
    }
    Ok(())
}

/// Nothing if it holds, else what is broken.
pub fn ensure(holds: bool, broken: impl FnOnce() -> String) -> Result<(), String> {
    if holds {
        Ok(())
    } else {
        Err(broken())
    }
}

/// The first row of the group that matches the probe.
fn winner(policy: &Policy, group: &[u8], a: u8, b: u8, packet: &Packet) -> Option<usize> {
    policy.rows.iter().position(|row| {
        row.group == group
            && in_box(row, packet)
            && upward(policy, a, row.source)
            && upward(policy, b, row.destination)
    })
}

/// Whether the packet is in the row's box.
pub fn in_box(row: &Row, packet: &Packet) -> bool {
    (0..FIELDS).all(|f| row.low[f] <= packet[f] && packet[f] <= row.high[f])
}

/// Whether the way upward from the entity comes to the other.
pub fn upward(policy: &Policy, from: u8, to: u8) -> bool {
    let mut at = from;
    while at != to && policy.parents[usize::from(at)] != 0xFF {
        at = policy.parents[usize::from(at)];
    }
    at == to
}

/// The different groups.
fn groups(policy: &Policy) -> Vec<&[u8]> {
    let mut groups: Vec<&[u8]> = policy.rows.iter().map(|row| &row.group[..]).collect();
    groups.sort_unstable();
    groups.dedup();
    groups
}

/// All pairs of entities.
fn pairs(entities: usize) -> impl Iterator<Item = (u8, u8)> {
    let entities = entities as u8;
    (0..entities).flat_map(move |a| (0..entities).map(move |b| (a, b)))
}

/// All packets from the least low to the greatest high of each field; no other packet is in a box.
pub fn packets(policies: &[&Policy]) -> Result<Vec<Packet>, String> {
    let rows = || policies.iter().flat_map(|policy| &policy.rows);
    let mut packets = vec![[0; FIELDS]];
    for field in 0..FIELDS {
        let low = rows().map(|row| row.low[field]).min().unwrap_or(0);
        let high = rows().map(|row| row.high[field]).max().unwrap_or(0);
        let values = u64::from(high - low) + 1;
        ensure(values * packets.len() as u64 <= MOST_PACKETS, || {
            "the boxes of this tiny table are too wide to try every probe".into()
        })?;
        packets = (low..=high)
            .flat_map(|value| {
                packets.iter().map(move |packet| {
                    let mut packet = *packet;
                    packet[field] = value;
                    packet
                })
            })
            .collect();
    }
    Ok(packets)
}

/// The policy that an accepted text says.
pub fn policy(text: &[u8]) -> Policy {
    let frames: Vec<Vec<u8>> = text
        .split(|&c| c == b'\n')
        .filter(|line| !line.is_empty())
        .map(bytes)
        .collect();
    let of_kind = |kind: u8| frames.iter().filter(move |frame| frame[0] == kind);
    Policy {
        parents: of_kind(1).map(|frame| frame[1]).collect(),
        rows: of_kind(5).map(|frame| row(frame)).collect(),
    }
}

/// The row that a frame says.
pub fn row(frame: &[u8]) -> Row {
    let mut lows = Vec::new();
    let mut highs = Vec::new();
    let mut at = 8;
    for width in WIDTHS {
        lows.extend(&frame[at..at + width]);
        highs.extend(&frame[at + width..at + 2 * width]);
        at += 2 * width;
    }
    Row {
        group: [&[frame[1], frame[4]], &frame[at + 1..]].concat(),
        source: frame[2],
        destination: frame[3],
        coefficients: [frame[5], frame[6], frame[7]],
        low: packet(&lows),
        high: packet(&highs),
    }
}

/// The packet in these bytes.
fn packet(bytes: &[u8]) -> Packet {
    let mut at = 0;
    WIDTHS.map(|width| {
        at += width;
        let field = &bytes[at - width..at];
        field.iter().fold(0, |value, &b| value << 8 | u32::from(b))
    })
}

/// The bytes that pairs of digits say.
pub fn bytes(digits: &[u8]) -> Vec<u8> {
    let value = |digit: u8| char::from(digit).to_digit(16).unwrap_or(0) as u8;
    digits
        .chunks(2)
        .map(|pair| pair.iter().fold(0, |byte, &digit| byte << 4 | value(digit)))
        .collect()
}

/// The listed entries, in their order.
pub fn entries(list: &[u8]) -> impl Iterator<Item = Vec<u8>> + '_ {
    let lines = list.split(|&c| c == b'\n').map(bytes);
    lines.filter(|entry| entry.len() == 3)
}

/// The rows listed as dead.
pub fn dead_rows(list: &[u8]) -> Vec<usize> {
    entries(list)
        .filter(|entry| entry[1] == DEAD)
        .map(|entry| usize::from(entry[0]))
        .collect()
}

/// Whether the entry is one of filters.
pub fn of_filters(entry: &[u8]) -> bool {
    OF_FILTERS.contains(&entry[1])
}

/// The listed entries of filters.
fn filter_entries(list: &[u8]) -> Vec<Vec<u8>> {
    entries(list).filter(|entry| of_filters(entry)).collect()
}

/// The counts that Check's line gives behind the text's name.
fn counts(check: &[u8]) -> Vec<u8> {
    let line = check.strip_suffix(b"\n").unwrap_or(check);
    let last = line.rsplit(|&c| c == b' ').next();
    last.map(bytes).unwrap_or_default()
}

/// A line of what was printed, without line feed.
pub fn nth_line(printed: &[u8], line: usize) -> &[u8] {
    printed.split(|&c| c == b'\n').nth(line).unwrap_or_default()
}

/// The answer that a line begins with, and what it says of the output after the call.
pub fn answer_and_output(line: &[u8]) -> [&[u8]; 2] {
    let mut words = line.splitn(2, |&c| c == b' ');
    [(); 2].map(|()| words.next().unwrap_or_default())
}

/// Checks the answer, and that past so many bytes the output is untouched. Gives these bytes.
pub fn check_output<'o>(
    answer: &[u8],
    expected: &[u8],
    output: &'o [u8],
    length: usize,
) -> Result<&'o [u8], String> {
    ensure(answer == expected, || {
        format!(
            "answers {} and not {}",
            answer.escape_ascii(),
            expected.escape_ascii()
        )
    })?;
    let (result, past) = output.split_at(length);
    ensure(past.iter().all(|&byte| byte == UNTOUCHED), || {
        "writes past its result, or beside a refusal".into()
    })?;
    Ok(result)
}

#[cfg(test)]
mod tests {
    use super::*;
    use crate::printed::answers;
    use crate::questions::Questions;

    /// Filters of two roots that drop the same packets, and three rows of one group over destination ports 0 to 3, the third hidden by
    /// the other two together.
    const TEXT: &str = "01FF007E\n01000300\n01FF007E\n\
        0201FFFFFF\n0202FFFFFF\n0203FFFFFF\n0204FFFFFF\n0205FFFFFF\n0206FFFFFF\n03000000\n\
        04000000000000000000000000000000000000000000000000000000\n\
        0402000000000000000000000000000000000000000000000000000000\n\
        0500000203030303000000000000000000000000000000000000000000000001000000\n\
        0500010203030303000000000000000000000000000000000000000000020003000000\n\
        0500010203030303000000000000000000000000000000000000000000010003000000\n";

    /// Whether the promises hold of the answers to the text after `alter` has changed them.
    fn holds(alter: fn(&mut Answers, &mut Answers)) -> bool {
        let probe = Probe {
            row: 2,
            a: 1,
            b: 2,
            packet: [0, 0, 0, 3, 0],
        };
        let questions = Questions {
            probes: vec![probe],
            ..Questions::default()
        };
        let mut before = answers("text", TEXT.as_bytes(), &questions);
        let mut after = answers("text", &before.struck, &Questions::default());
        alter(&mut before, &mut after);
        check(TEXT.as_bytes(), &questions.probes, &before, &after).is_ok()
    }

    #[test]
    fn right_answers_keep_the_promises() {
        assert!(holds(|_, _| {}));
    }

    #[test]
    fn wrong_answers_break_them() {
        let all_alter: [fn(&mut Answers, &mut Answers); 19] = [
            |before, _| before.list.clear(),
            |before, _| before.list.extend(b"0114FF\n"),
            |before, _| before.witnesses[..26].copy_from_slice(b"00000000000000000000000100"),
            |before, _| before.witnesses[27..53].copy_from_slice(b"00000000000000000000000000"),
            |before, _| before.witnesses = b"dead\ndead\ndead\n".to_vec(),
            |before, _| before.witnesses.splice(54..58, [b'0'; 26]).for_each(drop),
            |before, _| before.meshes[..26].copy_from_slice(b"00000000000000000000000100"),
            |before, _| before.meshes[27..53].copy_from_slice(b"00000000000000000000000000"),
            |before, _| before.meshes = b"dead\ndead\ndead\n".to_vec(),
            |before, _| before.meshes.splice(54..58, [b'0'; 26]).for_each(drop),
            |_, after| after.witnesses[..26].copy_from_slice(b"dead\n000000000000000000000"),
            |_, after| after.meshes[..26].copy_from_slice(b"dead\n000000000000000000000"),
            |before, _| before.struck = TEXT.as_bytes().to_vec(),
            |before, _| before.struck.truncate(before.struck.len() - 71),
            |before, _| before.winners = b"00\n".to_vec(),
            |_, after| after.check = b"text !0101\n".to_vec(),
            |_, after| after.list.clear(),
            |_, after| after.list.extend(b"001501\n"),
            |_, after| after.list.truncate(after.list.len() - 7),
        ];
        for (place, alter) in all_alter.into_iter().enumerate() {
            assert!(!holds(alter), "alteration {place}");
        }
    }
}
