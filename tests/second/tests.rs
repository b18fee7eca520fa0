//! Document 01's table T and its edges, the stored examples and vectors, the edges of Join, Prefixes and Mesh, and demand 3 on seeded
//! tables; and all 256 bytes as digits, read by the static library.

use crate::added;
use crate::calls::{self, Reading};
use crate::cases::case;
use crate::compare;
use crate::couples::Couple;
use crate::draft::Scale;
use crate::frames::{lines, text};
use crate::kinds::{list, riders, rides, Entry};
use crate::library;
use crate::prefixes::PREFIX_BYTES;
use crate::printed;
use crate::probes::Probe;
use crate::questions::Questions;
use crate::random::Random;
use crate::reader::{decode, read};
use crate::relations::{above, at_least, ends_above, in_selector, overlap, same_group};
use crate::shapes::table;
use crate::shared::shared;
use crate::sides::Side;
use crate::table::{Coefficients, Packet, Refusal, Row, Table, FIELDS};
use std::cmp::Ordering::{self, Equal, Greater, Less};
use std::collections::BTreeSet;
use std::path::Path;

/// The box of all packets.
const ALL_PACKETS: &str = "00000000FFFFFFFF00000000FFFFFFFF0000FFFF0000FFFF00FF";

const ROW_START: &str = "050001030303030300000000FFFFFFFF00000000FFFFFFFF0000FFFF";

/// The lines of a table with these entities and rows, the largest caps and the least floor.
fn frames(entities: &[&str], rows: &[&str]) -> Vec<Vec<u8>> {
    let caps: Vec<String> = (1..=6)
        .map(|technology| format!("020{technology}FFFFFF"))
        .collect();
    let caps: Vec<&str> = caps.iter().map(String::as_str).collect();
    let lines = [entities, &caps, &["03000000"], rows].concat();
    lines.iter().map(|line| line.as_bytes().to_vec()).collect()
}

/// The lines of document 01's table T.
fn table_t() -> Vec<Vec<u8>> {
    let rows = ["00007FFF00FF00", "8000FFFF00FF00", "0000FFFF00FF00"]
        .map(|end| format!("{ROW_START}{end}"));
    frames(
        &["01FF007E", "01000300", "01FF007E", "01020300"],
        &rows.each_ref().map(String::as_str),
    )
}

/// T's text with one line (from 1) in another wording.
fn with_line(line: usize, wording: &str) -> Vec<u8> {
    let mut lines = table_t();
    lines[line - 1] = wording.as_bytes().to_vec();
    text(&lines)
}

/// The refusal of a text.
fn refusal(text: &[u8]) -> Option<(usize, usize)> {
    read(text)
        .err()
        .map(|Refusal { number, line }| (number, line))
}

#[test]
fn list_of_t() {
    let text = text(&table_t());
    let entries = Reading::of(&text).list().unwrap().concat();
    assert_eq!(
        entries,
        [0, 8, 2, 0, 16, 255, 1, 8, 2, 1, 16, 255, 2, 16, 255, 2, 20, 255]
    );
    let mut longer = [0xAA; 20];
    assert_eq!(calls::write(&entries, &mut longer), Ok(()));
    assert_eq!(longer[..18], entries);
    assert_eq!(longer[18..], [0xAA; 2]);
    let mut short = [0xAA; 17];
    assert_eq!(
        calls::write(&entries, &mut short),
        Err(Refusal { number: 8, line: 0 })
    );
    assert_eq!(short, [0xAA; 17]);
}

#[test]
fn answers_on_t() {
    let whole = text(&table_t());
    let questions = Questions::read(
        b"02010300000000000000000000800000\n00000300000000000000000000000000\n000148\n\
        03040300000000000000000000000000\n00010400000000000000000000000000\n02010006\n",
    );
    let answers = printed::answers("t", &whole, &questions.unwrap());
    assert_eq!(answers.check, b"t 040003\n");
    assert_eq!(answers.lines, [&text(&table_t()[11..])[..], b"\n"].concat());
    assert_eq!(
        answers.list,
        b"000802\n0010FF\n010802\n0110FF\n0210FF\n0214FF\n"
    );
    assert_eq!(
        answers.witnesses,
        b"00000000000000000000000000\n00000000000000000000800000\ndead\n!0900\n"
    );
    assert_eq!(answers.meshes, answers.witnesses);
    assert_eq!(answers.struck, text(&table_t()[..13]));
    assert_eq!(answers.winners, b"01\nnone\n!0900\n!0A00\n");
    assert_eq!(
        answers.joins,
        format!("46 {ROW_START}0000FFFF00FF00..\n").into_bytes()
    );
    assert_eq!(answers.prefixes, b"01 00000000002E\n");
}

#[test]
fn answers_on_a_refused_text() {
    let questions =
        Questions::read(b"FFFF0003\nFFFFFF00000000000000000000000000\nFFFF03\n00000000\n000000\n");
    let printed = printed::answers("empty", b"", &questions.unwrap()).all();
    assert_eq!(
        printed,
        b"empty !0301\n\n!0301\n!0301\n!0301\n!0301\n!0301\n!0301 ...\n!0301 \n!0301 2E2E2E\n!0301 \n"
    );
}

#[test]
fn programs_read_16_kib() {
    assert_eq!(printed::of_input(&[b'0'; 16_384], b"!0101\n"), b"!0101\n");
    assert_eq!(printed::of_input(&[b'0'; 16_385], b"!0101\n"), b"!00\n");
}

#[test]
fn refusals_of_digits_and_form() {
    let whole = text(&table_t());
    assert_eq!(refusal(&whole[..whole.len() - 1]), Some((1, 14)));
    assert_eq!(refusal(b"\n"), Some((1, 1)));
    for character in *b"gG@` \r\0\x80\xC1\xE1\xFF" {
        let mut line = *b"01FF007E\n";
        line[7] = character;
        assert_eq!(refusal(&line), Some((1, 1)), "{character}");
    }
    assert_eq!(refusal(b"01FF007E\r\n"), Some((1, 1)));
    assert_eq!(refusal(b"01FF007\n"), Some((1, 1)));
    assert_eq!(refusal(b"06FF007E"), Some((1, 1)));
    assert_eq!(refusal(b"06FF007E\n"), Some((2, 1)));
    assert_eq!(refusal(b"05\n"), Some((2, 1)));
    assert_eq!(refusal(b"01FF007E00\n"), Some((2, 1)));
    let row = |end: &str| with_line(14, &format!("{ROW_START}0000FFFF00FF{end}"));
    assert_eq!(refusal(&row("080000000000000000")), None);
    assert_eq!(refusal(&row("09000000000000000000")), Some((2, 14)));
    assert_eq!(refusal(&row("01")), Some((2, 14)));
    assert_eq!(refusal(&row("")), Some((2, 14)));
}

#[test]
fn small_letters_are_read_as_capitals() {
    let digits = b"0123456789ABCDEFabcdef";
    for (&digit, value) in digits.iter().zip((0..16).chain(10..16)) {
        assert_eq!(decode(&[b'0', digit]), Some(vec![value]));
        assert_eq!(decode(&[digit, b'0']), Some(vec![16 * value]));
    }
    for byte in 0..=255 {
        assert_eq!(decode(&[b'0', byte]).is_some(), digits.contains(&byte));
    }
    let small = text(&table_t()).to_ascii_lowercase();
    let [of_small, of_capitals] =
        [&small, &text(&table_t())].map(|text| printed::answers("t", text, &Questions::default()));
    assert_eq!(of_small.list, of_capitals.list);
    assert_eq!(of_small.witnesses, of_capitals.witnesses);
    assert_eq!(of_small.meshes, of_capitals.meshes);
    assert_eq!(of_small.struck, of_capitals.struck.to_ascii_lowercase());
    assert_eq!(of_small.lines, of_capitals.lines.to_ascii_lowercase());
}

#[test]
fn the_library_reads_every_byte_alike_at_every_place() {
    let filters = [format!("0400{ALL_PACKETS}"), format!("0402{ALL_PACKETS}01")];
    let mut lines = table_t();
    lines.splice(11..11, filters.map(String::into_bytes));
    let whole = text(&lines);
    for place in 0..whole.len() {
        for byte in 0..=255 {
            let mut other = whole.clone();
            other[place] = byte;
            let difference = library::difference(&other, 1);
            assert_eq!(difference, None, "place {place}, byte {byte}");
        }
    }
}

#[test]
fn refusals_of_filters() {
    let with_filter = |line: usize, root: &str, selector: &str, action: &str| {
        refusal(&with_line(line, &format!("04{root}{selector}{action}")))
    };
    let turned = format!("{}0100", &ALL_PACKETS[..48]);
    for action in ["", "00", "01"] {
        assert_eq!(with_filter(12, "02", ALL_PACKETS, action), None);
        assert_eq!(with_filter(14, "02", ALL_PACKETS, action), Some((3, 14)));
        assert_eq!(with_filter(14, "01", &turned, action), Some((3, 14)));
        for root in ["01", "03", "04", "FF"] {
            assert_eq!(with_filter(12, root, ALL_PACKETS, action), Some((5, 12)));
            assert_eq!(with_filter(12, root, &turned, action), Some((5, 12)));
        }
        assert_eq!(with_filter(12, "00", &turned, action), Some((6, 12)));
    }
    for action in ["02", "03", "10", "80", "81", "FF", "0000", "0001", "0100"] {
        for line in [1, 12, 14] {
            for root in ["00", "01", "FF"] {
                for selector in [ALL_PACKETS, &turned] {
                    let refused = with_filter(line, root, selector, action);
                    assert_eq!(refused, Some((2, line)), "{root}{selector}{action}");
                }
            }
        }
    }
    let one_short = &ALL_PACKETS[2..];
    assert_eq!(with_filter(12, "00", one_short, ""), Some((2, 12)));
    assert_eq!(with_filter(12, "00", &one_short[2..], "01"), Some((2, 12)));
}

#[test]
fn refusals_of_sequence() {
    assert_eq!(refusal(b""), Some((3, 1)));
    assert_eq!(refusal(b"0201FFFFFF\n"), Some((3, 1)));
    assert_eq!(refusal(&text(&table_t()[..10])), Some((3, 11)));
    assert_eq!(refusal(&text(&table_t()[..11])), None);
    assert_eq!(refusal(&with_line(5, "0202FFFFFF")), Some((3, 5)));
    assert_eq!(refusal(&with_line(10, "0207FFFFFF")), Some((3, 10)));
    assert_eq!(refusal(&with_line(11, "0207FFFFFF")), Some((3, 11)));
    assert_eq!(refusal(&with_line(12, "03000000")), Some((3, 12)));
    assert_eq!(refusal(&with_line(12, "01000000")), Some((3, 12)));
    let mut surplus = vec![b"01FF007E".to_vec(); 128];
    surplus.push(b"01FF01FF".to_vec());
    assert_eq!(refusal(&text(&surplus)), Some((3, 129)));
}

#[test]
fn refusals_of_content() {
    for entity in [
        "01FF027E", "01000000", "01FF007F", "01FF00FE", "01000301", "01010300", "01050300",
        "01000400",
    ] {
        assert_eq!(refusal(&with_line(3, entity)), Some((4, 3)), "{entity}");
    }
    let row = |start: &str| {
        with_line(
            14,
            &format!("05{start}00000000FFFFFFFF00000000FFFFFFFF0000FFFF0000FFFF00FF00"),
        )
    };
    assert_eq!(refusal(&row("00010303030303")), None);
    for start in [
        "01010303030303",
        "04010303030303",
        "00040303030303",
        "0001FF03030303",
        "00010307030303",
    ] {
        assert_eq!(refusal(&row(start)), Some((5, 14)), "{start}");
    }
    assert_eq!(refusal(&row("00010300000000")), None);
    for start in ["00010300000001", "00010300000100", "00010300010000"] {
        assert_eq!(refusal(&row(start)), Some((7, 14)), "{start}");
    }
    let bounds = |range: &str| with_line(14, &format!("{ROW_START}0000FFFF{range}00"));
    assert_eq!(refusal(&bounds("8080")), None);
    assert_eq!(refusal(&bounds("8180")), Some((6, 14)));
    assert_eq!(
        refusal(&with_line(14, &format!("{ROW_START}0000FFFF00FF0101"))),
        Some((5, 14))
    );
}

/// What `answers` prints of Join for rows 0 and 1 of a table with these rows and an output of the length. Its entities 01 and 04
/// are under root 00, 02 and 03 under 01; 06 and 09 under root 05, 07 and 08 under 06; 0A is a root.
fn join_of(rows: [&str; 2], room: u8) -> String {
    let entities = [
        "01FF007E", "01000200", "01010300", "01010500", "01000300", "01FF007E", "01050200",
        "01060300", "01060500", "01050300", "01FF007E",
    ];
    join_in(&text(&frames(&entities, &rows)), 0, 1, room)
}

/// What `answers` prints of Join in the text.
fn join_in(text: &[u8], i: u8, j: u8, room: u8) -> String {
    let questions = Questions {
        couples: vec![Couple { i, j, room }],
        ..Questions::default()
    };
    only_line(printed::answers("text", text, &questions).joins)
}

/// The one line of what was printed, without line feed.
fn only_line(printed: Vec<u8>) -> String {
    let printed = String::from_utf8(printed).unwrap();
    printed.strip_suffix('\n').unwrap().to_string()
}

/// Checks the joined line of the rows in both orders, and what each gives with itself.
fn check_join(one: &str, other: &str, joined: &str) {
    let length = one.len() as u8;
    for (rows, joined) in [
        ([one, other], joined),
        ([other, one], joined),
        ([one, one], one),
        ([other, other], other),
    ] {
        let joined = joined.to_ascii_uppercase();
        assert_eq!(join_of(rows, length), format!("{length:02X} {joined}"));
    }
}

#[test]
fn joined_ends() {
    for (one, other, joined) in [
        ("02", "02", "02"),
        ("01", "02", "01"),
        ("00", "03", "00"),
        ("02", "03", "01"),
        ("02", "04", "00"),
        ("01", "04", "00"),
    ] {
        let selector = "0A0000000AFFFFFF0B0000000BFFFFFF0000FFFF01BB01BB060600";
        let sources = [one, other, joined].map(|e| format!("0500{e}0703010203{selector}"));
        check_join(&sources[0], &sources[1], &sources[2]);
        let destinations = [one, other, joined].map(|e| format!("050507{e}03010203{selector}"));
        check_join(&destinations[0], &destinations[1], &destinations[2]);
    }
    check_join(
        "05000208030102030A0000000AFFFFFF0B0000000BFFFFFF0000FFFF01BB01BB060600",
        "05000407030102030A0000000AFFFFFF0B0000000BFFFFFF0000FFFF01BB01BB060600",
        "05000006030102030A0000000AFFFFFF0B0000000BFFFFFF0000FFFF01BB01BB060600",
    );
}

#[test]
fn joined_boxes_and_coefficients() {
    for (one, other, joined) in [
        ("00000008", "00090014", "00000014"),
        ("00000008", "00080014", "00000014"),
        ("00000001", "FFFEFFFF", "0000FFFF"),
        ("00000014", "00080009", "00000014"),
        ("00050014", "00000009", "00000014"),
        ("01BB01BB", "01BB01BB", "01BB01BB"),
        ("00FF00FF", "01000100", "00FF0100"),
    ] {
        let lines = [one, other, joined].map(|ports| {
            format!("05000205030102030A0000000AFFFFFF0B0000000BFFFFFF0000FFFF{ports}060600")
        });
        check_join(&lines[0], &lines[1], &lines[2]);
    }
    check_join(
        "0500020503FF0001000000FF000001000A0000050A0000050001000280008001061100",
        "050002050301FE01000001000000010109FFFFFF0A000004000000017FFF7FFF070700",
        "0500020503FFFE01000000FF0000010109FFFFFF0A000005000000027FFF8001061100",
    );
}

#[test]
fn joined_groups() {
    let with = |middle: &str, end: &str| {
        format!("050002050{middle}0A0000000AFFFFFF0B0000000BFFFFFF0000FFFF01BB01BB0606{end}")
    };
    for (middle, end) in [
        ("0000000", "00"),
        ("6FFFFFF", "010A"),
        ("3010203", "0805000A0A0500000A"),
    ] {
        let line = with(middle, end);
        check_join(&line, &line, &line);
    }
    let small = with("3010203", "020a0A").to_ascii_lowercase();
    check_join(&small, &with("3010203", "020A0A"), &small);
}

#[test]
fn refusals_of_join() {
    let row = |holder: &str, ends: &str, technology: &str, gateways: &str| {
        format!("05{holder}{ends}{technology}0000000A0000000AFFFFFF0B0000000BFFFFFF0000FFFF01BB01BB0606{gateways}")
    };
    let own = row("00", "0207", "03", "020A05");
    for other in [
        row("05", "0207", "03", "020A05"),
        row("00", "0207", "04", "020A05"),
        row("00", "0207", "00", "020A05"),
        row("00", "0207", "03", "02050A"),
        row("00", "0207", "03", "010A"),
        row("00", "0207", "03", "030A050A"),
        row("00", "0207", "03", "00"),
        row("00", "0A07", "03", "020A05"),
        row("00", "0202", "03", "020A05"),
        row("00", "0702", "03", "020A05"),
    ] {
        for rows in [[&own[..], &other], [&other, &own]] {
            assert_eq!(join_of(rows, 0), "!0B00 ");
            assert_eq!(join_of(rows, 3), "!0B00 ...");
            assert_eq!(join_of(rows, 74), format!("!0B00 {}", ".".repeat(74)));
        }
    }
    assert_eq!(join_of([&own, &own], 0), "!0800 ");
    let short = format!("!0800 {}", ".".repeat(73));
    assert_eq!(join_of([&own, &own], 73), short);
    assert_eq!(join_of([&own, &own], 74), format!("4A {own}"));
    assert_eq!(join_of([&own, &own], 75), format!("4A {own}."));
    let longest = format!("4A {own}{}", ".".repeat(181));
    assert_eq!(join_of([&own, &own], 255), longest);
}

#[test]
fn refusals_of_join_by_row_numbers() {
    let whole = text(&table_t());
    for (i, j) in [(0, 3), (3, 0), (3, 3), (64, 2), (0, 255), (255, 64)] {
        assert_eq!(join_in(&whole, i, j, 2), "!0900 ..");
        assert_eq!(join_in(&whole, i, j, 0), "!0900 ");
    }
    let mut rows = table_t();
    rows.resize(11 + 64, rows[13].clone());
    let last = format!("46 {ROW_START}0000FFFF00FF00");
    assert_eq!(join_in(&text(&rows), 63, 0, 70), last);
    assert_eq!(join_in(&text(&rows), 63, 64, 1), "!0900 .");
    assert_eq!(join_in(&whole[1..], 3, 0, 1), "!0101 .");
}

/// What `answers` prints of Prefixes in the text.
fn prefixes_in(text: &[u8], row: u8, number: u8, room: u16) -> String {
    let questions = Questions {
        sides: vec![Side { row, number, room }],
        ..Questions::default()
    };
    only_line(printed::answers("text", text, &questions).prefixes)
}

/// Checks Prefixes' answers for T with these addresses in row 2, and outputs that fit, are short or longer.
fn check_prefixes(addresses: &str, of_source: &str, of_destination: &str) {
    let row = format!("0500010303030303{addresses}0000FFFF0000FFFF00FF00");
    let text = with_line(14, &row);
    for (number, list) in [(0, of_source), (1, of_destination)] {
        let length = list.len() as u16 / 2;
        let count = usize::from(length) / PREFIX_BYTES;
        for longer in [0, 1, 5, 512 - length] {
            let rest = "2E".repeat(usize::from(longer));
            let answer = prefixes_in(&text, 2, number, length + longer);
            assert_eq!(answer, format!("{count:02X} {list}{rest}"));
        }
        for room in [0, 4, length - 5, length - 1] {
            let rest = "2E".repeat(usize::from(room));
            let answer = prefixes_in(&text, 2, number, room);
            assert_eq!(answer, format!("!0800 {rest}"));
        }
    }
}

#[test]
fn prefixes_of_both_sides() {
    check_prefixes(
        "0A01000A0A01000A00000000FFFFFFFF",
        "0A01000A20",
        "0000000000",
    );
    check_prefixes(
        "0A01000A0A01001D7FFFFFFF80000000",
        "0A01000A1F0A01000C1E0A0100101D0A0100181E0A01001C1F",
        "7FFFFFFF208000000020",
    );
    let upward = (0..31).map(|k| (1 << k, 32 - k));
    let downward = (2..=32).map(|k| (!(u32::MAX >> (k - 1)), k));
    let most: String = upward
        .chain(downward)
        .map(|(address, length)| format!("{address:08X}{length:02X}"))
        .collect();
    assert_eq!(most.len(), 2 * 310);
    check_prefixes("000000000000000000000001FFFFFFFE", "0000000020", &most);
}

#[test]
fn refusals_of_prefixes_in_their_order() {
    let whole = text(&table_t());
    for (room, untouched) in [(0, ""), (4, "2E2E2E2E"), (6, "2E2E2E2E2E2E")] {
        for number in [0, 1, 2, 255] {
            for row in [0, 3, 255] {
                let answer = prefixes_in(&whole[1..], row, number, room);
                assert_eq!(answer, format!("!0101 {untouched}"));
            }
            for row in [3, 64, 255] {
                let answer = prefixes_in(&whole, row, number, room);
                assert_eq!(answer, format!("!0900 {untouched}"));
            }
        }
        for number in [2, 3, 128, 255] {
            let answer = prefixes_in(&whole, 2, number, room);
            assert_eq!(answer, format!("!0C00 {untouched}"));
        }
    }
    let mut rows = table_t();
    rows.resize(11 + 64, rows[13].clone());
    assert_eq!(prefixes_in(&text(&rows), 63, 1, 5), "01 0000000000");
    assert_eq!(prefixes_in(&text(&rows), 64, 1, 5), "!0900 2E2E2E2E2E");
}

/// What `answers` prints of Mesh for the last of these rows, of which each has its ends and box. The entities are a root 00 with 01 and,
/// side by side below that, 02 and 03, and a root 04.
fn mesh_of(rows: &[(&str, &str)]) -> String {
    let entities = ["01FF007E", "01000200", "01010300", "01010300", "01FF007E"];
    let row = |&(ends, selector): &(&str, &str)| format!("0500{ends}03030303{selector}00");
    let rows: Vec<String> = rows.iter().map(row).collect();
    let rows: Vec<&str> = rows.iter().map(String::as_str).collect();
    let text = text(&frames(&entities, &rows));
    let printed = String::from_utf8(printed::answers("text", &text, &Questions::default()).meshes);
    let printed = printed.unwrap();
    let mut lines = printed.lines().skip(rows.len() - 1);
    let last = lines.next().unwrap().to_string();
    assert_eq!((lines.next(), lines.next()), (Some("!0900"), None));
    last
}

/// The box of all packets but for these destination ports, the protocols 00 to 0F and no others.
fn ports(ports: &str) -> String {
    format!("{}{ports}000F", &ALL_PACKETS[..40])
}

/// The packet of this destination port and protocol, all else 0.
fn of_port(port: &str, protocol: &str) -> String {
    format!("{}{port}{protocol}", "0".repeat(20))
}

#[test]
fn mesh_of_one_field() {
    for (earlier, own, expected) in [
        (&[][..], "00050009", Some("0005")),
        (&["00000006"], "00050009", Some("0007")),
        (&["00000008"], "00050009", Some("0009")),
        (&["00060009"], "00050009", Some("0005")),
        (&["00050008"], "00050009", Some("0009")),
        (&["00050005"], "00050009", Some("0006")),
        (&["00000004", "000A000F"], "00050009", Some("0005")),
        (&["00050006", "00080009"], "00050009", Some("0007")),
        (&["00080009", "00050006", "00070007"], "00050009", None),
        (&["00080009", "00050007"], "00050009", None),
        (&["00050009"], "00050009", None),
        (&["00050008", "00050008"], "00050009", Some("0009")),
        (&["00050009", "00050009"], "00050009", None),
        (&["0000FFFF"], "00050009", None),
        (&["00000004", "00060009"], "00050005", Some("0005")),
        (&["00040005"], "00050005", None),
        (&["0000FFFE"], "0000FFFF", Some("FFFF")),
        (&["0000FFFE", "FFFFFFFF"], "0000FFFF", None),
        (&["0001FFFF"], "0000FFFF", Some("0000")),
    ] {
        let selectors: Vec<String> = earlier.iter().chain([&own]).map(|p| ports(p)).collect();
        let rows: Vec<(&str, &str)> = selectors.iter().map(|s| ("0104", &s[..])).collect();
        let expected = expected.map_or("dead".to_string(), |port| of_port(port, "00"));
        assert_eq!(mesh_of(&rows), expected, "{earlier:?} before {own}");
    }
}

#[test]
fn mesh_of_two_fields() {
    let with = |ports: &str, protocols: &str| format!("{}{ports}{protocols}", &ALL_PACKETS[..40]);
    let own = with("00000009", "000F");
    for (earlier, expected) in [
        (
            [with("00000000", "000E"), with("00010009", "010F")],
            of_port("0000", "0F"),
        ),
        (
            [with("00000000", "000F"), with("00010009", "010F")],
            of_port("0001", "00"),
        ),
        (
            [with("00000004", "0007"), with("00000004", "080F")],
            of_port("0005", "00"),
        ),
        (
            [with("00000005", "0007"), with("00000009", "080F")],
            of_port("0006", "00"),
        ),
        (
            [with("00000009", "0007"), with("00000005", "080F")],
            of_port("0006", "08"),
        ),
        (
            [with("00000009", "0007"), with("00000009", "080F")],
            "dead".to_string(),
        ),
    ] {
        let rows = [&earlier[0], &earlier[1], &own].map(|selector| ("0104", &selector[..]));
        assert_eq!(mesh_of(&rows), expected, "{earlier:?}");
    }
}

#[test]
fn mesh_of_all_addresses() {
    let rest = &ALL_PACKETS[32..];
    let all = "00000000FFFFFFFF";
    let at = |sources: &str, destinations: &str| format!("{sources}{destinations}{rest}");
    let below = at("00000000FFFFFFFE", all);
    let last = at("FFFFFFFFFFFFFFFF", "00000000FFFFFFFE");
    let own = at(all, all);
    let packet = |addresses: &str| format!("{addresses}{}", "0".repeat(10));
    for (earlier, expected) in [
        (vec![&below], packet("FFFFFFFF00000000")),
        (vec![&last], packet("0000000000000000")),
        (vec![&below, &last], packet("FFFFFFFFFFFFFFFF")),
        (vec![&last, &below, &own], "dead".to_string()),
    ] {
        let rows: Vec<(&str, &str)> = earlier
            .into_iter()
            .chain([&own])
            .map(|s| ("0104", &s[..]))
            .collect();
        assert_eq!(mesh_of(&rows), expected);
    }
}

#[test]
fn mesh_of_rows_that_are_above_alone() {
    let half = ports("00000007");
    let own = ports("0000000F");
    let [free, hidden] = ["0000", "0008"].map(|port| of_port(port, "00"));
    for (ends, own_ends, expected) in [
        ("0204", "0204", &hidden),
        ("0104", "0204", &hidden),
        ("0004", "0204", &hidden),
        ("0204", "0104", &free),
        ("0304", "0204", &free),
        ("0404", "0204", &free),
        ("0402", "0402", &hidden),
        ("0401", "0402", &hidden),
        ("0403", "0402", &free),
        ("0402", "0401", &free),
        ("0001", "0202", &hidden),
        ("0203", "0202", &free),
    ] {
        let rows = [(ends, &half[..]), (own_ends, &own)];
        assert_eq!(&mesh_of(&rows), expected, "{ends} before {own_ends}");
    }
}

#[test]
fn refusals_of_mesh_are_those_of_witness() {
    let whole = text(&table_t());
    let nobody = |number, line| Err(Refusal { number, line });
    for (text, row, expected) in [
        (&whole[..], 3, nobody(9, 0)),
        (&whole, usize::MAX, nobody(9, 0)),
        (&whole[..whole.len() - 1], 0, nobody(1, 14)),
        (&whole[..whole.len() - 1], 3, nobody(1, 14)),
        (&text(&table_t()[..11]), 0, nobody(9, 0)),
        (b"", 0, nobody(3, 1)),
    ] {
        let reading = Reading::of(text);
        assert_eq!(reading.mesh(row), expected);
        assert_eq!(reading.witness(row), expected);
    }
}

#[test]
fn executed_examples() {
    let directory = Path::new("crates/answers");
    let stored = |name: &str| std::fs::read_to_string(directory.join(name)).unwrap();
    let arguments = stored("args");
    let names: Vec<&str> = arguments.lines().collect();
    let printed: Vec<Vec<u8>> = names
        .chunks(2)
        .map(|pair| crate::answers(&directory.join("data"), pair[0], pair[1]).unwrap())
        .collect();
    assert_eq!(
        String::from_utf8(printed.concat()).unwrap(),
        stored("stdout")
    );
}

#[test]
fn stored_vectors_of_the_programs() {
    let directory = Path::new("tests/programs");
    let mut texts = 0;
    for file in std::fs::read_dir(directory).unwrap() {
        let path = file.unwrap().path();
        if path
            .extension()
            .is_some_and(|extension| extension == "text")
        {
            let stored = |extension: &str| std::fs::read(path.with_extension(extension)).unwrap();
            let text = stored("text");
            let answers = printed::answers("text", &text, &Questions::default());
            let [list, struck] = [answers.list, answers.struck]
                .map(|answer| printed::of_input(&text, &answer).to_vec());
            assert_eq!(list, stored("rowlist"), "{path:?}");
            assert_eq!(struck, stored("strike"), "{path:?}");
            texts += 1;
        }
    }
    assert!(texts > 0);
}

/// No table has more entries. A row has at most ten alone, since no internal loop has an alternative path, and row 0 is never dead. Two
/// rows have at most three: one of kinds 5 to 11 and 18, and 13 in either order. Two filters have at most two.
#[test]
fn the_stored_largest_list() {
    let text = std::fs::read("crates/answers/data/largest_list").unwrap();
    let table = read(&text).unwrap();
    assert_eq!((table.filters.len(), table.rows.len()), (32, 64));
    let entries = list(&table);
    let of_rows = 10 * 64 - 1 + 3 * (64 * 63 / 2);
    assert_eq!(entries.len(), of_rows + 32 * 31);
    assert_eq!(entries.len(), 7679);
    assert!(in_two_blocks(&entries));
    assert!(entries[..of_rows].iter().all(|entry| entry[1] <= 20));
}

/// Whether the entries of rows come first and then those of filters, both in ascending order.
fn in_two_blocks(entries: &[Entry]) -> bool {
    let place = |entry: &Entry| (entry[1] > 20, *entry);
    entries
        .windows(2)
        .all(|pair| place(&pair[0]) < place(&pair[1]))
}

#[test]
fn seeded_lists_are_in_two_blocks() {
    let mut not_ascending = 0;
    for number in 0..1000 {
        let table = read(&case(1, number).text).unwrap_or_default();
        let entries = list(&table);
        assert!(in_two_blocks(&entries));
        not_ascending += usize::from(!entries.is_sorted());
    }
    assert!(not_ascending > 100, "{not_ascending}");
}

#[test]
fn stored_seasons_grow_at_the_end() {
    let stored = |name: &str| std::fs::read(format!("crates/answers/data/{name}")).unwrap();
    let questions = Questions::read(&stored("season_probes")).unwrap();
    let texts = ["season_no_rows", "season_old_rows", "season_added_rows"].map(stored);
    for (pair, rows) in texts.windows(2).zip([0, 4]) {
        assert!(pair[1].starts_with(&pair[0]));
        assert_eq!(read(&pair[0]).unwrap().rows.len(), rows);
        let [before, after] =
            [&pair[0], &pair[1]].map(|text| printed::answers("text", text, &questions));
        let checked = added::check(rows, &questions.probes, &before, &after);
        assert_eq!(checked, Ok(()));
    }
    assert_eq!(
        texts[1..],
        ["season", "season-extended"]
            .map(|name| std::fs::read(format!("examples/{name}.table")).unwrap())
    );
}

#[test]
fn seeded_texts_have_every_kind_and_refusal() {
    let mut kinds = BTreeSet::new();
    let mut refusals = BTreeSet::new();
    let mut lengths = BTreeSet::new();
    for number in 0..2000 {
        let text = case(1, number).text;
        lengths.insert(text.len());
        match read(&text) {
            Ok(table) => kinds.extend(list(&table).iter().map(|entry| entry[1])),
            Err(refusal) => {
                refusals.insert(refusal.number);
            }
        }
    }
    assert_eq!(kinds, (1..=22).collect());
    assert_eq!(refusals, (1..=7).collect());
    assert!([16_383, 16_384, 16_385]
        .iter()
        .all(|length| lengths.contains(length)));
}

/// How coefficients compare with others; none where each has a greater one.
fn strength(of: &Coefficients, with: &Coefficients) -> Option<Ordering> {
    match (at_least(of, with), at_least(with, of)) {
        (true, true) => Some(Equal),
        (true, false) => Some(Greater),
        (false, true) => Some(Less),
        (false, false) => None,
    }
}

#[test]
fn seeded_tunnels_have_riders_of_every_strength() {
    let mut ridden = BTreeSet::new();
    let mut only_by_itself = 0;
    for number in 0..1000 {
        let table = read(&case(1, number).text).unwrap_or_default();
        for (i, row) in table.rows.iter().enumerate() {
            let riders = riders(&table, i);
            if riders.is_empty() && rides(&table, row, row) {
                only_by_itself += 1;
            }
            let strengths = riders
                .iter()
                .map(|rider| strength(&rider.coefficients, &row.coefficients));
            ridden.insert(strengths.collect::<Vec<_>>());
        }
    }
    let every = [Some(Less), Some(Equal), Some(Greater), None];
    for first in every {
        assert!(ridden.contains(&vec![first]));
        for second in every {
            assert!(ridden.contains(&vec![first, second]));
        }
    }
    assert!(only_by_itself > 0);
}

#[test]
fn seeded_couples_have_every_length_and_refusal() {
    let mut rooms = BTreeSet::new();
    let mut refusals = BTreeSet::new();
    for number in 0..1000 {
        let case = case(1, number);
        let reading = Reading::of(&case.text);
        for couple in &case.questions.couples {
            match reading.join(usize::from(couple.i), usize::from(couple.j)) {
                Ok(line) => {
                    rooms.insert((line.len(), usize::from(couple.room).cmp(&line.len())));
                }
                Err(refusal) => {
                    refusals.insert(refusal.number);
                }
            }
        }
    }
    let every: BTreeSet<(usize, Ordering)> = (35..=43)
        .flat_map(|bytes| [Less, Equal, Greater].map(|room| (2 * bytes, room)))
        .collect();
    assert_eq!(rooms, every);
    assert_eq!(refusals, (1..=7).chain([9, 11]).collect());
}

#[test]
fn seeded_sides_have_every_room_and_refusal() {
    let mut empty = BTreeSet::new();
    let mut spare = BTreeSet::new();
    let mut refusals = BTreeSet::new();
    let mut no_rows = BTreeSet::new();
    for number in 0..1000 {
        let case = case(1, number);
        let reading = Reading::of(&case.text);
        let rows = reading.check().map_or(0, |counts| counts[2]);
        for side in &case.questions.sides {
            match reading.prefixes(side) {
                Ok(list) => {
                    let length = (PREFIX_BYTES * list.len()) as i32;
                    empty.extend((side.room == 0).then_some(side.number));
                    spare.insert((side.number, i32::from(side.room) - length));
                }
                Err(refusal) => {
                    let short = usize::from(side.room) < PREFIX_BYTES;
                    refusals.insert((refusal.number, side.number > 1, short));
                    if refusal.number == 9 {
                        no_rows.insert((side.row, usize::from(side.row) == rows));
                    }
                }
            }
        }
    }
    for number in [0, 1] {
        assert!(empty.contains(&number));
        assert!([-1, 0, 1].iter().all(|&k| spare.contains(&(number, k))));
        assert!(spare.iter().any(|&(of, k)| of == number && k > 100));
    }
    let numbers: BTreeSet<usize> = refusals.iter().map(|&(number, ..)| number).collect();
    assert_eq!(numbers, (1..=7).chain([9, 12]).collect());
    for short in [false, true] {
        assert!(refusals.contains(&(9, false, short)) && refusals.contains(&(9, true, short)));
        assert!(refusals.contains(&(12, true, short)));
    }
    assert!(no_rows.contains(&(64, false)) && no_rows.contains(&(255, false)));
    assert!(no_rows.iter().any(|&(_, past_the_last)| past_the_last));
}

#[test]
fn seeded_cuts_are_read_as_beginnings_of_the_table() {
    let mut sizes = BTreeSet::new();
    for number in 0..1000 {
        let text = case(1, number).text;
        let table = read(&text).unwrap_or_default();
        let cuts = compare::cuts(number, &text);
        sizes.insert(cuts.len());
        for (rows, cut) in cuts.into_iter().enumerate() {
            let mut shorter = table.clone();
            shorter.rows.truncate(rows);
            shorter.row_places.truncate(rows);
            assert_eq!(read(cut), Ok(shorter));
        }
    }
    assert!((0..=12).chain([64]).all(|rows| sizes.contains(&rows)));
}

#[test]
fn seeded_cuts_are_followed_by_rows_that_match_as_well() {
    let (mut dead, mut overlapped, mut witnesses, mut won) = (0, 0, 0, 0);
    for number in 0..1000 {
        let case = case(1, number);
        let table = read(&case.text).unwrap_or_default();
        for (rows, cut) in compare::cuts(number, &case.text).into_iter().enumerate() {
            let reading = Reading::of(cut);
            let added = &table.rows[rows];
            for (row, old) in table.rows[..rows].iter().enumerate() {
                let witness = reading.witness(row).unwrap();
                dead += usize::from(witness.is_none());
                if same_group(added, old) && ends_above(&table, added, old) {
                    overlapped += usize::from(overlap(&added.selector, &old.selector));
                    let taken = witness.is_some_and(|packet| in_selector(&packet, &added.selector));
                    witnesses += usize::from(taken);
                }
            }
            let had_winner = |probe: &&Probe| matches!(reading.winner(probe), Ok(Some(_)));
            let probes = case.questions.probes.iter().filter(had_winner);
            won += probes.filter(|probe| matches(&table, added, probe)).count();
        }
    }
    assert!(dead > 1000);
    assert!(overlapped > 1000);
    assert!(witnesses > 500);
    assert!(won > 2000);
}

#[test]
fn two_rows_match_each_shared_probe() {
    let random = &mut Random::new(7);
    let mut probes = 0;
    for _ in 0..100 {
        let table = table(random, Scale::Usual);
        for probe in shared(random, &table) {
            let named = usize::from(probe.row);
            let (row, later) = (&table.rows[named], &table.rows[named + 1..]);
            assert!(matches(&table, row, &probe));
            assert!(later.iter().any(|row| matches(&table, row, &probe)));
            probes += 1;
        }
    }
    assert!(probes > 400);
}

/// Whether the row matches the probe in the group of the row that the probe names.
fn matches(table: &Table, row: &Row, probe: &Probe) -> bool {
    same_group(row, &table.rows[usize::from(probe.row)])
        && above(table, row.source, probe.a)
        && above(table, row.destination, probe.b)
        && in_selector(&probe.packet, &row.selector)
}

#[test]
fn seeded_texts_have_small_letters_in_every_frame() {
    let mut kinds = BTreeSet::new();
    let mut letter_after_f = 0;
    for number in 0..5000 {
        let text = case(1, number).text;
        letter_after_f += text.iter().filter(|&&character| character == b'g').count();
        if read(&text).is_ok() {
            for line in text.split(|&character| character == b'\n') {
                let small = line.iter().any(u8::is_ascii_lowercase);
                let capital = line.iter().any(u8::is_ascii_uppercase);
                if small {
                    kinds.insert((line[1], capital));
                }
            }
        }
    }
    let every: BTreeSet<(u8, bool)> = (b'1'..=b'5')
        .flat_map(|kind| [(kind, false), (kind, true)])
        .collect();
    assert_eq!(kinds, every);
    assert!(letter_after_f > 0);
}

#[test]
fn seeded_tables_are_read_as_written() {
    for number in 0..100 {
        let text_read = case(2, number).text;
        if let Ok(table) = read(&text_read) {
            assert_eq!(text(&lines(&table)), text_read.to_ascii_uppercase());
        }
    }
}

#[test]
fn demand_three_on_seeded_tables() {
    let random = &mut Random::new(3);
    for number in 0..150 {
        let old_text = case(3, number).text;
        let Ok(old) = read(&old_text) else {
            continue;
        };
        let reading = Reading::of(&old_text);
        let new = read(&reading.strike().unwrap()).unwrap();
        let listed_dead: Vec<usize> = list(&old)
            .iter()
            .filter(|entry| entry[1] == 20)
            .map(|entry| usize::from(entry[0]))
            .collect();
        let kept: Vec<usize> = (0..old.rows.len())
            .filter(|row| !listed_dead.contains(row))
            .collect();
        assert_eq!(
            new.rows,
            kept.iter()
                .map(|&row| old.rows[row].clone())
                .collect::<Vec<_>>()
        );
        assert!(list(&new).iter().all(|entry| entry[1] != 20));
        for row in 0..old.rows.len() {
            let witness = reading.witness(row).unwrap();
            assert_eq!(witness.is_none(), listed_dead.contains(&row));
            check_witness(&old, row, witness, random);
        }
        for _ in 0..if old.rows.is_empty() { 0 } else { 200 } {
            compare_winners(&old, &new, &kept, random);
        }
    }
}

/// Holds a row's witness against winners: it wins there, and with no smaller packet tried.
fn check_witness(table: &Table, row: usize, witness: Option<Packet>, random: &mut Random) {
    let own = &table.rows[row];
    let wins =
        |a: u8, b: u8, packet: &Packet| crate::dead::winner(table, row, a, b, packet) == Some(row);
    if let Some(packet) = witness {
        assert!(wins(own.source, own.destination, &packet));
    }
    for _ in 0..40 {
        let smaller = packet(random, table);
        let a = random.below(table.entities.len()) as u8;
        let b = random.below(table.entities.len()) as u8;
        if witness.is_none_or(|least| smaller < least) {
            assert!(!wins(own.source, own.destination, &smaller) && !wins(a, b, &smaller));
        }
    }
}

/// Holds the winner of one probe in the struck table against the winner in the old.
fn compare_winners(old: &Table, new: &Table, kept: &[usize], random: &mut Random) {
    let naming = random.below(old.rows.len());
    let packet = packet(random, old);
    let like = &old.rows[random.below(old.rows.len())];
    let before = crate::dead::winner(old, naming, like.source, like.destination, &packet);
    let in_new = new
        .rows
        .iter()
        .position(|row| same_group(row, &old.rows[naming]))
        .unwrap();
    let after = crate::dead::winner(new, in_new, like.source, like.destination, &packet);
    assert_eq!(before, after.map(|row| kept[row]));
}

/// A packet at or near bounds of the table's rows.
fn packet(random: &mut Random, table: &Table) -> Packet {
    let mut packet = [0; FIELDS];
    for (field, value) in packet.iter_mut().enumerate() {
        let range = table.rows[random.below(table.rows.len())].selector[field];
        *value = random.pick(&[range.low, range.high, range.low.saturating_sub(1)]);
    }
    packet
}
