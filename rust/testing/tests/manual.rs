//! The tables of docs/MANUAL.md are held to the library: each field stands at its offset, every refusal has its row, and every radar mode has
//! its systems. The Rust package's table of kinds and fields, and its systems, are held to them.
use gmti::{Edition, Field, Kind, Presence};
use std::collections::{BTreeMap, BTreeSet};
use std::fs;
use testing::library::Answer;
use testing::{independent, root};

/// The length of the body of each kind, from kind 1 on, by document 01 and request A4.
const BODY_LENGTHS: [usize; 12] = [32, 39, 87, 44, 24, 33, 5, 69, 14, 23, 66, 8];

/// Widths by document 01; those of HRR segments by document 003, and of scatterers on the sheet by request A4.
const HEADER: [usize; 10] = [2, 4, 2, 1, 2, 2, 1, 10, 4, 4];
const MISSION: [usize; 7] = [12, 12, 1, 10, 2, 1, 1];
const DWELL: [usize; 31] = [8, 2, 2, 1, 2, 4, 4, 4, 4, 4, 4, 4, 4, 2, 2, 4, 1, 1, 2, 2, 2, 2, 2, 4, 4, 2, 2, 2, 2, 2, 1];
const TARGET: [usize; 18] = [2, 4, 4, 2, 2, 2, 2, 2, 1, 1, 1, 2, 2, 1, 2, 1, 4, 1];
const JOB: [usize; 28] = [4, 1, 6, 1, 1, 4, 4, 4, 4, 4, 4, 4, 4, 1, 2, 2, 2, 2, 1, 2, 2, 2, 2, 1, 1, 1, 1, 1];
const TEXT: [usize; 2] = [10, 10];
const TEST: [usize; 6] = [4, 2, 2, 4, 1, 1];
const LOCATION: [usize; 7] = [4, 4, 4, 4, 2, 4, 1];
const HRR: [usize; 31] = [5, 2, 2, 1, 2, 2, 2, 2, 1, 1, 2, 2, 4, 4, 4, 1, 1, 1, 2, 1, 2, 4, 1, 1, 1, 1, 1, 4, 1, 4, 4];
const SCATTERER: [usize; 4] = [2; 4];

/// Masks with every field that is allowed beside deltas, and beside absolute positions.
const WITH_DELTAS: u64 = 0xFFFF_FFFE_7FFF_0000;
const WITH_ABSOLUTES: u64 = 0xFF3F_FFFF_9FFF_0000;

fn manual() -> String {
    fs::read_to_string(root().join("docs/MANUAL.md")).unwrap()
}

/// The table rows of the section with this heading, its first two lines included, each as its cells.
fn table(heading: &str) -> Vec<Vec<String>> {
    let text = manual();
    let section = text.lines().skip_while(|line| !line.starts_with(heading)).skip(1).take_while(|line| !line.starts_with('#'));
    let rows = section.skip_while(|line| !line.starts_with('|')).take_while(|line| line.starts_with('|'));
    rows.map(|row| row.trim_matches('|').split('|').map(|cell| cell.trim().to_string()).collect()).collect()
}

/// A row of an offset table.
#[derive(Debug, PartialEq)]
struct Row {
    field: String,
    offset: usize,
    width: usize,
    form: String,
    bit: Option<u32>,
}

/// The offset table of a kind.
fn offsets(kind: usize) -> Vec<Row> {
    let rows = table(&format!("### Kind {kind}:"));
    let column = |name: &str| rows[0].iter().position(|cell| cell == name);
    let [field, offset, width, form] = ["Field", "Offset", "Width", "Form"].map(|name| column(name).unwrap());
    let bit = |row: &Vec<String>| row[column("Mask bit")?].parse().ok();
    let parsed = rows[2..].iter().map(|row| Row {
        field: row[field].clone(),
        offset: row[offset].parse().unwrap(),
        width: row[width].parse().unwrap(),
        form: row[form].clone(),
        bit: bit(row),
    });
    parsed.collect()
}

/// Where the manual puts a field.
fn place(kind: usize, field: &str) -> std::ops::Range<usize> {
    let row = offsets(kind).into_iter().find(|row| row.field == field).unwrap_or_else(|| panic!("kind {kind} has no {field}"));
    row.offset..row.offset + row.width
}

fn numbered(letter: &str, widths: &[usize]) -> Vec<(String, usize)> {
    widths.iter().enumerate().map(|(i, &width)| (format!("{letter}{}", i + 1), width)).collect()
}

/// The fields of a record and their widths.
fn fields(kind: usize) -> Vec<(String, usize)> {
    let other = |names: &[(&str, usize)]| names.iter().map(|&(name, width)| (name.to_string(), width)).collect();
    let kind_byte: Vec<_> = other(&[("kind", 1)]);
    let (first, then): (_, Vec<_>) = match kind {
        1 => (numbered("P", &HEADER), vec![]),
        2 => (numbered("M", &MISSION), vec![]),
        3 => (numbered("D", &DWELL), other(&[("mark", 1)])),
        4 => (numbered("D32.", &TARGET), other(&[("latitude", 4), ("longitude", 4)])),
        5 => (numbered("F", &TEXT), other(&[("length", 4)])),
        6 => (vec![], other(&[("count", 1), ("bytes", 32)])),
        7 => (vec![], other(&[("type", 1), ("length", 4)])),
        8 => (numbered("J", &JOB), other(&[("mark", 1)])),
        9 => (numbered("T", &TEST), vec![]),
        10 => (numbered("L", &LOCATION), vec![]),
        11 => (numbered("H", &HRR), vec![]),
        _ => (numbered("H32.", &SCATTERER), vec![]),
    };
    [kind_byte, first, then].concat()
}

#[test]
fn tables_have_every_field_without_gap_or_overlap() {
    let text = manual();
    let kinds = table("## The sheet");
    for kind in 1..=BODY_LENGTHS.len() {
        let (rows, mut at) = (offsets(kind), 0);
        let listed: Vec<_> = rows.iter().map(|row| (row.field.clone(), row.width)).collect();
        assert_eq!(listed, fields(kind), "kind {kind}");
        for row in &rows {
            assert_eq!(row.offset, at, "kind {kind}, {}", row.field);
            at += row.width;
        }
        assert_eq!(at, 1 + BODY_LENGTHS[kind - 1], "kind {kind}");
        let name = &kinds[kind + 1][1];
        assert_eq!(kinds[kind + 1][..3], [kind.to_string(), name.clone(), at.to_string()]);
        assert!(text.lines().any(|line| line == format!("### Kind {kind}: {name}, {at} bytes")), "kind {kind}");
    }
}

/// The number by which mask and refusals know a field of a dwell or target, or of an HRR segment or scatterer; None for what no mask
/// announces.
fn number_of(field: &str) -> Option<u32> {
    let name = field.strip_prefix(['D', 'H'])?;
    match name.strip_prefix("32.") {
        Some(j) => j.parse().ok().map(|j: u32| 31 + j),
        None => name.parse().ok().filter(|&n| n > 1),
    }
}

/// The mask of a dwell has 64 bits, that of an HRR segment 40.
#[test]
fn tables_give_the_mask_bits() {
    for (kind, above) in [(3, 65), (4, 65), (11, 41), (12, 41)] {
        for row in offsets(kind) {
            assert_eq!(row.bit, number_of(&row.field).map(|n| above - n), "{}", row.field);
        }
    }
}

/// The row that a field of the package's table is to have.
fn row_of(kind: Kind, field: &Field) -> Row {
    let above = match kind {
        Kind::Dwell | Kind::Target => Some(65),
        Kind::Hrr | Kind::Scatterer => Some(41),
        _ => None,
    };
    let bit = above.filter(|_| field.number() > 1).map(|above| above - field.number());
    Row { field: field.label.to_string(), offset: field.offset, width: field.width, form: field.form.to_string(), bit }
}

/// Beside its fields a record has its kind byte and, where a field goes by a mark, that mark.
#[test]
fn tables_are_those_of_the_package() {
    let kinds = table("## The sheet");
    let byte = |field: &str, offset| Row { field: field.to_string(), offset, width: 1, form: "unsigned".to_string(), bit: None };
    for (number, kind) in (1..).zip(Kind::ALL) {
        assert_eq!(kinds[number + 1][..3], [number.to_string(), kind.name().to_string(), kind.length().to_string()]);
        let fields = kind.fields().iter().map(|field| row_of(kind, field));
        let marked = kind.fields().iter().filter(|field| field.presence == Presence::Marked);
        let due: Vec<Row> = [byte("kind", 0)].into_iter().chain(fields).chain(marked.map(|_| byte("mark", kind.length() - 1))).collect();
        assert_eq!(offsets(number), due, "{kind:?}");
    }
}

fn packet(version: &[u8; 2], segments: &[u8]) -> Vec<u8> {
    let length = (32 + segments.len()) as u32;
    [version, &length.to_be_bytes()[..], b"NO", &[5], b"  ", &[0; 3], &[b' '; 10], &[0; 8], segments].concat()
}

fn segment(type_number: u8, body: &[u8]) -> Vec<u8> {
    [&[type_number], &(5 + body.len() as u32).to_be_bytes()[..], body].concat()
}

/// Fields set, by number; the others are zero.
type Set<'a> = &'a [(u32, &'a [u8])];

/// A dwell of so many targets, all alike. Whether a field stands in it goes by the mask's bit, by document 01 bit 65 - number.
fn dwell(mask: u64, targets: u16, set: Set) -> Vec<u8> {
    let count = targets.to_be_bytes();
    let set: BTreeMap<u32, &[u8]> = set.iter().copied().chain([(5, &count[..])]).collect();
    let widths = DWELL[1..].iter().chain(&TARGET).enumerate().map(|(i, &width)| (i as u32 + 2, width));
    let (mut area, mut target) = (mask.to_be_bytes().to_vec(), Vec::new());
    for (number, width) in widths.filter(|(number, _)| mask >> (65 - number) & 1 == 1) {
        let part = if number < 32 { &mut area } else { &mut target };
        part.extend_from_slice(set.get(&number).copied().unwrap_or(&vec![0; width]));
    }
    segment(2, &[area, target.repeat(targets.into())].concat())
}

/// An HRR segment of this mask, of 40 bits, with these scatterers. Unless they are set, H25 is 1 and the others are zero.
fn hrr(mask: u64, set: Set, scatterers: &[u8]) -> Vec<u8> {
    let set: BTreeMap<u32, &[u8]> = [(25, &[1][..])].into_iter().chain(set.iter().copied()).collect();
    let widths = HRR[1..].iter().enumerate().map(|(i, &width)| (i as u32 + 2, width));
    let mut body = mask.to_be_bytes()[3..].to_vec();
    for (number, width) in widths.filter(|(number, _)| mask >> (41 - number) & 1 == 1) {
        body.extend_from_slice(set.get(&number).copied().unwrap_or(&vec![0; width]));
    }
    segment(3, &[&body, scatterers].concat())
}

/// The mask of every field, and that of those which every HRR segment announces.
const EVERY_HRR_FIELD: u64 = 0xFF_FFFF_FFC0;
const LEAST_HRR: u64 = 0xE2_FBC7_8200;

/// The sheet of a packet that must be accepted.
fn sheet_of(edition: u32, packet: &[u8]) -> Vec<u8> {
    let mut sheet = vec![0; testing::library::LONGEST_SHEET];
    let answer = testing::library::read(edition, packet, &mut sheet);
    assert!(answer.is_accepted(), "{answer}");
    sheet.truncate(answer.length as usize);
    sheet
}

/// The record of this kind and length that begins at this place of the packet's Edition 3 sheet.
fn record_of(kind: usize, at: usize, packet: &[u8]) -> Vec<u8> {
    let record = sheet_of(3, packet)[at..at + 1 + BODY_LENGTHS[kind - 1]].to_vec();
    assert_eq!(record[0] as usize, kind);
    record
}

/// Distinct bytes, none of them 0, that the field may hold.
fn value(field: &str, width: usize) -> Vec<u8> {
    match field {
        "P1" => b"17".to_vec(),
        "M6" => vec![7],
        "M7" => vec![23],
        "D4" => vec![1],
        "D5" | "D32.15" | "H6" => vec![1, 2],
        "H25" | "H26" => vec![2],
        _ => (b'A'..).take(width).collect(),
    }
}

/// The field's bytes stand where the manual puts it, and no other byte of the record differs but those that `free` names.
fn assert_stands(kind: usize, field: &str, value: &[u8], without: &[u8], with: &[u8], free: &[&str]) {
    let place_of_field = place(kind, field);
    assert_eq!(&with[place_of_field.clone()], value, "{field}");
    let free: Vec<_> = free.iter().map(|name| place(kind, name)).collect();
    for at in 0..with.len() {
        let is_free = place_of_field.contains(&at) || free.iter().any(|place| place.contains(&at));
        assert!(is_free || with[at] == without[at], "{field} changes byte {at} of kind {kind}");
    }
}

/// A body of fields one after another that are blank but for one; a blank field passes every check.
fn body(letter: &str, widths: &[usize], set: Option<(&str, &[u8])>) -> Vec<u8> {
    let is_text = |field: &str| ["M1", "M2", "M4", "J3", "F1", "F2"].contains(&field);
    let blank = |field: &str, width| match field {
        "M6" | "M7" => vec![1; width],
        _ if is_text(field) => vec![b' '; width],
        _ => vec![0; width],
    };
    let part = |(field, width): (String, usize)| match set {
        Some((name, value)) if name == field => value.to_vec(),
        _ => blank(&field, width),
    };
    numbered(letter, widths).into_iter().flat_map(part).collect()
}

#[test]
fn fields_of_segments_without_mask_stand_at_their_offsets() {
    let segments: [(usize, u8, &str, &[usize]); 5] =
        [(2, 1, "M", &MISSION), (8, 5, "J", &JOB), (5, 6, "F", &TEXT), (9, 10, "T", &TEST), (10, 13, "L", &LOCATION)];
    for (kind, type_number, letter, widths) in segments {
        let record = |set: Option<(&str, &[u8])>| record_of(kind, 33, &packet(b"30", &segment(type_number, &body(letter, widths, set))));
        for (field, width) in numbered(letter, widths) {
            let value = value(&field, width);
            assert_stands(kind, &field, &value, &record(None), &record(Some((&field, &value))), &[]);
        }
    }
}

#[test]
fn fields_of_the_header_stand_at_their_offsets() {
    let blank = packet(b"30", &[]);
    let mut at = 0;
    for (field, width) in numbered("P", &HEADER) {
        let value = value(&field, width);
        let mut set = blank.clone();
        set[at..at + width].copy_from_slice(&value);
        if field != "P2" {
            assert_stands(1, &field, &value, &record_of(1, 0, &blank), &record_of(1, 0, &set), &[]);
        }
        at += width;
    }
    // P2 has to be the length, so its first two bytes are 0 or, in the longest packet, 0 and 1
    for length in [0xC1B2u32, 0x10000] {
        let long = packet(b"30", &segment(7, &vec![0; length as usize - 37]));
        assert_stands(1, "P2", &length.to_be_bytes(), &record_of(1, 0, &blank), &record_of(1, 0, &long), &[]);
    }
}

#[test]
fn fields_of_a_dwell_stand_at_their_offsets() {
    let record = |mask, targets, set: Set| record_of(3, 33, &packet(b"30", &dwell(mask, targets, set)));
    let blank = record(WITH_DELTAS, 0, &[]);
    for (field, width) in numbered("D", &DWELL).into_iter().skip(1) {
        let value = value(&field, width);
        let targets = if field == "D5" { 0x0102 } else { 0 };
        let set = record(WITH_DELTAS, targets, &[(number_of(&field).unwrap(), &value)]);
        assert_stands(3, &field, &value, &blank, &set, &[]);
    }
    let other_mask = record(WITH_ABSOLUTES, 0, &[]);
    assert_stands(3, "D1", &WITH_ABSOLUTES.to_be_bytes(), &blank, &other_mask, &[]);
    assert_eq!(blank[place(3, "D1")], WITH_DELTAS.to_be_bytes());
}

#[test]
fn fields_of_a_target_stand_at_their_offsets() {
    for (field, width) in numbered("D32.", &TARGET) {
        let mask = if ["D32.2", "D32.3"].contains(&field.as_str()) { WITH_ABSOLUTES } else { WITH_DELTAS };
        let record = |set: Set| record_of(4, 33 + 88, &packet(b"30", &dwell(mask, 1, set)));
        let value = value(&field, width);
        let free: &[&str] = match field.as_str() {
            "D32.2" => &["latitude"],
            "D32.3" => &["longitude"],
            _ => &[],
        };
        assert_stands(4, &field, &value, &record(&[]), &record(&[(number_of(&field).unwrap(), &value)]), free);
    }
}

#[test]
fn fields_of_an_hrr_segment_stand_at_their_offsets() {
    let record = |mask, set: Set, scatterers: &[u8]| record_of(11, 33, &packet(b"30", &hrr(mask, set, scatterers)));
    let blank = record(EVERY_HRR_FIELD, &[], &[]);
    for (field, width) in numbered("H", &HRR).into_iter().skip(1) {
        let value = value(&field, width);
        // Without a phase each scatterer has three bytes.
        let scatterers = if field == "H6" { 3 * 0x0102 } else { 0 };
        let set = record(EVERY_HRR_FIELD, &[(number_of(&field).unwrap(), &value)], &vec![0; scatterers]);
        assert_stands(11, &field, &value, &blank, &set, &[]);
    }
    assert_eq!(blank[place(11, "H1")], EVERY_HRR_FIELD.to_be_bytes()[3..]);
    let least = record(LEAST_HRR, &[], &[]);
    assert_stands(11, "H1", &LEAST_HRR.to_be_bytes()[3..], &blank, &least, &[]);
}

#[test]
fn fields_of_a_scatterer_stand_at_their_offsets() {
    let count = 1u16.to_be_bytes();
    let record = |bytes: u8, scatterer: &[u8]| {
        let set: Set = &[(6, &count), (25, &[bytes]), (26, &[bytes])];
        record_of(12, 33 + 67, &packet(b"30", &hrr(EVERY_HRR_FIELD, set, scatterer)))
    };
    let wide = record(2, b"ABCDEF");
    let narrow = record(1, b"ACEF");
    for (field, in_wide, in_narrow) in
        [("H32.1", b"AB", b"\0A"), ("H32.2", b"CD", b"\0C"), ("H32.3", b"\0E", b"\0E"), ("H32.4", b"\0F", b"\0F")]
    {
        assert_eq!((&wide[place(12, field)], &narrow[place(12, field)]), (&in_wide[..], &in_narrow[..]), "{field}");
    }
}

/// Steps of 180 / 2^32 degrees, or of 360 / 2^32, as microdegrees: rounded to the nearest, a half away from zero.
fn microdegrees(steps: i128, circle: i128) -> i128 {
    let (top, bottom) = (steps.abs() * circle * 1_000_000, 1i128 << 32);
    steps.signum() * ((2 * top + bottom) / (2 * bottom))
}

#[test]
fn positions_are_microdegrees() {
    let position = |mask, set: Set| {
        let record = record_of(4, 33 + 88, &packet(b"30", &dwell(mask, 1, set)));
        let bytes = |field| record[place(4, field)].try_into().unwrap();
        (i32::from_be_bytes(bytes("latitude")) as i128, u32::from_be_bytes(bytes("longitude")) as i128)
    };
    for (latitude, longitude) in [(0x4142_4344i32, 0x4546_4748u32), (-0x1234_5678, 0xFEDC_BA98), (0x0080_0000, 0x0040_0000)] {
        let expected = (microdegrees(latitude.into(), 180), microdegrees(longitude.into(), 360));
        let (latitude, longitude) = (latitude.to_be_bytes(), longitude.to_be_bytes());
        assert_eq!(position(WITH_ABSOLUTES, &[(33, &latitude), (34, &longitude)]), expected);
        assert_eq!(position(WITH_DELTAS, &[(24, &latitude), (25, &longitude)]), expected);
    }
    let deltas = [(10, &7i32.to_be_bytes()[..]), (11, &9u32.to_be_bytes()), (35, &(-1000i16).to_be_bytes()), (36, &2000i16.to_be_bytes())];
    assert_eq!(position(WITH_DELTAS, &deltas), (microdegrees(-7000, 180), microdegrees(18_000, 360)));
}

#[test]
fn marks_tell_whether_d27_and_j26_are_shown() {
    let d27 = dwell(WITH_DELTAS & !(1 << 16), 0, &[(27, b"AB")]);
    let j26 = segment(5, &body("J", &JOB, Some(("J26", b"C"))));
    for (version, edition, is_shown) in [(b"10", 1, true), (b"10", 3, true), (b"30", 3, true), (b"30", 1, false)] {
        let sheet = sheet_of(edition, &packet(version, &[&d27[..], &j26].concat()));
        let (dwell, job) = (&sheet[33..33 + 88], &sheet[33 + 88..]);
        let found = [&dwell[place(3, "D27")], &dwell[place(3, "mark")], &job[place(8, "J26")], &job[place(8, "mark")]].concat();
        assert_eq!(found, if is_shown { *b"AB\x01C\x01" } else { [0; 5] }, "version {version:?} read as {edition}");
    }
}

#[test]
fn pieces_stand_at_their_offsets() {
    let content: Vec<u8> = (b'0'..).take(40).collect();
    let text = sheet_of(3, &packet(b"30", &segment(6, &[&[b' '; 20][..], &content].concat())));
    let opaque = sheet_of(3, &packet(b"30", &segment(12, &content)));
    assert_eq!(text[33..][place(5, "length")], [0, 0, 0, 40]);
    assert_eq!(opaque[33..][place(7, "type")], [12]);
    assert_eq!(opaque[33..][place(7, "length")], [0, 0, 0, 40]);
    for pieces in [&text[33 + 25..], &opaque[33 + 6..]] {
        assert_eq!((pieces.len(), pieces[0], pieces[34]), (68, 6, 6));
        assert_eq!((&pieces[place(6, "count")], &pieces[place(6, "bytes")]), (&[32][..], &content[..32]));
        let last = &pieces[34..];
        assert_eq!((&last[place(6, "count")], &last[place(6, "bytes")]), (&[8][..], &[&content[32..], &[0; 24]].concat()[..]));
    }
}

#[test]
fn refusals_have_the_rows_1_to_23() {
    let rows = table("## Refusals");
    let numbers: Vec<_> = rows[2..].iter().map(|row| row[0].clone()).collect();
    assert_eq!(numbers, (1..=23).map(|number: u32| number.to_string()).collect::<Vec<_>>());
    assert!(rows[2..].iter().all(|row| row.len() == 4 && row.iter().all(|cell| !cell.is_empty())));
    let naming: Vec<_> = rows[2..].iter().filter(|row| row[2] != "0").map(|row| row[0].as_str()).collect();
    assert_eq!(naming, ["5", "10", "11", "13", "14", "15"]);
}

fn read(edition: u32, packet: &[u8]) -> Answer {
    testing::library::read(edition, packet, &mut vec![0; testing::library::LONGEST_SHEET])
}

fn refusals_of_call_and_header() -> Vec<Answer> {
    let header = packet(b"30", &[]);
    let with = |at: usize, byte| {
        let mut changed = header.clone();
        changed[at] = byte;
        read(3, &changed)
    };
    vec![read(2, &header), read(3, &[]), with(0, b'2'), with(5, 33), with(6, 0), with(9, 0), with(14, 0)]
}

fn refusals_of_segments_without_mask() -> Vec<Answer> {
    let one = |segments: &[u8]| read(3, &packet(b"30", segments));
    let mut answers = vec![one(&[1; 4]), one(&segment(14, &[])), one(&[1, 0, 0, 0, 4]), one(&segment(1, &[0; 38]))];
    for (field, value) in [("M1", &[0; 12][..]), ("M2", &[0; 12]), ("M4", &[0; 10]), ("M6", &[13]), ("M7", &[32])] {
        answers.push(one(&segment(1, &body("M", &MISSION, Some((field, value))))));
    }
    answers.push(one(&segment(5, &body("J", &JOB, Some(("J3", &[0; 6]))))));
    for field in ["F1", "F2"] {
        answers.push(one(&segment(6, &body("F", &TEXT, Some((field, &[0; 10]))))));
    }
    answers.push(one(&segment(6, &[&body("F", &TEXT, None)[..], &[0]].concat())));
    answers
}

fn refusals_of_dwells() -> Vec<Answer> {
    let one = |mask, targets, set: Set| read(3, &packet(b"30", &dwell(mask, targets, set)));
    let all = |set: Set| one(WITH_DELTAS, 1, set);
    let least = 0xFF00_03C0_0000_0000;
    let mut longer = dwell(least, 0, &[]);
    longer.push(0);
    longer[4] += 1;
    vec![
        one(least & !(1 << 63), 0, &[]),
        one(least | 1, 0, &[]),
        read(3, &packet(b"30", &longer)),
        all(&[(4, &[2])]),
        one(least, 1, &[]),
        all(&[(37, &(-1001i16).to_be_bytes())]),
        all(&[(42, &[101])]),
        all(&[(46, &5001u16.to_be_bytes())]),
        all(&[(10, &1u32.to_be_bytes()), (24, &i32::MAX.to_be_bytes()), (35, &[0, 2])]),
    ]
}

fn refusals_of_hrr_segments() -> Vec<Answer> {
    let one = |mask, set: Set| read(3, &packet(b"30", &hrr(mask, set, &[])));
    vec![one(LEAST_HRR & !(1 << 39), &[]), one(LEAST_HRR | 1, &[]), one(LEAST_HRR, &[(25, &[0])]), one(LEAST_HRR, &[(26, &[3])])]
}

fn refusals_of_edition_1() -> Vec<Answer> {
    let one = |segments: &[u8]| read(1, &packet(b"30", segments));
    let least = 0xFF00_03C0_0000_0000;
    let (d28, d29) = (1 << 37, 1 << 36);
    let masks = [least | d29, least | d28, least | d28 | d29, least | 1 << 16];
    let mut answers: Vec<_> = masks.iter().map(|&mask| one(&dwell(mask, 0, &[]))).collect();
    answers.push(one(&segment(3, &[])));
    answers.push(one(&segment(5, &body("J", &JOB, Some(("J14", &[101]))))));
    answers
}

fn refusals_of_room_and_writer() -> Vec<Answer> {
    let (header, target) = (packet(b"30", &[]), packet(b"30", &dwell(WITH_DELTAS, 1, &[])));
    let (sheet, with_target) = (sheet_of(3, &header), sheet_of(3, &target));
    let mut other_length = sheet.clone();
    other_length[place(1, "P2").end - 1] += 1;
    vec![
        testing::library::read(3, &header, &mut [0; 32]),
        testing::library::write(&[], &mut [0; 32]),
        testing::library::write(&with_target[..with_target.len() - 45], &mut vec![0; target.len()]),
        testing::library::write(&other_length, &mut [0; 33]),
        testing::library::write(&sheet, &mut [0; 31]),
    ]
}

/// The lookup of a mode's system answers a number alone, which by request A6 has segment and field 0.
fn refusals_of_the_lookup() -> Vec<Answer> {
    testing::library::mode_system(2, 0).err().map(|number| Answer::refused(number, 0, 0)).into_iter().collect()
}

#[test]
fn refusals_name_the_fields_that_their_rows_list() {
    let mut found: BTreeMap<u32, BTreeSet<u32>> = BTreeMap::new();
    let answers = [refusals_of_call_and_header(), refusals_of_segments_without_mask(), refusals_of_dwells()].concat();
    let answers = [answers, refusals_of_hrr_segments(), refusals_of_edition_1(), refusals_of_room_and_writer()].concat();
    for answer in [answers, refusals_of_the_lookup()].concat() {
        found.entry(answer.number).or_default().insert(answer.field);
    }
    let numbers = |cell: &str| cell.split([' ', ',', ';']).filter_map(|word| word.parse().ok()).collect();
    let listed: BTreeMap<_, _> = table("## Refusals")[2..].iter().map(|row| (row[0].parse().unwrap(), numbers(&row[2]))).collect();
    assert_eq!(found, listed);
}

/// The modes of a cell: one, a first and a last with `to` between them, or `none`.
fn modes(cell: &str) -> Vec<u8> {
    let number = |word: &str| word.parse::<u8>().unwrap_or_else(|_| panic!("{cell}"));
    match cell.split_once(" to ") {
        Some((first, last)) => (number(first)..=number(last)).collect(),
        None if cell == "none" => Vec::new(),
        None => vec![number(cell)],
    }
}

/// The system as a cell has it, number and name, or 0 alone.
fn system(edition: u32, mode: u8) -> String {
    let number = testing::library::mode_system(edition, mode).unwrap();
    let name = independent::system_name(number).map(|name| format!(" {name}")).unwrap_or_default();
    format!("{number}{name}")
}

#[test]
fn systems_have_their_modes() {
    let rows = table("### Systems");
    assert_eq!(rows[0], ["Number", "System", "Modes in Edition 1", "Modes in Edition 3"]);
    assert_eq!(rows.len(), 2 + 12);
    for (number, row) in (1..).zip(&rows[2..]) {
        assert_eq!((row[0].as_str(), Some(row[1].as_str())), (number.to_string().as_str(), independent::system_name(number)));
        for (edition, cell) in [(1, &row[2]), (3, &row[3])] {
            let given: Vec<u8> = (0..=255).filter(|&mode| testing::library::mode_system(edition, mode) == Ok(number)).collect();
            assert_eq!(modes(cell), given, "system {number}, edition {edition}");
        }
    }
}

#[test]
fn systems_are_those_of_the_package() {
    let rows = table("### Systems");
    let columns = [(Edition::One, 2), (Edition::Three, 3)];
    for ((edition, column), mode) in columns.into_iter().flat_map(|column| (0..=255).map(move |mode| (column, mode))) {
        let listed = rows[2..].iter().find(|row| modes(&row[column]).contains(&mode)).map(|row| (row[0].clone(), row[1].as_str()));
        let found = gmti::mode_system(edition, mode).map(|system| (system.number().to_string(), system.name()));
        assert_eq!(found, listed, "{edition:?}, mode {mode}");
    }
}

#[test]
fn every_mode_has_its_systems() {
    let rows = table("### Modes");
    assert_eq!(rows[0], ["Mode", "System in Edition 1", "Mode in Edition 1", "System in Edition 3", "Mode in Edition 3", "New"]);
    let mut listed = Vec::new();
    for row in &rows[2..] {
        for mode in modes(&row[0]) {
            let new = if independent::is_new_mode(mode) { "new" } else { "" };
            let due = [system(1, mode), system(3, mode), new.to_string()];
            assert_eq!([&row[1], &row[3], &row[5]], due.each_ref(), "mode {mode}");
            listed.push(mode);
        }
    }
    listed.sort_unstable();
    assert_eq!(listed, (0..=255).collect::<Vec<_>>());
}

#[test]
fn the_example_is_that_of_the_package() {
    let example = fs::read_to_string(root().join("rust/gmti/examples/positions.rs")).unwrap();
    assert!(manual().contains(&format!("```rust\n{example}```\n")));
}

#[test]
fn the_example_has_the_lengths_of_all_kinds() {
    let example = fs::read_to_string(root().join("rust/gmti/examples/positions.rs")).unwrap();
    let lengths: Vec<_> = BODY_LENGTHS.iter().map(|length| (1 + length).to_string()).collect();
    assert!(example.contains(&format!("= [0, {}];\n", lengths.join(", "))));
}
