//! `gmti show`: exact pages of small packets, and every field of many, by the tables of docs/MANUAL.md.
mod common;

use common::{damaged, file, folder, root, run, run_on, run_with, sample, samples};
use std::fs;
use testing::generator::records::{sheet_of, split, Record};
use testing::generator::spelling::patch_size;
use testing::generator::{valid, Random};
use testing::independent;

/// Fields whose unit or form the standards give differently, with both.
const DIFFERENT: [(&str, &str, &str); 7] = [
    ("D9", "cm", "cm, in text dm"),
    ("D14", "cm", "dm"),
    ("D32.7", "cm/s", "m/s in text"),
    ("L4", "cm", "dm"),
    ("J21", "cm", "m in text"),
    ("J22", "BA16", "I16 or BA16"),
    ("J23", "I16", "B16"),
];

/// Units, by the meanings that the manual gives.
const UNITS: [(&str, &str); 15] = [
    ("bytes", "P2"),
    ("ms", "D6 T4 L1"),
    ("cm", "D9 D12 D13 D14 D32.12 J21 L4 H11 H12 H28"),
    ("dm", "D32.13 J16 J17 J18"),
    ("m", "D32.6 D32.14 H21 H30 H31"),
    ("km", "D26"),
    ("mm/s", "D16 D19 J20 L6"),
    ("cm/s", "D20 D32.7 D32.8 D32.15 J23"),
    ("dm/s", "D17 D31 J24 L7"),
    ("dB", "D32.9 H19"),
    ("%", "D32.11 J25"),
    ("degrees", "D18 J19"),
    ("Hz", "H13 H14 H22"),
    ("GHz", "H15"),
    ("pixels", "H27"),
];

/// Values that the manual calls "not stated".
const NOT_STATED: [(i64, &str); 3] = [(255, "J2 J19 J24 J25 J26"), (65_535, "J16 J17 J18 J20 J21 J23"), (0, "H11 H12 H17 H18 H19")];

/// A field by the manual: its label, its place behind the kind byte, its width, its form, and its mask bit.
struct Field {
    label: String,
    place: usize,
    width: usize,
    form: String,
    bit: Option<u32>,
}

/// The fields of a kind of record that have a number in the standard.
fn fields(manual: &str, kind: u8) -> Vec<Field> {
    let (_, table) = manual.split_once(&format!("### Kind {kind}: ")).expect("a kind");
    let is_masked = [3, 4, 11].contains(&kind);
    let number = |cell: &str| cell.parse::<usize>().expect("a number");
    let of_row = |row: Vec<String>| Field {
        label: row[0].clone(),
        place: number(&row[1]) - 1,
        width: number(&row[2]),
        form: row[3].clone(),
        bit: row[4].parse().ok().filter(|_| is_masked),
    };
    let has_number = |row: &Vec<String>| row[0].starts_with(|letter: char| letter.is_ascii_uppercase());
    common::rows(table, "| Field |").into_iter().filter(has_number).map(of_row).collect()
}

impl Field {
    fn number(&self, record: &Record) -> i64 {
        if ["text", "bytes"].contains(&&self.form[..]) {
            return 0;
        }
        let bytes = &record.body[self.place..self.place + self.width];
        let number = bytes.iter().fold(0, |sum, byte| sum << 8 | i64::from(*byte));
        let is_negative = ["signed", "SA32", "SA16"].contains(&&self.form[..]) && bytes[0] >= 0x80;
        number - (i64::from(is_negative) << (8 * self.width))
    }

    /// What stands behind a sign bit, in parts of one.
    fn fraction(&self, record: &Record, parts: f64) -> f64 {
        let sign = 1i64 << (8 * self.width - 1);
        let number = self.number(record);
        let magnitude = (number & !sign) as f64 / parts;
        if number & sign == 0 {
            magnitude
        } else {
            -magnitude
        }
    }

    /// The value without its unit.
    fn plain(&self, record: &Record) -> String {
        let bytes = &record.body[self.place..self.place + self.width];
        let number = self.number(record) as f64;
        match &self.form[..] {
            "SA32" if self.label == "D10" => format!("{:.9} degrees", number * 180.0 / 2f64.powi(32)),
            "BA32" if self.label == "D11" => format!("{:.9} degrees", number * 360.0 / 2f64.powi(32)),
            "SA32" => format!("{:.6} degrees", number * 180.0 / 2f64.powi(32)),
            "BA32" => format!("{:.6} degrees", number * 360.0 / 2f64.powi(32)),
            "SA16" => format!("{:.4} degrees", number * 180.0 / 65_536.0),
            "BA16" => format!("{:.4} degrees", number * 360.0 / 65_536.0),
            "B16" => self.fraction(record, 128.0).to_string(),
            "B32" => self.fraction(record, 2f64.powi(23)).to_string(),
            "H32" => self.fraction(record, 65_536.0).to_string(),
            "text" if bytes.iter().all(|byte| *byte == b' ') => "blank".to_string(),
            "text" => String::from_utf8_lossy(bytes).trim_end().to_string(),
            "bytes" => bytes.iter().map(|byte| format!("{byte:02X}")).collect::<Vec<_>>().join(" "),
            _ => self.number(record).to_string(),
        }
    }

    /// The value as it is shown of a packet of this version.
    fn shown(&self, record: &Record, version: u32) -> String {
        let (plain, number) = (self.plain(record), self.number(record));
        let seconds = number / 1000;
        let clock = format!("{:02}:{:02}:{:02}.{:03}", seconds / 3600, seconds / 60 % 60, seconds % 60, number % 1000);
        let unit = UNITS.iter().find(|(_, labels)| labels.split(' ').any(|label| label == self.label)).map(|(unit, _)| *unit);
        let is_of = |labels: &str| labels.split(' ').any(|label| label == self.label);
        // A sign bit before zeros is zero too.
        let magnitude = if self.form == "B16" { number & 0x7FFF } else { number };
        if NOT_STATED.iter().any(|(value, labels)| magnitude == *value && is_of(labels)) {
            return if self.form == "B16" { "not stated".to_string() } else { format!("{plain} (not stated)") };
        }
        match &self.label[..] {
            "J22" if number >= 1 << 15 => "not stated".to_string(),
            "J14" => {
                format!("{plain} ({})", independent::system_name(independent::mode_system(version, number as u8).1).unwrap_or("no system"))
            }
            "J15" => format!("{plain} ({} s)", number as f64 / 10.0),
            "J26" if number == 0 => "0 (10^0 per m2)".to_string(),
            "J26" => format!("{plain} (10^-{} per m2)", number as f64 / 10.0),
            "D32.18" | "H20" => format!("{plain} ({} dB)", number as f64 / 2.0),
            "H9" | "H10" if number == 0 => "0 (0 dB)".to_string(),
            "H9" | "H10" => format!("{plain} (-{} dB)", number as f64 / 4.0),
            "D32.4" => format!("{plain} x D10"),
            "D32.5" => format!("{plain} x D11"),
            label if version == 1 && DIFFERENT.iter().any(|(other, ..)| *other == label) => plain,
            _ if unit == Some("ms") => format!("{plain} ms ({clock})"),
            _ => unit.map_or(plain.clone(), |unit| format!("{plain} {unit}")),
        }
    }

    /// What is said beside the value, in the Edition 3 reading.
    fn remark(&self, record: &Record, version: u32) -> String {
        let mask = record.mask();
        let older = DIFFERENT.iter().find(|(label, ..)| *label == self.label).map(|(.., older)| format!("Edition 1: {older}"));
        let is_new = match &self.label[..] {
            "D1" if version == 3 && mask >> 16 & 1 == 1 => return "announces D32.18, new in Edition 3".to_string(),
            "D28" | "D29" | "D30" => mask >> 35 & 7 != 7,
            "D32.18" => true,
            "J14" => independent::is_new_mode(self.number(record) as u8),
            _ => false,
        };
        if version == 3 && is_new {
            "new in Edition 3".to_string()
        } else {
            older.filter(|_| version == 1).unwrap_or_default()
        }
    }
}

/// The labels and the rest of the lines of fields, and the lists of absent ones, of a page.
fn told(page: &str) -> Vec<(String, String)> {
    let lines = page.lines().filter(|line| line.starts_with("    ") && line.is_char_boundary(12) && line.len() > 12);
    let labelled = lines.map(|line| (line[4..12].trim().to_string(), line[12..].to_string()));
    labelled.filter(|(label, _)| !["", "F3", "scattere"].contains(&&label[..])).collect()
}

/// The labels in a list of absent fields, with runs spelt out.
fn spelt(list: &str) -> Vec<String> {
    let number = |label: &str| label.trim_start_matches("D32.").trim_start_matches(['D', 'H']).parse::<u32>().expect("a number");
    let run = |part: &str| match part.split_once(" to ") {
        None => vec![part.to_string()],
        Some((first, last)) => {
            let letters = first.trim_end_matches(|digit: char| digit.is_ascii_digit());
            (number(first)..=number(last)).map(|number| format!("{letters}{number}")).collect()
        }
    };
    list.split(", ").flat_map(run).collect()
}

/// Label, value and remark of a field.
type Line = [String; 3];

/// What is due of one record: each field that is there, and the labels of those that are absent.
fn due(manual: &str, record: &Record, mask: u64, version: u32) -> (Vec<Line>, Vec<String>) {
    let announced = |field: &Field| match (record.kind, field.bit) {
        // The five bytes of H1 are the highest of the mask.
        (11, Some(bit)) => mask >> (bit + 24) & 1 == 1,
        (_, Some(bit)) => mask >> bit & 1 == 1,
        _ => true,
    };
    let (there, absent): (Vec<Field>, Vec<Field>) = fields(manual, record.kind).into_iter().partition(announced);
    let line = |field: &Field| [field.label.clone(), field.shown(record, version), field.remark(record, version)];
    (there.iter().map(line).collect(), absent.into_iter().map(|field| field.label).collect())
}

/// A line as its parts. The name stands in the first 28 places, then the value that is due, and behind it a remark.
fn parts((label, rest): (String, String), due: &Line) -> Line {
    let remark = rest[28..].strip_prefix(&due[1]).unwrap_or_else(|| panic!("{label}: {rest}, not {}", due[1]));
    assert!(remark.is_empty() || remark.starts_with(' '), "{label}: {rest}");
    [label, due[1].clone(), remark.trim_start().to_string()]
}

/// The page of a packet, in the Edition 3 reading, holds every field of its sheet, and nothing else.
fn assert_page(manual: &str, page: &str, packet: &[u8]) {
    let version = u32::from(packet[0] - b'0');
    let mut told = told(page).into_iter();
    let mut mask = 0;
    // Pieces, opaque segments and scatterers have no labels.
    for record in split(&sheet_of(3, packet).expect("an accepted packet")).iter().filter(|record| ![6, 7, 12].contains(&record.kind)) {
        if [3, 11].contains(&record.kind) {
            mask = record.mask();
        }
        let (there, absent) = due(manual, record, mask, version);
        let lines: Vec<Line> = there.iter().zip(told.by_ref()).map(|(due, line)| parts(line, due)).collect();
        assert_eq!(lines, there);
        let list = if absent.is_empty() { vec![] } else { spelt(&told.next().filter(|(label, _)| label == "absent").expect("a list").1) };
        assert_eq!(list, absent);
    }
    assert_eq!(told.next(), None);
}

fn manual() -> String {
    fs::read_to_string(root().join("docs/MANUAL.md")).expect("the manual")
}

#[test]
fn every_field_of_the_samples_is_shown() {
    let manual = manual();
    for sample in samples().iter().filter(|sample| sample.newer.starts_with("ok")) {
        let ran = run(&format!("show samples/{}", sample.name));
        assert_eq!((ran.status, &ran.words[..]), (0, ""), "{}", sample.name);
        let [_, segments, dwells, targets] = [0, 1, 2, 3].map(|place| sample.newer.split(' ').nth(place).expect("a count"));
        let head = format!(
            "samples/{}: packet at offset 0, {} bytes\n  \
             Edition 3 accepts: segments {segments}, dwells {dwells}, targets {targets}\n\n  header\n",
            sample.name,
            sample.bytes.len()
        );
        assert!(ran.text().starts_with(&head), "{}", ran.text());
        assert_page(&manual, ran.text(), &sample.bytes);
    }
}

#[test]
fn every_field_of_generated_packets_is_shown() {
    let manual = manual();
    let packets: Vec<Vec<u8>> = (0..60).map(|index| valid::packet(&mut Random::of_case(11, index)).bytes()).collect();
    let ran = run_on("show -", &packets.concat());
    assert_eq!((ran.status, &ran.words[..]), (0, ""));
    // A text can hold anything but the line that begins a page.
    let pages: Vec<&str> = ran.text().split("-: packet at offset ").skip(1).collect();
    assert_eq!(pages.len(), packets.len());
    for (page, packet) in pages.iter().zip(&packets) {
        assert_page(&manual, page, packet);
    }
}

const HEADER: &str = "
  header
    P1      version                     30
    P2      packet size                 60 bytes
    P3      nationality                 NO
    P4      security class              5
    P5      security system             blank
    P6      security flags              0
    P7      exercise                    129
    P8      platform                    LN-ICE
    P9      mission                     17
    P10     job                         3
";

const LOCATION: &str = "
  segment 1: platform location
    L1      time                        37800000 ms (10:30:00.000)
    L2      platform latitude           77.700000 degrees
    L3      platform longitude          16.050000 degrees
    L4      height                      300000 cm
    L5      track                       92.4994 degrees
    L6      ground speed                62000 mm/s
    L7      vertical speed              0 dm/s

";

const BOTH: &str = "samples/platform_location.gmti: packet at offset 0, 60 bytes
  Edition 3 accepts: segments 1, dwells 0, targets 0
  Edition 1 accepts: segments 1, dwells 0, targets 0

                                        Edition 3                  Edition 1

  header
    P1      version                     30                         30
    P2      packet size                 60 bytes                   60 bytes
    P3      nationality                 NO                         NO
    P4      security class              5                          5
    P5      security system             blank                      blank
    P6      security flags              0                          0
    P7      exercise                    129                        129
    P8      platform                    LN-ICE                     LN-ICE
    P9      mission                     17                         17
    P10     job                         3                          3

  segment 1: platform location
    L1      time                        37800000 ms (10:30:00.000) 37800000 ms (10:30:00.000)
    L2      platform latitude           77.700000 degrees          77.700000 degrees
    L3      platform longitude          16.050000 degrees          16.050000 degrees
    L4      height                      300000 cm                  300000 cm                  ! cm; Edition 1: dm
    L5      track                       92.4994 degrees            92.4994 degrees
    L6      ground speed                62000 mm/s                 62000 mm/s
    L7      vertical speed              0 dm/s                     0 dm/s

";

#[test]
fn the_pages_of_a_location() {
    let name = "samples/platform_location.gmti";
    let head = |edition: u32| {
        format!("{name}: packet at offset 0, 60 bytes\n  Edition {edition} accepts: segments 1, dwells 0, targets 0\n{HEADER}")
    };
    let newer = head(3) + LOCATION;
    assert_eq!(run(&format!("show {name}")).parts(), (0, &newer[..], ""));
    assert_eq!(run(&format!("show --edition 3 {name}")).parts(), (0, &newer[..], ""));
    let older = head(1) + &LOCATION.replace("300000 cm", "300000 cm                  ! cm; Edition 1: dm");
    assert_eq!(run(&format!("show --edition 1 {name}")).parts(), (0, &older[..], ""));
    assert_eq!(run(&format!("show --edition both {name}")).parts(), (0, BOTH, ""));
}

/// A packet of the segments of these samples, all with the same header.
fn joined(version: &[u8; 2], names: &[&str]) -> Vec<u8> {
    let mut packet = sample("header_only.gmti");
    names.iter().for_each(|name| packet.extend(&sample(name)[32..]));
    packet[..2].copy_from_slice(version);
    patch_size(&mut packet);
    packet
}

const EVERY: [&str; 3] = ["dwell_every_field.gmti", "platform_location.gmti", "job_definition.gmti"];

/// The labels of lines with a remark behind this sign, and the remark.
fn remarks(page: &str, sign: &str) -> Vec<(String, String)> {
    let split = |line: &str| {
        line.split_once(sign).map(|(before, remark)| (before.split_whitespace().next().unwrap_or_default().to_string(), remark.to_string()))
    };
    page.lines().filter(|line| line.starts_with("    ")).filter_map(split).collect()
}

#[test]
fn the_older_reading_of_a_newer_packet_warns_of_seven_fields() {
    let packet = joined(b"30", &EVERY);
    let warned = |label: &str, newer: &str, older: &str| (label.to_string(), format!("{newer}; Edition 1: {older}"));
    let [d9, d14, d32_7, l4, j21, j22, j23] = DIFFERENT.map(|(label, newer, older)| warned(label, newer, older));
    let speeds = vec![d32_7; 4];
    let due: Vec<_> = [d9, d14].into_iter().chain(speeds).chain([l4, j21, j22, j23]).collect();
    for edition in ["1", "both"] {
        let ran = run_on(&format!("show --edition {edition} -"), &packet);
        assert_eq!((ran.status, remarks(ran.text(), " ! ")), (0, due.clone()), "Edition {edition}");
    }
    let newer = run_on("show --edition 3 -", &packet);
    assert!(newer.status == 0 && !newer.text().contains('!') && !newer.text().contains("Edition 1"), "{}", newer.text());
}

#[test]
fn an_older_packet_has_its_own_units_in_either_reading() {
    let packet = joined(b"10", &EVERY);
    let said = |label: &str, older: &str| (label.to_string(), older.to_string());
    let [d9, d14, d32_7, l4, j21, j22, j23] = DIFFERENT.map(|(label, _, older)| said(label, older));
    let due: Vec<_> = [d9, d14].into_iter().chain(vec![d32_7; 4]).chain([l4, j21, j22, j23]).collect();
    for edition in ["1", "3", "both"] {
        let ran = run_on(&format!("show --edition {edition} -"), &packet);
        assert_eq!((ran.status, remarks(ran.text(), " Edition 1: ")), (0, due.clone()), "Edition {edition}");
        assert!(!ran.text().contains('!') && !ran.text().contains("withheld") && !ran.text().contains("new in"), "{}", ran.text());
    }
}

#[test]
fn d27_and_j26_are_withheld() {
    let name = "samples/version_3_dwell_and_job.gmti";
    let angle = |value: &str| format!("    D27     half extent in angle        {value}");
    let density = |value: &str| format!("    J26     false alarm density         {value}");
    for (edition, d27, j26) in [
        ("3", "9.9976 degrees", "60 (10^-6 per m2)"),
        ("1", "withheld", "withheld"),
        ("both", "9.9976 degrees             withheld", "60 (10^-6 per m2)          withheld"),
    ] {
        let ran = run(&format!("show --edition {edition} {name}"));
        let lines: Vec<&str> = ran.text().lines().filter(|line| line.contains(" D27 ") || line.contains(" J26 ")).collect();
        assert_eq!((ran.status, lines), (0, vec![&angle(d27)[..], &density(j26)]));
    }
    assert!(!run("show --edition both samples/version_1_dwell_and_job.gmti").text().contains("withheld"));
}

#[test]
fn what_is_new_is_marked() {
    for (name, due) in [
        ("range_profile", vec!["  segment 2: HRR, new in Edition 3"]),
        ("profile_with_indices", vec!["  segment 2: HRR, new in Edition 3"]),
        ("heading_alone", vec!["    D28     sensor heading              90.0000 degrees            new in Edition 3"]),
        ("radar_mode", vec!["    J14     radar mode                  101 (Lynx I/II)            new in Edition 3"]),
        (
            "cross_section",
            vec![
                "    D1      mask                        FF 00 03 C1 8F 81 00 00    announces D32.18, new in Edition 3",
                "    D32.18  radar cross section         20 (10 dB)                 new in Edition 3",
                "    D32.18  radar cross section         20 (10 dB)                 new in Edition 3",
            ],
        ),
    ] {
        let ran = run(&format!("show samples/new_{name}.gmti"));
        let marked: Vec<&str> = ran.text().lines().filter(|line| line.contains("new in Edition 3")).collect();
        assert_eq!((ran.status, marked), (0, due));
    }
}

#[test]
fn both_readings_say_why_the_older_one_refuses() {
    for sample in samples().iter().filter(|sample| sample.older.starts_with("no 15") && sample.newer.starts_with("ok")) {
        let ran = run(&format!("show --edition both samples/{}", sample.name));
        let judged = run(&format!("editions samples/{}", sample.name));
        let (_, words) = judged.text().split_once("Edition 3 only: ").expect("words");
        let due = format!("\n  Edition 1 refuses: {words}  What to do: Read it as Edition 3.\n\n");
        let head = format!("{:40}{:27}Edition 1: refused\n\n  header\n", "", "Edition 3");
        assert!(ran.status == 1 && ran.text().contains(&(due + &head)), "{}", ran.text());
        // What follows is the page of the reading that accepts.
        let newer = run(&format!("show samples/{}", sample.name));
        assert!(ran.text().ends_with(newer.text().split_once("\n\n").expect("a page").1));
        let older = run(&format!("show --edition 1 samples/{}", sample.name));
        assert_eq!((older.status, older.text().lines().count()), (1, 4));
    }
}

#[test]
fn the_marks_of_modes_are_those_of_the_tables() {
    let packets = (0..=255).map(|mode| {
        let mut packet = sample("job_definition.gmti");
        packet[32 + 5 + 45] = mode;
        packet
    });
    let ran = run_on("show -", &packets.collect::<Vec<_>>().concat());
    let lines: Vec<&str> = ran.text().lines().filter(|line| line.contains(" J14 ")).collect();
    assert_eq!((ran.status, lines.len()), (0, 256));
    let marked: Vec<usize> = (0..256).filter(|mode| lines[*mode].ends_with(" new in Edition 3")).collect();
    assert_eq!(marked, (0..256).filter(|mode| independent::is_new_mode(*mode as u8)).collect::<Vec<_>>());
}

#[test]
fn texts_and_bodies_follow_their_segment() {
    let text = String::from_utf8(sample("free_text.gmti")[32 + 25..].to_vec()).expect("text");
    let rows = text.lines().collect::<Vec<_>>().join("\n            ");
    let due = format!("            length of F3                109 bytes\n    F3      {rows}\n\n");
    assert!(text.len() == 109 && run("show samples/free_text.gmti").text().ends_with(&due), "{due}");
    let ran = run("show samples/opaque_processing_history.gmti");
    let (_, body) = ran.text().split_once("44 bytes\n").expect("the length");
    let bytes: Vec<u8> = body.split_whitespace().map(|pair| u8::from_str_radix(pair, 16).expect("hex digits")).collect();
    assert_eq!(bytes, sample("opaque_processing_history.gmti")[32 + 5..]);
    assert!(
        ran.text().contains("\n  segment 1: processing history, kept as it is\n            segment type                12\n"),
        "{}",
        ran.text()
    );
    // A text and a body stand in the segment that they belong to.
    let ran = run_on("show -", &joined(b"30", &["free_text.gmti", "opaque_processing_history.gmti", "free_text.gmti"]));
    let titles: Vec<&str> = ran.text().lines().filter(|line| line.starts_with("  segment") || line.starts_with("    F3")).collect();
    let first = format!("    F3      {}", text.lines().next().expect("a line"));
    let text = |number: u32| format!("  segment {number}: free text");
    assert_eq!(titles, [&text(1), &first, "  segment 2: processing history, kept as it is", &text(3), &first]);
}

#[test]
fn scatterers_have_a_line_each() {
    let ran = run("show samples/new_profile_with_indices.gmti");
    let lines: Vec<&str> = ran.text().lines().filter(|line| line.starts_with("    scatterer ")).collect();
    assert_eq!(lines.len(), 6);
    assert_eq!(lines[0], "    scatterer 1: magnitude 0 (0 dB), phase 58, range index 3, Doppler index 6");
    assert_eq!(lines[5], "    scatterer 6: magnitude 200 (-50 dB), phase 237, range index 13, Doppler index 7");
    let ran = run("show samples/new_range_profile.gmti");
    assert!(ran.text().ends_with("\n    scatterer 12: magnitude 111 (-27.75 dB)\n\n"), "{}", ran.text());
}

/// A time of many days takes more than its column.
#[test]
fn columns_do_not_touch() {
    let mut packet = sample("platform_location.gmti");
    packet[32 + 5..32 + 9].copy_from_slice(&u32::MAX.to_be_bytes());
    let ran = run_on("show --edition both -", &packet);
    let time = "4294967295 ms (1193:02:47.295)";
    assert!(ran.text().contains(&format!("    L1      time                        {time} {time}\n")), "{}", ran.text());
}

#[test]
fn refused_packets_and_skipped_bytes_are_said() {
    let page = "samples/damaged_height.gmti: packet at offset 0, 131 bytes
  Edition 3 refuses: no 13 1 37: segment 1 (dwell), target 3: D32.6, height -1001, is under -1000
  What to do: The value is damaged, or fields are shifted. Do not use the rest of the packet.

";
    assert_eq!(run("show samples/damaged_height.gmti").parts(), (1, page, ""));
    assert_eq!(
        run("show samples/damaged_cut_short.gmti").parts(),
        (1, "samples/damaged_cut_short.gmti: 121 bytes skipped at offset 0: cut short\n\n", "")
    );
    let folder = folder("show");
    for (name, bytes) in damaged() {
        let path = file(&folder, name, &bytes);
        let ran = run_with(["show", &path]);
        let told: Vec<&str> = ran.text().lines().filter(|line| line.contains(" bytes skipped at offset ")).collect();
        let checked = run_with(["check", &path]);
        let ranges =
            checked.text().lines().filter_map(|line| line.strip_prefix(&format!("{path}: offset "))?.split_once(" bytes skipped: "));
        let due = ranges.map(|(place, reason)| {
            let (offset, length) = place.split_once(", ").expect("two numbers");
            format!("{path}: {length} bytes skipped at offset {offset}: {reason}")
        });
        assert_eq!((ran.status, told), (1, due.collect::<Vec<_>>().iter().map(String::as_str).collect()));
    }
}

/// Of the fields of a job definition that have a value for it.
#[test]
fn what_is_not_stated_is_said() {
    let mut packet = sample("job_definition.gmti");
    // J16 to J26, and J2.
    packet[32 + 5 + 48..32 + 5 + 66].fill(0xFF);
    packet[32 + 5 + 4] = 0xFF;
    let ran = run_on("show -", &packet);
    let is_so = |line: &&str| line.ends_with("not stated") || line.ends_with("(not stated)");
    let labels: Vec<&str> = ran.text().lines().filter(is_so).map(|line| line.trim().split(' ').next().expect("a label")).collect();
    assert_eq!((ran.status, labels), (0, vec!["J2", "J16", "J17", "J18", "J19", "J20", "J21", "J22", "J23", "J24", "J25", "J26"]));
}
