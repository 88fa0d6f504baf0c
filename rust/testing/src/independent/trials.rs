//! The document's trials, one packet or sheet for each row, round trips, the
//! dwell counts of request A1, the text sets of request A3, and the agreement of
//! the two readings of version 3 packets. Those of request A4 are in `hrr`.

mod hrr;

use super::positions::{LatitudeSteps, LongitudeSteps};
use super::tables::{is_new_radar_mode, DWELL_FIELDS, TARGET_FIELDS};
use super::{fill_in, first_new, read, sheet_bound, write};
use crate::library::Answer;

/// D2 to D9 and D24 to D27: the mask of the trial with S2 48.
const LEAST: u64 = 0xFF00_03C0_0000_0000;
/// Masks with the absolute and with the relative position pair.
const ABSOLUTE: u64 = LEAST | 0x0000_0001_8000_0000;
const RELATIVE: u64 = 0xFFC0_03C0_6000_0000;

/// Values by field number; fields not named are 0.
type Values<'a> = &'a [(u32, u32)];

fn bit(field: u32) -> u64 {
    1 << (65 - field)
}

fn segment(segment_type: u8, body: &[u8]) -> Vec<u8> {
    let s2 = (body.len() as u32 + 5).to_be_bytes();
    [&[segment_type], &s2[..], body].concat()
}

fn packet(version: &str, segments: &[Vec<u8>]) -> Vec<u8> {
    let mut bytes = version.as_bytes().to_vec();
    bytes.extend([0; 4]);
    bytes.extend(b"XN\x05YY\x00\x07\x80platform 1\x00\x00\x00\x09\x00\x00\x00\x0A");
    bytes.extend(segments.concat());
    let p2 = (bytes.len() as u32).to_be_bytes();
    bytes[2..6].copy_from_slice(&p2);
    bytes
}

fn announced(mask: u64, first: u32, widths: &[usize], values: Values) -> Vec<u8> {
    let mut bytes = Vec::new();
    for (field, width) in (first..).zip(widths) {
        let value = values.iter().find(|(named, _)| *named == field);
        let value = value.map_or(0, |(_, value)| *value).to_be_bytes();
        if mask & bit(field) != 0 {
            bytes.extend(&value[4 - width..]);
        }
    }
    bytes
}

fn dwell_with_count(mask: u64, values: Values, d5: u32, targets: &[Values]) -> Vec<u8> {
    let values = [values, &[(5, d5)]].concat();
    let mut body = mask.to_be_bytes().to_vec();
    body.extend(announced(mask, 2, &DWELL_FIELDS, &values));
    for target in targets {
        body.extend(announced(mask, 32, &TARGET_FIELDS, target));
    }
    segment(2, &body)
}

fn dwell(mask: u64, values: Values, targets: &[Values]) -> Vec<u8> {
    dwell_with_count(mask, values, targets.len() as u32, targets)
}

fn mission(month: u8, day: u8) -> Vec<u8> {
    let mut body = *b"mission planflight plan1\x05platform 1\x07\xE8\x00\x00";
    body[37..].copy_from_slice(&[month, day]);
    segment(1, &body)
}

fn job(j14: u8) -> Vec<u8> {
    let mut body: Vec<u8> = (1..=68).collect();
    body[5..11].copy_from_slice(b"filter");
    body[45] = j14;
    segment(5, &body)
}

fn free_text(f3: &[u8]) -> Vec<u8> {
    segment(6, &[b"originatorrecipient!", f3].concat())
}

/// The answer and the sheet of a reading into a large buffer; holds that the
/// bytes after the sheet, or all of them on a refusal, are unchanged, and that
/// the sheet is no longer than request A2 allows.
fn sheet_of(edition: u32, packet: &[u8]) -> (Answer, Vec<u8>) {
    let mut sheet = vec![0xA5; 800_000];
    let answer = read(edition, packet, &mut sheet);
    let length = answer.length as usize;
    assert!(length <= sheet_bound(packet.len()));
    assert!(sheet[length..].iter().all(|byte| *byte == 0xA5));
    sheet.truncate(length);
    (answer, sheet)
}

fn assert_read(edition: u32, packet: &[u8], expected: (u32, u32, u32)) {
    let answer = sheet_of(edition, packet).0;
    assert_eq!(answer, Answer::refused(expected.0, expected.1, expected.2));
}

/// The writer's answer; holds that a refusal leaves the packet unchanged.
fn assert_write(sheet: &[u8], length: usize, number: u32) {
    let mut packet = vec![0x5A; length];
    let answer = write(sheet, &mut packet);
    assert_eq!(answer, Answer::refused(number, 0, 0));
    assert!(packet.iter().all(|byte| *byte == 0x5A));
}

/// Reads as Edition 3, writes back, and holds that the same packet comes back.
fn assert_round_trip(packet: &[u8]) -> (Answer, Vec<u8>) {
    let (answer, sheet) = sheet_of(3, packet);
    assert!(answer.is_accepted(), "{answer}");
    let mut back = vec![0x5A; packet.len() + 7];
    let written = write(&sheet, &mut back);
    let length = packet.len() as u32;
    assert_eq!(written, Answer { length, ..answer });
    assert_eq!(&back[..packet.len()], packet);
    assert_eq!(back[packet.len()..], [0x5A; 7]);
    (answer, sheet)
}

/// What the program prints: the answer, then each target's position.
fn printed(packet: &[u8]) -> String {
    let mut sheet = vec![0; 65_536];
    let answer = read(3, packet, &mut sheet);
    let mut lines = answer.to_string();
    for record in super::sheet::records(&sheet[..answer.length as usize]) {
        if record.kind == 4 {
            let latitude = i32::from_be_bytes(record.body[36..40].try_into().unwrap());
            let longitude = u32::from_be_bytes(record.body[40..].try_into().unwrap());
            lines += &format!("\n{latitude} {longitude}");
        }
    }
    lines
}

/// One segment of every known type. The HRR segment is whole, so that version 3
/// accepts it too; its 6 scatterers have a magnitude and both indices.
fn all_types(with_hrr: bool) -> Vec<Vec<u8>> {
    let mut all = vec![mission(12, 31), job(90), free_text(b"hello\r\n\x0C~ ")];
    let full = 0xFF3F_FFFF_9FFE_0000;
    all.push(dwell(full, &[(27, 0x1234)], &[&[(33, 1), (34, 2)][..]; 3]));
    all.push(segment(10, &[0xFE; 14]));
    all.push(segment(13, &[0x80; 23]));
    if with_hrr {
        let mask = hrr::LEAST | bit(7) | bit(34) | bit(35);
        all.push(hrr::segment_of(mask, &[(7, 3), (8, 2)], &[0xB7; 6 * 3]));
    }
    for opaque in [4, 7, 8, 9, 11, 12, 101, 102] {
        all.push(segment(opaque, &vec![opaque; 7 * usize::from(opaque)]));
    }
    all
}

#[test]
fn trials_of_latitude_and_longitude() {
    let latitude = |steps: u32| LatitudeSteps::absolute(steps as i32).microdegrees();
    assert_eq!(latitude(0x4000_0000), 45_000_000);
    assert_eq!(latitude(0x8000_0000), -90_000_000);
    assert_eq!(latitude(0x7FFF_FFFF), 90_000_000);
    assert_eq!(latitude(0x0080_0000), 351_563);
    assert_eq!(latitude(0xFF80_0000), -351_563);
    let longitude = |steps| LongitudeSteps::absolute(steps).microdegrees();
    assert_eq!(longitude(0xFFFF_FFFA), 359_999_999);
    assert_eq!(longitude(0xFFFF_FFFB), 0);
    assert_eq!(longitude(0x0040_0000), 351_563);
}

#[test]
fn trials_of_packets() {
    let pole = |d32_4| {
        let values = [(24, 0x7FFF_FFFF), (10, 1)];
        packet("30", &[dwell(RELATIVE, &values, &[&[(35, d32_4)]])])
    };
    assert_eq!(printed(&pole(1)), "ok 1 1 1 166\n90000000 0");
    assert_eq!(printed(&pole(2)), "no 14 1 35");
    let least = dwell(LEAST, &[], &[]);
    assert_eq!(least.len(), 48);
    assert_eq!(printed(&packet("30", &[least])), "ok 1 1 0 121");
    let mut longer = LEAST.to_be_bytes().to_vec();
    longer.extend([0; 36]);
    assert_eq!(printed(&packet("30", &[segment(2, &longer)])), "no 12 1 0");
    assert_eq!(printed(&[b'3'; 65_537]), "no 2 0 0");
    assert_eq!(printed(&packet("30", &[])), "ok 0 0 0 33");
}

#[test]
fn trial_printed_whole() {
    let target: Values = &[(35, 0xFF80), (36, 0xFFC0)];
    let values = [(10, 65_536), (11, 65_536)];
    let whole = packet("30", &[dwell(RELATIVE, &values, &[target])]);
    assert_eq!(whole.len(), 92);
    assert_eq!(printed(&whole), "ok 1 1 1 166\n-351563 359648438");
}

#[test]
fn wrong_turns() {
    // A zero field is not an absent one: only the mask tells.
    let zero = assert_round_trip(&packet("30", &[dwell(LEAST | bit(31), &[], &[])])).1;
    let absent = assert_round_trip(&packet("30", &[dwell(LEAST, &[], &[])])).1;
    assert_eq!(zero.len(), absent.len());
    assert_eq!(zero[34 + 8..], absent[34 + 8..], "D2 on are alike");
    assert_ne!(zero, absent);
    // D32.4 and D32.5 are signed.
    let back: Values = &[(35, 0xFFFF), (36, 0xFFFF)];
    let values = [(10, 1 << 30), (11, 1 << 30)];
    let signed = packet("10", &[dwell(RELATIVE, &values, &[back])]);
    assert_eq!(printed(&signed), "ok 1 1 1 166\n-45000000 270000000");
    // D10 is signed, D11 is not.
    let forth: Values = &[(35, 1), (36, 1)];
    let values = [(10, 0xC000_0000), (11, 0xC000_0000)];
    let signed = packet("10", &[dwell(RELATIVE, &values, &[forth])]);
    assert_eq!(printed(&signed), "ok 1 1 1 166\n-45000000 270000000");
    // Neither longitude 360000000 nor rounding negatives by floor.
    let values: Values = &[(33, 0xFFFF_FFFF), (34, 0xFFFF_FFFF)];
    let edge = packet("30", &[dwell(ABSOLUTE, &[], &[values])]);
    assert_eq!(printed(&edge), "ok 1 1 1 166\n0 0");
    // D28-30 come before D32.18.
    for (fields, named) in [(&[29][..], 28), (&[28, 30], 29), (&[28, 29], 30), (&[28, 29, 30], 49)] {
        let mask = fields.iter().fold(LEAST | bit(49), |mask, field| mask | bit(*field));
        assert_read(1, &packet("30", &[dwell(mask, &[], &[])]), (15, 1, named));
    }
}

#[test]
fn rows_of_call_and_header() {
    let good = packet("19", &[]);
    assert_read(0, &good, (1, 0, 0));
    assert_read(2, &[], (1, 0, 0));
    assert_read(1, &good[..31], (2, 0, 0));
    assert_read(3, &[], (2, 0, 0));
    for version in ["20", "3/", "1:", "01"] {
        assert_read(3, &packet(version, &[]), (3, 0, 0));
    }
    let mut wrong = good.clone();
    wrong[5] += 1;
    assert_read(3, &wrong, (4, 0, 0));
    for (at, field) in [(7, 3), (9, 5), (14, 8), (23, 8)] {
        for byte in [0x1F, 0x7F, 0x0A, 0x0C, 0x0D, 0x0B, 0x09, 0x80] {
            let mut wrong = good.clone();
            wrong[at] = byte;
            assert_read(1, &wrong, (5, 0, field));
        }
        for byte in [0x20, 0x7E] {
            let mut right = good.clone();
            right[at] = byte;
            assert_round_trip(&right);
        }
    }
}

#[test]
fn rows_of_a_segment() {
    let after = |bytes: &[u8]| packet("30", &[mission(1, 1), bytes.to_vec()]);
    for left in 1..=4 {
        assert_read(3, &after(&[0; 4][..left]), (6, 2, 0));
    }
    for unknown in [0, 14, 100, 103, 255] {
        assert_read(3, &after(&[unknown, 0, 0, 0, 0]), (7, 2, 0));
    }
    for s2 in [0, 4, 6, u32::MAX] {
        let bytes = [&[4][..], &s2.to_be_bytes()].concat();
        assert_read(3, &after(&bytes), (8, 2, 0));
    }
    assert_read(1, &after(&segment(3, &[])), (15, 2, 0));
    let wrong = [(1, 38), (1, 40), (5, 67), (5, 69), (10, 13), (10, 15)];
    for (segment_type, length) in wrong.into_iter().chain([(13, 22), (13, 24), (6, 19), (2, 7), (3, 0), (3, 4)]) {
        let bytes = segment(segment_type, &vec![0x80; length]);
        assert_read(3, &after(&bytes), (9, 2, 0));
    }
    let texts = [(1, 39, 0, 1), (1, 39, 23, 2), (1, 39, 25, 4), (5, 68, 5, 3), (5, 68, 10, 3)];
    let texts = texts.into_iter().chain([(6, 21, 9, 1), (6, 21, 10, 2), (6, 21, 20, 3)]);
    for (segment_type, length, at, field) in texts {
        let mut body = vec![b' '; length];
        body[at] = 0x7F;
        assert_read(3, &after(&segment(segment_type, &body)), (10, 2, field));
    }
}

#[test]
fn row_11() {
    let at = |version, mask, field| {
        let bytes = packet(version, &[segment(4, &[]), dwell(mask, &[], &[])]);
        for edition in [1, 3] {
            assert_read(edition, &bytes, (11, 2, field));
        }
    };
    for field in (2..=9).chain(24..=27) {
        at("30", LEAST & !bit(field), field);
    }
    for field in 50..=65 {
        at("30", LEAST | bit(field), field);
    }
    at("10", LEAST | bit(49), 49);
    for (first, last) in [(12, 14), (15, 17), (18, 20), (21, 23)] {
        at("30", LEAST | bit(first), first + 1);
        at("30", LEAST | bit(last), first);
    }
    at("30", LEAST | bit(10), 11);
    at("30", LEAST | bit(35), 10);
    at("30", RELATIVE & !bit(36), 36);
    at("30", LEAST | bit(33), 34);
    at("30", LEAST | bit(34), 33);
    at("30", LEAST | bit(47), 48);
    at("30", LEAST | bit(48), 47);
    at("30", RELATIVE | ABSOLUTE, 35);
    at("10", LEAST | bit(28), 29);
    at("10", LEAST | bit(30), 28);
    at("10", 0, 2);
    // Only D28-30 and D32.18 are told apart by the version.
    for mask in [LEAST | bit(28), LEAST | bit(30), LEAST | bit(49)] {
        assert_round_trip(&packet("30", &[dwell(mask, &[], &[])]));
    }
}

#[test]
fn rows_12_to_16() {
    let at = |segment: Vec<u8>, expected| assert_read(3, &packet("30", &[segment]), expected);
    at(segment(2, &LEAST.to_be_bytes()), (12, 1, 0));
    at(dwell_with_count(ABSOLUTE, &[], 65_535, &[&[]]), (12, 1, 0));
    at(dwell_with_count(ABSOLUTE, &[], 0, &[&[]]), (12, 1, 0));
    at(mission(0, 0), (13, 1, 6));
    at(mission(13, 1), (13, 1, 6));
    at(mission(12, 0), (13, 1, 7));
    at(mission(12, 32), (13, 1, 7));
    at(dwell(LEAST, &[(4, 2)], &[&[]]), (13, 1, 4));
    at(dwell_with_count(LEAST, &[(4, 1)], 65_535, &[]), (13, 1, 5));
    let mask = RELATIVE | bit(37) | bit(42) | bit(46);
    let values = [(10, 0x7FFF_FFFF)];
    let good: Values = &[(35, 1), (37, 0xFC18), (42, 100), (46, 5000)];
    assert_round_trip(&packet("30", &[dwell(mask, &values, &[good])]));
    let bad: [(Values, u32, u32); 4] = [
        (&[(35, 2), (37, 0xFC17), (42, 101), (46, 5001)], 13, 37),
        (&[(35, 2), (42, 101), (46, 5001)], 13, 42),
        (&[(35, 2), (46, 5001)], 13, 46),
        (&[(35, 2), (37, 0x7FFF)], 14, 35),
    ];
    for (target, number, field) in bad {
        at(dwell(mask, &values, &[good, target, bad[0].0]), (number, 1, field));
    }
    assert_read(1, &packet("31", &[job(90), job(104)]), (15, 2, 14));
    let packet = packet("30", &all_types(true));
    let length = sheet_of(3, &packet).1.len();
    let mut short = vec![7; length - 1];
    assert_eq!(read(3, &packet, &mut short), Answer::refused(16, 0, 0));
    assert!(short.iter().all(|byte| *byte == 7));
    assert!(read(3, &packet, &mut vec![7; length]).is_accepted());
}

fn sheet_3(segments: &[Vec<u8>]) -> Vec<u8> {
    sheet_of(3, &packet("30", segments)).1
}

#[test]
fn rows_17_and_18() {
    let header = sheet_3(&[]);
    let with = |parts: &[&[u8]]| [&header, &parts.concat()[..]].concat();
    let text = sheet_3(&[free_text(&[b'x'; 40])]);
    let (record, first, second) = (&text[33..58], &text[58..92], &text[92..]);
    // Empty, unknown kinds, cut, kind 1 twice, kind 1 not first. The last also
    // has a fault of row 18, which is tried later.
    let cut = &header[..32];
    for sheet in [&[][..], &[0], cut, &with(&[&[13]]), &with(&[&header]), first] {
        assert_write(sheet, 100, 17);
    }
    let mut counts = [text.clone(), text.clone(), text.clone()];
    for (sheet, count) in counts.iter_mut().zip([0, 7, 33]) {
        sheet[93] = count;
        assert_write(sheet, 100, 18);
    }
    for parts in [&[first][..], &[record, first], &[record, second, first]] {
        assert_write(&with(parts), 100, 18);
    }
    assert_write(&with(&[record, first, second, second]), 200, 18);
    let targets = sheet_3(&[dwell(ABSOLUTE, &[], &[&[], &[]])]);
    assert_write(&targets[..targets.len() - 45], 200, 18);
    assert_write(&with(&[&targets[121..]]), 200, 18);
    let mut one_target = targets;
    one_target[33 + 9 + 6] = 1;
    assert_write(&one_target, 200, 18);
}

#[test]
fn rows_19_and_20() {
    let changed = |sheet: &[u8], at: usize| {
        let mut sheet = sheet.to_vec();
        sheet[at] ^= 1;
        sheet
    };
    let header = sheet_3(&[]);
    let text = sheet_3(&[free_text(&[b'x'; 40])]);
    let targets = sheet_3(&[dwell(ABSOLUTE, &[], &[&[], &[]])]);
    // P2, and zero filling.
    assert_write(&changed(&header, 5), 200, 19);
    assert_write(&changed(&text, 125), 200, 19);
    // D10 absent but not zero, the mark of D27, the last target's longitude.
    for at in [33 + 9 + 23, 33 + 87, targets.len() - 1] {
        assert_write(&changed(&targets, at), 200, 19);
    }
    // The mark of J26, and an opaque record of a type that is not opaque.
    let job = sheet_3(&[job(1)]);
    assert_write(&changed(&job, job.len() - 1), 200, 19);
    assert_write(&[&header, &[7, 1, 0, 0, 0, 0][..]].concat(), 200, 19);
    assert_write(&text, 96, 20);
    assert_write(&header, 0, 20);
}

#[test]
fn sheets_that_spell_too_much() {
    let header = sheet_of(3, &packet("30", &[])).1;
    let mut targets = sheet_of(3, &packet("30", &[dwell(LEAST, &[], &[])])).1;
    targets[34..42].fill(0xFF);
    targets[34 + 8 + 5..][..2].fill(0xFF);
    for _ in 0..65_535 {
        targets.push(4);
        targets.extend([0; 44]);
    }
    assert_write(&targets, 70_000, 19);
    // The same without announced fields of targets: each is spelt as nothing.
    targets[34..42].copy_from_slice(&LEAST.to_be_bytes());
    assert_write(&targets, 70_000, 19);
    let opaque = |length: u32, pieces: u32| {
        let mut sheet = [&header, &[7, 4][..], &length.to_be_bytes()].concat();
        for _ in 0..pieces {
            sheet.extend([6, 32]);
            sheet.extend([9; 32]);
        }
        sheet
    };
    assert_write(&opaque(64_000 * 32, 64_000), 70_000, 19);
    assert_write(&opaque(u32::MAX, 3), 70_000, 18);
}

#[test]
fn round_trips() {
    for (version, with_hrr) in [("10", true), ("30", true), ("35", false)] {
        for segment in all_types(with_hrr) {
            assert_round_trip(&packet(version, &[segment]));
        }
        let (answer, sheet) = assert_round_trip(&packet(version, &all_types(with_hrr)));
        assert_eq!((answer.dwells, answer.targets), (1, 3));
        if version == "10" {
            assert_eq!(sheet_of(1, &packet(version, &all_types(with_hrr))), (answer, sheet));
        }
    }
    for length in [0, 1, 31, 32, 33, 64, 65] {
        let (answer, _) = assert_round_trip(&packet("30", &[free_text(&vec![b'a'; length])]));
        assert_eq!(answer.length as usize, 33 + 25 + 34 * length.div_ceil(32));
    }
    let largest = packet("30", &[segment(102, &vec![0xEE; 65_536 - 37])]);
    assert_eq!(largest.len(), 65_536);
    assert_round_trip(&largest);
    let many = packet("30", &[dwell(RELATIVE, &[], &vec![&[][..]; 16_000])]);
    assert_eq!(assert_round_trip(&many).0.length, 33 + 88 + 45 * 16_000);
}

/// The smallest dwell segment, with this D2 and D3 and no targets.
fn least_dwell(d2: u32, d3: u32) -> Vec<u8> {
    dwell(LEAST, &[(2, d2), (3, d3)], &[])
}

/// Both readings, of either version, and the writer count `dwells` dwells in a
/// packet of these segments. Segments, targets and the sheet do not go by them.
fn assert_dwells(segments: &[Vec<u8>], dwells: u32) {
    for version in ["10", "30"] {
        let bytes = packet(version, segments);
        let (newer, sheet) = assert_round_trip(&bytes);
        let (older, _) = sheet_of(1, &bytes);
        let written = write(&sheet, &mut vec![0; bytes.len()]);
        let of_kind = |kind| super::sheet::records(&sheet).filter(|record| record.kind == kind).count();
        for answer in [newer, older, written] {
            assert!(answer.is_accepted(), "{answer}");
            assert_eq!(answer.dwells, dwells);
            assert_eq!(answer.segments as usize, segments.len());
            assert_eq!(answer.targets as usize, of_kind(4));
        }
        let dwell_segments = segments.iter().filter(|segment| segment[0] == 2).count();
        assert_eq!(of_kind(3), dwell_segments);
    }
}

/// Request A1: "the number of different pairs of D2 and D3 in the packet".
#[test]
fn split_dwells_are_one_dwell() {
    let of_pairs = |pairs: &[(u32, u32)]| pairs.iter().map(|(d2, d3)| least_dwell(*d2, *d3)).collect::<Vec<_>>();
    let cases: [(&[(u32, u32)], u32); 12] = [
        (&[], 0),
        (&[(0, 0)], 1),
        (&[(5, 6)], 1),
        (&[(5, 6), (5, 6)], 1),
        (&[(5, 6), (5, 7)], 2),
        (&[(5, 6), (4, 6)], 2),
        // Neither the order of the two, nor their bytes or their sum, may be mixed up.
        (&[(1, 2), (2, 1)], 2),
        (&[(0, 258), (1, 2)], 2),
        (&[(0, 256), (1, 0), (256, 0), (0, 1)], 4),
        (&[(0, 0), (0, 65_535), (65_535, 0), (65_535, 65_535)], 4),
        // Parts of one dwell need not stand together.
        (&[(1, 2), (3, 4), (1, 2)], 2),
        (&[(1, 2), (3, 4), (1, 2), (3, 4), (5, 6), (3, 4)], 3),
    ];
    for (pairs, dwells) in cases {
        assert_dwells(&of_pairs(pairs), dwells);
    }
}

#[test]
fn dwells_of_the_fullest_packet() {
    // The most dwell segments that 65,536 bytes hold.
    const MOST: u32 = 1_364;
    assert_eq!((65_536 - 32) / 48, MOST);
    let each = |pair: fn(u32) -> (u32, u32)| (0..MOST).map(|n| least_dwell(pair(n).0, pair(n).1)).collect::<Vec<_>>();
    assert_dwells(&each(|n| (0, n)), MOST);
    assert_dwells(&each(|n| (n, 0)), MOST);
    assert_dwells(&each(|n| (9, MOST - n)), MOST);
    assert_dwells(&each(|n| (n / 100, n % 100)), MOST);
    assert_dwells(&each(|_| (7, 8)), 1);
    // Each dwell in two parts, side by side or half a packet apart.
    assert_dwells(&each(|n| (0, n / 2)), MOST / 2);
    assert_dwells(&each(|n| (0, n % (MOST / 2))), MOST / 2);
    let one_more = packet("30", &vec![least_dwell(7, 8); MOST as usize + 1]);
    assert_read(3, &one_more, (2, 0, 0));
}

#[test]
fn dwells_among_other_segments() {
    // Only the pair tells: not the mask, another field, or the targets.
    let pair = [(2, 7), (3, 9)];
    let target: Values = &[(33, 1), (34, 2)];
    let other_fields = dwell(LEAST, &[(2, 7), (3, 9), (4, 1), (6, 100), (24, 5), (27, 3)], &[]);
    let parts = [
        dwell(ABSOLUTE, &pair, &[target, target]),
        dwell(RELATIVE, &pair, &[&[]]),
        dwell(ABSOLUTE | bit(31), &pair, &[target]),
        other_fields,
        least_dwell(7, 9),
    ];
    assert_dwells(&parts, 1);
    for part in &parts {
        assert_dwells(&[part.clone()], 1);
        assert_dwells(&[part.clone(), least_dwell(7, 10)], 2);
        assert_dwells(&[least_dwell(8, 9), part.clone()], 2);
    }
    // Other segments have no D2 and D3, though their bytes be those of a dwell.
    assert_dwells(&[mission(1, 1), job(1), segment(4, &least_dwell(1, 1)[5..])], 0);
    assert_dwells(&[least_dwell(7, 9), segment(4, &least_dwell(1, 1)[5..]), mission(1, 1), least_dwell(7, 9)], 1);
    assert_dwells(&[all_types(false), all_types(false)].concat(), 1);
    assert_dwells(&[all_types(false), parts.to_vec(), all_types(false)].concat(), 2);
    // Nor has an HRR segment: its revisit and dwell index are H2 and H3 (document
    // 003, 2.5).
    let hrr = packet("30", &[least_dwell(7, 9), hrr::segment_of(hrr::LEAST, &[(2, 1), (3, 1)], &[])]);
    assert_eq!(assert_round_trip(&hrr).0.dwells, 1);
    let hrr = packet("10", &[least_dwell(7, 9), segment(3, &least_dwell(1, 1)[5..])]);
    assert_eq!(assert_round_trip(&hrr).0.dwells, 1);
    // The program prints a split dwell as one, with both its segments and targets.
    let split = dwell(ABSOLUTE, &pair, &[&[]]);
    assert_eq!(printed(&packet("30", &[split.clone(), split.clone()])), "ok 2 1 2 299\n0 0\n0 0");
    // A refusal goes on naming the segment, not the dwell.
    assert_read(3, &packet("30", &[split.clone(), split, mission(0, 1)]), (13, 3, 6));
}

/// A text field of the packet `texts`: where it starts there and on the sheet,
/// its width, and the refusal that names it.
struct Text {
    in_packet: usize,
    on_sheet: usize,
    width: usize,
    refusal: (u32, u32, u32),
}

const fn text(in_packet: usize, on_sheet: usize, width: usize, refusal: (u32, u32, u32)) -> Text {
    Text { in_packet, on_sheet, width, refusal }
}

/// The text fields other than F3.
const NAMES: [Text; 9] = [
    text(6, 7, 2, (5, 0, 3)),       // P3
    text(9, 10, 2, (5, 0, 5)),      // P5
    text(14, 15, 10, (5, 0, 8)),    // P8
    text(37, 34, 12, (10, 1, 1)),   // M1
    text(49, 46, 12, (10, 1, 2)),   // M2
    text(62, 59, 10, (10, 1, 4)),   // M4
    text(86, 79, 6, (10, 2, 3)),    // J3
    text(154, 144, 10, (10, 3, 1)), // F1
    text(164, 154, 10, (10, 3, 2)), // F2
];
const F3: Text = text(174, 170, 9, (10, 3, 3));

/// A mission, a job definition and free text whose F3 is one piece.
fn texts(version: &str) -> Vec<u8> {
    packet(version, &[mission(12, 31), job(90), free_text(b"free text")])
}

/// Bytes at the edges of the two sets: whether a name may hold each, and F3.
const EDGES: [(u8, bool, bool); 9] = [
    (0x0A, false, true),
    (0x0C, false, true),
    (0x0D, false, true),
    (0x1F, false, false),
    (0x20, true, true),
    (0x7E, true, true),
    (0x7F, false, false),
    (0x80, false, false),
    (0xFF, false, false),
];

fn with_byte(bytes: &[u8], at: usize, byte: u8) -> Vec<u8> {
    let mut changed = bytes.to_vec();
    changed[at] = byte;
    changed
}

/// `byte` in the first, middle and last place of a field. Where the field may
/// hold it, both readings accept it and the writer gives it back; else both
/// name the field, and a sheet with that byte is not written.
fn assert_text(version: &str, field: &Text, byte: u8, may_hold: bool) {
    let good = texts(version);
    let sheet = sheet_of(3, &good).1;
    for at in [0, field.width / 2, field.width - 1] {
        let bytes = with_byte(&good, field.in_packet + at, byte);
        let changed = with_byte(&sheet, field.on_sheet + at, byte);
        if may_hold {
            assert_eq!(assert_round_trip(&bytes).1, changed);
            assert!(sheet_of(1, &bytes).0.is_accepted());
        } else {
            assert_read(1, &bytes, field.refusal);
            assert_read(3, &bytes, field.refusal);
            assert_write(&changed, 200, 19);
        }
    }
}

/// Request A3: "Text in fields other than F3 now holds only 0x20 to 0x7E. F3
/// keeps the wider set."
#[test]
fn text_sets() {
    for version in ["10", "30"] {
        for (byte, in_name, in_f3) in EDGES {
            for name in &NAMES {
                assert_text(version, name, byte, in_name);
            }
            assert_text(version, &F3, byte, in_f3);
        }
    }
}

/// Of all bytes, those from 0x20 to 0x7E are 95; F3 has three more.
#[test]
fn sizes_of_text_sets() {
    let good = texts("30");
    let taken = |field: &Text| {
        let with = |byte| with_byte(&good, field.in_packet, byte);
        (0..=255).filter(|byte| read(3, &with(*byte), &mut [0; 300]).is_accepted()).count()
    };
    for name in &NAMES {
        assert_eq!(taken(name), 95);
    }
    assert_eq!(taken(&F3), 98);
}

/// Request A3: "A sheet with a line feed in a name can no longer be written."
#[test]
fn sheets_with_a_line_feed() {
    let sheet = sheet_of(3, &texts("30")).1;
    for name in &NAMES {
        // Row 19 comes before row 20, so also where the packet is too short.
        for length in [0, 200, 70_000] {
            assert_write(&with_byte(&sheet, name.on_sheet, 0x0A), length, 19);
        }
    }
    let mut back = vec![0; 200];
    let answer = write(&with_byte(&sheet, F3.on_sheet, 0x0A), &mut back);
    assert_eq!(answer, Answer::accepted(3, 0, 0, 183));
    assert_eq!(back[..183], with_byte(&texts("30"), F3.in_packet, 0x0A));
}

#[test]
fn free_text_over_many_lines() {
    for at in 0..70 {
        for byte in [0x0A, 0x0C, 0x0D] {
            let one = with_byte(&[b'x'; 70], at, byte);
            assert_round_trip(&packet("30", &[free_text(&one)]));
        }
        let wrong = with_byte(&[b'\n'; 70], at, 0x0B);
        assert_read(3, &packet("30", &[free_text(&wrong)]), (10, 1, 3));
    }
    assert_round_trip(&packet("10", &[free_text(b"\r\n\x0C")]));
}

/// Fields that are not text hold line feeds as any other byte.
#[test]
fn line_feeds_outside_text() {
    let mut mission = [0x0A; 39];
    mission[..24].fill(b'm');
    mission[25..35].fill(b'm');
    let mut job = [0x0A; 68];
    job[5..11].fill(b'j');
    let mut bytes = packet("30", &[segment(1, &mission), segment(5, &job)]);
    // P4, P6, P7, P9 and P10.
    for at in [8, 11, 12, 13].into_iter().chain(24..32) {
        bytes[at] = 0x0A;
    }
    assert_round_trip(&bytes);
    for (kept_as_bytes, length) in [(10, 14), (13, 23), (4, 40)] {
        assert_round_trip(&packet("30", &[segment(kept_as_bytes, &vec![0x0A; length])]));
    }
}

#[test]
fn first_text_at_fault() {
    let at = |bytes: &[u8], expected| {
        assert_read(1, bytes, expected);
        assert_read(3, bytes, expected);
    };
    // A line feed in F2 comes before a worse byte in F3.
    at(&packet("30", &[segment(6, b"originatorrecipient\nf\x01")]), (10, 1, 2));
    at(&packet("30", &[segment(6, b"originatorrecipient!\n\x01")]), (10, 1, 3));
    // Of any two names, the one that comes first, whichever holds the line feed.
    let good = texts("30");
    for (index, first) in NAMES.iter().enumerate() {
        for second in NAMES[index + 1..].iter().chain([&F3]) {
            for bytes in [[0x0A, 0x01], [0x01, 0x0A], [0x0A, 0x0A]] {
                let one = with_byte(&good, first.in_packet, bytes[0]);
                at(&with_byte(&one, second.in_packet, bytes[1]), first.refusal);
            }
        }
    }
}

/// Request A3: "Numbers 5 and 10 are given in their old places."
#[test]
fn rows_around_a_line_feed() {
    // Rows 3 and 4 come before row 5, rows 6 on after it.
    let header = |bytes: Vec<u8>| with_byte(&bytes, 14, 0x0A);
    assert_read(3, &header(packet("20", &[])), (3, 0, 0));
    assert_read(3, &header(with_byte(&packet("30", &[]), 5, 33)), (4, 0, 0));
    for segment in [vec![1], segment(14, &[]), segment(3, &[]), segment(1, &[])] {
        assert_read(1, &header(packet("30", &[segment])), (5, 0, 8));
    }
    // Row 9 comes before row 10, rows 13 and 15 after it.
    let named = |segment: Vec<u8>, at: usize| packet("30", &[with_byte(&segment, 5 + at, 0x0A)]);
    assert_read(3, &named(segment(1, &[b' '; 38]), 0), (9, 1, 0));
    assert_read(3, &named(segment(5, &[b' '; 69]), 5), (9, 1, 0));
    assert_read(3, &named(segment(6, &[b' '; 19]), 0), (9, 1, 0));
    assert_read(3, &named(mission(13, 32), 34), (10, 1, 4));
    assert_read(1, &named(job(91), 5), (10, 1, 3));
    // The first segment at fault is named, by whichever row.
    let line_feed = with_byte(&mission(1, 1), 5, 0x0A);
    assert_read(3, &packet("30", &[mission(0, 1), line_feed.clone()]), (13, 1, 6));
    assert_read(3, &packet("30", &[line_feed, mission(0, 1)]), (10, 1, 1));
    // A sheet too short comes last.
    let bytes = header(packet("30", &[]));
    assert_eq!(read(3, &bytes, &mut []), Answer::refused(5, 0, 8));
}

/// Demand 3: the Edition 1 reading of a version 3 packet that the Edition 3
/// reading accepts.
fn assert_readings_agree(packet: &[u8]) {
    let (newer, newer_sheet) = assert_round_trip(packet);
    let (older, mut older_sheet) = sheet_of(1, packet);
    if let Some((segment, field)) = first_new(packet) {
        assert_eq!(older, Answer::refused(15, segment, field));
        return;
    }
    assert_eq!(older, newer);
    // A sheet with something withheld is not one of the Edition 3 reading.
    if older_sheet != newer_sheet {
        assert_write(&older_sheet, 70_000, 19);
    }
    fill_in(&mut older_sheet, &newer_sheet);
    assert_eq!(older_sheet, newer_sheet);
}

#[test]
fn readings_agree() {
    assert_readings_agree(&packet("30", &[]));
    assert_readings_agree(&packet("39", &all_types(false)));
    let new_mask = dwell(LEAST | bit(29) | bit(49), &[], &[]);
    let hrr = hrr::segment_of(hrr::LEAST, &[], &[]);
    for new in [hrr.clone(), new_mask, dwell(LEAST | bit(49), &[], &[])] {
        assert_readings_agree(&packet("30", &[job(1), new.clone(), hrr.clone(), job(91)]));
        assert_eq!(first_new(&packet("10", &[new])), None);
    }
    let mut new_modes = 0;
    for j14 in 0..=255 {
        let bytes = packet("30", &[job(j14)]);
        assert_readings_agree(&bytes);
        assert_eq!(first_new(&bytes).is_some(), is_new_radar_mode(j14));
        new_modes += u32::from(is_new_radar_mode(j14));
    }
    assert_eq!(new_modes, 16);
    // D27 and J26 with their marks are zero, and nothing else differs.
    let bytes = packet("30", &[dwell(LEAST, &[(26, 0xABCD), (27, 0x1234)], &[]), job(0)]);
    let (newer, older) = (sheet_of(3, &bytes).1, sheet_of(1, &bytes).1);
    let differ: Vec<usize> = (0..newer.len()).filter(|at| newer[*at] != older[*at]).collect();
    assert_eq!(differ, [33 + 78, 33 + 79, 33 + 87, 121 + 66, 121 + 69]);
    assert!(differ.iter().all(|at| older[*at] == 0));
    assert_eq!((newer[33 + 87], newer[121 + 69]), (1, 1));
}

#[test]
fn fill_in_stops_where_records_differ() {
    let newer = sheet_of(3, &packet("30", &[job(0), dwell(LEAST, &[(27, 5)], &[])])).1;
    let older = sheet_of(1, &packet("30", &[mission(1, 1), dwell(LEAST, &[], &[])])).1;
    let mut filled = older.clone();
    fill_in(&mut filled, &newer);
    assert_eq!(filled, older);
    for cut in 0..newer.len() {
        let mut filled = newer[..cut].to_vec();
        fill_in(&mut filled, &newer);
        assert_eq!(filled, newer[..cut]);
        fill_in(&mut newer.clone(), &newer[..cut]);
    }
}

#[test]
fn answers_as_text() {
    assert_eq!(Answer::accepted(1, 2, 3, 4).to_string(), "ok 1 2 3 4");
    assert_eq!(Answer::refused(13, 2, 37).to_string(), "no 13 2 37");
    assert!(Answer::default().is_accepted());
}
