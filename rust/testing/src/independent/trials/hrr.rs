//! Request A4: the HRR segments of version 3 packets.
//!
//! A mask is held in 64 bits, its 5 bytes first. Fields are numbered n for Hn and
//! 31+j for H32.j, as those of a dwell are, and the spare bits 36 to 41.

use super::super::sheet::records;
use super::super::tables::HRR_FIELDS;
use super::super::{first_new, read, sheet_bound, write};
use super::{announced, assert_read, assert_round_trip, assert_write, bit, mission, packet, printed, segment, sheet_of, with_byte};
use super::{job, Values};
use crate::library::Answer;

/// The fields that the tables 2-5 and 2-5.1 mark mandatory; the last is H32.1.
const MANDATORY: [u32; 18] = [2, 3, 4, 8, 10, 11, 12, 13, 14, 16, 17, 18, 19, 23, 24, 25, 26, 32];
/// The fields marked conditional or optional; the last three are H32.2 to H32.4.
const FREE: [u32; 16] = [5, 6, 7, 9, 15, 20, 21, 22, 27, 28, 29, 30, 31, 33, 34, 35];
/// The bits marked spare.
const SPARE: [u32; 6] = [36, 37, 38, 39, 40, 41];

/// The mask that announces nothing it need not, and the one that announces all.
pub const LEAST: u64 = 0xE2FB_C782_0000_0000;
const FULL: u64 = 0xFFFF_FFFF_C000_0000;

/// H32.2, H32.3 and H32.4.
const PHASE: u64 = 1 << 32;
const RANGE: u64 = 1 << 31;
const DOPPLER: u64 = 1 << 30;

/// Mask and fields; H25 is 1 unless named, other fields not named are 0.
fn front(mask: u64, values: Values) -> Vec<u8> {
    let values = [values, &[(25, 1)]].concat();
    let mut body = mask.to_be_bytes()[..5].to_vec();
    body.extend(announced(mask, 2, &HRR_FIELDS, &values));
    body
}

/// An HRR segment with these bytes of scatterers.
pub fn segment_of(mask: u64, values: Values, scatterers: &[u8]) -> Vec<u8> {
    segment(3, &[&front(mask, values), scatterers].concat())
}

/// The segment in a version 3 packet, after another one.
fn packet_of(mask: u64, values: Values, scatterers: &[u8]) -> Vec<u8> {
    packet("30", &[mission(1, 1), segment_of(mask, values, scatterers)])
}

/// Header and mission on the sheet of `packet_of`, so where its kind 11 stands.
const BEFORE: usize = 33 + 40;

/// `packet_of` is accepted with this many scatterers and comes back from its sheet.
fn assert_scatterers(mask: u64, values: Values, scatterers: &[u8], count: usize) -> Vec<u8> {
    let (answer, sheet) = assert_round_trip(&packet_of(mask, values, scatterers));
    assert_eq!(answer, Answer::accepted(2, 0, 0, (BEFORE + 67 + 9 * count) as u32));
    sheet
}

/// The Edition 3 reading refuses `packet_of`; the Edition 1 reading names the
/// segment by row 15, and in a version 1 packet it is opaque to both.
fn assert_number(mask: u64, values: Values, scatterers: &[u8], number: u32) {
    assert_body(&segment_of(mask, values, scatterers)[5..], number);
}

fn assert_body(body: &[u8], number: u32) {
    let newer = packet("30", &[mission(1, 1), segment(3, body)]);
    assert_read(3, &newer, (number, 2, 0));
    assert_read(1, &newer, (15, 2, 0));
    assert_opaque(body);
}

/// "In a version 1 packet type 3 stays opaque."
fn assert_opaque(body: &[u8]) {
    let older = packet("10", &[segment(3, body)]);
    let (answer, sheet) = assert_round_trip(&older);
    assert_eq!(answer, sheet_of(1, &older).0);
    assert_eq!(sheet[33..35], [7, 3]);
    assert_eq!(sheet[35..39], (body.len() as u32).to_be_bytes());
    assert_eq!(sheet.len(), 39 + 34 * body.len().div_ceil(32));
}

#[test]
fn masks() {
    let of = |fields: &[u32]| fields.iter().fold(0, |mask, field| mask | bit(*field));
    assert_eq!(of(&MANDATORY), LEAST);
    assert_eq!(of(&MANDATORY) | of(&FREE), FULL);
    assert_eq!(FULL | of(&SPARE), 0xFFFF_FFFF_FF00_0000);
    assert_eq!(of(&[33, 34, 35]), PHASE | RANGE | DOPPLER);
}

/// The least segment, byte by byte, and its sheet.
#[test]
fn least_segment() {
    let body = [
        &[0xE2, 0xFB, 0xC7, 0x82, 0x00][..], // H1
        &[0x02, 0x12, 0x03, 0x13, 0x04],     // H2 to H4
        &[0x00, 0x00],                       // H8
        &[0x0A],                             // H10
        &[0x0B, 0x1B, 0x0C, 0x1C],           // H11, H12
        &[0x0D, 0x1D, 0x2D, 0x3D],           // H13
        &[0x0E, 0x1E, 0x2E, 0x3E],           // H14
        &[0x10, 0x11, 0x12],                 // H16 to H18
        &[0x13, 0x23],                       // H19
        &[0x17, 0x18, 0x02, 0x02],           // H23 to H26
    ]
    .concat();
    assert_eq!(body.len(), 34);
    let record = [
        &[11, 0xE2, 0xFB, 0xC7, 0x82, 0x00][..],
        &[0x02, 0x12, 0x03, 0x13, 0x04],
        &[0; 6], // H5 to H7
        &[0x00, 0x00],
        &[0], // H9
        &[0x0A],
        &[0x0B, 0x1B, 0x0C, 0x1C],
        &[0x0D, 0x1D, 0x2D, 0x3D],
        &[0x0E, 0x1E, 0x2E, 0x3E],
        &[0; 4], // H15
        &[0x10, 0x11, 0x12],
        &[0x13, 0x23],
        &[0; 7], // H20 to H22
        &[0x17, 0x18, 0x02, 0x02],
        &[0; 14], // H27 to H31
    ]
    .concat();
    let (answer, sheet) = assert_round_trip(&packet("30", &[segment(3, &body)]));
    assert_eq!(answer, Answer::accepted(1, 0, 0, 33 + 67));
    assert_eq!(sheet[33..], record);
    assert_eq!(printed(&packet("30", &[segment(3, &body)])), "ok 1 0 0 100");
}

/// A segment with every field, byte by byte, and its sheet.
#[test]
fn full_segment() {
    let fields = [
        &[0x02, 0x12, 0x03, 0x13, 0x04][..], // H2 to H4
        &[0x05, 0x15],                       // H5
        &[0x00, 0x02],                       // H6
        &[0x07, 0x17, 0x08, 0x18],           // H7, H8
        &[0x09, 0x0A],                       // H9, H10
        &[0x0B, 0x1B, 0x0C, 0x1C],           // H11, H12
        &[0x0D, 0x1D, 0x2D, 0x3D],           // H13
        &[0x0E, 0x1E, 0x2E, 0x3E],           // H14
        &[0x0F, 0x1F, 0x2F, 0x3F],           // H15
        &[0x10, 0x11, 0x12],                 // H16 to H18
        &[0x13, 0x23, 0x14],                 // H19, H20
        &[0x15, 0x25],                       // H21
        &[0x16, 0x26, 0x36, 0x46],           // H22
        &[0x17, 0x18, 0x02, 0x01],           // H23 to H26
        &[0x1B],                             // H27
        &[0x1C, 0x2C, 0x3C, 0x4C],           // H28
        &[0x1D],                             // H29
        &[0x1E, 0x2E, 0x3E, 0x4E],           // H30
        &[0x1F, 0x2F, 0x3F, 0x4F],           // H31
    ]
    .concat();
    assert_eq!(fields.len(), 61);
    let mask = [0xFF, 0xFF, 0xFF, 0xFF, 0xC0];
    let scatterers = [0xA1, 0xA2, 0xB1, 0xC1, 0xD1, 0xA3, 0xA4, 0xB2, 0xC2, 0xD2];
    let body = [&mask, &fields[..], &scatterers].concat();
    let (answer, sheet) = assert_round_trip(&packet("30", &[segment(3, &body)]));
    assert_eq!(answer, Answer::accepted(1, 0, 0, 33 + 67 + 2 * 9));
    let first = [12, 0xA1, 0xA2, 0, 0xB1, 0, 0xC1, 0, 0xD1];
    let second = [12, 0xA3, 0xA4, 0, 0xB2, 0, 0xC2, 0, 0xD2];
    assert_eq!(sheet[33..], [&[11], &mask[..], &fields, &first, &second].concat());
}

#[test]
fn row_9() {
    let mask = LEAST.to_be_bytes();
    for length in 0..5 {
        assert_body(&mask[..length], 9);
        assert_body(&vec![0xFF; length], 9);
    }
    // With the mask it is row 21 or 22 that refuses.
    assert_body(&[0xFF; 5], 21);
    assert_body(&mask[..5], 22);
}

#[test]
fn row_21() {
    for mask in [LEAST, FULL] {
        for field in MANDATORY {
            assert_number(mask & !bit(field), &[], &[], 21);
            // Directly before row 22: H25 and the size are at fault as well.
            assert_number(mask & !bit(field), &[(25, 7)], &[1], 21);
        }
        for spare in SPARE {
            assert_number(mask | bit(spare), &[], &[], 21);
            assert_number(mask | bit(spare), &[(26, 3)], &[1], 21);
        }
        for field in FREE {
            assert_scatterers(mask & !bit(field), &[], &[], 0);
            assert_scatterers(mask | bit(field), &[], &[], 0);
        }
    }
    assert_number(0, &[], &[], 21);
    assert_number(FULL & !LEAST, &[], &[], 21);
    // Any choice of free bits is right, 2.5.6's "Either H6 or H7 or both" included.
    for choice in 0..1u64 << 16 {
        let free = FREE.iter().enumerate().filter(|(at, _)| choice >> at & 1 == 1);
        let mask = free.fold(LEAST, |mask, (_, field)| mask | bit(*field));
        let bytes = packet("30", &[segment_of(mask, &[], &[])]);
        assert_eq!(read(3, &bytes, &mut [0; 100]), Answer::accepted(1, 0, 0, 100));
    }
}

#[test]
fn row_22_of_bytes() {
    // Whatever the size: as if H25 and H26 were 0 to 3, and as they are.
    for scatterers in 0..8 {
        let values = vec![0; scatterers];
        for h25 in [0, 3, 4, 127, 128, 200, 255] {
            assert_number(LEAST | bit(6), &[(6, 1), (25, h25)], &values, 22);
            assert_number(LEAST | bit(6), &[(6, 0), (25, h25)], &values, 22);
        }
        for h26 in [3, 4, 127, 128, 200, 255] {
            for h25 in [1, 2] {
                assert_number(LEAST | bit(6), &[(6, 1), (25, h25), (26, h26)], &values, 22);
                assert_number(LEAST | bit(6) | PHASE, &[(6, 1), (25, h25), (26, h26)], &values, 22);
            }
        }
    }
    for h25 in [0, 3, 200] {
        assert_number(LEAST | bit(6), &[(6, 1), (25, h25)], &vec![0; h25 as usize], 22);
    }
    for h26 in [3, 200] {
        assert_number(LEAST | bit(6) | PHASE, &[(6, 1), (26, h26)], &vec![0; 1 + h26 as usize], 22);
    }
    assert_number(LEAST, &[(26, 3)], &[], 22);
}

#[test]
fn row_22_of_sizes() {
    for mask in [LEAST, FULL, LEAST | bit(6), FULL & !bit(6), LEAST | bit(7) | PHASE] {
        for count in 0..3 {
            let values = [(6, count), (7, count), (8, 1), (25, 2), (26, 1)];
            let width = 2 + [PHASE, RANGE, DOPPLER].iter().filter(|bit| mask & **bit != 0).count();
            let count = if mask & (bit(6) | bit(7)) == 0 { 0 } else { count as usize };
            let size = count * width;
            assert_scatterers(mask, &values, &vec![0xEE; size], count);
            for wrong in (0..20).filter(|wrong| *wrong != size) {
                assert_number(mask, &values, &vec![0xEE; wrong], 22);
            }
        }
        // Cut anywhere behind the mask.
        let whole = front(mask, &[]);
        for length in 5..whole.len() {
            assert_body(&whole[..length], 22);
        }
    }
}

/// "As many scatterers as the number of target scatterers says where announced,
/// else range samples times Doppler samples."
#[test]
fn counts() {
    let samples = [(7, 5), (8, 3)];
    let both = LEAST | bit(7);
    assert_scatterers(both, &samples, &[1; 15], 15);
    for h6 in [0, 1, 14, 15, 16, 300] {
        let values = [&samples[..], &[(6, h6)]].concat();
        assert_scatterers(both | bit(6), &values, &vec![1; h6 as usize], h6 as usize);
        assert_scatterers(LEAST | bit(6), &values, &vec![1; h6 as usize], h6 as usize);
    }
    // Announced as 0 it says none, and the samples do not count.
    assert_number(both | bit(6), &samples, &[1; 15], 22);
    assert_number(both | bit(6), &[(6, 15), (7, 5), (8, 3)], &[], 22);
    // Absent range samples count as zero, and so does each that is 0.
    assert_scatterers(LEAST, &samples, &[], 0);
    assert_number(LEAST, &samples, &[1; 3], 22);
    assert_scatterers(both, &[(7, 5)], &[], 0);
    assert_scatterers(both, &[(8, 3)], &[], 0);
    // Both bytes of each count.
    assert_scatterers(both, &[(7, 1), (8, 0x0102)], &[1; 258], 258);
    assert_scatterers(both, &[(7, 0x0102), (8, 1)], &[1; 258], 258);
    assert_scatterers(LEAST | bit(6), &[(6, 0x0102)], &[1; 258], 258);
}

/// Products that no packet holds, though they be small in 16 or 32 bits.
#[test]
fn large_products() {
    let wrapped = |h7: u32, h8: u32, width: u32, bits: u32| {
        let bytes = u64::from(h7) * u64::from(h8) * u64::from(width);
        assert!(bytes >> bits > 0, "{h7} {h8} {width}");
        (bytes & ((1 << bits) - 1)) as usize
    };
    let cases = [
        (256, 256, 1, 16),
        (257, 256, 1, 16),
        (32_768, 32_768, 4, 32),
        (37_837, 37_838, 3, 32),
        (46_341, 46_341, 2, 32),
        (65_535, 65_535, 1, 16),
        (65_535, 65_535, 2, 16),
        (65_535, 65_535, 3, 16),
        (65_535, 65_535, 4, 16),
    ];
    for (h7, h8, width, bits) in cases {
        let left = wrapped(h7, h8, width, bits);
        for size in [0, 1, left, 65_400] {
            assert!(size <= 65_400, "{h7} {h8} {width}");
            let values = [(7, h7), (8, h8), (25, width.min(2)), (26, width.saturating_sub(2))];
            assert_number(LEAST | bit(7) | PHASE, &values, &vec![0; size], 22);
        }
    }
    assert_eq!(wrapped(46_341, 46_341, 2, 32), 9_266);
    assert_eq!(wrapped(37_837, 37_838, 3, 32), 61_922);
    assert_number(FULL, &[(6, 65_535), (25, 2), (26, 2)], &[], 22);
}

/// What a scatterer's values are in the packet and on the sheet.
struct Scatterer {
    spelt: Vec<u8>,
    record: [u8; 9],
}

/// The `n`th scatterer of a segment with this mask, H25 and H26.
fn scatterer(mask: u64, h25: u32, h26: u32, n: u8) -> Scatterer {
    let mut spelt = Vec::new();
    let mut record = [12, 0, 0, 0, 0, 0, 0, 0, 0];
    let announced = |bit| mask & bit != 0;
    let widths = [h25, if announced(PHASE) { h26 } else { 0 }, u32::from(announced(RANGE)), u32::from(announced(DOPPLER))];
    for (at, width) in widths.into_iter().enumerate() {
        let value = [0xF0 + n, 0x10 * at as u8 + n];
        match width {
            2 => spelt.extend(value),
            1 => spelt.push(value[1]),
            _ => {}
        }
        if width == 2 {
            record[1 + 2 * at] = value[0];
        }
        if width > 0 {
            record[2 + 2 * at] = value[1];
        }
    }
    Scatterer { spelt, record }
}

/// Both numbers of bytes, the phase announced or not, each index or none.
#[test]
fn scatterer_values() {
    for (h25, h26) in [(1, 0), (1, 1), (1, 2), (2, 0), (2, 1), (2, 2)] {
        for choice in 0..8 {
            let mask = [PHASE, RANGE, DOPPLER].iter().enumerate().filter(|(at, _)| choice >> at & 1 == 1);
            let mask = mask.fold(LEAST | bit(7), |mask, (_, bit)| mask | bit);
            let all: Vec<Scatterer> = (1..=6).map(|n| scatterer(mask, h25, h26, n)).collect();
            let spelt: Vec<u8> = all.iter().flat_map(|each| each.spelt.clone()).collect();
            let values = [(7, 2), (8, 3), (25, h25), (26, h26)];
            let sheet = assert_scatterers(mask, &values, &spelt, 6);
            let expected: Vec<u8> = all.iter().flat_map(|each| each.record).collect();
            assert_eq!(sheet[BEFORE + 67..], expected);
            for wrong in [spelt.len() - 1, spelt.len() + 1] {
                assert_number(mask, &values, &vec![0; wrong], 22);
            }
        }
    }
}

#[test]
fn phases() {
    // Announced, but of 0 bytes: nothing is there, and zero is stored.
    let sheet = assert_scatterers(LEAST | bit(6) | PHASE, &[(6, 1)], &[0xA1], 1);
    assert_eq!(sheet[BEFORE + 67..], [12, 0, 0xA1, 0, 0, 0, 0, 0, 0]);
    // Of 1 or 2 bytes, but not announced: likewise.
    for h26 in [1, 2] {
        let sheet = assert_scatterers(LEAST | bit(6), &[(6, 1), (26, h26)], &[0xA1], 1);
        assert_eq!(sheet[BEFORE + 67..], [12, 0, 0xA1, 0, 0, 0, 0, 0, 0]);
        assert_number(LEAST | bit(6), &[(6, 1), (26, h26)], &vec![0; 1 + h26 as usize], 22);
    }
}

#[test]
fn any_field_values() {
    // Only H6 to H8, H25 and H26 are looked at.
    let mut body = front(FULL, &[(6, 0)]);
    for at in 5..body.len() {
        let field = place_to_field(at - 5);
        for byte in [0x01, 0x7F, 0x80, 0xFF] {
            let is_free = !matches!(field, 6 | 25 | 26);
            let bytes = packet("30", &[segment(3, &with_byte(&body, at, byte))]);
            let is_right = is_free || matches!((field, byte), (25 | 26, 1));
            assert_eq!(sheet_of(3, &bytes).0.is_accepted(), is_right, "H{field}");
        }
    }
    body[5..].fill(0xFF);
    assert_body(&body, 22);
}

/// The field that holds this byte where all are announced.
fn place_to_field(place: usize) -> u32 {
    let mut left = place;
    for (field, width) in (2..).zip(HRR_FIELDS) {
        if left < width {
            return field;
        }
        left -= width;
    }
    panic!("H31 ends before {place}");
}

/// "An Edition 1 reading still names the segment", whatever it holds and before
/// rows 9, 21 and 22.
#[test]
fn edition_1() {
    let bodies = [vec![], vec![1], vec![0xFF; 5], front(LEAST, &[]), front(FULL, &[]), front(LEAST, &[(25, 9)])];
    for body in &bodies {
        let bytes = packet("30", &[job(1), segment(3, body), job(91)]);
        assert_read(1, &bytes, (15, 2, 0));
        assert_eq!(first_new(&bytes), Some((2, 0)));
        // Rows 6 to 8 come before it, and an earlier segment's rows.
        assert_read(1, &packet("30", &[mission(0, 1), segment(3, body)]), (13, 1, 6));
        let mut long = segment(3, body);
        long[4] += 1;
        assert_read(1, &packet("30", &[long]), (8, 1, 0));
        assert_opaque(body);
    }
    // The Edition 3 reading goes on to the next segment's rows.
    assert_read(3, &packet("30", &[segment(3, &bodies[3]), mission(0, 1)]), (13, 2, 6));
    assert_read(3, &packet("30", &[segment(3, &bodies[5]), mission(0, 1)]), (22, 1, 0));
}

#[test]
fn row_16() {
    for count in [0, 1, 5] {
        let bytes = packet_of(LEAST | bit(6), &[(6, count)], &vec![3; count as usize]);
        let length = BEFORE + 67 + 9 * count as usize;
        for short in [0, length - 1] {
            let mut sheet = vec![0xA5; short];
            assert_eq!(read(3, &bytes, &mut sheet), Answer::refused(16, 0, 0));
            assert!(sheet.iter().all(|byte| *byte == 0xA5));
        }
        assert!(read(3, &bytes, &mut vec![0; length]).is_accepted());
    }
}

/// "The bound of A2 must cover the new kinds": the sheets that gain most.
#[test]
fn bound() {
    // One-byte scatterers as many as 65,536 bytes hold.
    let most = 65_536 - 32 - 39 - 2;
    let bytes = packet("30", &[segment_of(LEAST | bit(6), &[(6, most)], &vec![0xFF; most as usize])]);
    assert_eq!(bytes.len(), 65_536);
    let (answer, _) = assert_round_trip(&bytes);
    assert_eq!(answer.length, 33 + 67 + 9 * most);
    assert!((answer.length as usize) < sheet_bound(65_536));
    // As many segments as they hold.
    let bytes = packet("30", &vec![segment_of(LEAST, &[], &[]); (65_536 - 32) / 39]);
    assert_eq!(assert_round_trip(&bytes).0, Answer::accepted(1_679, 0, 0, 33 + 67 * 1_679));
    // A product that is no more than 65,535, and one that is.
    let grid = |h7, h8| packet("30", &[segment_of(LEAST | bit(7), &[(7, h7), (8, h8)], &vec![1; (h7 * h8) as usize])]);
    assert_eq!(assert_round_trip(&grid(255, 255)).0.length, 33 + 67 + 9 * 65_025);
    assert_read(3, &grid(256, 256), (2, 0, 0));
}

/// The sheet of a version 3 packet of one HRR segment.
fn hrr_sheet(mask: u64, values: Values, scatterers: &[u8]) -> Vec<u8> {
    assert_round_trip(&packet("30", &[segment_of(mask, values, scatterers)])).1
}

/// Where a field stands on such a sheet.
fn on_sheet(field: u32) -> usize {
    33 + 1 + 5 + HRR_FIELDS[..field as usize - 2].iter().sum::<usize>()
}

#[test]
fn row_17() {
    let sheet = hrr_sheet(LEAST | bit(6), &[(6, 2)], &[1, 2]);
    for length in (34..sheet.len()).filter(|length| ![33 + 67, 33 + 67 + 9].contains(length)) {
        assert_write(&sheet[..length], 200, 17);
    }
    for kind in [0, 13, 14, 255] {
        assert_write(&[&sheet[..], &[kind]].concat(), 200, 17);
    }
    assert_write(&sheet[33..], 200, 17);
    assert_write(&sheet[100..], 200, 17);
    assert_write(&[&sheet[..], &sheet].concat(), 200, 17);
}

/// "Number 18 holds kind 12 to its kind 11 likewise."
#[test]
fn row_18() {
    let sheet = hrr_sheet(LEAST | bit(6), &[(6, 2)], &[1, 2]);
    let (header, record, first, second) = (&sheet[..33], &sheet[33..100], &sheet[100..109], &sheet[109..]);
    let mission = &assert_round_trip(&packet("30", &[mission(1, 1)])).1[33..];
    let target = &[&[4][..], &[0; 44]].concat();
    let piece = &[&[6, 1][..], &[0; 32]].concat();
    let wrong: [&[&[u8]]; 14] = [
        &[record],
        &[record, first],
        &[record, first, second, first],
        &[first],
        &[first, record, first, second],
        &[mission, first],
        &[record, mission, first, second],
        &[record, first, mission, second],
        &[record, first, second, mission, first],
        &[record, record, first, second],
        &[record, first, record, second],
        &[record, first, target],
        &[record, first, piece],
        &[record, first, second, target],
    ];
    for parts in wrong {
        for length in [0, 200] {
            assert_write(&[header, &parts.concat()].concat(), length, 18);
        }
    }
    // Kind 12 does not do for another kind's records.
    let text = assert_round_trip(&packet("30", &[segment(4, &[9])])).1;
    assert_write(&[header, &text[33..39], first].concat(), 200, 18);
    // Nor does a count that no sheet holds.
    let mut many = hrr_sheet(LEAST | bit(7), &[], &[]);
    for at in [on_sheet(7), on_sheet(8)] {
        many[at..at + 2].fill(0xFF);
    }
    assert_write(&many, 200, 18);
    many.extend([first, second].concat());
    assert_write(&many, 200, 18);
    // Row 18 is tried over the whole sheet before row 19.
    let refused = with_byte(record, 1, 0);
    assert_write(&[header, &refused, first].concat(), 200, 18);
    assert_write(&[header, &with_byte(record, 67 - 18, 9), first, second, first].concat(), 200, 18);
}

/// On a sheet, too, H6 counts where announced, else H7 × H8, and an absent field
/// counts as zero even where the record's bytes are not.
#[test]
fn counts_of_records() {
    let one = [12, 0, 1, 0, 0, 0, 0, 0, 0];
    let with = |mask: u64, fields: &[(u32, u8)], count: usize| {
        let mut sheet = hrr_sheet(LEAST, &[], &[]);
        sheet[34..39].copy_from_slice(&mask.to_be_bytes()[..5]);
        for (field, value) in fields {
            sheet[on_sheet(*field) + HRR_FIELDS[*field as usize - 2] - 1] = *value;
        }
        sheet.extend(one.repeat(count));
        // P2 is that of the packet as it is spelt where the record is right.
        let widths = (2..32).zip(HRR_FIELDS).filter(|(field, _)| mask & bit(*field) != 0);
        let p2 = 32 + 5 + 5 + widths.map(|(_, width)| width).sum::<usize>() + count;
        sheet[3..7].copy_from_slice(&(p2 as u32).to_be_bytes());
        sheet
    };
    let all = [(6, 2), (7, 3), (8, 4)];
    // Mask, the count that it calls for, and whether all of the three are announced.
    let cases = [
        (LEAST | bit(6) | bit(7), 2, true),
        (LEAST | bit(6), 2, false),
        (LEAST | bit(7), 12, false),
        (LEAST, 0, false),
        (LEAST & !bit(8), 0, false),
        ((LEAST | bit(7)) & !bit(8), 0, false),
        ((LEAST | bit(6)) & !bit(8), 2, false),
    ];
    for (mask, called_for, is_right) in cases {
        for count in [0, 1, 2, 3, 4, 8, 12, 13] {
            let sheet = with(mask, &all, count);
            match (count == called_for, is_right) {
                (true, true) => assert!(write(&sheet, &mut [0; 200]).is_accepted()),
                (true, false) => assert_write(&sheet, 200, 19),
                (false, _) => assert_write(&sheet, 200, 18),
            }
        }
    }
    // The same with zero in the absent ones.
    for (mask, fields, count) in [(LEAST | bit(6), [(6, 2), (8, 4)], 2), (LEAST | bit(7), [(7, 3), (8, 4)], 12)] {
        assert!(write(&with(mask, &fields, count), &mut [0; 200]).is_accepted());
    }
    // H25 and H26 do not count scatterers.
    for h25 in [0, 1, 2, 3, 200, 255] {
        assert_write(&with(LEAST | bit(6), &[(6, 2), (25, h25)], 1), 200, 18);
        assert_write(&with(LEAST | bit(6), &[(6, 2), (26, h25)], 3), 200, 18);
    }
}

/// Sheets that no reading gives.
#[test]
fn row_19() {
    let mask = LEAST | bit(6) | PHASE | RANGE;
    let sheet = hrr_sheet(mask, &[(6, 2)], &[1, 2, 3, 4]);
    let changed = |at: usize, byte: u8| assert_write(&with_byte(&sheet, at, byte), 200, 19);
    // H25 and H26 that row 22 refuses, or that give another size.
    for h25 in [0, 3, 4, 200, 255] {
        changed(on_sheet(25), h25);
    }
    for h26 in [3, 4, 200, 255] {
        changed(on_sheet(26), h26);
    }
    changed(on_sheet(25), 2);
    changed(on_sheet(26), 1);
    // Masks that row 21 refuses, or that announce more or less than is spelt.
    for (at, field) in (34..39).flat_map(|at| [at; 8]).zip(2..42) {
        let byte = sheet[at] ^ (bit(field) >> (56 - 8 * (at - 34))) as u8;
        match field {
            // Without H6 there is another count, which is row 18's.
            6 => assert_write(&with_byte(&sheet, at, byte), 200, 18),
            // A phase of 0 bytes may as well not be announced.
            33 => assert!(write(&with_byte(&sheet, at, byte), &mut [0; 200]).is_accepted()),
            _ => changed(at, byte),
        }
    }
    // Absent fields that are not zero.
    for field in [5, 7, 9, 15, 20, 21, 22, 27, 28, 29, 30, 31] {
        changed(on_sheet(field), 1);
        changed(on_sheet(field) + HRR_FIELDS[field as usize - 2] - 1, 1);
    }
    // The byte before a one-byte value, a phase of 0 bytes, an absent index.
    for at in [0, 2, 3, 4, 6, 7] {
        changed(33 + 67 + 1 + at, 1);
        changed(33 + 67 + 9 + 1 + at, 1);
    }
    // P2.
    changed(6, 0);
    // What is left is right.
    for at in [1, 5] {
        assert!(write(&with_byte(&sheet, 33 + 67 + 1 + at, 0xFF), &mut [0; 200]).is_accepted());
    }
}

/// Type 3 has kinds 11 and 12 in version 3 alone, and kinds 7 and 6 in version 1
/// alone.
#[test]
fn kinds_of_the_other_version() {
    let segments = [segment_of(FULL, &[(6, 1)], &[1, 2, 3])];
    let newer = assert_round_trip(&packet("30", &segments)).1;
    let older = assert_round_trip(&packet("10", &segments)).1;
    assert!(records(&newer).map(|record| record.kind).eq([1, 11, 12]));
    assert!(records(&older).map(|record| record.kind).eq([1, 7, 6, 6, 6]));
    for length in [0, 200] {
        assert_write(&with_byte(&newer, 1, b'1'), length, 19);
        assert_write(&with_byte(&older, 1, b'3'), length, 19);
    }
    // Opaque and empty is no better.
    let empty = assert_round_trip(&packet("10", &[segment(3, &[])])).1;
    assert_write(&with_byte(&empty, 1, b'3'), 200, 19);
}

#[test]
fn sheets_that_spell_too_much() {
    let with = |values: Values, fields: &[(u32, u8)], count: usize| {
        let mut sheet = hrr_sheet(FULL, values, &[]);
        for (field, byte) in fields {
            sheet[on_sheet(*field)..][..HRR_FIELDS[*field as usize - 2]].fill(*byte);
        }
        sheet.extend([12, 1, 1, 1, 1, 0, 1, 0, 1].repeat(count));
        sheet
    };
    let values = [(25, 2), (26, 2)];
    assert_write(&with(&values, &[(6, 0xFF)], 65_535), 70_000, 19);
    assert_write(&with(&values, &[(6, 0xFF), (25, 200), (26, 200)], 65_535), 70_000, 19);
    assert_write(&with(&values, &[(6, 0xFF), (25, 0), (26, 0)], 65_535), 70_000, 19);
    // 257 × 257 scatterers by the product, more than a two-byte count.
    let mut product = with(&values, &[(7, 1), (8, 1)], 257 * 257);
    product[34] &= !0x08;
    assert_write(&product, 70_000, 19);
    assert_write(&product[..product.len() - 9], 70_000, 18);
    // One byte more than a packet has.
    let most = 65_536 - 32 - 39 - 2;
    let mut one_more = hrr_sheet(LEAST | bit(6), &[(6, most)], &vec![7; most as usize]);
    one_more[on_sheet(6)..][..2].copy_from_slice(&(most as u16 + 1).to_be_bytes());
    assert_write(&one_more, 70_000, 18);
    one_more.extend([12, 0, 7, 0, 0, 0, 0, 0, 0]);
    assert_write(&one_more, 70_000, 19);
}

#[test]
fn row_20() {
    let bytes = packet_of(FULL, &[(6, 2), (25, 2), (26, 1)], &[0x44; 10]);
    let sheet = assert_round_trip(&bytes).1;
    for length in [0, 1, bytes.len() - 1] {
        assert_write(&sheet, length, 20);
    }
    let mut back = vec![0; bytes.len()];
    assert_eq!(write(&sheet, &mut back), Answer::accepted(2, 0, 0, bytes.len() as u32));
    assert_eq!(back, bytes);
}

/// Every byte of a packet and of its sheet, changed: what is accepted comes back.
#[test]
fn changed_bytes() {
    let bytes = packet_of(FULL, &[(6, 2), (7, 1), (8, 2), (25, 2), (26, 1)], &[0x44; 10]);
    let sheet = assert_round_trip(&bytes).1;
    for byte in [0x00, 0x01, 0x02, 0x03, 0x0C, 0x7F, 0x80, 0xC8, 0xFF] {
        for at in 0..bytes.len() {
            let changed = with_byte(&bytes, at, byte);
            sheet_of(1, &changed);
            if sheet_of(3, &changed).0.is_accepted() {
                assert_round_trip(&changed);
            }
        }
        for at in 0..sheet.len() {
            let changed = with_byte(&sheet, at, byte);
            let mut back = vec![0; 200];
            let written = write(&changed, &mut back);
            if written.is_accepted() {
                back.truncate(written.length as usize);
                assert_eq!(sheet_of(3, &back).1, changed);
            }
        }
    }
}
