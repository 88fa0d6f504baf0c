//! HRR segments of Edition 3: every mask, width, count and size, and the sheet held to the values that the segment was made of.
mod common;

use common::held;
use testing::comparison::Comparison;
use testing::generator::hrr::{any, mask, with, with_widths, WRAPPING};
use testing::generator::records::{join, patch_size, sheet_of, Record};
use testing::generator::spelling::{push, Hrr, Packet, Segment};
use testing::generator::tables::{bit, hrr_width, mask_of, HRR_ALWAYS, HRR_FREE, HRR_SPARE, SCATTERER_FREE};
use testing::generator::{valid, Random};
use testing::library::Answer;

fn packet_of(random: &mut Random, segment: Segment) -> Vec<u8> {
    Packet::new(valid::header(random, 3), vec![segment]).bytes()
}

/// The Edition 3 reading's answer for a packet of this segment alone.
fn read(comparison: &mut Comparison, random: &mut Random, segment: Segment) -> Answer {
    let lent = 33 + 67 + 9 * segment.body.len();
    held(comparison.read(3, &packet_of(random, segment), lent))
}

/// The records that the values give: the mask and all fields at full widths, then each scatterer, absent ones zero.
fn records_of(hrr: &Hrr) -> Vec<Record> {
    let mut body = hrr.mask.to_be_bytes()[..5].to_vec();
    for field in 2..=31 {
        push(&mut body, if hrr.has(field) { hrr.values[field as usize] } else { 0 }, hrr_width(field));
    }
    let mut records = vec![Record::new(11, body)];
    for scatterer in &hrr.scatterers {
        let mut body = Vec::new();
        for (value, width) in scatterer[1..].iter().zip(hrr.scatterer_widths()) {
            push(&mut body, if width == 0 { 0 } else { *value }, 2);
        }
        records.push(Record::new(12, body));
    }
    records
}

/// The packet is accepted, its sheet is what the values give, and it is written back.
fn assert_set_out(comparison: &mut Comparison, random: &mut Random, hrr: &Hrr) {
    let packet = packet_of(random, hrr.segment());
    let sheet = [&[1][..], &packet[..32], &join(&records_of(hrr))].concat();
    let due = Answer::accepted(1, 0, 0, sheet.len() as u32);
    assert_eq!(held(comparison.read(3, &packet, sheet.len())), due, "{hrr:?}");
    assert!(sheet_of(3, &packet) == Some(sheet.clone()), "{hrr:?}");
    assert_eq!(held(comparison.write(&sheet, packet.len())), Answer { length: packet.len() as u32, ..due }, "{hrr:?}");
    assert_eq!(held(comparison.read(1, &packet, 0)), Answer::refused(15, 1, 0), "{hrr:?}");
}

/// Every choice of the fields H2 to H31 that are free.
#[test]
fn every_valid_mask() {
    let mut comparison = Comparison::new(801);
    let mut masks = vec![mask_of(&HRR_ALWAYS)];
    for field in HRR_FREE {
        masks = masks.iter().flat_map(|mask| [*mask, mask | bit(field)]).collect();
    }
    for (index, mask) in masks.iter().enumerate() {
        let random = &mut Random::of_case(801, index as u64);
        comparison.begin("mask", index as u64);
        let hrr = with(random, *mask, 2);
        assert_set_out(&mut comparison, random, &hrr);
    }
    assert_eq!(masks.len(), 1 << 13);
}

/// The patterns of a scatterer: H25 and H26, and the mask of H32.2 to H32.4.
fn patterns() -> Vec<((u32, u32), u64)> {
    let mut patterns = Vec::new();
    for choice in 0..8 {
        let announced = SCATTERER_FREE.into_iter().enumerate().filter(|(at, _)| choice >> at & 1 == 1);
        let mask = announced.fold(0, |mask, (_, field)| mask | bit(field));
        patterns.extend([1, 2].into_iter().flat_map(|h25| [0, 1, 2].map(|h26| ((h25, h26), mask))));
    }
    patterns
}

/// Every pattern of widths with every count up to 40, and with those near where the writer compares a batch more, told by H6 or by H7
/// and H8.
#[test]
fn every_pattern_of_scatterers() {
    let mut comparison = Comparison::new(802);
    let mut index = 0;
    for (widths, fields) in patterns() {
        for count in (0..=40).chain(56..=66).chain(127..=130) {
            for told in [&[6][..], &[7], &[6, 7]] {
                index += 1;
                comparison.begin("scatterers", index);
                let random = &mut Random::of_case(802, index);
                let hrr = with_widths(random, mask_of(&HRR_ALWAYS) | mask_of(told) | fields, widths, count);
                assert_eq!(hrr.scatterers.len(), count);
                assert_set_out(&mut comparison, random, &hrr);
            }
        }
    }
    assert_eq!(index, 48 * (41 + 11 + 4) * 3);
}

/// A mask with one bit changed: 21 for those that every mask sets or that announce nothing.
#[test]
fn every_bit_of_a_mask() {
    let mut comparison = Comparison::new(803);
    for index in 0..200 {
        let random = &mut Random::of_case(803, index);
        let mut hrr = any(random);
        comparison.begin("mask", index);
        for field in 2..=41 {
            hrr.mask ^= bit(field);
            let answer = read(&mut comparison, random, hrr.segment());
            let is_fault = HRR_ALWAYS.contains(&field) || HRR_SPARE.contains(&field);
            assert!(answer.number == 21 || !is_fault, "{answer} for field {field}");
            assert!(matches!(answer.number, 0 | 22) || is_fault, "{answer} for field {field}");
            hrr.mask ^= bit(field);
        }
    }
    assert!(comparison.tally.newer[22] > 100, "{}", comparison.tally);
}

/// Every value of H25 and of H26, with a size that fits it; the phase announced and not.
#[test]
fn every_value_of_the_widths() {
    let mut comparison = Comparison::new(804);
    let random = &mut Random::new(804);
    comparison.begin("widths", 0);
    for more in [mask_of(&[6]), mask_of(&[6, 33]), mask_of(&[7, 34, 35])] {
        for value in 0..=255 {
            for (h25, h26) in [(value, 0), (value, 2), (1, value), (2, value)] {
                let hrr = with_widths(random, mask_of(&HRR_ALWAYS) | more, (h25, h26), 2);
                let due = if matches!(h25, 1 | 2) && h26 <= 2 { 0 } else { 22 };
                assert_eq!(read(&mut comparison, random, hrr.segment()).number, due, "H25 {h25}, H26 {h26}");
            }
        }
    }
}

/// Every size up to some bytes more than is right: 9 where the mask does not fit, else 22.
#[test]
fn every_size() {
    let mut comparison = Comparison::new(805);
    for index in 0..100 {
        let random = &mut Random::of_case(805, index);
        let right = any(random).segment();
        let length = right.body.len();
        comparison.begin("size", index);
        for size in 0..length + 12 {
            let mut segment = right.clone();
            segment.body.resize(size, 0);
            let due = match size {
                _ if size < 5 => 9,
                _ if size == length => 0,
                _ => 22,
            };
            assert_eq!(read(&mut comparison, random, segment).number, due, "{size} for {length} bytes");
        }
    }
}

/// Numbers at the ends of bytes and of two bytes.
const NUMBERS: [u32; 14] = [0, 1, 2, 3, 4, 6, 255, 256, 257, 32_767, 32_768, 65_533, 65_534, 65_535];

/// Six scatterers or none, and any H6, H7 and H8: accepted just where H6 says so, or where it is absent H7 times H8.
#[test]
fn every_count() {
    let mut comparison = Comparison::new(806);
    let random = &mut Random::new(806);
    comparison.begin("counts", 0);
    for there in [0, 6] {
        for told in [&[6][..], &[7], &[6, 7], &[]] {
            let mask = mask_of(&HRR_ALWAYS) | mask_of(told);
            let mut hrr = with_widths(random, mask | bit(33), (2, 2), 0);
            hrr.scatterers = vec![[0; 5]; there];
            for h7 in NUMBERS {
                for h8 in NUMBERS {
                    (hrr.values[6], hrr.values[7], hrr.values[8]) = (h7 ^ h8, h7, h8);
                    let count = match told {
                        [6, ..] => u64::from(h7 ^ h8),
                        [] => 0,
                        _ => u64::from(h7) * u64::from(h8),
                    };
                    let due = if count == there as u64 { 0 } else { 22 };
                    assert_eq!(read(&mut comparison, random, hrr.segment()).number, due, "{told:?}, {h7} by {h8}");
                }
            }
        }
    }
}

/// Counts whose bytes pass 32 bits, with any number of bytes that may be left of them.
#[test]
fn counts_past_32_bits() {
    let mut comparison = Comparison::new(807);
    let random = &mut Random::new(807);
    comparison.begin("counts", 0);
    for (widths, fields) in patterns() {
        let mut hrr = with_widths(random, mask_of(&HRR_ALWAYS) | bit(7) | fields, widths, 0);
        for (h7, h8) in WRAPPING.into_iter().chain([(65_535, 65_535), (65_535, 1), (1, 65_535), (256, 255)]) {
            (hrr.values[7], hrr.values[8]) = (h7, h8);
            for more in 0..=16 {
                let mut segment = hrr.segment();
                segment.body.resize(segment.body.len() + more, 0);
                assert_eq!(read(&mut comparison, random, segment), Answer::refused(22, 1, 0), "{h7} by {h8}, {more} bytes");
            }
        }
    }
}

/// The sheet of a segment with these records in the place of its own.
fn sheet_with(random: &mut Random, records: &[Record]) -> Vec<u8> {
    let mut all = vec![Record::new(1, valid::header(random, 3).to_vec())];
    all.extend_from_slice(records);
    patch_size(&mut all);
    join(&all)
}

/// None to seven scatterers behind a kind 11 with any H6, H7 and H8, announced or not: 18 unless they are as many as the announced ones
/// say, and 19 where another value stands than zero in the place of one that is absent.
#[test]
fn every_count_of_records() {
    let mut comparison = Comparison::new(808);
    let random = &mut Random::new(808);
    comparison.begin("counts", 0);
    for announced in [0, bit(6), bit(7), bit(6) | bit(7)] {
        let mut records = records_of(&with_widths(random, mask_of(&HRR_ALWAYS) | announced, (1, 0), 0));
        for h6 in [0, 1, 6, 65_535] {
            for (h7, h8) in [(0, 0), (0, 6), (6, 0), (2, 3), (6, 1), (256, 256), (65_535, 65_535)] {
                for (place, value) in [(12, h6), (14, h7), (16, h8)] {
                    records[0].set_number(place, 2, value);
                }
                let is_absent_zero = (announced & bit(6) != 0 || h6 == 0) && (announced & bit(7) != 0 || h7 == 0);
                for there in 0..8 {
                    records.resize(1 + there, Record::new(12, vec![0, 9, 0, 0, 0, 0, 0, 0]));
                    let claimed = records[0].hrr().claimed();
                    let due = match is_absent_zero {
                        _ if claimed != there as u64 => 18,
                        true => 0,
                        false => 19,
                    };
                    let sheet = sheet_with(random, &records);
                    assert_eq!(held(comparison.write(&sheet, 200)).number, due, "{there} scatterers, {:?}", records[0].hrr());
                }
                records.truncate(1);
            }
        }
    }
    assert!([0, 18, 19].iter().all(|row| comparison.tally.writer[*row] > 10), "{}", comparison.tally);
}

/// Every byte at every place of the last scatterer, in every pattern: 19 for what no segment has.
#[test]
fn every_byte_of_a_scatterer() {
    let mut comparison = Comparison::new(809);
    let random = &mut Random::new(809);
    comparison.begin("scatterers", 0);
    for (widths, fields) in patterns() {
        let hrr = with_widths(random, mask_of(&HRR_ALWAYS) | bit(6) | fields, widths, 2);
        let records = records_of(&hrr);
        for at in 0..8 {
            let is_kept = hrr.scatterer_widths()[at / 2] > 1 - at % 2;
            for value in 0..=255 {
                let mut changed = records.clone();
                changed[2].body[at] = value;
                let due = if is_kept || value == 0 { 0 } else { 19 };
                let sheet = sheet_with(random, &changed);
                assert_eq!(held(comparison.write(&sheet, 200)).number, due, "{value} at {at}, {hrr:?}");
            }
        }
    }
}

/// A record of any kind in the place of each of up to nine scatterers, which are looked at four at a time.
#[test]
fn every_place_of_another_kind() {
    let mut comparison = Comparison::new(811);
    let random = &mut Random::new(811);
    comparison.begin("kinds", 0);
    for count in 1..=9 {
        let records = records_of(&with_widths(random, mask_of(&HRR_ALWAYS) | bit(6), (1, 0), count));
        let sheet = sheet_with(random, &records);
        for place in 0..count {
            for kind in 0..=13 {
                let mut changed = sheet.clone();
                changed[33 + 67 + 9 * place] = kind;
                let answer = held(comparison.write(&changed, 200));
                assert_eq!(answer.is_accepted(), kind == 12, "{answer}, kind {kind} in place {place} of {count}");
            }
        }
    }
    assert!([17, 18].iter().all(|row| comparison.tally.writer[*row] > 10), "{}", comparison.tally);
}

/// Every byte of a kind 11 changed, in sheets of any mask; the writer of the library is held to the independent one.
#[test]
fn every_byte_of_a_kind_11() {
    let mut comparison = Comparison::new(810);
    for index in 0..40 {
        let random = &mut Random::of_case(810, index);
        let mask = mask(random);
        let records = records_of(&with(random, mask, 3));
        comparison.begin("kind 11", index);
        for at in 0..66 {
            for value in [0, 1, 2, 3, 4, 128, 255] {
                let mut changed = records.clone();
                changed[0].body[at] = value;
                let sheet = sheet_with(random, &changed);
                held(comparison.write(&sheet, 200));
            }
        }
    }
    assert!([0, 18, 19].iter().all(|row| comparison.tally.writer[*row] > 100), "{}", comparison.tally);
}
