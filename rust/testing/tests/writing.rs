//! Sheets, valid and not, given to the writer of the verified library and of the independent implementation.
mod common;

use common::held;
use std::ops::Range;
use testing::cases;
use testing::comparison::Comparison;
use testing::generator::records::{join, patch_size, sheet_of, split, Record};
use testing::generator::sheet_faults::SheetFault;
use testing::generator::spelling::{Packet, Segment};
use testing::generator::tables::{bit, mask_of, names_on_sheets, TextSet, ALWAYS, DELTAS, HRR_ALWAYS};
use testing::generator::valid::{self, Style};
use testing::generator::{hrr, sheets, Random};
use testing::library::Answer;

#[test]
fn sheets_of_packets() {
    let mut comparison = Comparison::new(201);
    for index in 0..10_000 {
        let random = &mut Random::of_case(201, index);
        let edition = random.pick([1, 3, 3]);
        let sheet = sheets::valid(random, edition);
        comparison.begin("sheet of a packet", index);
        held(comparison.sheet(&sheet));
    }
    let tally = comparison.tally;
    assert!(tally.records[1..].iter().chain(&tally.pairs).all(|count| *count > 100), "{tally}");
    // Row 19 refuses the Edition 1 sheets on which something is withheld.
    assert!(tally.writer[0] > 1000 && tally.writer[19] > 1000 && tally.writer[20] > 1000, "{tally}");
    assert_eq!(tally.rows_written(), [19, 20], "{tally}");
}

#[test]
fn every_clause() {
    let mut comparison = Comparison::new(202);
    let mut index = 0;
    for fault in SheetFault::ALL {
        for _ in 0..300 {
            index += 1;
            let aimed = sheets::one(&mut Random::of_case(202, index), fault);
            comparison.begin("sheet with one fault", index);
            held(cases::aimed_sheet(&mut comparison, Some(aimed)));
        }
    }
    assert_eq!(comparison.tally.rows_written(), [17, 18, 19], "{}", comparison.tally);
}

/// Of two faults the one of the earlier row is named, wherever they stand.
#[test]
fn two_faults() {
    let mut comparison = Comparison::new(203);
    let mut index = 0;
    for first in SheetFault::ALL {
        for second in SheetFault::ALL {
            for _ in 0..4 {
                index += 1;
                let aimed = sheets::two(&mut Random::of_case(203, index), first, second);
                if aimed.is_some() {
                    comparison.begin("sheet with two faults", index);
                    held(cases::aimed_sheet(&mut comparison, aimed));
                }
            }
        }
    }
    assert!(comparison.tally.cases() > 3_000, "{}", comparison.tally);
}

#[test]
fn damaged_sheets() {
    let mut comparison = Comparison::new(204);
    for index in 0..30_000 {
        let random = &mut Random::of_case(204, index);
        let sheet = sheets::valid(random, 3);
        let damaged = sheets::damaged(random, &sheet);
        comparison.begin("damaged sheet", index);
        held(comparison.sheet(&damaged));
    }
    assert_eq!(comparison.tally.rows_written(), [17, 18, 19, 20], "{}", comparison.tally);
}

/// Every bit of a sheet that has every kind of record, flipped. None gives a sheet that spells the same packet.
#[test]
fn every_bit_of_a_sheet() {
    let mut comparison = Comparison::new(205);
    let random = &mut Random::new(205);
    let style = Style { version: 3, new: true };
    let mask = valid::mask(random, style, valid::Pair::Deltas);
    let mut segments: Vec<_> = [1, 5, 6, 7, 10, 13].map(|segment_type| valid::segment_of(random, style, segment_type)).to_vec();
    segments[2].body.resize(20 + 40, b'x');
    segments[3].body.resize(33, 7);
    segments.push(valid::dwell_with(random, mask, 2).segment());
    segments.push(hrr::with_widths(random, mask_of(&HRR_ALWAYS) | mask_of(&[6, 7, 33, 34]), (2, 1), 2).segment());
    let packet = Packet::new(valid::header(random, 3), segments).bytes();
    let sheet = sheet_of(3, &packet).expect("the packet is valid");
    comparison.begin("flipped bits", 0);
    for at in 0..8 * sheet.len() {
        let mut changed = sheet.clone();
        changed[at / 8] ^= 1 << (at % 8);
        let lent = packet.len() + 10;
        let answer = held(comparison.write(&changed, lent));
        let mut back = vec![0; lent];
        testing::library::write(&changed, &mut back);
        assert!(!answer.is_accepted() || back[..packet.len()] != packet[..], "bit {at}");
    }
    assert!(comparison.tally.writer[0] > 100 && comparison.tally.writer[19] > 1000, "{}", comparison.tally);
}

/// The records of a sheet that has every name, and at its end two full pieces of F3.
fn records_with_text(random: &mut Random) -> Vec<Record> {
    let free_text = Segment::new(6, valid::text(random, TextSet::Name, 20 + 64));
    let segments = vec![valid::mission(random), valid::job_with(random, 1), free_text];
    let packet = Packet::new(valid::header(random, 3), segments).bytes();
    split(&sheet_of(3, &packet).expect("the packet is valid"))
}

/// With any byte at these places of a record the sheet is written if the set holds the byte, and else refused.
fn assert_takes(comparison: &mut Comparison, records: &[Record], record: usize, places: Range<usize>, set: TextSet) {
    for at in places {
        for value in 0..=255 {
            let mut changed = records.to_vec();
            changed[record].body[at] = value;
            let answer = held(comparison.write(&join(&changed), 300));
            let due = if set.holds(value) { answer.is_accepted() } else { answer == Answer::refused(19, 0, 0) };
            assert!(due, "{answer} for {value} at {at} of kind {}", records[record].kind);
        }
    }
}

/// Every byte at every place of text: no sheet with a line end in a name is written, one with line ends in F3 is.
#[test]
fn every_byte_of_text() {
    let mut comparison = Comparison::new(209);
    comparison.begin("text", 0);
    let records = records_with_text(&mut Random::new(209));
    for (kind, name) in names_on_sheets() {
        let at = records.iter().position(|record| record.kind == kind).expect("the sheet has every name");
        assert_takes(&mut comparison, &records, at, name.place(usize::MAX), TextSet::Name);
    }
    for at in [records.len() - 2, records.len() - 1] {
        assert_takes(&mut comparison, &records, at, 1..33, TextSet::Lines);
    }
}

/// A sheet of so many test records, and an opaque one of so many bytes.
fn long_sheet(tests: usize, opaque: usize) -> Vec<u8> {
    let mut records = vec![Record::new(1, valid::header(&mut Random::new(206), 3).to_vec())];
    records.extend(vec![Record::new(9, vec![9; 14]); tests]);
    let mut body = vec![7];
    body.extend((opaque as u32).to_be_bytes());
    records.push(Record::new(7, body));
    records.extend(vec![1; opaque].chunks(32).map(Record::piece));
    patch_size(&mut records);
    join(&records)
}

/// Packets of 65,536 bytes are written, those of one more are refused, even into a buffer that would hold them.
#[test]
fn longest_packets() {
    let mut comparison = Comparison::new(206);
    comparison.begin("long sheet", 0);
    for (tests, opaque, number) in
        [(0, 65_499, 0), (0, 65_500, 19), (3447, 6, 0), (3447, 7, 19), (3447, 5, 0), (5000, 0, 19), (0, 300_000, 19)]
    {
        let sheet = long_sheet(tests, opaque);
        let answer = held(comparison.sheet(&sheet));
        assert_eq!(answer.number, number, "{tests} tests, {opaque} bytes");
        if number == 0 {
            assert_eq!(answer.length as usize, 32 + 19 * tests + 5 + opaque);
        }
    }
}

/// As many targets as D5 can tell, spelt as 4 bytes each or as nothing.
#[test]
fn most_targets() {
    let mut comparison = Comparison::new(207);
    comparison.begin("long sheet", 0);
    let random = &mut Random::new(207);
    for (fields, count, number) in [(&DELTAS[..], 16_362, 0), (&DELTAS, 16_363, 19), (&DELTAS, 65_535, 19), (&[], 65_535, 19)] {
        let mut dwell = valid::dwell_with(random, mask_of(&ALWAYS) | mask_of(fields), 1);
        (dwell.values[10], dwell.values[24]) = (0, 0);
        let one = Packet::new(valid::header(random, 3), vec![dwell.segment()]).bytes();
        let mut records = match sheet_of(3, &one) {
            Some(sheet) => split(&sheet),
            None => {
                dwell.targets.clear();
                dwell.values[5] = 0;
                let none = Packet::new(valid::header(random, 3), vec![dwell.segment()]).bytes();
                let mut records = split(&sheet_of(3, &none).expect("no target, no fault"));
                records.push(Record::new(4, vec![0; 44]));
                records
            }
        };
        records[1].set_number(13, 2, count);
        let target = records[2].clone();
        records.resize(2 + count as usize, target);
        patch_size(&mut records);
        let answer = held(comparison.sheet(&join(&records)));
        assert_eq!(answer.number, number, "{count} targets");
        assert!(number != 0 || answer.targets == count);
    }
}

/// As many scatterers of one byte as a packet has room for, and more, up to twice as many as H6 can tell.
#[test]
fn most_scatterers() {
    let mut comparison = Comparison::new(210);
    comparison.begin("long sheet", 0);
    let random = &mut Random::new(210);
    for (h7, h8, number) in [(21_821, 3, 0), (65_464, 1, 19), (65_535, 1, 19), (65_535, 2, 19), (2, 65_535, 19)] {
        let hrr = hrr::with_widths(random, mask_of(&HRR_ALWAYS) | bit(7), (1, 0), 1);
        let one = Packet::new(valid::header(random, 3), vec![hrr.segment()]).bytes();
        let mut records = split(&sheet_of(3, &one).expect("the packet is valid"));
        records[1].set_number(14, 2, h7);
        records[1].set_number(16, 2, h8);
        let scatterer = records[2].clone();
        records.resize(2 + (h7 * h8) as usize, scatterer);
        patch_size(&mut records);
        assert_eq!(held(comparison.sheet(&join(&records))).number, number, "{h7} by {h8} samples");
        records.pop();
        assert_eq!(held(comparison.sheet(&join(&records))).number, 18, "{h7} by {h8} samples, one missing");
        records.push(Record::new(9, vec![0; 14]));
        assert_eq!(held(comparison.sheet(&join(&records))).number, 18, "{h7} by {h8} samples, the last of another kind");
    }
}

/// A length near 2^32 leaves no room for an S2; whatever pieces there are, they are not those that it calls for.
#[test]
fn lengths_near_the_end_of_a_number() {
    let mut comparison = Comparison::new(208);
    comparison.begin("lengths", 0);
    let random = &mut Random::new(208);
    for kind in [5, 7] {
        for pieces in 0..4 {
            for length in (0..70).map(|less| u32::MAX - less).chain([1 << 31, 1 << 24, 1 << 16, u32::MAX / 2]) {
                let mut body = if kind == 5 { valid::text(random, TextSet::Name, 20) } else { vec![4] };
                body.extend(length.to_be_bytes());
                let mut records = vec![Record::new(1, valid::header(random, 3).to_vec()), Record::new(kind, body)];
                records.extend(vec![Record::piece(&[b'a'; 32]); pieces]);
                patch_size(&mut records);
                assert_eq!(held(comparison.sheet(&join(&records))), Answer::refused(18, 0, 0));
            }
        }
    }
}
