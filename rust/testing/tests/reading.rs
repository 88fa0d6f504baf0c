//! Readings of packets, valid and not, by the verified library and by the independent implementation.
mod common;

use common::held;
use std::collections::BTreeSet;
use testing::cases;
use testing::comparison::Comparison;
use testing::generator::aimed;
use testing::generator::faults::Fault;
use testing::generator::spelling::{Packet, Segment};
use testing::generator::tables::{bit, mask_of, TextSet, ABSOLUTE, ALWAYS, ANGLES, BODY_TEXT, DELTAS, GROUPS, HEADER_TEXT, SINGLE};
use testing::generator::valid::{self, Style};
use testing::generator::{damage, Random};
use testing::library::Answer;

#[test]
fn valid_packets() {
    let mut comparison = Comparison::new(101);
    for index in 0..20_000 {
        let packet = valid::packet(&mut Random::of_case(101, index)).bytes();
        comparison.begin("valid packet", index);
        held(cases::accepted(&mut comparison, &packet));
    }
    let tally = comparison.tally;
    assert!(tally.records[1..].iter().chain(&tally.pairs).all(|count| *count > 100), "{tally}");
    assert!(tally.older[0] > 1000 && tally.newer[0] > 1000 && tally.older[15] > 1000, "{tally}");
    assert!(tally.older[16] > 1000 && tally.newer[16] > 1000 && tally.writer[20] > 1000, "{tally}");
}

/// A packet with many segments, and one with a great many.
#[test]
fn many_segments() {
    let mut comparison = Comparison::new(102);
    for (index, count) in [(0, 100), (1, 100), (2, 300), (3, 1000)] {
        let style = Style { version: 3, new: index % 2 == 0 };
        let mut packet = valid::packet_in(&mut Random::of_case(102, index), style, count);
        while packet.length_from(0) > 65_504 {
            packet.segments.pop();
        }
        comparison.begin("many segments", index);
        held(cases::accepted(&mut comparison, &packet.bytes()));
    }
}

#[test]
fn every_row_and_field() {
    let mut comparison = Comparison::new(103);
    let mut index = 0;
    for fault in Fault::all() {
        for _ in 0..150 {
            index += 1;
            let aimed = aimed::one(&mut Random::of_case(103, index), fault);
            comparison.begin("packet with one fault", index);
            held(cases::aimed_packet(&mut comparison, aimed));
        }
    }
    let tally = comparison.tally;
    // Row 16 needs a packet that is accepted: one that has only what is new to the Edition 1 reading.
    assert_eq!(tally.rows_read(), (1..=16).chain([21, 22]).collect::<Vec<usize>>(), "{tally}");
    for row in 2..=14 {
        assert!(tally.older[row] > 0 && tally.newer[row] > 0, "row {row}\n{tally}");
    }
    assert!(tally.older[15] > 0 && tally.newer[21] > 0 && tally.newer[22] > 0, "{tally}");
    assert_eq!((tally.newer[15], tally.older[21], tally.older[22]), (0, 0, 0), "{tally}");
    assert_eq!(tally.fields_of(5), [3, 5, 8]);
    assert_eq!(tally.fields_of(10), [1, 2, 3, 4]);
    let masks: Vec<u32> = (2..=30).chain(33..=36).chain(47..=65).collect();
    assert_eq!(tally.fields_of(11), masks);
    assert_eq!(tally.fields_of(13), [4, 5, 6, 7, 37, 42, 46]);
    assert_eq!(tally.fields_of(14), [35]);
    assert_eq!(tally.fields_of(15), [0, 14, 28, 29, 30, 49]);
}

/// Of two faults in two segments the first is named, whatever its row; the header's come before both.
#[test]
fn two_faults_apart() {
    let mut comparison = Comparison::new(104);
    let mut tried = 0;
    for first in Fault::all() {
        for second in Fault::all() {
            tried += 1;
            let aimed = aimed::apart(&mut Random::of_case(104, tried), first, second);
            if aimed.is_some() {
                comparison.begin("packet with two faults", tried);
                held(cases::aimed_packet(&mut comparison, aimed));
            }
        }
    }
    assert!(comparison.tally.cases() > 12_000, "{}", comparison.tally);
}

/// Of two faults in one segment the one of the earlier row is named.
#[test]
fn two_faults_in_one_segment() {
    let mut comparison = Comparison::new(105);
    let mut index = 0;
    let all = Fault::all();
    for (at, first) in all.iter().enumerate() {
        for second in &all[at + 1..] {
            for _ in 0..10 {
                index += 1;
                let aimed = aimed::together(&mut Random::of_case(105, index), *first, *second);
                if aimed.is_some() {
                    comparison.begin("packet with two faults", index);
                    held(cases::aimed_packet(&mut comparison, aimed));
                }
            }
        }
    }
    assert!(comparison.tally.cases() > 5_000, "{}", comparison.tally);
}

/// Every mask that a version 3 dwell may have, as far as D2 to D31 go, and as far as the targets go.
#[test]
fn every_valid_mask() {
    let mut comparison = Comparison::new(106);
    let pairs = [0, mask_of(&ABSOLUTE), mask_of(&DELTAS)];
    let mut dwells: Vec<u64> = vec![mask_of(&ALWAYS)];
    for part in [mask_of(GROUPS[0]), mask_of(GROUPS[1]), mask_of(GROUPS[2]), mask_of(GROUPS[3]), bit(28), bit(29), bit(30), bit(31)] {
        dwells = dwells.iter().flat_map(|mask| [*mask, mask | part]).collect();
    }
    let mut targets = vec![0];
    for part in SINGLE.map(bit).into_iter().chain([mask_of(&[47, 48]), bit(49)]) {
        targets = targets.iter().flat_map(|mask| [*mask, mask | part]).collect();
    }
    let of_dwells = dwells.iter().map(|mask| mask | bit(32));
    let of_targets = targets.iter().map(|mask| mask | mask_of(&ALWAYS) | mask_of(&ANGLES));
    let mut index = 0;
    for mask in of_dwells.chain(of_targets) {
        for pair in pairs {
            index += 1;
            comparison.begin("mask", index);
            let random = &mut Random::of_case(106, index);
            let dwell = valid::dwell_with(random, mask | pair, if pair == 0 { 0 } else { 2 });
            let packet = Packet::new(valid::header(random, 3), vec![dwell.segment()]).bytes();
            let n = 33 + 88 + 45 * dwell.targets.len();
            let newer = held(comparison.read(3, &packet, n));
            assert!(newer.is_accepted(), "{newer} for mask {:016x}", mask | pair);
            held(comparison.read(1, &packet, n));
        }
    }
    assert!(index > 25_000);
}

/// A mask with one bit changed, from every kind of valid mask.
#[test]
fn every_bit_of_a_mask() {
    let mut comparison = Comparison::new(107);
    for index in 0..300 {
        let random = &mut Random::of_case(107, index);
        let style = Style::any(random);
        let mut dwell = valid::dwell(random, style);
        let header = valid::header(random, style.version);
        comparison.begin("mask", index);
        for field in 2..=65 {
            dwell.mask ^= bit(field);
            let packet = Packet::new(header, vec![dwell.segment()]).bytes();
            held(comparison.reading(1, &packet));
            held(comparison.reading(3, &packet));
            dwell.mask ^= bit(field);
        }
    }
    assert!(comparison.tally.fields_of(11).len() >= 50, "{}", comparison.tally);
}

/// Reads the packet of one segment as both editions, and gives both answers.
fn both(comparison: &mut Comparison, header: [u8; 32], segment: Segment) -> [Answer; 2] {
    let packet = Packet::new(header, vec![segment]).bytes();
    [1, 3].map(|edition| held(comparison.read(edition, &packet, 300)))
}

/// Every value of each byte that has a range or a list.
#[test]
fn every_value_of_a_byte() {
    let mut comparison = Comparison::new(108);
    let random = &mut Random::new(108);
    comparison.begin("values", 0);
    for version in [1, 3] {
        let style = Style { version, new: false };
        let header = valid::header(random, version);
        for value in 0..=255 {
            for place in [37, 38] {
                let mut mission = valid::mission(random);
                mission.body[place] = value;
                let most = if place == 37 { 12 } else { 31 };
                for answer in both(&mut comparison, header, mission) {
                    assert_eq!(answer.is_accepted(), (1..=most).contains(&value), "{value} at {place}");
                }
            }
            let mut dwell = valid::dwell_with(random, mask_of(&ALWAYS), 0).segment();
            dwell.body[12] = value;
            for answer in both(&mut comparison, header, dwell) {
                assert_eq!(answer.is_accepted(), value <= 1);
            }
            let answers = both(&mut comparison, header, Segment::new(value, random.bytes(7)));
            let is_opaque = [4, 7, 8, 9, 11, 12, 101, 102].contains(&value) || value == 3 && version == 1;
            assert!(answers.iter().all(|answer| answer.is_accepted() == is_opaque), "type {value}");
            held(comparison.packet(&Packet::new(header, vec![valid::job_with(random, value), valid::job(random, style)]).bytes()));
        }
    }
}

/// Whether a byte may stand in a name, by request A3.
fn is_of_names(byte: u8) -> bool {
    (0x20..=0x7E).contains(&byte)
}

/// Whether it may stand in F3.
fn is_of_f3(byte: u8) -> bool {
    is_of_names(byte) || [0x0A, 0x0C, 0x0D].contains(&byte)
}

/// Every byte at every place of the header's text fields.
#[test]
fn every_byte_of_header_text() {
    let mut comparison = Comparison::new(109);
    let random = &mut Random::new(109);
    comparison.begin("text", 0);
    let places = HEADER_TEXT.into_iter().flat_map(|field| field.place(32).map(move |at| (field.number, at)));
    for (field, at) in places {
        for value in 0..=255 {
            let due = if is_of_names(value) { Answer::accepted(0, 0, 0, 33) } else { Answer::refused(5, 0, field) };
            for (version, edition) in [(1, 1), (1, 3), (3, 1), (3, 3)] {
                let mut header = valid::header(random, version);
                header[at] = value;
                let answer = held(comparison.read(edition, &Packet::new(header, vec![]).bytes(), 40));
                assert_eq!(answer, due, "{value} at {at} in P{field}");
            }
        }
    }
}

/// Every byte at every place of the text fields of segments.
#[test]
fn every_byte_of_body_text() {
    let mut comparison = Comparison::new(113);
    let random = &mut Random::new(113);
    comparison.begin("text", 0);
    let style = Style { version: 3, new: false };
    for (segment_type, field) in BODY_TEXT {
        let mut segment = valid::segment_of(random, style, segment_type);
        if segment_type == 6 {
            segment.body.resize(60, b'.');
        }
        for at in field.place(segment.body.len()) {
            for value in 0..=255 {
                let mut changed = segment.clone();
                changed.body[at] = value;
                let is_kept = if (segment_type, field.number) == (6, 3) { is_of_f3(value) } else { is_of_names(value) };
                for answer in both(&mut comparison, valid::header(random, 3), changed) {
                    let due = if is_kept { answer.is_accepted() } else { answer == Answer::refused(10, 1, field.number) };
                    assert!(due, "{answer} for {value} at {at} of type {segment_type}");
                }
            }
        }
    }
}

/// Bytes at the ends of both sets at every place of F3, of every length up to 70, which is three pieces.
#[test]
fn every_length_of_free_text() {
    let mut comparison = Comparison::new(114);
    let random = &mut Random::new(114);
    comparison.begin("text", 0);
    for length in 1..=70 {
        let body = [valid::text(random, TextSet::Name, 20), valid::text(random, TextSet::Lines, length)].concat();
        for at in 20..body.len() {
            for value in [0x09, 0x0A, 0x0B, 0x0C, 0x0D, 0x0E, 0x1F, 0x20, 0x7E, 0x7F, 0x80, 0xFF] {
                let mut segment = Segment::new(6, body.clone());
                segment.body[at] = value;
                for answer in both(&mut comparison, valid::header(random, 3), segment) {
                    let due = if is_of_f3(value) { answer.is_accepted() } else { answer == Answer::refused(10, 1, 3) };
                    assert!(due, "{answer} for {value} at {at} of {length}");
                }
            }
        }
    }
}

/// What the generator takes for text is just the bytes of its set, and what spoils it all others.
#[test]
fn bytes_of_the_generator() {
    let random = &mut Random::new(115);
    for (set, is_of_set) in [(TextSet::Name, is_of_names as fn(u8) -> bool), (TextSet::Lines, is_of_f3)] {
        let (inside, outside): (BTreeSet<u8>, BTreeSet<u8>) = (0..=255).partition(|byte| is_of_set(*byte));
        assert!((0..=255).all(|byte| set.holds(byte) == is_of_set(byte)));
        assert_eq!(valid::text(random, set, 20_000).into_iter().collect::<BTreeSet<_>>(), inside);
        assert_eq!((0..20_000).map(|_| valid::not_text(random, set)).collect::<BTreeSet<_>>(), outside);
    }
}

/// D32.6, D32.11 and D32.15 of one target, every value.
#[test]
fn every_value_of_a_target() {
    let mut comparison = Comparison::new(110);
    let random = &mut Random::new(110);
    comparison.begin("values", 0);
    let header = valid::header(random, 1);
    for (j, first, last) in [(6, -32_768, 32_767), (11, 0, 255), (15, 0, 65_535)] {
        let mut dwell = valid::dwell_with(random, mask_of(&ALWAYS) | mask_of(&ABSOLUTE) | bit(31 + j), 1);
        for value in first..=last {
            dwell.targets[0][j as usize] = value as u32;
            let packet = Packet::new(header, vec![dwell.segment()]).bytes();
            let answer = held(comparison.read(3, &packet, 200));
            let is_in_range = match j {
                6 => value >= -1000,
                11 => value <= 100,
                _ => value <= 5000,
            };
            let due = if is_in_range { answer.is_accepted() } else { answer == Answer::refused(13, 1, 31 + j) };
            assert!(due, "{answer} for {value} in D32.{j}");
        }
    }
}

/// Positions: every half of a microdegree and its neighbours, both ends, in full and by deltas.
#[test]
fn positions() {
    let mut comparison = Comparison::new(111);
    let random = &mut Random::new(111);
    comparison.begin("positions", 0);
    let mut steps: Vec<u32> = (0..1024u32).flat_map(|k| (-2i32..=2).map(move |near| (k << 22).wrapping_add(near as u32))).collect();
    steps.extend((0..40_000).map(|_| random.number() as u32));
    let masks = [&ABSOLUTE[..], &DELTAS].map(|pair| mask_of(&ALWAYS) | mask_of(pair));
    for some in steps.chunks(30) {
        for mask in masks {
            let mut dwell = valid::dwell_with(random, mask, some.len());
            for (target, steps) in dwell.targets.iter_mut().zip(some) {
                (target[2], target[3]) = (*steps, *steps);
                (target[4], target[5]) = (*steps >> 16, *steps >> 16);
            }
            (dwell.values[10], dwell.values[11]) = (65_536, some[0]);
            (dwell.values[24], dwell.values[25]) = (some[0] & 0xFFFF, some[some.len() - 1]);
            let packet = Packet::new(valid::header(random, 3), vec![dwell.segment()]).bytes();
            let answer = held(comparison.read(3, &packet, 33 + 88 + 45 * some.len()));
            assert!(answer.is_accepted(), "{answer}");
        }
    }
}

#[test]
fn damaged_packets() {
    let mut comparison = Comparison::new(112);
    for index in 0..40_000 {
        let random = &mut Random::of_case(112, index);
        let packet = valid::packet(random).bytes();
        comparison.begin("damaged packet", index);
        held(comparison.packet(&damage::packet(random, &packet)));
    }
    let tally = comparison.tally;
    assert!((1..=16).filter(|row| tally.rows_read().contains(row)).count() >= 15, "{tally}");
    assert!(tally.newer[21] > 0 && tally.newer[22] > 0, "{tally}");
}
