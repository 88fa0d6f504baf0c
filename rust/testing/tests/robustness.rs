//! The ends of every range: lengths, editions, sizes near 2^32, and bytes of no sense. Tests are built with overflow checks.
mod common;

use common::held;
use testing::comparison::Comparison;
use testing::generator::spelling::{patch_size, Packet, Segment};
use testing::generator::tables::{mask_of, ALWAYS, DELTAS, HRR_TYPE, MOST_TARGETS, OPAQUE_TYPES, OWN_TYPES};
use testing::generator::valid::{self, Style};
use testing::generator::Random;
use testing::library::{sheet_bound, Answer, LONGEST_PACKET, LONGEST_SHEET};
use testing::{by_hand, cases, independent};

#[test]
fn nothing_given_and_nothing_lent() {
    for edition in [0, 1, 2, 3, 4, u32::MAX] {
        let due = if edition == 1 || edition == 3 { Answer::refused(2, 0, 0) } else { Answer::refused(1, 0, 0) };
        for reader in [testing::library::read, independent::read, by_hand::read] {
            assert_eq!(reader(edition, &[], &mut []), due);
        }
    }
    for writer in [testing::library::write, independent::write] {
        assert_eq!(writer(&[], &mut []), Answer::refused(17, 0, 0));
    }
    assert_eq!(independent::first_new(&[]), None);
    independent::fill_in(&mut [], &[]);
}

#[test]
fn editions() {
    let mut comparison = Comparison::new(601);
    for index in 0..500 {
        let random = &mut Random::of_case(601, index);
        let packet = valid::packet(random).bytes();
        let any = random.number() as u32;
        comparison.begin("editions", index);
        for edition in [0, 2, 4, 5, 31, 33, 0x101, 0x103, 0x0100_0003, 0x8000_0001, u32::MAX, any] {
            let answer = held(comparison.read(edition, &packet, sheet_bound(packet.len())));
            assert_eq!(answer == Answer::refused(1, 0, 0), edition != 1 && edition != 3);
        }
    }
}

/// A version 3 packet of just this length: one opaque segment.
fn packet_of(length: usize) -> Vec<u8> {
    let body = vec![0x5A; length - 37];
    Packet::new(valid::header(&mut Random::new(602), 3), vec![Segment::new(102, body)]).bytes()
}

#[test]
fn longest_packets() {
    let mut comparison = Comparison::new(602);
    for length in [37, 38, 65_534, 65_535, 65_536, 65_537, 65_538, 131_072, 1 << 20] {
        let packet = packet_of(length);
        comparison.begin("long packet", length as u64);
        let (older, newer) = held(comparison.packet(&packet));
        assert_eq!(older, newer);
        if length > LONGEST_PACKET {
            assert_eq!(newer, Answer::refused(2, 0, 0));
        } else {
            assert_eq!(newer.length as usize, 33 + 6 + 34 * (length - 37).div_ceil(32));
        }
        for cut in [0, 31, 32, 36] {
            held(comparison.packet(&packet[..cut]));
        }
    }
}

/// One dwell of targets of 4 bytes fills 65,536 bytes, with any values: its sheet is as long as that of the targets that are all zero.
#[test]
fn longest_sheet_of_all() {
    let mut comparison = Comparison::new(603);
    let random = &mut Random::new(603);
    let dwell = valid::dwell_with(random, mask_of(&ALWAYS) | mask_of(&DELTAS), MOST_TARGETS as usize);
    let packet = Packet::new(valid::header(random, 3), vec![dwell.segment()]).bytes();
    let zeros = valid::longest(MOST_TARGETS).bytes();
    assert_eq!((packet.len(), zeros.len()), (LONGEST_PACKET, LONGEST_PACKET));
    comparison.begin("longest sheet", 0);
    let (older, newer) = held(comparison.packet(&packet));
    assert_eq!(older, newer);
    assert_eq!((newer.segments, newer.dwells, newer.targets), (1, 1, MOST_TARGETS));
    assert_eq!(held(comparison.read(3, &zeros, LONGEST_SHEET)), newer);
    assert_eq!(held(comparison.read(3, &packet, LONGEST_SHEET)), newer);
}

/// The program lends 65,536 bytes of sheet: 1,453 targets still fit, and the longest packet does not.
#[test]
fn buffer_of_the_program() {
    let mut comparison = Comparison::new(609);
    comparison.begin("buffer of the program", 0);
    let targets = |count| valid::longest(count).bytes();
    assert_eq!(held(comparison.read(3, &targets(1453), 65_536)), Answer::accepted(1, 1, 1453, 65_506));
    assert_eq!(held(comparison.read(3, &targets(1454), 65_536)), Answer::refused(16, 0, 0));
    assert_eq!(held(comparison.read(3, &packet_of(65_536), 65_536)), Answer::refused(16, 0, 0));
    assert_eq!(held(comparison.read(3, &packet_of(65_537), 65_536)), Answer::refused(2, 0, 0));
}

/// Many small segments, each with the most bytes of sheet for its own.
#[test]
fn most_segments() {
    let mut comparison = Comparison::new(604);
    let random = &mut Random::new(604);
    for (number, segment) in [Segment::new(7, vec![]), Segment::new(8, vec![1]), valid::dwell_with(random, mask_of(&ALWAYS), 0).segment()]
        .into_iter()
        .enumerate()
    {
        let count = (LONGEST_PACKET - 32) / segment.length();
        let packet = Packet::new(valid::header(random, 1), vec![segment; count]).bytes();
        comparison.begin("most segments", number as u64);
        let (_, newer) = held(comparison.packet(&packet));
        assert_eq!(newer.segments as usize, count);
        assert!(newer.length as usize <= sheet_bound(packet.len()));
    }
}

/// S2 near 2^32, 2^31 and 2^16 in a segment of every type, first and behind others: row 8, also where type 3 is new.
#[test]
fn sizes_near_the_end_of_a_number() {
    let mut comparison = Comparison::new(605);
    let random = &mut Random::new(605);
    let mut sizes: Vec<u32> = (0..80).map(|less| u32::MAX - less).collect();
    sizes.extend((0..4).flat_map(|near| [(1u32 << 31) - 2 + near, (1 << 16) - 2 + near, (1 << 24) - 2 + near]));
    for segment_type in OPAQUE_TYPES.into_iter().chain(OWN_TYPES).chain([HRR_TYPE, 0, 14, 255]) {
        for before in 0..2 {
            let style = Style { version: 3, new: false };
            let mut packet = Packet::new(valid::header(random, 3), (0..before).map(|_| valid::segment(random, style)).collect());
            packet.segments.push(Segment::new(segment_type, random.bytes(80)));
            comparison.begin("S2", segment_type.into());
            let number = if [0, 14, 255].contains(&segment_type) { 7 } else { 8 };
            let left = packet.length_from(before) as u32;
            let whole = packet.length_from(0) as u32 + 32;
            for size in sizes.iter().copied().chain([left + 1, left.wrapping_neg(), whole.wrapping_neg(), whole + 1]) {
                packet.segments[before].size = Some(size);
                let bytes = packet.bytes();
                for edition in [1, 3] {
                    assert_eq!(held(comparison.reading(edition, &bytes)), Answer::refused(number, before as u32 + 1, 0), "S2 {size}");
                }
            }
        }
    }
}

/// P2 near 2^32.
#[test]
fn packet_sizes_near_the_end_of_a_number() {
    let mut comparison = Comparison::new(606);
    let mut packet = Packet::new(valid::header(&mut Random::new(606), 3), vec![Segment::new(10, vec![0; 14])]);
    let length = packet.bytes().len() as u32;
    comparison.begin("P2", 0);
    for size in (0..80).map(|less| u32::MAX - less).chain([length | 1 << 31, length | 1 << 16, length - 1, length + 1, 0, 32]) {
        packet.size = Some(size);
        assert_eq!(held(comparison.packet(&packet.bytes())).1, Answer::refused(4, 0, 0), "P2 {size}");
    }
}

/// D5 of every size with a body of another.
#[test]
fn target_counts() {
    let mut comparison = Comparison::new(607);
    let random = &mut Random::new(607);
    comparison.begin("D5", 0);
    for fields in [&DELTAS[..], &[33, 34], &[33, 34, 48, 47], &[32], &[]] {
        let mut dwell = valid::dwell_with(random, mask_of(&ALWAYS) | mask_of(fields), 2);
        let is_empty = fields.is_empty();
        for count in (0..=65_535).step_by(77).chain([0, 1, 2, 3, 65_534, 65_535]) {
            dwell.values[5] = count;
            let packet = Packet::new(valid::header(random, 3), vec![dwell.segment()]).bytes();
            let answer = held(comparison.read(3, &packet, 300));
            let due = match count {
                0 if is_empty => 0,
                2 if fields.len() > 1 => 0,
                2 => 13,
                _ if is_empty => 13,
                _ => 12,
            };
            assert_eq!(answer.number, due, "D5 {count}, fields {fields:?}");
        }
    }
}

/// Bytes of no sense: any, all alike, and any behind a valid header.
#[test]
fn any_bytes() {
    let mut comparison = Comparison::new(608);
    for index in 0..20_000 {
        let random = &mut Random::of_case(608, index);
        let length = random.below(300);
        let mut bytes = match index % 3 {
            0 => random.bytes(length),
            1 => vec![random.byte(); length],
            _ => [&valid::header(random, 3)[..], &random.bytes(length)].concat(),
        };
        if random.chance(70) {
            patch_size(&mut bytes);
        }
        comparison.begin("any bytes", index);
        held(comparison.packet(&bytes));
        held(comparison.sheet(&bytes));
        independent::first_new(&bytes);
        let mut other = bytes.clone();
        other.reverse();
        independent::fill_in(&mut other, &bytes);
    }
}

/// A run as the program `compare` makes it: every row and every kind of record is met.
#[test]
fn run_of_compare() {
    let mut comparison = Comparison::new(610);
    for index in 0..60_000 {
        held(cases::run(&mut comparison, 610, index));
    }
    let tally = comparison.tally;
    assert_eq!(tally.rows_read(), (1..=16).chain([21, 22]).collect::<Vec<usize>>(), "{tally}");
    assert_eq!(tally.rows_written(), [17, 18, 19, 20], "{tally}");
    assert!((2..=16).all(|row| tally.older[row] > 0 && (tally.newer[row] > 0 || row == 15)), "{tally}");
    assert!(tally.newer[21] > 0 && tally.newer[22] > 0, "{tally}");
    assert!(tally.records[1..].iter().all(|count| *count > 0), "{tally}");
    assert_eq!(tally.fields_of(11).len(), 52, "{tally}");
}
