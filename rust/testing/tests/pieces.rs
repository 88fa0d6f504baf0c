//! Pieces of free text and of opaque bodies: every length, and the sheet held to the bytes that it carries; then sheets with any byte, kind or
//! count of a piece changed.
mod common;

use common::held;
use testing::comparison::Comparison;
use testing::generator::records::{join, sheet_of, split, Record};
use testing::generator::spelling::{Packet, Segment};
use testing::generator::tables::TextSet;
use testing::generator::{valid, Random};
use testing::library::Answer;

/// A segment that goes into pieces: free text of so many bytes behind F1 and F2, or an opaque body of so many.
fn segment(random: &mut Random, kind: u8, length: usize) -> Segment {
    match kind {
        5 => Segment::new(6, [valid::text(random, TextSet::Name, 20), valid::text(random, TextSet::Lines, length)].concat()),
        _ => Segment::new(4, random.bytes(length)),
    }
}

/// The records of such a segment, cut by hand: the first of kind 5 or 7, then pieces of 32 bytes, the last with the rest and zeros.
fn records(segment: &Segment) -> Vec<Record> {
    let (kind, carried) = if segment.segment_type == 6 { (5, &segment.body[20..]) } else { (7, &segment.body[..]) };
    let front = if kind == 5 { segment.body[..20].to_vec() } else { vec![segment.segment_type] };
    let first = Record::new(kind, [front, (carried.len() as u32).to_be_bytes().to_vec()].concat());
    [first].into_iter().chain(carried.chunks(32).map(Record::piece)).collect()
}

/// The lengths that are tried: all up to six pieces and some more, those near each further piece of the first fifty, and long ones.
fn lengths() -> Vec<usize> {
    let near = (7..50).flat_map(|pieces| (32 * pieces - 2)..=(32 * pieces + 2));
    (0..200).chain(near).chain([2047, 2048, 2049, 16_000, 16_384, 30_000, 65_472, 65_473, 65_478]).collect()
}

/// Every length of text and of an opaque body: the sheet is the pieces cut by hand, the bytes behind it stay, and it is written back.
#[test]
fn every_length() {
    let mut comparison = Comparison::new(901);
    let mut index = 0;
    for length in lengths() {
        for kind in [5, 7] {
            index += 1;
            comparison.begin("pieces", index);
            let random = &mut Random::of_case(901, index);
            let cut = segment(random, kind, length);
            let packet = Packet::new(valid::header(random, 3), vec![cut.clone()]).bytes();
            let sheet = [&[1][..], &packet[..32], &join(&records(&cut))].concat();
            let due = Answer::accepted(1, 0, 0, sheet.len() as u32);
            assert_eq!(held(comparison.read(3, &packet, sheet.len() + 40)), due, "kind {kind}, {length} bytes");
            assert!(sheet_of(3, &packet) == Some(sheet.clone()), "kind {kind}, {length} bytes");
            let due = Answer { length: packet.len() as u32, ..due };
            assert_eq!(held(comparison.write(&sheet, packet.len() + 40)), due, "kind {kind}, {length} bytes");
        }
    }
    assert_eq!(index, 2 * (200 + 43 * 5 + 9));
}

/// Sheets with so many full pieces, and none or some bytes in a last one. A test record stands behind them, so that the walk goes on.
fn sheets(random: &mut Random) -> Vec<(u8, usize, Vec<Record>)> {
    let mut sheets = Vec::new();
    for kind in [5, 7] {
        for full in 0..=6 {
            for rest in [0, 1, 7, 8, 15, 16, 17, 31] {
                let cut = segment(random, kind, 32 * full + rest);
                let behind = Segment::new(10, random.bytes(14));
                let packet = Packet::new(valid::header(random, 3), vec![cut, behind]).bytes();
                let sheet = sheet_of(3, &packet).expect("a packet that is accepted");
                sheets.push((kind, packet.len(), split(&sheet)));
            }
        }
    }
    sheets
}

/// Any kind and any count in the place of each piece's: all but the right one are refused, with 17 or 18.
#[test]
fn every_kind_and_count() {
    let mut comparison = Comparison::new(902);
    let random = &mut Random::new(902);
    for (index, (kind, length, records)) in sheets(random).into_iter().enumerate() {
        comparison.begin("heads", index as u64);
        for place in 2..records.len() - 1 {
            let (six, count) = (records[place].kind, records[place].body[0]);
            for value in 0..=255 {
                let mut changed = records.clone();
                changed[place].body[0] = value;
                let answer = held(comparison.write(&join(&changed), length));
                let due = if value == count { 0 } else { 18 };
                assert_eq!(answer.number, due, "{answer}, kind {kind}, count {value} in place {place}");
                let mut bytes = join(&records);
                let at: usize = records[..place].iter().map(|record| 1 + record.body.len()).sum();
                bytes[at] = value;
                let answer = held(comparison.write(&bytes, length));
                assert_eq!(answer.is_accepted(), value == six, "{answer}, kind {value} in place {place}");
            }
        }
    }
    assert!([17, 18].iter().all(|row| comparison.tally.writer[*row] > 1000), "{}", comparison.tally);
}

/// Each bit of each piece's bytes and of its filling flipped: another text is written, or refused where it holds no such byte; a filling that is
/// no zero is refused with 19.
#[test]
fn every_bit_of_a_piece() {
    let mut comparison = Comparison::new(903);
    let random = &mut Random::new(903);
    let mut filled = 0;
    for (index, (kind, length, records)) in sheets(random).into_iter().enumerate() {
        comparison.begin("bits", index as u64);
        for place in 2..records.len() - 1 {
            let count = usize::from(records[place].body[0]);
            for bit in 0..8 * 32 {
                let mut changed = records.clone();
                changed[place].body[1 + bit / 8] ^= 1 << (bit % 8);
                let answer = held(comparison.write(&join(&changed), length));
                let is_filling = bit / 8 >= count;
                filled += u32::from(is_filling);
                assert!(matches!(answer.number, 0 | 19), "{answer}, bit {bit} of piece {place}");
                assert!(answer.number == 19 || !is_filling, "{answer}, bit {bit} of piece {place}, which has {count} bytes");
                assert!(answer.is_accepted() || is_filling || kind == 5, "{answer}, bit {bit} of an opaque piece");
            }
        }
    }
    assert!(filled > 10_000 && comparison.tally.writer[0] > 10_000, "{filled}, {}", comparison.tally);
}

/// A record of another kind, a piece more, one less, or two that change places, wherever they stand: 18 but for two full ones.
#[test]
fn every_place_of_another_record() {
    let mut comparison = Comparison::new(904);
    let random = &mut Random::new(904);
    for (index, (_, length, records)) in sheets(random).into_iter().enumerate() {
        comparison.begin("records", index as u64);
        let last = records.len() - 1;
        for place in 2..=last {
            let mut more = records.clone();
            more.insert(place, Record::piece(&[b'a'; 32]));
            assert_eq!(held(comparison.write(&join(&more), length)).number, 18, "a piece more in place {place}");
            let mut parted = records.clone();
            parted.insert(place, records[last].clone());
            // Behind all pieces it is one segment more, which P2 does not count.
            let due = if place == last { 19 } else { 18 };
            assert_eq!(held(comparison.write(&join(&parted), length + 19)).number, due, "a test in place {place}");
        }
        for place in 2..last {
            let mut less = records.clone();
            less.remove(place);
            assert_eq!(held(comparison.write(&join(&less), length)).number, 18, "no piece in place {place}");
        }
        for place in 2..last.saturating_sub(1) {
            let mut swapped = records.clone();
            swapped.swap(place, place + 1);
            let due = if swapped[place].body[0] == 32 { 0 } else { 18 };
            assert_eq!(held(comparison.write(&join(&swapped), length)).number, due, "pieces {place} and the next");
        }
    }
}
