//! Records and sheets of the vectors, spelt by themselves and not read off a packet.
use crate::parts::{header, mask, usual_target, Header, Part, Scattered, Value};
use testing::generator::tables::{bit, width};

/// A sheet whose header has this length in P2.
pub fn sheet(version: u8, length: i64, records: &[Vec<u8>]) -> Vec<u8> {
    sheet_behind(header(version).with(2, length), records)
}

/// A sheet behind this header.
pub fn sheet_behind(header: Header, records: &[Vec<u8>]) -> Vec<u8> {
    let header = header.packet(&[]);
    [&[1][..], &header, &records.concat()].concat()
}

/// The record of a mission, a dwell, an HRR segment, a job definition, a test or a location; that of a free text has its pieces behind it.
pub fn record(part: &Part) -> Vec<u8> {
    let (kind, mut body) = match part.segment_type {
        1 => (2, part.body()),
        2 => (3, part.full_fields()),
        3 => (11, part.full_fields()),
        5 => (8, part.body()),
        6 => (5, text_body(&part.body())),
        10 => (9, part.body()),
        _ => (10, part.body()),
    };
    if matches!(kind, 3 | 8) {
        body.push(part.mark);
    }
    body.insert(0, kind);
    body
}

/// F1 and F2, the length of F3, and its pieces.
fn text_body(body: &[u8]) -> Vec<u8> {
    let (names, f3) = body.split_at(20);
    [names, &(f3.len() as i64).bytes(4), &pieces(f3)].concat()
}

/// A target's record. The announced fields have usual values unless they are given; others are zero unless they are given.
pub fn target(announced: &str, given: &[(usize, i64)], latitude: i64, longitude: i64) -> Vec<u8> {
    let mut values = usual_target(0);
    let mut kept = mask(announced);
    for (j, value) in given {
        values[*j] = value.number();
        kept |= bit(31 + *j as u32);
    }
    let mut bytes = vec![4];
    for field in 32..=49 {
        let value = if kept & bit(field) != 0 { values[field as usize - 31] } else { 0 };
        bytes.extend(i64::from(value).bytes(width(field)));
    }
    bytes.extend(latitude.bytes(4));
    bytes.extend(longitude.bytes(4));
    bytes
}

/// The record of a scatterer with these values.
pub fn scatterer(values: Scattered) -> Vec<u8> {
    values.into_iter().fold(vec![12], |record, value| [record, i64::from(value).bytes(2)].concat())
}

/// The record of a free text whose F3 has this length.
pub fn text_record(length: i64) -> Vec<u8> {
    [b"\x05FIRST-NAMESECONDNAME", &length.bytes(4)[..]].concat()
}

/// The record of an opaque segment whose body has this length.
pub fn opaque_record(segment_type: u8, length: i64) -> Vec<u8> {
    [&[7, segment_type][..], &length.bytes(4)].concat()
}

/// A piece.
pub fn piece(bytes: &[u8]) -> Vec<u8> {
    piece_with(bytes, bytes.len() as u8, &[])
}

/// A piece with this count, and with filling behind its bytes.
pub fn piece_with(bytes: &[u8], count: u8, filling: &[u8]) -> Vec<u8> {
    let mut piece = [&[6, count][..], bytes, filling].concat();
    piece.resize(34, 0);
    piece
}

/// All pieces of a body.
pub fn pieces(body: &[u8]) -> Vec<u8> {
    body.chunks(32).flat_map(piece).collect()
}

/// The target of document 01's packet of 92 bytes.
pub fn trial_target() -> Vec<u8> {
    trial_target_at(-351_563, 359_648_438)
}

/// The same with another position.
pub fn trial_target_at(latitude: i64, longitude: i64) -> Vec<u8> {
    target(crate::parts::DELTAS, &[(4, -128), (5, -64)], latitude, longitude)
}
