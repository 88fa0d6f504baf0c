//! The first walk: every row, and nothing written.
use super::dwells::Dwells;
use super::position::Area;
use super::spread::Places;
use super::{bytes, hrr, mask, targets, text, Fault, Reading, HEADER};
use crate::library::Answer;

/// The version of the packet, unless one of the rows 2 to 5 applies.
#[inline(always)]
pub fn header(packet: &[u8]) -> Result<u8, Fault> {
    if packet.len() < HEADER || packet.len() > crate::library::LONGEST_PACKET {
        return Err((2, 0));
    }
    let header = &packet[..HEADER];
    if !(header[0] == b'1' || header[0] == b'3') || !header[1].is_ascii_digit() {
        return Err((3, 0));
    }
    if u32::from_be_bytes(bytes(header, 2)) as usize != packet.len() {
        return Err((4, 0));
    }
    // P3 and P5, with spaces for the other bytes, and P8 by two words that overlap.
    let short = text::word(header, 6) & 0x0000_00FF_FF00_FFFF | 0x2020_2000_0020_0000;
    if !text::are_names([short, text::word(header, 14), text::word(header, 16)]) {
        return Err((5, text::first_fault(header, &[(3, 6, 8), (5, 9, 11), (8, 14, 24)])));
    }
    Ok(header[0])
}

/// What the walk adds up.
struct Counts {
    segments: u32,
    dwells: Dwells,
    targets: u32,
    /// The length of the sheet.
    length: u32,
}

/// The first fault of the segments, or the counts and the length of the sheet.
#[inline(always)]
pub fn segments(reading: Reading, packet: &[u8]) -> Answer {
    let mut counts = Counts { segments: 0, dwells: Dwells::none(), targets: 0, length: 33 };
    let mut rest = &packet[HEADER..];
    while !rest.is_empty() {
        counts.segments += 1;
        match segment(reading, rest, &mut counts) {
            Ok(size) => rest = &rest[size..],
            Err((number, field)) => return Answer::refused(number, counts.segments, field),
        }
    }
    Answer::accepted(counts.segments, counts.dwells.count(packet), counts.targets, counts.length)
}

/// The size of the first segment, whose records are added to the counts, unless it has a fault.
#[inline(always)]
fn segment(reading: Reading, rest: &[u8], counts: &mut Counts) -> Result<usize, Fault> {
    if rest.len() < 5 {
        return Err((6, 0));
    }
    if !matches!(rest[0], 1..=13 | 101 | 102) {
        return Err((7, 0));
    }
    let size = u32::from_be_bytes(bytes(rest, 1)) as usize;
    if size < 5 || size > rest.len() {
        return Err((8, 0));
    }
    counts.length += match rest[0] {
        2 => dwell(reading, &rest[5..], size, counts)?,
        1 => mission(&rest[5..size])?,
        5 => job(reading, &rest[5..size])?,
        6 => free_text(&rest[5..size])?,
        10 => kept(size, 14)?,
        13 => kept(size, 23)?,
        3 if reading.withholds => return Err((15, 0)),
        3 if !reading.version_1 => hrr::check(&rest[5..size])?,
        _ => 6 + pieces(size - 5),
    };
    Ok(size)
}

/// The length of the piece records of a text or an opaque body.
fn pieces(length: usize) -> u32 {
    34 * (length as u32).div_ceil(32)
}

/// A body that is kept as bytes.
fn kept(size: usize, body: usize) -> Result<u32, Fault> {
    if size != 5 + body {
        return Err((9, 0));
    }
    Ok(1 + body as u32)
}

fn mission(body: &[u8]) -> Result<u32, Fault> {
    if body.len() != 39 {
        return Err((9, 0));
    }
    // M1 and M2, and M4 by two words that overlap.
    if !text::are_names([0, 8, 16, 25, 27].map(|at| text::word(body, at))) {
        return Err((10, text::first_fault(body, &[(1, 0, 12), (2, 12, 24), (4, 25, 35)])));
    }
    if !(1..=12).contains(&body[37]) {
        return Err((13, 6));
    }
    if !(1..=31).contains(&body[38]) {
        return Err((13, 7));
    }
    Ok(40)
}

/// The numbers of J14 that Edition 3 gives otherwise.
const NEW_MODES: u128 = modes(91, 93) | modes(96, 97) | modes(101, 104) | modes(111, 113) | modes(120, 123);

const fn modes(from: u32, to: u32) -> u128 {
    (u128::MAX >> (127 - to)) & (u128::MAX << from)
}

fn job(reading: Reading, body: &[u8]) -> Result<u32, Fault> {
    if body.len() != 68 {
        return Err((9, 0));
    }
    // J3, with spaces for the two bytes behind it.
    if !text::are_names([text::word(body, 5) & 0x0000_FFFF_FFFF_FFFF | 0x2020_0000_0000_0000]) {
        return Err((10, 3));
    }
    if reading.withholds && body[45] < 128 && NEW_MODES >> body[45] & 1 != 0 {
        return Err((15, 14));
    }
    Ok(70)
}

fn free_text(body: &[u8]) -> Result<u32, Fault> {
    if body.len() < 20 {
        return Err((9, 0));
    }
    // F1 and F2, by words of which the last two overlap.
    if !text::are_names([0, 8, 12].map(|at| text::word(body, at))) {
        return Err((10, text::first_fault(body, &[(1, 0, 10), (2, 10, 20)])));
    }
    if !text::is_free_text(body) {
        return Err((10, 3));
    }
    Ok(25 + pieces(body.len() - 20))
}

/// The length of the records of a dwell whose body begins the bytes, unless one of the rows 9 and 11 to 15 applies.
#[inline(always)]
fn dwell(reading: Reading, from: &[u8], size: usize, counts: &mut Counts) -> Result<u32, Fault> {
    if size < 13 {
        return Err((9, 0));
    }
    let mask = u64::from_be_bytes(bytes(from, 0));
    let field = mask::fault(mask, reading.version_1);
    if field != 0 {
        return Err((11, field));
    }
    let field = if reading.withholds { mask::new_field(mask) } else { 0 };
    if field != 0 {
        return Err((15, field));
    }
    if size < 48 {
        return Err((12, 0));
    }
    let count = usize::from(u16::from_be_bytes(bytes(from, 13)));
    let head = 43 + mask::before_d24(mask) + mask::after_d27(mask);
    let places = Places::of(mask);
    if size != 5 + head + count * places.each {
        return Err((12, 0));
    }
    if from[12] > 1 {
        return Err((13, 4));
    }
    if count > 0 {
        if mask & (mask::ABSOLUTE | mask::DELTA) == 0 {
            return Err((13, 5));
        }
        targets::check(mask, &places, &Area::of(mask, from), &from[head..size - 5])?;
    }
    counts.dwells.pass(from);
    counts.targets += count as u32;
    Ok(88 + (targets::RECORD * count) as u32)
}
