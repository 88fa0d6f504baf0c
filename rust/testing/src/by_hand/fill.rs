//! The second walk: the records of a packet without fault.
use super::{bytes, hrr, mask, targets, Reading, HEADER};

/// Sets a packet out on a sheet of just the right length.
#[inline(always)]
pub fn sheet(reading: Reading, packet: &[u8], sheet: &mut [u8]) {
    kept::<HEADER>(1, packet, sheet);
    let (mut rest, mut place) = (&packet[HEADER..], 1 + HEADER);
    while !rest.is_empty() {
        let size = u32::from_be_bytes(bytes(rest, 1)) as usize;
        place += segment(reading, rest, size, &mut sheet[place..]);
        rest = &rest[size..];
    }
}

/// Sets the first segment out and gives the length of its records.
#[inline(always)]
fn segment(reading: Reading, rest: &[u8], size: usize, sheet: &mut [u8]) -> usize {
    match rest[0] {
        2 => dwell(reading, &rest[5..], sheet),
        1 => kept::<39>(2, &rest[5..], sheet),
        5 => job(reading, &rest[5..], sheet),
        6 => {
            kept::<20>(5, &rest[5..], sheet);
            sheet[21..25].copy_from_slice(&(size as u32 - 25).to_be_bytes());
            25 + pieces(&rest[25..size], &mut sheet[25..])
        }
        10 => kept::<14>(9, &rest[5..], sheet),
        13 => kept::<23>(10, &rest[5..], sheet),
        3 if !reading.version_1 => hrr::fill(&rest[5..size], sheet),
        _ => {
            kept::<1>(7, rest, sheet);
            sheet[2..6].copy_from_slice(&(size as u32 - 5).to_be_bytes());
            6 + pieces(&rest[5..size], &mut sheet[6..])
        }
    }
}

/// A kind and bytes as they are.
#[inline(always)]
pub fn kept<const LENGTH: usize>(kind: u8, from: &[u8], sheet: &mut [u8]) -> usize {
    let record = &mut sheet[..1 + LENGTH];
    record[0] = kind;
    record[1..].copy_from_slice(&from[..LENGTH]);
    1 + LENGTH
}

fn job(reading: Reading, body: &[u8], sheet: &mut [u8]) -> usize {
    kept::<68>(8, body, sheet);
    sheet[69] = u8::from(!reading.withholds);
    if reading.withholds {
        sheet[66] = 0;
    }
    70
}

/// The pieces of a text or an opaque body: records of kind 6, with 32 bytes each but the last.
fn pieces(body: &[u8], sheet: &mut [u8]) -> usize {
    let whole = body.chunks_exact(32);
    let last = whole.remainder();
    let length = 34 * whole.len();
    for (record, bytes) in sheet[..length].chunks_exact_mut(34).zip(whole) {
        record[..2].copy_from_slice(&[6, 32]);
        record[2..].copy_from_slice(bytes);
    }
    if last.is_empty() {
        return length;
    }
    let record = &mut sheet[length..length + 34];
    record.fill(0);
    record[..2].copy_from_slice(&[6, last.len() as u8]);
    record[2..2 + last.len()].copy_from_slice(last);
    length + 34
}

/// The dwell whose body begins the bytes, and its targets.
#[inline(always)]
fn dwell(reading: Reading, from: &[u8], sheet: &mut [u8]) -> usize {
    let mask = u64::from_be_bytes(bytes(from, 0));
    let count = usize::from(u16::from_be_bytes(bytes(from, 13)));
    let (record, records) = sheet.split_at_mut(88);
    let first = dwell_record(reading, mask, from, record);
    if count > 0 {
        targets::fill(mask, from, first, &mut records[..targets::RECORD * count]);
    }
    88 + targets::RECORD * count
}

/// Copies some fields where the mask announces them, and gives the place of those that follow in the body.
#[inline(always)]
pub fn group<const LENGTH: usize>(announced: u64, from: &[u8], at: usize, record: &mut [u8], place: usize) -> usize {
    if announced == 0 {
        return at;
    }
    record[place..place + LENGTH].copy_from_slice(&from[at..at + LENGTH]);
    at + LENGTH
}

/// The record of kind 3; gives the place of the first target. A group of fields is there as a whole or not at all.
#[inline(always)]
fn dwell_record(reading: Reading, mask: u64, from: &[u8], record: &mut [u8]) -> usize {
    let record = &mut record[..88];
    kept::<31>(3, from, record);
    record[32..68].fill(0);
    let at = group::<8>(mask & mask::SCALES, from, 31, record, 32);
    let at = group::<10>(mask & mask::D12_14, from, at, record, 40);
    let at = group::<7>(mask & mask::D15_17, from, at, record, 50);
    let at = group::<5>(mask & mask::D18_20, from, at, record, 57);
    let at = group::<6>(mask & mask::D21_23, from, at, record, 62);
    let at = group::<12>(mask, from, at, record, 68);
    record[80..87].fill(0);
    let at = group::<2>(mask & mask::D28, from, at, record, 80);
    let at = group::<2>(mask & mask::D29, from, at, record, 82);
    let at = group::<2>(mask & mask::D30, from, at, record, 84);
    let at = group::<1>(mask & mask::D31, from, at, record, 86);
    record[87] = u8::from(!reading.withholds);
    if reading.withholds {
        record[78..80].fill(0);
    }
    at
}
