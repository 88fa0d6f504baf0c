//! The records of a sheet: filling them from a checked packet, and walking them
//! ("The sheet").

use super::dwell::Dwell;
use super::hrr::Hrr;
use super::mask::Layout;
use super::packet::{segments, Reading, Segment};
use super::tables::*;

/// The number of pieces that carry `length` bytes: all full but the last.
pub fn piece_count(length: usize) -> usize {
    length.div_ceil(PIECE_BYTES)
}

/// A record's kind and body.
pub struct Record<'a> {
    pub kind: u8,
    pub body: &'a [u8],
}

/// The record at the front of `rest` and what follows it; nothing where `rest`
/// is empty, its kind unknown or the record cut.
pub fn split_record(rest: &[u8]) -> Option<(Record<'_>, &[u8])> {
    let (&kind, rest) = rest.split_first()?;
    let (body, after) = rest.split_at_checked(record_length(kind)?)?;
    Some((Record { kind, body }, after))
}

/// The whole records of a sheet, in order.
pub fn records(sheet: &[u8]) -> impl Iterator<Item = Record<'_>> {
    let mut rest = sheet;
    core::iter::from_fn(move || {
        let (record, after) = split_record(rest)?;
        rest = after;
        Some(record)
    })
}

/// Fills the sheet of a packet that has passed every row of the reading.
pub fn fill(reading: Reading, packet: &[u8], sheet: &mut [u8]) {
    let mut filler = Filler { sheet, length: 0 };
    filler.put(&[kind::HEADER]);
    filler.put(&packet[..HEADER_RECORD]);
    for segment in segments(packet) {
        fill_segment(reading, &segment, &mut filler);
    }
}

/// The lent sheet, and how much of it is filled.
struct Filler<'a> {
    sheet: &'a mut [u8],
    length: usize,
}

impl Filler<'_> {
    /// Puts bytes after those already filled. By row 16 all records fit.
    fn put(&mut self, bytes: &[u8]) {
        let end = self.length + bytes.len();
        if let Some(place) = self.sheet.get_mut(self.length..end) {
            place.copy_from_slice(bytes);
        }
        self.length = end;
    }

    fn put_zeros(&mut self, count: usize) {
        let end = self.length + count;
        if let Some(place) = self.sheet.get_mut(self.length..end) {
            place.fill(0);
        }
        self.length = end;
    }

    /// Puts every field of a layout at full width: zeros where it is absent or
    /// is the field `withheld` (0 for none).
    fn put_fields<const N: usize>(&mut self, layout: &Layout<N>, bytes: &[u8], withheld: u32) {
        for (field, width, place) in layout.fields() {
            match place {
                Some(place) if field != withheld => self.put(&bytes[place..place + width]),
                _ => self.put_zeros(width),
            }
        }
    }

    /// Puts a text or opaque body as pieces of at most 32 bytes.
    fn put_pieces(&mut self, bytes: &[u8]) {
        for piece in bytes.chunks(PIECE_BYTES) {
            self.put(&[kind::PIECE, piece.len() as u8]);
            self.put(piece);
            self.put_zeros(PIECE_BYTES - piece.len());
        }
    }
}

/// The records of one segment.
fn fill_segment(reading: Reading, segment: &Segment, filler: &mut Filler) {
    let body = segment.body;
    match segment.segment_type {
        segment_type::MISSION => {
            filler.put(&[kind::MISSION]);
            filler.put(body);
        }
        segment_type::DWELL => fill_dwell(reading, body, filler),
        segment_type::HRR if !reading.is_version_1 => fill_hrr(body, filler),
        segment_type::JOB => fill_job(reading, body, filler),
        segment_type::FREE_TEXT => {
            let (fixed, f3) = body.split_at(FREE_TEXT_FIXED);
            filler.put(&[kind::TEXT]);
            filler.put(fixed);
            filler.put(&(f3.len() as u32).to_be_bytes());
            filler.put_pieces(f3);
        }
        segment_type::TEST => {
            filler.put(&[kind::TEST]);
            filler.put(body);
        }
        segment_type::LOCATION => {
            filler.put(&[kind::LOCATION]);
            filler.put(body);
        }
        opaque => {
            filler.put(&[kind::OPAQUE, opaque]);
            filler.put(&(body.len() as u32).to_be_bytes());
            filler.put_pieces(body);
        }
    }
}

/// A dwell's record and those of its targets. The Edition 1 reading of a
/// version 3 packet withholds D27.
fn fill_dwell(reading: Reading, body: &[u8], filler: &mut Filler) {
    let Some(dwell) = Dwell::new(body) else {
        return;
    };
    let withheld = if reading.is_older { 27 } else { 0 };
    filler.put(&[kind::DWELL]);
    filler.put(&dwell.mask.to_be_bytes());
    filler.put_fields(&dwell.layout, dwell.fields, withheld);
    filler.put(&[u8::from(!reading.is_older)]);
    for target in dwell.targets() {
        filler.put(&[kind::TARGET]);
        filler.put_fields(&dwell.target_layout, target, 0);
        let latitude = dwell.latitude(target).microdegrees();
        let longitude = dwell.longitude(target).microdegrees();
        filler.put(&latitude.to_be_bytes());
        filler.put(&longitude.to_be_bytes());
    }
}

/// An HRR segment's record and those of its scatterers: "2 bytes each, a one-byte
/// value behind a zero byte", an absent one all zero.
fn fill_hrr(body: &[u8], filler: &mut Filler) {
    let Some(hrr) = Hrr::new(body) else {
        return;
    };
    filler.put(&[kind::HRR]);
    filler.put(hrr.mask);
    filler.put_fields(&hrr.layout, hrr.fields, 0);
    for scatterer in hrr.scatterers() {
        filler.put(&[kind::SCATTERER]);
        let mut rest = scatterer;
        for width in hrr.set.widths {
            let (value, after) = rest.split_at(width);
            filler.put_zeros(SCATTERER_VALUE - width);
            filler.put(value);
            rest = after;
        }
    }
}

/// A job's record. The Edition 1 reading of a version 3 packet withholds J26.
fn fill_job(reading: Reading, body: &[u8], filler: &mut Filler) {
    let j26 = if reading.is_older { 0 } else { body[J26_PLACE] };
    filler.put(&[kind::JOB]);
    filler.put(&body[..J26_PLACE]);
    filler.put(&[j26]);
    filler.put(&body[J26_PLACE + 1..]);
    filler.put(&[u8::from(!reading.is_older)]);
}
