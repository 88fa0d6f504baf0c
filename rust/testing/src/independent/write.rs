//! The writer, rows 17 to 20 ("Writing back").
//!
//! Each row is tried over the whole sheet before the next one.

use super::dwell::dwell_mask_of;
use super::hrr::{hrr_mask_of, ScattererSet};
use super::mask::Layout;
use super::read::read;
use super::sheet::{records, split_record, Record};
use super::tables::*;
use crate::library::Answer;

/// Writes the packet of `sheet` into `packet`.
///
/// Accepted, the bytes of `packet` up to the answered length are the packet and
/// those after it are unchanged. Refused, all of it is unchanged.
pub fn write(sheet: &[u8], packet: &mut [u8]) -> Answer {
    if !has_whole_records(sheet) {
        return Answer::refused(17, 0, 0);
    }
    if !has_records_in_place(sheet) {
        return Answer::refused(18, 0, 0);
    }
    let Some(spelt) = spell(sheet) else {
        return Answer::refused(19, 0, 0);
    };
    let Some(reading) = reads_to(&spelt, sheet) else {
        return Answer::refused(19, 0, 0);
    };
    let Some(place) = packet.get_mut(..spelt.len()) else {
        return Answer::refused(20, 0, 0);
    };
    place.copy_from_slice(&spelt);
    // The counts are the packet's, so they are those of its reading.
    Answer { length: spelt.len() as u32, ..reading }
}

/// Row 17: not empty, known kinds, no cut record, kind 1 exactly first.
fn has_whole_records(sheet: &[u8]) -> bool {
    let mut rest = sheet;
    let mut is_first = true;
    while !rest.is_empty() {
        let Some((record, after)) = split_record(rest) else {
            return false;
        };
        if (record.kind == kind::HEADER) != is_first {
            return false;
        }
        is_first = false;
        rest = after;
    }
    !is_first
}

/// Row 18: each kind 3, 5, 7 or 11 is followed directly by exactly the records it
/// calls for, and no kind 4, 6 or 12 stands anywhere else.
fn has_records_in_place(sheet: &[u8]) -> bool {
    let mut rest = sheet;
    while let Some((record, after)) = split_record(rest) {
        let follows = match record.kind {
            kind::DWELL => skip_targets(target_count(record.body), after),
            kind::TEXT | kind::OPAQUE => skip_pieces(length_at_end(record.body), after),
            kind::HRR => skip_scatterers(ScattererSet::of_record(record.body).count, after),
            kind::TARGET | kind::PIECE | kind::SCATTERER => None,
            _ => Some(after),
        };
        let Some(follows) = follows else {
            return false;
        };
        rest = follows;
    }
    true
}

/// What follows `count` kind 4 records.
fn skip_targets(count: usize, mut rest: &[u8]) -> Option<&[u8]> {
    for _ in 0..count {
        let (record, after) = split_record(rest)?;
        if record.kind != kind::TARGET {
            return None;
        }
        rest = after;
    }
    Some(rest)
}

/// What follows `count` kind 12 records. They are of one length, so a count that
/// the sheet has no bytes for is told before they are walked.
fn skip_scatterers(count: u64, rest: &[u8]) -> Option<&[u8]> {
    let length = count.checked_mul(1 + SCATTERER_RECORD as u64)?;
    let (whole, after) = rest.split_at_checked(usize::try_from(length).ok()?)?;
    let mut each = whole.chunks_exact(1 + SCATTERER_RECORD);
    each.all(|record| record[0] == kind::SCATTERER).then_some(after)
}

/// What follows the kind 6 records that carry `length` bytes, all full but the
/// last.
fn skip_pieces(length: usize, mut rest: &[u8]) -> Option<&[u8]> {
    let mut left = length;
    while left > 0 {
        let (record, after) = split_record(rest)?;
        let count = left.min(PIECE_BYTES);
        if record.kind != kind::PIECE || usize::from(record.body[0]) != count {
            return None;
        }
        left -= count;
        rest = after;
    }
    Some(rest)
}

/// D5 of a dwell record.
fn target_count(body: &[u8]) -> usize {
    usize::from(u16::from_be_bytes([body[D5_PLACE], body[D5_PLACE + 1]]))
}

/// The length in the last 4 bytes of a text or opaque record.
fn length_at_end(body: &[u8]) -> usize {
    let length = body[body.len() - 4..].iter();
    length.fold(0, |sum, byte| sum << 8 | usize::from(*byte))
}

/// The packet's bytes, for a sheet that has passed rows 17 and 18; nothing
/// where they are above 65,536.
fn spell(sheet: &[u8]) -> Option<Vec<u8>> {
    let mut speller = Speller { packet: Vec::new(), target_layout: Layout::of_target(0), scatterer_widths: [0; 4] };
    for record in records(sheet) {
        speller.spell_record(&record)?;
    }
    Some(speller.packet)
}

/// The bytes spelt so far, the layout of the targets of the last dwell, and the
/// widths of the scatterers of the last HRR segment.
struct Speller {
    packet: Vec<u8>,
    target_layout: Layout<18>,
    scatterer_widths: [usize; 4],
}

impl Speller {
    /// Adds one record's bytes. The first record of a segment gives its type
    /// and S2 as well; targets, pieces and scatterers add to the segment they
    /// follow.
    fn spell_record(&mut self, record: &Record) -> Option<()> {
        let body = record.body;
        match record.kind {
            kind::HEADER => self.put(body),
            kind::MISSION => self.put_whole(segment_type::MISSION, body)?,
            kind::DWELL => self.put_dwell(body)?,
            kind::TARGET => put_announced(&mut self.packet, &self.target_layout, body),
            kind::TEXT => {
                let length = FREE_TEXT_FIXED.checked_add(length_at_end(body))?;
                self.start_segment(segment_type::FREE_TEXT, length)?;
                self.put(&body[..FREE_TEXT_FIXED]);
            }
            kind::PIECE => self.put(&body[1..][..usize::from(body[0]).min(PIECE_BYTES)]),
            kind::OPAQUE => self.start_segment(body[0], length_at_end(body))?,
            kind::JOB => self.put_whole(segment_type::JOB, &body[..JOB_BODY])?,
            kind::TEST => self.put_whole(segment_type::TEST, body)?,
            kind::HRR => self.put_hrr(body)?,
            kind::SCATTERER => self.put_scatterer(body),
            _ => self.put_whole(segment_type::LOCATION, body)?,
        }
        Some(())
    }

    fn put_dwell(&mut self, body: &[u8]) -> Option<()> {
        let mask = dwell_mask_of(body);
        let layout = Layout::of_dwell(mask);
        self.target_layout = Layout::of_target(mask);
        let targets = target_count(body) * self.target_layout.length;
        self.start_segment(segment_type::DWELL, MASK + layout.length + targets)?;
        self.put(&body[..MASK]);
        put_announced(&mut self.packet, &layout, &body[MASK..]);
        Some(())
    }

    fn put_hrr(&mut self, body: &[u8]) -> Option<()> {
        let layout = Layout::of_hrr(hrr_mask_of(body));
        let set = ScattererSet::of_record(body);
        let length = usize::try_from(set.length()).ok()?;
        self.start_segment(segment_type::HRR, length.checked_add(HRR_MASK + layout.length)?)?;
        self.put(&body[..HRR_MASK]);
        put_announced(&mut self.packet, &layout, &body[HRR_MASK..]);
        self.scatterer_widths = set.widths;
        Some(())
    }

    /// Of each value the last bytes, as many as it is wide.
    fn put_scatterer(&mut self, body: &[u8]) {
        for (value, width) in body.chunks_exact(SCATTERER_VALUE).zip(self.scatterer_widths) {
            self.packet.extend_from_slice(&value[SCATTERER_VALUE - width..]);
        }
    }

    /// A segment whose body is all in one record.
    fn put_whole(&mut self, segment_type: u8, body: &[u8]) -> Option<()> {
        self.start_segment(segment_type, body.len())?;
        self.put(body);
        Some(())
    }

    /// A segment's header, with S2 worked out from the length of its body;
    /// nothing where that body would end past 65,536 bytes. By row 18 the
    /// records give a body of just this length.
    fn start_segment(&mut self, segment_type: u8, body_length: usize) -> Option<()> {
        let s2 = body_length.checked_add(SEGMENT_HEADER)?;
        if s2 > PACKET_MOST - self.packet.len() {
            return None;
        }
        self.put(&[segment_type]);
        self.put(&(s2 as u32).to_be_bytes());
        Some(())
    }

    fn put(&mut self, bytes: &[u8]) {
        self.packet.extend_from_slice(bytes);
    }
}

/// Adds the announced fields of a record that holds all fields at full width.
fn put_announced<const N: usize>(packet: &mut Vec<u8>, layout: &Layout<N>, record: &[u8]) {
    let mut rest = record;
    for (_, width, place) in layout.fields() {
        let (value, after) = rest.split_at(width);
        if place.is_some() {
            packet.extend_from_slice(value);
        }
        rest = after;
    }
}

/// The answer of the Edition 3 reading of the spelt bytes, where it accepts them
/// and gives exactly this sheet.
fn reads_to(spelt: &[u8], sheet: &[u8]) -> Option<Answer> {
    let mut again = vec![0; sheet.len()];
    let reading = read(3, spelt, &mut again);
    let is_same = reading.length as usize == sheet.len() && again == sheet;
    (reading.is_accepted() && is_same).then_some(reading)
}
