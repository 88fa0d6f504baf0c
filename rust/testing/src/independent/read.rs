//! The reading of a packet, rows 1 to 16 ("Where each number is given"), and rows
//! 21 and 22 directly after row 9 (request A4).
//!
//! A refusal leaves the sheet unchanged, so all rows are checked over the whole
//! packet before the first byte of the sheet is filled.

use super::dwell::{d32, dwell_mask_of, mask_at_fault, new_in_mask, Dwell};
use super::hrr::{hrr_mask_of, is_mask_at_fault, Hrr};
use super::packet::{fault, segments, split_segment, Fault, Reading, Segment};
use super::sheet::{fill, piece_count};
use super::tables::*;
use crate::library::Answer;
use std::collections::BTreeSet;

/// Reads `packet` as Edition `edition` into `sheet`.
///
/// Accepted, the bytes of `sheet` up to the answered length are the packet's
/// sheet and those after it are unchanged. Refused, all of it is unchanged.
pub fn read(edition: u32, packet: &[u8], sheet: &mut [u8]) -> Answer {
    let (reading, accepted) = match check(edition, packet) {
        Ok(checked) => checked,
        Err(refusal) => return refusal,
    };
    if accepted.length as usize > sheet.len() {
        return Answer::refused(16, 0, 0);
    }
    fill(reading, packet, sheet);
    accepted
}

/// Rows 1 to 15, 21 and 22. The answer's length is the length of the sheet.
fn check(edition: u32, packet: &[u8]) -> Result<(Reading, Answer), Answer> {
    let reading = check_header(edition, packet).map_err(|fault| fault.in_segment(0))?;
    let mut answer = Answer::accepted(0, 0, 0, 1 + HEADER_RECORD as u32);
    let mut rest = &packet[PACKET_LEAST..];
    while !rest.is_empty() {
        answer.segments += 1;
        let number = answer.segments;
        let (segment, after) = split_segment(rest).map_err(|fault| fault.in_segment(number))?;
        check_segment(reading, &segment, &mut answer).map_err(|fault| fault.in_segment(number))?;
        rest = after;
    }
    answer.dwells = dwell_count(packet);
    Ok((reading, answer))
}

/// "The number of different pairs of D2 and D3 in the packet" (request A1), for
/// a packet that has passed rows 1 to 15, 21 and 22.
///
/// Not the number of dwell segments: "Targets detected within a dwell may be
/// split among multiple Dwell Segments" (document 003, 2.4.32).
fn dwell_count(packet: &[u8]) -> u32 {
    let mut pairs = BTreeSet::new();
    for segment in segments(packet) {
        if segment.segment_type == segment_type::DWELL {
            pairs.extend(Dwell::new(segment.body).map(|dwell| dwell.pair()));
        }
    }
    pairs.len() as u32
}

/// Rows 1 to 5: the call and the header.
fn check_header(edition: u32, packet: &[u8]) -> Result<Reading, Fault> {
    if edition != 1 && edition != 3 {
        return fault(1, 0);
    }
    if packet.len() < PACKET_LEAST || packet.len() > PACKET_MOST {
        return fault(2, 0);
    }
    let (version, digit) = (packet[0], packet[1]);
    if (version != b'1' && version != b'3') || !digit.is_ascii_digit() {
        return fault(3, 0);
    }
    let p2 = u32::from_be_bytes([packet[2], packet[3], packet[4], packet[5]]);
    if p2 as usize != packet.len() {
        return fault(4, 0);
    }
    if let Some(field) = text_at_fault(&HEADER, packet) {
        return fault(5, field);
    }
    Ok(Reading { is_version_1: version == b'1', is_older: edition == 1 && version == b'3' })
}

/// The first text field that holds a byte outside its set.
fn text_at_fault(fields: &[Field], bytes: &[u8]) -> Option<u32> {
    let mut rest = bytes;
    for field in fields {
        let (value, after) = rest.split_at(field.width.min(rest.len()));
        if let Some(set) = field.text {
            if !value.iter().all(|byte| set.holds(*byte)) {
                return Some(field.number);
            }
        }
        rest = after;
    }
    None
}

/// The rows of one segment from the first row 15 on; adds its targets and the
/// length of its records to `answer`. Whether it adds a dwell is not told by one
/// segment alone.
fn check_segment(reading: Reading, segment: &Segment, answer: &mut Answer) -> Result<(), Fault> {
    let body = segment.body;
    if reading.is_older && segment.segment_type == segment_type::HRR {
        return fault(15, 0);
    }
    check_size(reading, segment)?;
    check_text(segment)?;
    let mut length = 0;
    match segment.segment_type {
        segment_type::MISSION => {
            check_mission(body)?;
            length += 1 + MISSION_RECORD;
        }
        segment_type::DWELL => {
            let dwell = check_dwell(reading, body)?;
            answer.targets += dwell.target_count;
            length += 1 + DWELL_RECORD + dwell.target_count as usize * (1 + TARGET_RECORD);
        }
        segment_type::HRR if !reading.is_version_1 => {
            let hrr = check_hrr(body)?;
            length += 1 + HRR_RECORD + hrr.set.count as usize * (1 + SCATTERER_RECORD);
        }
        segment_type::JOB => {
            check_job(reading, body)?;
            length += 1 + JOB_RECORD;
        }
        segment_type::FREE_TEXT => {
            let pieces = piece_count(body.len() - FREE_TEXT_FIXED);
            length += 1 + TEXT_RECORD + pieces * (1 + PIECE_RECORD);
        }
        segment_type::TEST => length += 1 + TEST_RECORD,
        segment_type::LOCATION => length += 1 + LOCATION_RECORD,
        _ => length += 1 + OPAQUE_RECORD + piece_count(body.len()) * (1 + PIECE_RECORD),
    }
    answer.length += length as u32;
    Ok(())
}

/// Row 9. S2 counts the 5 header bytes, so it is held as the body's length.
fn check_size(reading: Reading, segment: &Segment) -> Result<(), Fault> {
    let length = segment.body.len();
    let is_right = match segment.segment_type {
        segment_type::MISSION => length == MISSION_BODY,
        segment_type::JOB => length == JOB_BODY,
        segment_type::TEST => length == TEST_BODY,
        segment_type::LOCATION => length == LOCATION_BODY,
        segment_type::FREE_TEXT => length >= FREE_TEXT_FIXED,
        segment_type::DWELL => length >= MASK,
        segment_type::HRR => reading.is_version_1 || length >= HRR_MASK,
        _ => true,
    };
    if is_right {
        Ok(())
    } else {
        fault(9, 0)
    }
}

/// Row 10.
fn check_text(segment: &Segment) -> Result<(), Fault> {
    let fields: &[Field] = match segment.segment_type {
        segment_type::MISSION => &MISSION,
        segment_type::JOB => &JOB,
        segment_type::FREE_TEXT => &FREE_TEXT,
        _ => return Ok(()),
    };
    match text_at_fault(fields, segment.body) {
        Some(field) => fault(10, field),
        None => Ok(()),
    }
}

/// Row 13 for M6 and M7, the last two bytes of a mission.
fn check_mission(body: &[u8]) -> Result<(), Fault> {
    let (month, day) = (body[MISSION_BODY - 2], body[MISSION_BODY - 1]);
    if !(1..=12).contains(&month) {
        return fault(13, 6);
    }
    if !(1..=31).contains(&day) {
        return fault(13, 7);
    }
    Ok(())
}

/// Row 15 for J14.
fn check_job(reading: Reading, body: &[u8]) -> Result<(), Fault> {
    if reading.is_older && is_new_radar_mode(body[J14_PLACE]) {
        return fault(15, 14);
    }
    Ok(())
}

/// Rows 21 and 22 of an HRR segment in a version 3 packet. No row between 9 and 21
/// is about type 3.
fn check_hrr(body: &[u8]) -> Result<Hrr<'_>, Fault> {
    if is_mask_at_fault(hrr_mask_of(body)) {
        return fault(21, 0);
    }
    match Hrr::new(body) {
        Some(hrr) => Ok(hrr),
        None => fault(22, 0),
    }
}

/// Rows 11 to 14 of a dwell.
fn check_dwell(reading: Reading, body: &[u8]) -> Result<Dwell<'_>, Fault> {
    let mask = dwell_mask_of(body);
    if let Some(field) = mask_at_fault(reading.is_version_1, mask) {
        return fault(11, field);
    }
    if reading.is_older {
        if let Some(field) = new_in_mask(mask) {
            return fault(15, field);
        }
    }
    let Some(dwell) = Dwell::new(body) else {
        return fault(12, 0);
    };
    if dwell.layout.value(4, dwell.fields) > Some(1) {
        return fault(13, 4);
    }
    if dwell.target_count > 0 && !dwell.has_position() {
        return fault(13, 5);
    }
    for target in dwell.targets() {
        check_target(&dwell, target)?;
    }
    Ok(dwell)
}

/// Rows 13 and 14 of one target. An absent field has no value to be at fault.
fn check_target(dwell: &Dwell, target: &[u8]) -> Result<(), Fault> {
    let value = |j| dwell.target_layout.value(d32(j), target);
    if value(6).is_some_and(|d32_6| (d32_6 as u16 as i16) < -1000) {
        return fault(13, d32(6));
    }
    if value(11).is_some_and(|d32_11| d32_11 > 100) {
        return fault(13, d32(11));
    }
    if value(15).is_some_and(|d32_15| d32_15 > 5000) {
        return fault(13, d32(15));
    }
    if !dwell.latitude(target).is_in_range() {
        return fault(14, d32(4));
    }
    Ok(())
}
