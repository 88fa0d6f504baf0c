//! What tells the two readings of a version 3 packet apart ("Edition 1 reading
//! of a version 3 packet").

use super::sheet::split_record;
use super::tables::{kind, D27_PLACE, D27_WIDTH, DWELL_RECORD, J26_PLACE, JOB_RECORD};
use super::tables::{J14_PLACE, PACKET_LEAST, PACKET_MOST};

/// The new values of J14, one by one. The reader has ranges of its own, so that
/// the two can be held against each other.
const NEW_RADAR_MODES: [u8; 16] = [91, 92, 93, 96, 97, 101, 102, 103, 104, 111, 112, 113, 120, 121, 122, 123];

/// The first segment (from 1) that holds something new in Edition 3, and the
/// field that names it, of a version 3 packet that the Edition 3 reading accepts.
///
/// Told by the packet's bytes alone, without either reading. On other bytes the
/// walk ends at the first segment that is not whole.
pub fn first_new(packet: &[u8]) -> Option<(u32, u32)> {
    if packet.first() != Some(&b'3') || packet.len() > PACKET_MOST {
        return None;
    }
    let mut rest = packet.get(PACKET_LEAST..)?;
    let mut segment = 0;
    loop {
        let &[segment_type, a, b, c, d] = rest.first_chunk()?;
        let (whole, after) = rest.split_at_checked(u32::from_be_bytes([a, b, c, d]) as usize)?;
        let body = whole.get(5..)?;
        segment += 1;
        let field = match segment_type {
            3 => Some(0),
            2 => new_in_dwell(body),
            5 => new_in_job(body),
            _ => None,
        };
        if let Some(field) = field {
            return Some((segment, field));
        }
        rest = after;
    }
}

/// Byte 3 of the mask, from 0, holds the bits 39 to 32, so D28 to D30 (bits 37
/// to 35) are its bits 5 to 3. Byte 5 holds the bits 23 to 16, so D32.18 (bit
/// 16) is its lowest.
fn new_in_dwell(body: &[u8]) -> Option<u32> {
    let mask: &[u8; 8] = body.first_chunk()?;
    match mask[3] >> 3 & 0b111 {
        0b000 | 0b111 => (mask[5] & 1 == 1).then_some(49),
        0b001..=0b011 => Some(28),
        0b100 | 0b101 => Some(29),
        _ => Some(30),
    }
}

fn new_in_job(body: &[u8]) -> Option<u32> {
    let mode = body.get(J14_PLACE)?;
    NEW_RADAR_MODES.contains(mode).then_some(14)
}

/// Copies every D27 and J26 of the Edition 3 sheet `newer` into the Edition 1
/// sheet `older` of the same packet, and marks them there as shown.
///
/// Stops at the first record that is not whole and of the same kind in both.
pub fn fill_in(older: &mut [u8], newer: &[u8]) {
    let mut at = 0;
    while let Some((record, _)) = split_record(newer.get(at..).unwrap_or(&[])) {
        let next = at + 1 + record.body.len();
        let Some([kind, body @ ..]) = older.get_mut(at..next) else {
            return;
        };
        if *kind != record.kind {
            return;
        }
        match record.kind {
            kind::DWELL => {
                let d27 = D27_PLACE..D27_PLACE + D27_WIDTH;
                body[d27.clone()].copy_from_slice(&record.body[d27]);
                body[DWELL_RECORD - 1] = 1;
            }
            kind::JOB => {
                body[J26_PLACE] = record.body[J26_PLACE];
                body[JOB_RECORD - 1] = 1;
            }
            _ => {}
        }
        at = next;
    }
}
