//! What the rows and the records both go by: the reading, what a row finds at
//! fault, and the segments of a packet ("Packet and segments").

use super::tables::{is_known_type, PACKET_LEAST, SEGMENT_HEADER};
use crate::library::Answer;

/// What chooses between the editions' rules: the packet's version, and whether
/// this is the Edition 1 reading of a version 3 packet.
#[derive(Clone, Copy)]
pub struct Reading {
    pub is_version_1: bool,
    pub is_older: bool,
}

/// A row's number and field; the segment is added where it is known.
pub struct Fault {
    number: u32,
    field: u32,
}

impl Fault {
    /// The refusal that names this segment.
    pub fn in_segment(self, segment: u32) -> Answer {
        Answer::refused(self.number, segment, self.field)
    }
}

/// A row applies.
pub fn fault<T>(number: u32, field: u32) -> Result<T, Fault> {
    Err(Fault { number, field })
}

/// A segment's type and body.
pub struct Segment<'a> {
    pub segment_type: u8,
    pub body: &'a [u8],
}

/// Rows 6 to 8: the segment at the front of `rest`, and what follows it.
pub fn split_segment(rest: &[u8]) -> Result<(Segment<'_>, &[u8]), Fault> {
    if rest.len() < SEGMENT_HEADER {
        return fault(6, 0);
    }
    let segment_type = rest[0];
    if !is_known_type(segment_type) {
        return fault(7, 0);
    }
    let s2 = u32::from_be_bytes([rest[1], rest[2], rest[3], rest[4]]) as usize;
    if s2 < SEGMENT_HEADER || s2 > rest.len() {
        return fault(8, 0);
    }
    let (whole, after) = rest.split_at(s2);
    let body = &whole[SEGMENT_HEADER..];
    Ok((Segment { segment_type, body }, after))
}

/// The segments of a checked packet, in order.
pub fn segments(packet: &[u8]) -> impl Iterator<Item = Segment<'_>> {
    let mut rest = packet.get(PACKET_LEAST..).unwrap_or(&[]);
    core::iter::from_fn(move || {
        let (segment, after) = split_segment(rest).ok()?;
        rest = after;
        Some(segment)
    })
}
