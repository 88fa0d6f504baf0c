//! The look at a refused packet. The library has decided, and its three numbers say where to look; here is only found what to say. A packet
//! is any bytes at all: what is not there is None.
use super::fault::{Fault, Named, Side, F3, S2};
use super::masked::Masked;
use crate::forms::Form;
use crate::layout::{Field, Kind};
use crate::{sheet_bound, LONGEST_PACKET};

/// How many bytes a packet's header has, and a segment's.
const HEADER: usize = Kind::Header.length() - 1;
pub const SEGMENT_HEADER: usize = 5;

/// What a refused packet has at the place of the refusal.
#[derive(Clone, Copy, Debug, Default, PartialEq, Eq)]
pub struct Seen {
    pub segment_type: Option<u8>,
    /// The target at fault, from 1.
    pub target: Option<u32>,
    pub fault: Option<Fault>,
}

impl Seen {
    /// What the packet has where these numbers lead, by which the library refused it, lent so many bytes.
    pub fn in_packet([number, segment, field]: [u32; 3], packet: &[u8], lent: usize) -> Seen {
        if segment > 0 {
            return Seen::in_segment(number, field, from_segment(packet, segment)).unwrap_or_default();
        }
        let fault = match number {
            2 => Some(length(packet.len())),
            3 => version(packet),
            4 => packet_size(packet),
            5 => field_of(Kind::Header, field).and_then(|field| character(field.into(), bytes_of(field, packet)?)),
            16 => Some(Fault::Room { lent, enough: sheet_bound(packet.len()) }),
            _ => None,
        };
        Seen { fault, ..Seen::default() }
    }

    /// The same, where the packet is given from the segment on.
    fn in_segment(number: u32, field: u32, rest: Option<&[u8]>) -> Option<Seen> {
        match number {
            6 => Some(Seen { fault: Some(Fault::Left(rest?.len())), ..Seen::default() }),
            _ => Some(Segment::first(rest?)?.seen(number, field)),
        }
    }
}

/// The field of this number of a record.
pub fn field_of(kind: Kind, number: u32) -> Option<&'static Field> {
    kind.fields().iter().find(|field| field.number() == number)
}

/// A field's bytes in a header or a body whose fields stand as on the sheet, behind the kind byte.
fn bytes_of<'p>(field: &Field, body: &'p [u8]) -> Option<&'p [u8]> {
    body.get(field.offset - 1..end_of(field))
}

/// How many bytes such a body has up to the end of a field.
fn end_of(field: &Field) -> usize {
    field.offset - 1 + field.width
}

/// The number that a field's bytes are, of which the first are given.
pub fn number_of(field: &Field, bytes: &[u8]) -> Option<i64> {
    let bits = 8 * field.width as u32;
    let number = bytes.get(..field.width)?.iter().fold(0, |number, byte| number << 8 | i64::from(*byte));
    let is_negative = matches!(field.form, Form::Signed | Form::Sa32) && number >> (bits - 1) == 1;
    Some(if is_negative { number - (1 << bits) } else { number })
}

/// Values that are checked against a range: the kind, the number, the least and the most.
const RANGES: [(Kind, u32, i64, i64); 8] = [
    (Kind::Mission, 6, 1, 12),
    (Kind::Mission, 7, 1, 31),
    (Kind::Dwell, 4, 0, 1),
    (Kind::Target, 37, -1000, i16::MAX as i64),
    (Kind::Target, 42, 0, 100),
    (Kind::Target, 46, 0, 5000),
    (Kind::Hrr, 25, 1, 2),
    (Kind::Hrr, 26, 0, 2),
];

/// A value outside of its range.
pub fn out_of_range(kind: Kind, number: u32, value: i64) -> Option<Fault> {
    let (.., least, most) = RANGES.into_iter().find(|range| (range.0, range.1) == (kind, number))?;
    let side = if value < least {
        Side::Under(least)
    } else if value > most {
        Side::Above(most)
    } else {
        return None;
    };
    Some(Fault::Value(field_of(kind, number)?.into(), value, side))
}

fn length(length: usize) -> Fault {
    let side = if length < HEADER { Side::Under(HEADER as i64) } else { Side::Above(LONGEST_PACKET as i64) };
    Fault::Length(length, side)
}

fn version(packet: &[u8]) -> Option<Fault> {
    let p1 = field_of(Kind::Header, 1)?;
    Some(Fault::Version(p1.into(), bytes_of(p1, packet)?.try_into().ok()?))
}

fn packet_size(packet: &[u8]) -> Option<Fault> {
    let p2 = field_of(Kind::Header, 2)?;
    Some(Fault::PacketSize(p2.into(), number_of(p2, bytes_of(p2, packet)?)? as u32, packet.len()))
}

/// The first character of a text field that may not stand there.
fn character(named: Named, text: &[u8]) -> Option<Fault> {
    let is_text = |character: u8| matches!(character, 0x20..=0x7E) || named == F3 && matches!(character, 0x0A | 0x0C | 0x0D);
    let (place, character) = (1..).zip(text).find(|(_, character)| !is_text(**character))?;
    Some(Fault::Character { named, place, character: *character })
}

/// The packet from this segment on. The library has followed each S2 before it.
fn from_segment(packet: &[u8], segment: u32) -> Option<&[u8]> {
    let mut rest = packet.get(HEADER..)?;
    for _ in 1..segment {
        rest = rest.get(Segment::first(rest)?.size as usize..)?;
    }
    Some(rest)
}

/// A segment, with all that follows it.
struct Segment<'p> {
    segment_type: u8,
    size: u32,
    /// Empty where S2 leads nowhere.
    body: &'p [u8],
    rest: &'p [u8],
}

impl<'p> Segment<'p> {
    /// The first of these bytes.
    fn first(rest: &'p [u8]) -> Option<Segment<'p>> {
        let [segment_type, size @ ..] = *rest.first_chunk::<SEGMENT_HEADER>()?;
        let size = u32::from_be_bytes(size);
        Some(Segment { segment_type, size, body: rest.get(SEGMENT_HEADER..size as usize).unwrap_or_default(), rest })
    }

    fn seen(&self, number: u32, field: u32) -> Seen {
        let in_target = if matches!((number, field), (13, 32..) | (14, _)) { self.in_target(field) } else { None };
        let fault = in_target.map(|(_, fault)| fault).or_else(|| self.fault(number, field));
        Seen { segment_type: Some(self.segment_type), target: in_target.map(|(target, _)| target), fault }
    }

    fn in_target(&self, field: u32) -> Option<(u32, Fault)> {
        Masked::new(Kind::Dwell, self.body)?.in_target(field)
    }

    fn fault(&self, number: u32, field: u32) -> Option<Fault> {
        match number {
            7 => Some(Fault::Type(self.segment_type)),
            8 => Some(self.leads_nowhere()),
            9 => self.does_not_fit(),
            10 => self.character(field),
            11 => Masked::new(Kind::Dwell, self.body)?.mask_of_dwell(field),
            12 => Masked::new(Kind::Dwell, self.body)?.size_of_dwell(self.size),
            13 if self.segment_type == 2 => Masked::new(Kind::Dwell, self.body)?.value_of_dwell(field),
            13 => out_of_range(Kind::Mission, field, self.value(Kind::Mission, field)?),
            15 => self.new_in_edition_3(field),
            21 => Masked::new(Kind::Hrr, self.body)?.mask_of_hrr(),
            22 => Masked::new(Kind::Hrr, self.body)?.size_of_hrr(self.size),
            _ => None,
        }
    }

    fn value(&self, kind: Kind, number: u32) -> Option<i64> {
        let field = field_of(kind, number)?;
        number_of(field, bytes_of(field, self.body)?)
    }

    fn leads_nowhere(&self) -> Fault {
        match (self.size as usize).checked_sub(self.rest.len()) {
            Some(by) if by > 0 => Fault::Past(self.size, by),
            _ => Fault::Value(S2, self.size.into(), Side::Under(SEGMENT_HEADER as i64)),
        }
    }

    /// A body holds its fields up to the last, or those that every segment of its type has.
    fn does_not_fit(&self) -> Option<Fault> {
        let (kind, last) = match self.segment_type {
            1 => (Kind::Mission, 7),
            2 => (Kind::Dwell, 1),
            3 => (Kind::Hrr, 1),
            5 => (Kind::Job, 28),
            6 => (Kind::Text, 2),
            10 => (Kind::Test, 6),
            13 => (Kind::Location, 7),
            _ => return None,
        };
        let due = (SEGMENT_HEADER + end_of(field_of(kind, last)?)) as i64;
        let side = if matches!(kind, Kind::Dwell | Kind::Hrr | Kind::Text) { Side::Under(due) } else { Side::Not(due) };
        Some(Fault::Value(S2, self.size.into(), side))
    }

    fn character(&self, number: u32) -> Option<Fault> {
        let kind = match self.segment_type {
            1 => Kind::Mission,
            5 => Kind::Job,
            6 if number == 3 => return character(F3, self.body.get(end_of(field_of(Kind::Text, 2)?)..)?),
            _ => Kind::Text,
        };
        let field = field_of(kind, number)?;
        character(field.into(), bytes_of(field, self.body)?)
    }

    fn new_in_edition_3(&self, field: u32) -> Option<Fault> {
        match self.segment_type {
            3 => Some(Fault::NewType),
            5 => Some(Fault::NewMode(field_of(Kind::Job, field)?.into(), self.value(Kind::Job, field)? as u8)),
            _ => Masked::new(Kind::Dwell, self.body)?.new_in_dwell(field),
        }
    }
}
