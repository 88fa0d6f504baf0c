//! What is wrong with a packet, and the words for it.
use crate::layout::Field;
use crate::{mode_system, Edition};
use core::fmt;

/// A field, by its label and its name.
#[derive(Clone, Copy, Debug, PartialEq, Eq)]
pub struct Named {
    label: &'static str,
    name: &'static str,
}

/// Two that no record has: the size of a segment, and the rest of a free text, which the sheet has in pieces.
pub const S2: Named = Named { label: "S2", name: "segment size" };
pub const F3: Named = Named { label: "F3", name: "free text" };

impl From<&Field> for Named {
    fn from(field: &Field) -> Named {
        Named { label: field.label, name: field.name }
    }
}

impl fmt::Display for Named {
    fn fmt(&self, f: &mut fmt::Formatter<'_>) -> fmt::Result {
        write!(f, "{}, {}", self.label, self.name)
    }
}

/// Where a value is that should not be there.
#[derive(Clone, Copy, Debug, PartialEq, Eq)]
pub enum Side {
    Under(i64),
    Above(i64),
    Not(i64),
}

impl fmt::Display for Side {
    fn fmt(&self, f: &mut fmt::Formatter<'_>) -> fmt::Result {
        match self {
            Side::Under(least) => write!(f, "under {least}"),
            Side::Above(most) => write!(f, "above {most}"),
            Side::Not(only) => write!(f, "not {only}"),
        }
    }
}

/// What is wrong, with the values that the packet has.
#[derive(Clone, Copy, Debug, PartialEq, Eq)]
pub enum Fault {
    /// The length of the packet.
    Length(usize, Side),
    /// The characters of P1.
    Version(Named, [u8; 2]),
    /// P2, and the length that it should be.
    PacketSize(Named, u32, usize),
    /// A character of a text field, with its place from 1. F3 has a wider set.
    Character {
        named: Named,
        place: usize,
        character: u8,
    },
    /// So many bytes that are no segment.
    Left(usize),
    /// A type that is not known.
    Type(u8),
    /// S2, and by how many bytes it leads past the end.
    Past(u32, usize),
    /// A value outside of its range.
    Value(Named, i64, Side),
    /// A field that every mask announces, and this one does not.
    Mandatory(Named),
    /// A field that is reserved in version 1, and a bit of D1 that no field has.
    Reserved(Named),
    ReservedBit(u32),
    /// A field that is not announced, and another of its group that is.
    Missing(Named, Named),
    /// D32.4 or D32.5, announced beside D32.2 and D32.3.
    Beside(Named),
    /// S2 of a dwell, the size that is called for, and D5.
    DwellSize {
        size: u32,
        due: i64,
        count: Named,
        targets: i64,
    },
    /// D5, where no position is announced.
    NoPosition(Named, i64),
    /// The steps of a latitude beyond a pole.
    Latitude(i64),
    /// What is new in Edition 3: a segment of type 3, some but not all of D28 to D30, D32.18, and a radar mode.
    NewType,
    NewAngles(Named, Named),
    NewField(Named),
    NewMode(Named, u8),
    /// How many bytes were lent, and how many are enough.
    Room {
        lent: usize,
        enough: usize,
    },
    /// A bit of H1 that announces no field.
    SpareBit(u32),
    /// S2 of an HRR segment that does not hold the fields announced, and the least size that does.
    HrrFields(u32, i64),
    /// S2 of an HRR segment, the size that is called for, and the number of scatterers.
    HrrSize {
        size: u32,
        due: i64,
        scatterers: i64,
    },
}

impl fmt::Display for Fault {
    fn fmt(&self, f: &mut fmt::Formatter<'_>) -> fmt::Result {
        match *self {
            Fault::Length(length, side) => write!(f, "the packet's length, {length}, is {side}"),
            Fault::Version(p1, characters) => version(f, p1, characters),
            Fault::PacketSize(p2, size, length) => packet_size(f, p2, size, length),
            Fault::Character { named, place, character } => {
                let more = if named == F3 { ", 0x0A, 0x0C, 0x0D" } else { "" };
                write!(f, "character {place} of {named}, is 0x{character:02X}, not among 0x20 to 0x7E{more}")
            }
            Fault::Left(left) => write!(f, "{} left, too few for the type and S2, which take 5", Count(left as i64, "byte")),
            Fault::Type(segment_type) => write!(f, "type {segment_type} is not known"),
            Fault::Past(size, by) => write!(f, "{S2} {size}, leads {} past the packet's end", Count(by as i64, "byte")),
            Fault::Value(named, value, side) => write!(f, "{named} {value}, is {side}"),
            Fault::Mandatory(named) => write!(f, "{named}, is mandatory and not announced"),
            Fault::Reserved(named) => write!(f, "{named}, is reserved in version 1 and announced"),
            Fault::ReservedBit(number) => write!(f, "field {number}, bit {} of D1, is reserved and announced", 65 - number),
            Fault::Missing(named, other) => write!(f, "{named}, is not announced while {other}, is"),
            Fault::Beside(named) => write!(f, "{named}, is announced beside D32.2 and D32.3"),
            Fault::DwellSize { size, due, count, targets } => {
                write!(f, "{S2} {size}, is not {due}, which its mask and {count} {targets}, call for")
            }
            Fault::NoPosition(count, targets) => write!(f, "{count} {targets}, is above 0 with no position announced"),
            Fault::Latitude(steps) => write!(f, "the latitude, D32.4 x D10 + D24, is {:.8} degrees, beyond a pole", degrees(steps)),
            Fault::NewType => f.write_str("an HRR segment is laid out otherwise in Edition 1"),
            Fault::NewAngles(named, other) => write!(f, "{named}, is not announced while {other}, is, which Edition 3 alone allows"),
            Fault::NewField(named) => write!(f, "{named}, is new in Edition 3"),
            Fault::NewMode(j14, mode) => new_mode(f, j14, mode),
            Fault::Room { lent, enough } => {
                write!(f, "the sheet does not fit the {} lent; {enough} are enough", Count(lent as i64, "byte"))
            }
            Fault::SpareBit(number) => write!(f, "bit {} of H1 is set and announces no field", 41 - number),
            Fault::HrrFields(size, due) => write!(f, "{S2} {size}, is under {due}, which its mask alone calls for"),
            Fault::HrrSize { size, due, scatterers } => {
                write!(f, "{S2} {size}, is not {due}, which its mask, widths and {} call for", Count(scatterers, "scatterer"))
            }
        }
    }
}

/// A number of things, as `1 byte` and `2 bytes`.
struct Count(i64, &'static str);

impl fmt::Display for Count {
    fn fmt(&self, f: &mut fmt::Formatter<'_>) -> fmt::Result {
        write!(f, "{} {}{}", self.0, self.1, if self.0 == 1 { "" } else { "s" })
    }
}

/// P1 as text, or in hexadecimal where it is none.
fn version(f: &mut fmt::Formatter<'_>, p1: Named, [edition, digit]: [u8; 2]) -> fmt::Result {
    if edition.is_ascii_graphic() && digit.is_ascii_graphic() {
        write!(f, "{p1} {}{}, is ", char::from(edition), char::from(digit))?;
    } else {
        write!(f, "{p1} 0x{edition:02X} 0x{digit:02X}, is ")?;
    }
    f.write_str(match edition {
        b'2' if digit.is_ascii_digit() => "Edition 2, which is not covered",
        _ => "not the character 1 or 3 and a digit",
    })
}

/// Where P2 could be the length of a first packet, more packets may lie behind it.
fn packet_size(f: &mut fmt::Formatter<'_>, p2: Named, size: u32, length: usize) -> fmt::Result {
    let more = if (32..length).contains(&(size as usize)) { "; a recording is to be split by P2" } else { "" };
    write!(f, "{p2} {size}, is not the packet's length, {length}{more}")
}

/// Steps of 180 / 2^32 degrees. A latitude by deltas has at most 47 bits, so this is exact; one step shows in the eighth decimal.
fn degrees(steps: i64) -> f64 {
    steps as f64 * (180.0 / (1u64 << 32) as f64)
}

/// The systems that have a radar mode.
fn new_mode(f: &mut fmt::Formatter<'_>, j14: Named, mode: u8) -> fmt::Result {
    let system = |edition| mode_system(edition, mode).map_or("given to no system", |system| system.name());
    write!(f, "{j14} {mode}, is {} in Edition 3 and {} in Edition 1", system(Edition::Three), system(Edition::One))
}
