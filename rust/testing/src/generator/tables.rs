//! The tables of document 01, and of document 003 for HRR segments, that the generator spells packets and sheets by. They are its own:
//! neither implementation is asked.

/// Widths of D2 to D31.
pub const DWELL_WIDTHS: [usize; 30] = [2, 2, 1, 2, 4, 4, 4, 4, 4, 4, 4, 4, 2, 2, 4, 1, 1, 2, 2, 2, 2, 2, 4, 4, 2, 2, 2, 2, 2, 1];

/// Widths of D32.1 to D32.18.
pub const TARGET_WIDTHS: [usize; 18] = [2, 4, 4, 2, 2, 2, 2, 2, 1, 1, 1, 2, 2, 1, 2, 1, 4, 1];

/// The fields that every mask announces.
pub const ALWAYS: [u32; 12] = [2, 3, 4, 5, 6, 7, 8, 9, 24, 25, 26, 27];

/// D10, D11, D32.4, D32.5: positions by deltas.
pub const DELTAS: [u32; 4] = [10, 11, 35, 36];

/// D32.2, D32.3: positions in full.
pub const ABSOLUTE: [u32; 2] = [33, 34];

/// D28 to D30, a group in version 1.
pub const ANGLES: [u32; 3] = [28, 29, 30];

/// D32.18, reserved in version 1.
pub const LAST_FIELD: u32 = 49;

/// The bytes of the longest packet.
const LONGEST_PACKET: u32 = 65_536;

/// Those of a packet's header.
const HEADER: u32 = 32;

/// Those of a dwell whose mask announces [`ALWAYS`] and nothing else.
const LEAST_DWELL: u32 = 48;

/// The most dwells that a packet has room for.
pub const MOST_DWELLS: u32 = (LONGEST_PACKET - HEADER) / LEAST_DWELL;

/// Those of D10 and D11, and those of D32.4 and D32.5.
const SCALES: u32 = 8;
const LEAST_TARGET: u32 = 4;

/// The most targets that a packet has room for.
pub const MOST_TARGETS: u32 = (LONGEST_PACKET - HEADER - LEAST_DWELL - SCALES) / LEAST_TARGET;

/// The groups of both versions.
pub const GROUPS: [&[u32]; 7] = [&[12, 13, 14], &[15, 16, 17], &[18, 19, 20], &[21, 22, 23], &DELTAS, &ABSOLUTE, &[47, 48]];

/// Fields of a target that may be announced by themselves: D32.1 and D32.6 to D32.15.
pub const SINGLE: [u32; 11] = [32, 37, 38, 39, 40, 41, 42, 43, 44, 45, 46];

/// The type of an HRR segment: with records of its own in version 3, kept as it is in version 1.
pub const HRR_TYPE: u8 = 3;

/// The types whose body is kept as it is in both versions.
pub const OPAQUE_TYPES: [u8; 8] = [4, 7, 8, 9, 11, 12, 101, 102];

/// The types with records of their own in both versions.
pub const OWN_TYPES: [u8; 6] = [1, 2, 5, 6, 10, 13];

/// Whether a type is known, in either version.
pub fn is_known(segment_type: u8) -> bool {
    segment_type == HRR_TYPE || OPAQUE_TYPES.contains(&segment_type) || OWN_TYPES.contains(&segment_type)
}

/// Values of J14 that are new in Edition 3.
pub const NEW_MODES: [u8; 16] = [91, 92, 93, 96, 97, 101, 102, 103, 104, 111, 112, 113, 120, 121, 122, 123];

/// 0x0A, 0x0C and 0x0D: what ends a line or a page.
pub const LINE_ENDS: [u8; 3] = [0x0A, 0x0C, 0x0D];

/// The bytes that text may hold.
#[derive(Clone, Copy, Debug, PartialEq, Eq)]
pub enum TextSet {
    /// 0x20 to 0x7E, which the standards call BCS-A: a name stands on one line.
    Name,
    /// Those and [`LINE_ENDS`], which the standards call BCS.
    Lines,
}

impl TextSet {
    /// Whether a byte may stand in such text.
    pub fn holds(self, byte: u8) -> bool {
        matches!(byte, 0x20..=0x7E) || self == TextSet::Lines && LINE_ENDS.contains(&byte)
    }
}

/// A text field: its number, its first byte, the byte after its last, and what it may hold.
#[derive(Clone, Copy, Debug)]
pub struct TextField {
    /// The number by which a refusal names it.
    pub number: u32,
    first: usize,
    end: usize,
    /// The bytes that it may hold.
    pub set: TextSet,
}

impl TextField {
    /// Where it stands in a header or a body of so many bytes.
    pub fn place(self, length: usize) -> std::ops::Range<usize> {
        self.first..self.end.min(length)
    }
}

const fn name(number: u32, first: usize, end: usize) -> TextField {
    TextField { number, first, end, set: TextSet::Name }
}

/// F3, which goes on to the end of the body.
const F3: TextField = TextField { number: 3, first: 20, end: usize::MAX, set: TextSet::Lines };

/// The text fields of a packet's header.
pub const HEADER_TEXT: [TextField; 3] = [name(3, 6, 8), name(5, 9, 11), name(8, 14, 24)];

/// Those of the bodies of segments, each with the type.
pub const BODY_TEXT: [(u8, TextField); 7] = [
    (1, name(1, 0, 12)),
    (1, name(2, 12, 24)),
    (1, name(4, 25, 35)),
    (5, name(3, 5, 11)),
    (6, name(1, 0, 10)),
    (6, name(2, 10, 20)),
    (6, F3),
];

/// The names on a sheet, each with the kind of its record, in whose body it stands where it stands in the header or the segment.
pub fn names_on_sheets() -> Vec<(u8, TextField)> {
    let kind = |segment_type: u8| match segment_type {
        1 => 2,
        5 => 8,
        _ => 5,
    };
    let of_header = HEADER_TEXT.into_iter().map(|name| (1, name));
    let of_bodies = BODY_TEXT.into_iter().filter(|(_, field)| field.set == TextSet::Name);
    of_header.chain(of_bodies.map(|(segment_type, name)| (kind(segment_type), name))).collect()
}

/// Lengths of the bodies of records by kind; there is no kind 0.
pub const RECORD_LENGTHS: [usize; 13] = [0, 32, 39, 87, 44, 24, 33, 5, 69, 14, 23, 66, 8];

/// Where D2 stands in the body of a kind 3 record, with D3 behind it; so too in the body of a dwell, whose mask always announces both.
pub const D2_PLACE: usize = 8;

/// Where D5 and D27 stand in the body of a kind 3 record.
pub const D5_PLACE: usize = 13;
/// See [`D5_PLACE`].
pub const D27_PLACE: usize = 77;

/// Where J14 and J26 stand in the body of a job definition.
pub const J14_PLACE: usize = 45;
/// See [`J14_PLACE`].
pub const J26_PLACE: usize = 65;

/// Where M6 and M7 stand in the body of a mission.
pub const M6_PLACE: usize = 37;
/// See [`M6_PLACE`].
pub const M7_PLACE: usize = 38;

/// The mask bit of a field from 2 to 65, and no bit for any other number.
pub const fn bit(field: u32) -> u64 {
    if field < 2 || field > 65 {
        return 0;
    }
    1 << (65 - field)
}

/// The mask of these fields.
pub fn mask_of(fields: &[u32]) -> u64 {
    fields.iter().fold(0, |mask, field| mask | bit(*field))
}

/// The width of a field from 2 to 49; other bits announce nothing.
pub fn width(field: u32) -> usize {
    match field {
        2..=31 => DWELL_WIDTHS[field as usize - 2],
        32..=49 => TARGET_WIDTHS[field as usize - 32],
        _ => 0,
    }
}

/// How many bytes the announced fields take, of those from the first to the last.
pub fn announced_width(mask: u64, first: u32, last: u32) -> usize {
    (first..=last).filter(|field| mask & bit(*field) != 0).map(width).sum()
}

/// The bytes of the mask H1. A mask is held in 64 bits, H1 in the highest of them: so it numbers its fields as a dwell's mask does, n for
/// Hn and 31 + j for H32.j.
pub const HRR_MASK: usize = 5;

/// Widths of H2 to H31.
pub const HRR_WIDTHS: [usize; 30] = [2, 2, 1, 2, 2, 2, 2, 1, 1, 2, 2, 4, 4, 4, 1, 1, 1, 2, 1, 2, 4, 1, 1, 1, 1, 1, 4, 1, 4, 4];

/// The width of H32.3 and of H32.4.
pub const INDEX_WIDTH: usize = 1;

/// The fields that every HRR mask announces; the last is H32.1.
pub const HRR_ALWAYS: [u32; 18] = [2, 3, 4, 8, 10, 11, 12, 13, 14, 16, 17, 18, 19, 23, 24, 25, 26, 32];

/// Those of H2 to H31 that it may announce or not.
pub const HRR_FREE: [u32; 13] = [5, 6, 7, 9, 15, 20, 21, 22, 27, 28, 29, 30, 31];

/// H32.2 to H32.4, which it may announce or not.
pub const SCATTERER_FREE: [u32; 3] = [33, 34, 35];

/// The numbers of the bits of H1 that announce nothing.
pub const HRR_SPARE: [u32; 6] = [36, 37, 38, 39, 40, 41];

/// The width of Hn, for an n from 2 to 31.
pub fn hrr_width(field: u32) -> usize {
    HRR_WIDTHS.get((field as usize).wrapping_sub(2)).copied().unwrap_or(0)
}

/// Where Hn stands behind H1, of the fields that a mask announces: in a segment's body, or for a mask of all fields in that of a kind 11.
pub fn hrr_place(mask: u64, field: u32) -> usize {
    HRR_MASK + (2..field.min(32)).filter(|before| mask & bit(*before) != 0).map(hrr_width).sum::<usize>()
}

/// The body length of a type that has just one.
pub fn fixed_body(segment_type: u8) -> Option<usize> {
    match segment_type {
        1 => Some(39),
        5 => Some(68),
        10 => Some(14),
        13 => Some(23),
        _ => None,
    }
}
