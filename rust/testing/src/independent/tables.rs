//! Names, widths, text sets and ranges, in the order of the document.

/// A packet has 32 to 65,536 bytes ("Packet and segments").
pub const PACKET_LEAST: usize = 32;
pub const PACKET_MOST: usize = 65_536;

/// Type (1) and size S2 (4) in front of each segment's body.
pub const SEGMENT_HEADER: usize = 5;

/// The bytes that a text field may hold. Both sets are the standards' own
/// (documents 000 and 003, table A1-1).
#[derive(Clone, Copy)]
pub enum TextSet {
    /// The standards' BCS-A, for every text field but F3: nothing in it breaks a
    /// line of the groups' tables (request A3).
    OneLine,
    /// The standards' BCS, for F3: line feed, form feed and carriage return too.
    ManyLines,
}

impl TextSet {
    pub fn holds(self, byte: u8) -> bool {
        match self {
            TextSet::OneLine => matches!(byte, 0x20..=0x7E),
            TextSet::ManyLines => matches!(byte, 0x20..=0x7E | 0x0A | 0x0C | 0x0D),
        }
    }
}

/// One field: its number, its width in bytes and, where it is text, its set.
pub struct Field {
    pub number: u32,
    pub width: usize,
    pub text: Option<TextSet>,
}

const fn plain(number: u32, width: usize) -> Field {
    Field { number, width, text: None }
}

const fn one_line(number: u32, width: usize) -> Field {
    Field { number, width, text: Some(TextSet::OneLine) }
}

const fn many_lines(number: u32, width: usize) -> Field {
    Field { number, width, text: Some(TextSet::ManyLines) }
}

/// The width of F3, which takes whatever the body has left.
pub const THE_REST: usize = usize::MAX;

/// P1 to P10.
pub const HEADER: [Field; 10] = [
    plain(1, 2),
    plain(2, 4),
    one_line(3, 2),
    plain(4, 1),
    one_line(5, 2),
    plain(6, 2),
    plain(7, 1),
    one_line(8, 10),
    plain(9, 4),
    plain(10, 4),
];

/// M1 to M7.
pub const MISSION: [Field; 7] = [one_line(1, 12), one_line(2, 12), plain(3, 1), one_line(4, 10), plain(5, 2), plain(6, 1), plain(7, 1)];

/// J1 to J28.
pub const JOB: [Field; 28] = [
    plain(1, 4),
    plain(2, 1),
    one_line(3, 6),
    plain(4, 1),
    plain(5, 1),
    plain(6, 4),
    plain(7, 4),
    plain(8, 4),
    plain(9, 4),
    plain(10, 4),
    plain(11, 4),
    plain(12, 4),
    plain(13, 4),
    plain(14, 1),
    plain(15, 2),
    plain(16, 2),
    plain(17, 2),
    plain(18, 2),
    plain(19, 1),
    plain(20, 2),
    plain(21, 2),
    plain(22, 2),
    plain(23, 2),
    plain(24, 1),
    plain(25, 1),
    plain(26, 1),
    plain(27, 1),
    plain(28, 1),
];

/// F1 to F3.
pub const FREE_TEXT: [Field; 3] = [one_line(1, 10), one_line(2, 10), many_lines(3, THE_REST)];

/// Widths of D2 to D31 ("Dwell and mask").
pub const DWELL_FIELDS: [usize; 30] = [
    2, 2, 1, 2, // D2 to D5
    4, 4, 4, 4, // D6 to D9
    4, 4, 4, 4, // D10 to D13
    2, 2, 4, 1, // D14 to D17
    1, 2, 2, // D18 to D20
    2, 2, 2, // D21 to D23
    4, 4, // D24, D25
    2, 2, 2, 2, 2, // D26 to D30
    1, // D31
];

/// Widths of D32.1 to D32.18.
pub const TARGET_FIELDS: [usize; 18] = [2, 4, 4, 2, 2, 2, 2, 2, 1, 1, 1, 2, 2, 1, 2, 1, 4, 1];

/// Widths of H2 to H31, from the column "Bytes" of document 003's table 2-5.
///
/// Rows that the scan has spoilt: H9 runs its columns together, "1 I8" among them.
/// H19 is printed twice, with 2 both times. H23 is printed twice, with 4 and with
/// 1: its form is E8, "the size of the enumeration table in number of bits"
/// (annex B, 6.8), and its values end at 255, so it is 1.
pub const HRR_FIELDS: [usize; 30] = [
    2, 2, 1, 2, // H2 to H5
    2, 2, 2, // H6 to H8
    1, 1, // H9, H10
    2, 2, 4, 4, 4, // H11 to H15
    1, 1, 1, // H16 to H18
    2, 1, 2, 4, // H19 to H22
    1, 1, 1, 1, // H23 to H26
    1, 4, 1, // H27 to H29
    4, 4, // H30, H31
];

/// The width of H32.3 and of H32.4. The column "Bytes" of table 2-5.1 says 1, while
/// the columns beside it say I16 and 0 to 65535. Request A4 asks for the table's
/// widths, and the column of widths is "Bytes".
pub const INDEX_BYTES: usize = 1;

/// The mask H1, 5 bytes in front of H2.
pub const HRR_MASK: usize = 5;

/// The mask D1, 8 bytes in front of D2.
pub const MASK: usize = 8;

/// S2 of a dwell is never under this: header, mask and the fields every dwell has.
pub const DWELL_LEAST: usize = 48;

/// The numbers of segment types that have a body of their own form.
pub mod segment_type {
    pub const MISSION: u8 = 1;
    pub const DWELL: u8 = 2;
    pub const HRR: u8 = 3;
    pub const JOB: u8 = 5;
    pub const FREE_TEXT: u8 = 6;
    pub const TEST: u8 = 10;
    pub const LOCATION: u8 = 13;
}

/// The types listed under "Packet and segments"; no other type is known.
pub fn is_known_type(segment_type: u8) -> bool {
    matches!(segment_type, 1 | 2 | 3 | 5 | 6 | 10 | 13) || is_opaque_type(segment_type)
}

/// The types that are opaque in either version. Type 3 is so in version 1 alone
/// (request A4).
fn is_opaque_type(segment_type: u8) -> bool {
    matches!(segment_type, 4 | 7 | 8 | 9 | 11 | 12 | 101 | 102)
}

/// Widths of the bodies that have one length, and of the parts of free text.
pub const MISSION_BODY: usize = total(&MISSION);
pub const JOB_BODY: usize = total(&JOB);
pub const TEST_BODY: usize = 14;
pub const LOCATION_BODY: usize = 23;
pub const FREE_TEXT_FIXED: usize = place(&FREE_TEXT, 3);

/// Values of J14 that Edition 3 gives otherwise than Edition 1's table 2-7.2
/// ("Edition 1 reading of a version 3 packet").
pub fn is_new_radar_mode(mode: u8) -> bool {
    matches!(mode, 91..=93 | 96 | 97 | 101..=104 | 111..=113 | 120..=123)
}

/// The kinds of the sheet's records ("The sheet", request A4).
pub mod kind {
    pub const HEADER: u8 = 1;
    pub const MISSION: u8 = 2;
    pub const DWELL: u8 = 3;
    pub const TARGET: u8 = 4;
    pub const TEXT: u8 = 5;
    pub const PIECE: u8 = 6;
    pub const OPAQUE: u8 = 7;
    pub const JOB: u8 = 8;
    pub const TEST: u8 = 9;
    pub const LOCATION: u8 = 10;
    pub const HRR: u8 = 11;
    pub const SCATTERER: u8 = 12;
}

/// Lengths of the records' bodies, without the byte of kind.
pub const HEADER_RECORD: usize = total(&HEADER);
pub const MISSION_RECORD: usize = MISSION_BODY;
pub const DWELL_RECORD: usize = MASK + sum(&DWELL_FIELDS) + 1;
pub const TARGET_RECORD: usize = sum(&TARGET_FIELDS) + 4 + 4;
pub const TEXT_RECORD: usize = FREE_TEXT_FIXED + 4;
pub const PIECE_RECORD: usize = 1 + PIECE_BYTES;
pub const OPAQUE_RECORD: usize = 1 + 4;
pub const JOB_RECORD: usize = JOB_BODY + 1;
pub const TEST_RECORD: usize = TEST_BODY;
pub const LOCATION_RECORD: usize = LOCATION_BODY;
pub const HRR_RECORD: usize = HRR_MASK + sum(&HRR_FIELDS);
pub const SCATTERER_RECORD: usize = 4 * SCATTERER_VALUE;

/// The bytes that each of a scatterer's four values has on the sheet.
pub const SCATTERER_VALUE: usize = 2;

/// The most bytes that one piece carries.
pub const PIECE_BYTES: usize = 32;

/// The length of a record's body, or nothing for an unknown kind.
pub fn record_length(kind: u8) -> Option<usize> {
    match kind {
        kind::HEADER => Some(HEADER_RECORD),
        kind::MISSION => Some(MISSION_RECORD),
        kind::DWELL => Some(DWELL_RECORD),
        kind::TARGET => Some(TARGET_RECORD),
        kind::TEXT => Some(TEXT_RECORD),
        kind::PIECE => Some(PIECE_RECORD),
        kind::OPAQUE => Some(OPAQUE_RECORD),
        kind::JOB => Some(JOB_RECORD),
        kind::TEST => Some(TEST_RECORD),
        kind::LOCATION => Some(LOCATION_RECORD),
        kind::HRR => Some(HRR_RECORD),
        kind::SCATTERER => Some(SCATTERER_RECORD),
        _ => None,
    }
}

/// Places inside bodies: J14 and J26 in a job definition (segment and record
/// alike), D5 and D27 in a dwell record.
pub const J14_PLACE: usize = place(&JOB, 14);
pub const J26_PLACE: usize = place(&JOB, 26);
pub const D5_PLACE: usize = MASK + sum_before(&DWELL_FIELDS, 5 - 2);
pub const D27_PLACE: usize = MASK + sum_before(&DWELL_FIELDS, 27 - 2);
pub const D27_WIDTH: usize = DWELL_FIELDS[27 - 2];

// The totals that the document states, held against the widths above.
const _: () = assert!(HEADER_RECORD == 32 && PACKET_LEAST == HEADER_RECORD);
const _: () = assert!(MISSION_RECORD == 39 && JOB_BODY == 68 && JOB_RECORD == 69);
const _: () = assert!(DWELL_RECORD == 87 && TARGET_RECORD == 44);
const _: () = assert!(TEXT_RECORD == 24 && PIECE_RECORD == 33 && OPAQUE_RECORD == 5);
const _: () = assert!(SCATTERER_RECORD == 8);

/// The sum of the widths of a table.
const fn total(fields: &[Field]) -> usize {
    let mut sum = 0;
    let mut index = 0;
    while index < fields.len() {
        sum += fields[index].width;
        index += 1;
    }
    sum
}

/// The bytes in front of the field `number`, in a table that starts at 1.
const fn place(fields: &[Field], number: u32) -> usize {
    let mut sum = 0;
    let mut index = 0;
    while fields[index].number < number {
        sum += fields[index].width;
        index += 1;
    }
    sum
}

const fn sum(widths: &[usize]) -> usize {
    sum_before(widths, widths.len())
}

const fn sum_before(widths: &[usize], end: usize) -> usize {
    let mut sum = 0;
    let mut index = 0;
    while index < end {
        sum += widths[index];
        index += 1;
    }
    sum
}
