//! The table of refusals, which docs/MANUAL.md has too; a test holds the one to the other.

/// A row of the table of refusals.
#[derive(Clone, Copy, Debug, PartialEq, Eq)]
pub struct Row {
    /// The number that a refusal has.
    pub number: u32,
    /// When it is given.
    pub when: &'static str,
    /// What to do about it.
    pub remedy: &'static str,
}

macro_rules! rows {
    ($($number:literal $when:literal $remedy:literal;)*) => {
        &[$(Row { number: $number, when: $when, remedy: $remedy }),*]
    };
}

/// Every row, in the order of the numbers.
pub(super) const ROWS: &[Row; 23] = rows! {
    1 "The edition asked for is neither 1 nor 3."
        "Ask for 1 or 3.";
    2 "The packet is shorter than 32 bytes or longer than 65,536."
        "This is not one packet. Split the recording by P2; a short run at its end is a packet cut off.";
    3 "P1 is not the character 1 or 3 and a digit."
        "2 and a digit is Edition 2, which is not covered. Anything else is no header: look at the P2 of the packet before.";
    4 "P2 is not the packet's length."
        "The packet was cut, or two were joined: split the recording by P2.";
    5 "A text field of the header holds a character outside 0x20 to 0x7E."
        "The header is damaged, or the station fills with zero bytes, ends a name with a line feed or writes accented letters. Report it to the station.";
    6 "1 to 4 bytes are left behind the last segment."
        "Padding, or the S2 before is wrong. Report it to the station.";
    7 "The segment's type is not known: 0, 14 to 100, 103 to 255."
        "A private extension (Edition 3 sets 128 to 255 aside for these), or the S2 before is wrong.";
    8 "S2 is under 5 or past the packet's end."
        "The packet is damaged. Get it again from the station.";
    9 "S2 does not fit the type: 44 for 1, 73 for 5, 19 for 10, 28 for 13, at least 25 for 6, 13 for 2 and, in version 3, 10 for 3."
        "The station fills the segment otherwise than the standard, or the packet is damaged.";
    10 "A text field of a segment holds a character outside 0x20 to 0x7E. F3 may hold line feeds, form feeds and carriage returns too."
        "The segment is damaged, or the station fills with zero bytes, ends a name with a line feed or writes accented letters. Report it to the station.";
    11 "The mask of a dwell is not allowed."
        "Report it to the station: no position of this dwell can be relied on.";
    12 "S2 of a dwell is under 48, or is not what its mask and D5 call for."
        "The mask and the bytes disagree, so every field may be shifted. Do not mend it by hand.";
    13 "A value is out of range: M6 not 1 to 12, M7 not 1 to 31; D4 above 1, D5 above 0 with no position announced; of a target D32.6 under -1000, D32.11 above 100, D32.15 above 5000."
        "The value is damaged, or fields are shifted. Do not use the rest of the packet.";
    14 "A target's latitude is beyond a pole."
        "D10, D24 or D32.4 is damaged, or fields are shifted. Do not use the rest of the packet.";
    15 "Edition 1 reading of a version 3 packet that holds something new in Edition 3: an HRR segment (type 3); some but not all of D28 to D30; D32.18; one of the listed values of J14."
        "Read it as Edition 3.";
    16 "The sheet does not fit the lent bytes."
        "Lend as many as gmti::sheet_bound, from C gmti_sheet_bound, gives for the packet's length.";
    17 "The sheet is empty, has a kind that is not 1 to 12, ends within a record, or kind 1 is not its first record and only that."
        "Hand in just the answered length of the sheet, not the whole buffer.";
    18 "A dwell, text, opaque or HRR record is not followed by just the targets, pieces or scatterers that it calls for, or one of these stands elsewhere."
        "D5, the lengths and, by the mask, H6 or H7 and H8 must agree with the records behind them.";
    19 "No packet reads to this sheet, or its packet would be longer than 65,536 bytes."
        "Hand in a sheet of the Edition 3 reading. Where a field of it was changed, all that goes by that field has to be changed too.";
    20 "The packet does not fit the lent bytes."
        "Lend 65,536 bytes, which is enough for any packet.";
    21 "The mask of an HRR segment is not allowed: it lacks the magnitude or a mandatory field, or sets one of its last six bits."
        "The station fills the segment otherwise than the standard, or the packet is damaged. Report it to the station: no value of this segment can be relied on.";
    22 "In an HRR segment H25 is not 1 or 2, H26 is above 2, or S2 is not what its mask, widths and counts call for."
        "Mask, counts and bytes disagree, so every value may be shifted. Do not mend it by hand.";
    23 "A radar mode is looked up in an edition that is neither 1 nor 3."
        "Ask for 1 or 3.";
};
