//! The verified library's functions as C has them: any edition can be asked for, and an answer is document 01's seven numbers. The package
//! `gmti` has what users call; the tests call these, and hold the package to them.
use std::fmt;

pub use gmti::{sheet_bound, LONGEST_PACKET, LONGEST_SHEET};

extern "C" {
    fn gmti_read(edition: u32, packet: *const u8, packet_len: usize, sheet: *mut u8, sheet_len: usize, answer: *mut Answer);
    fn gmti_write(sheet: *const u8, sheet_len: usize, packet: *mut u8, packet_len: usize, answer: *mut Answer);
    fn gmti_mode_system(edition: u32, mode: u8, system: *mut u32) -> u32;
}

/// Reads a packet as this edition onto the lent sheet.
pub fn read(edition: u32, packet: &[u8], sheet: &mut [u8]) -> Answer {
    let mut answer = Answer::default();
    // The library reads packet.len() bytes, writes at most sheet.len() bytes and the seven numbers of the answer, and keeps no pointer.
    unsafe { gmti_read(edition, packet.as_ptr(), packet.len(), sheet.as_mut_ptr(), sheet.len(), &mut answer) };
    answer
}

/// Writes a sheet back onto the lent packet.
pub fn write(sheet: &[u8], packet: &mut [u8]) -> Answer {
    let mut answer = Answer::default();
    // As above, with the sheet read and the packet written.
    unsafe { gmti_write(sheet.as_ptr(), sheet.len(), packet.as_mut_ptr(), packet.len(), &mut answer) };
    answer
}

/// The number of the system that has a mode in this edition's table, or the number of the refusal.
pub fn mode_system(edition: u32, mode: u8) -> Result<u32, u32> {
    let mut system = 0;
    // The library writes the one number, and keeps no pointer.
    match unsafe { gmti_mode_system(edition, mode, &mut system) } {
        0 => Ok(system),
        refusal => Err(refusal),
    }
}

/// Number, segment and field of a refusal, or the counts and the length of an acceptance; the others are 0. The library writes the seven
/// numbers in this order, so the layout is C's.
#[repr(C)]
#[derive(Clone, Copy, Debug, Default, PartialEq, Eq)]
pub struct Answer {
    /// The number of the first row of the table of refusals that applies, or 0.
    pub number: u32,
    /// The segment that it applies to, from 1; 0 for the call, the header, the end and the writer.
    pub segment: u32,
    /// The field that the row names, or 0.
    pub field: u32,
    /// How many segments the packet has.
    pub segments: u32,
    /// How many dwells: different pairs of D2 and D3 in the segments of type 2, so that a dwell split over several counts once.
    pub dwells: u32,
    /// How many targets the segments of type 2 have together.
    pub targets: u32,
    /// The length of the sheet; from the writer, of the packet.
    pub length: u32,
}

impl Answer {
    /// A refusal.
    pub fn refused(number: u32, segment: u32, field: u32) -> Answer {
        Answer { number, segment, field, ..Answer::default() }
    }

    /// An acceptance.
    pub fn accepted(segments: u32, dwells: u32, targets: u32, length: u32) -> Answer {
        Answer { segments, dwells, targets, length, ..Answer::default() }
    }

    /// Whether no row applied.
    pub fn is_accepted(&self) -> bool {
        self.number == 0
    }
}

/// `ok` segments dwells targets length, or `no` number segment field, as the programs print it.
impl fmt::Display for Answer {
    fn fmt(&self, f: &mut fmt::Formatter<'_>) -> fmt::Result {
        if self.is_accepted() {
            write!(f, "ok {} {} {} {}", self.segments, self.dwells, self.targets, self.length)
        } else {
            write!(f, "no {} {} {}", self.number, self.segment, self.field)
        }
    }
}
