//! A reader written by hand for speed, in plain safe Rust: what the verified reader is measured against.
//!
//! It does the whole work of document 01 and of the requests: every row of both readings, the counts and the sheet. It walks over the
//! segments twice: the first walk tries every row and writes nothing, so that a refusal leaves the sheet as it was; the second sets the
//! records out. Only dwells that are out of order take a further walk, to be counted. For targets it has a loop of its own, with all places
//! constant, for each of the masks that are met most, and shifts bytes within words for the others; for scatterers it has a loop for each
//! way in which their fields can be wide. Beside it stands the lookup of a radar mode's system.
mod check;
mod dwells;
mod fill;
mod hrr;
mod mask;
mod modes;
mod position;
mod spread;
mod targets;
mod text;

use crate::library::Answer;
pub use modes::mode_system;

/// What bears on the rows and on the sheet, of the edition that is read as and of the packet's version.
#[derive(Clone, Copy)]
struct Reading {
    /// The packet is of version 1.
    version_1: bool,
    /// An Edition 1 reading of a version 3 packet: what is new is refused with 15, D27 and J26 are withheld.
    withholds: bool,
}

/// The number of a row and the field that it names.
type Fault = (u32, u32);

/// The bytes of a packet's header.
const HEADER: usize = 32;

/// Reads a packet of any bytes as Edition 1 or 3, as [`crate::library::read`] does.
pub fn read(edition: u32, packet: &[u8], sheet: &mut [u8]) -> Answer {
    if edition != 1 && edition != 3 {
        return Answer::refused(1, 0, 0);
    }
    let version = match check::header(packet) {
        Ok(version) => version,
        Err((number, field)) => return Answer::refused(number, 0, field),
    };
    let reading = Reading { version_1: version == b'1', withholds: edition == 1 && version == b'3' };
    let answer = check::segments(reading, packet);
    if !answer.is_accepted() {
        return answer;
    }
    match sheet.get_mut(..answer.length as usize) {
        Some(sheet) => {
            fill::sheet(reading, packet, sheet);
            answer
        }
        None => Answer::refused(16, 0, 0),
    }
}

/// The N bytes at a place.
#[inline(always)]
fn bytes<const N: usize>(from: &[u8], at: usize) -> [u8; N] {
    from[at..at + N].try_into().expect("N bytes")
}
