//! The implementations, and what a run of demand 3 on a packet finds by each.
use testing::library::{Answer, LONGEST_SHEET};
use testing::{by_hand, independent};

/// An implementation: its readings, its lookup of a mode's system and its writer, or another's where it has none.
#[derive(Clone, Copy)]
pub struct Implementation {
    pub name: &'static str,
    pub read: fn(u32, &[u8], &mut [u8]) -> Answer,
    pub mode_system: fn(u32, u8) -> Result<u32, u32>,
    pub write: fn(&[u8], &mut [u8]) -> Answer,
    pub has_writer: bool,
}

pub const INDEPENDENT: Implementation =
    Implementation { name: "independent", read: independent::read, mode_system, write: independent::write, has_writer: true };
pub const VERIFIED: Implementation = Implementation {
    name: "verified",
    read: testing::library::read,
    mode_system: testing::library::mode_system,
    write: testing::library::write,
    has_writer: true,
};
pub const BY_HAND: Implementation = Implementation {
    name: "by hand",
    read: by_hand::read,
    mode_system: by_hand::mode_system,
    write: independent::write,
    has_writer: false,
};

/// The independent implementation's lookup, told as the package tells it.
fn mode_system(edition: u32, mode: u8) -> Result<u32, u32> {
    match independent::mode_system(edition, mode) {
        (0, system) => Ok(system),
        (refusal, _) => Err(refusal),
    }
}

/// `alike` or `new` with the answer of the Edition 1 reading, or the refusal of the Edition 3 reading, or `broken`.
pub fn verdict(by: Implementation, packet: &[u8]) -> String {
    let mut newer_sheet = vec![0; LONGEST_SHEET];
    let mut older_sheet = newer_sheet.clone();
    let newer = (by.read)(3, packet, &mut newer_sheet);
    if !newer.is_accepted() {
        return newer.to_string();
    }
    let older = (by.read)(1, packet, &mut older_sheet);
    if older.number == 15 {
        return format!("new {older}");
    }
    let length = newer.length as usize;
    let mut buffer = vec![0; packet.len()];
    independent::fill_in(&mut older_sheet[..length], &newer_sheet[..length]);
    let written = (by.write)(&older_sheet[..length], &mut buffer);
    if older == newer && written == (Answer { length: packet.len() as u32, ..newer }) && buffer == packet {
        format!("alike {older}")
    } else {
        "broken".to_string()
    }
}
