//! The systems of radar modes, by a table for each edition that stands ready in the program's data.

/// The last mode of each run of modes, and the number of its system: 0 for none.
type Run = (usize, u8);

const EDITION_1: [Run; 16] = [
    (5, 1),
    (10, 0),
    (21, 2),
    (30, 0),
    (38, 3),
    (50, 0),
    (55, 4),
    (60, 0),
    (62, 5),
    (65, 6),
    (83, 0),
    (86, 7),
    (88, 8),
    (90, 0),
    (95, 9),
    (255, 0),
];

const EDITION_3: [Run; 22] = [
    (5, 1),
    (10, 0),
    (21, 2),
    (30, 0),
    (38, 3),
    (50, 0),
    (55, 4),
    (60, 0),
    (62, 5),
    (65, 6),
    (83, 0),
    (86, 7),
    (88, 8),
    (93, 0),
    (97, 9),
    (100, 0),
    (104, 10),
    (110, 0),
    (113, 11),
    (119, 0),
    (123, 12),
    (255, 0),
];

/// The number of each mode's system.
const fn systems<const N: usize>(runs: [Run; N]) -> [u8; 256] {
    let mut systems = [0; 256];
    let (mut mode, mut run) = (0, 0);
    while mode < 256 {
        if mode > runs[run].0 {
            run += 1;
        }
        systems[mode] = runs[run].1;
        mode += 1;
    }
    systems
}

static SYSTEMS_1: [u8; 256] = systems(EDITION_1);
static SYSTEMS_3: [u8; 256] = systems(EDITION_3);

/// Looks a mode up, as [`crate::library::mode_system`] does. Like that one it is called and not put in place, so that the two can be compared.
#[inline(never)]
pub fn mode_system(edition: u32, mode: u8) -> Result<u32, u32> {
    match edition {
        1 => Ok(SYSTEMS_1[usize::from(mode)].into()),
        3 => Ok(SYSTEMS_3[usize::from(mode)].into()),
        _ => Err(23),
    }
}
