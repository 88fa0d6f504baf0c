//! Which system a radar mode belongs to (request A6), from table 2-7.2 "Radar
//! Modes" of documents 000 and 003.
//!
//! The numbers of the systems are worked out from the two tables.

/// Document 01's list of the modes that are new in Edition 3, the one the reader has.
pub use super::tables::is_new_radar_mode as is_new_mode;

/// Values of J14 that are printed one after the other with one system: the first,
/// the last, and what the column "System" says.
type Run = (u8, u8, &'static str);

/// What the column says where a value is given to no system. Some of these values
/// have a mode with a name: 81 to 83 and 100, in both tables.
const RESERVED: &str = "Reserved";

/// Document 000's table, in ascending value: each of its two parts is folded into
/// halves. "Générique" and "Réservé" are spelt as in document 003.
const EDITION_1: [Run; 16] = [
    (0, 5, "Generic"),
    (6, 10, "Reserved"),
    (11, 21, "Joint STARS"),
    (22, 30, "Reserved"),
    (31, 38, "ASARS-AIP"),
    (39, 50, "Reserved"),
    (51, 55, "ASARS-2"),
    (56, 60, "Reserved"),
    (61, 62, "TUAV"),
    (63, 65, "ARL-M"),
    (66, 83, "Reserved"),
    (84, 86, "HORIZON"),
    (87, 88, "CRESO"),
    (89, 90, "Reserved"),
    (91, 95, "ASTOR"),
    (96, 255, "Reserved"),
];

/// Document 003's table, in ascending value: it is folded into halves, 0 to 53 and
/// 54 to 255.
const EDITION_3: [Run; 22] = [
    (0, 5, "Generic"),
    (6, 10, "Reserved"),
    (11, 21, "Joint STARS"),
    (22, 30, "Reserved"),
    (31, 38, "ASARS-AIP"),
    (39, 50, "Reserved"),
    (51, 55, "ASARS-2"),
    (56, 60, "Reserved"),
    (61, 62, "TUAV"),
    (63, 65, "ARL-M"),
    (66, 83, "Reserved"),
    (84, 86, "HORIZON"),
    (87, 88, "CRESO"),
    (89, 93, "Reserved"),
    (94, 97, "ASTOR"),
    (98, 100, "Reserved"),
    (101, 104, "Lynx I/II"),
    (105, 110, "Reserved"),
    (111, 113, "Global Hawk"),
    (114, 119, "Reserved"),
    (120, 123, "VADER"),
    (124, 255, "Reserved"),
];

/// The number of the refusal, 0 for none, and the number of the system that the
/// edition's table gives this mode to, 0 for none.
///
/// The one refusal is 23, of an edition that is neither 1 nor 3.
pub fn mode_system(edition: u32, mode: u8) -> (u32, u32) {
    match edition {
        1 => (0, system_of(&EDITION_1, mode)),
        3 => (0, system_of(&EDITION_3, mode)),
        _ => (23, 0),
    }
}

/// The name of the system with this number, as document 003 spells it. Nothing for
/// a number that no system has, 0 among them.
pub fn system_name(system: u32) -> Option<&'static str> {
    let index = system.checked_sub(1)?;
    systems().get(index as usize).copied()
}

/// The number of the system that the table gives this mode to, 0 for none.
fn system_of(table: &[Run], mode: u8) -> u32 {
    let run = table.iter().find(|(first, last, _)| (*first..=*last).contains(&mode));
    let index = run.and_then(|(_, _, name)| systems().iter().position(|system| system == name));
    index.map_or(0, |index| index as u32 + 1)
}

/// The systems in the order of their numbers, that of number 1 first: "in the order
/// in which systems first occur in Edition 3's table and then in Edition 1's".
fn systems() -> Vec<&'static str> {
    let mut systems = Vec::new();
    for (_, _, name) in EDITION_3.iter().chain(&EDITION_1) {
        if *name != RESERVED && !systems.contains(name) {
            systems.push(*name);
        }
    }
    systems
}

#[cfg(test)]
mod tests {
    use super::{is_new_mode, mode_system, system_name, systems, Run, EDITION_1, EDITION_3, RESERVED};

    /// The systems in the order of their numbers, each with the number of values
    /// that Edition 1's and that Edition 3's table has a line for.
    const SYSTEMS: [(&str, usize, usize); 12] = [
        ("Generic", 6, 6),
        ("Joint STARS", 11, 11),
        ("ASARS-AIP", 8, 8),
        ("ASARS-2", 5, 5),
        ("TUAV", 2, 2),
        ("ARL-M", 3, 3),
        ("HORIZON", 3, 3),
        ("CRESO", 2, 2),
        ("ASTOR", 5, 4),
        ("Lynx I/II", 0, 4),
        ("Global Hawk", 0, 3),
        ("VADER", 0, 4),
    ];

    /// What the lookup says of a mode, by name; holds that it is no refusal.
    fn name_of(edition: u32, mode: u8) -> &'static str {
        let (number, system) = mode_system(edition, mode);
        assert_eq!(number, 0);
        match system {
            0 => RESERVED,
            _ => system_name(system).unwrap(),
        }
    }

    /// Holds that the runs follow one another from 0 to 255, with no gap and no
    /// value twice, and that no two neighbours are one run.
    fn assert_whole(table: &[Run]) {
        let values: Vec<u8> = table.iter().flat_map(|(first, last, _)| *first..=*last).collect();
        assert_eq!(values, Vec::from_iter(0..=255));
        assert!(table.iter().all(|(first, last, _)| first <= last));
        assert!(table.windows(2).all(|pair| pair[0].2 != pair[1].2));
    }

    #[test]
    fn tables_are_whole() {
        assert_whole(&EDITION_1);
        assert_whole(&EDITION_3);
    }

    #[test]
    fn names_in_order() {
        assert_eq!(systems(), SYSTEMS.map(|(name, _, _)| name));
        for (number, (name, _, _)) in (1..).zip(SYSTEMS) {
            assert_eq!(system_name(number), Some(name));
        }
        for no_system in [0, 13, 14, 255, 256, 257, 65_537, u32::MAX] {
            assert_eq!(system_name(no_system), None);
        }
    }

    /// Every value has the system of its run.
    #[test]
    fn lookup_goes_by_the_tables() {
        for (edition, table) in [(1, &EDITION_1[..]), (3, &EDITION_3[..])] {
            for (first, last, name) in table {
                for mode in *first..=*last {
                    assert_eq!(name_of(edition, mode), *name);
                }
            }
        }
    }

    #[test]
    fn other_editions_are_refused() {
        for edition in [0, 2, 4, 5, 255, 256, 257, 259, 65_537, 65_539, u32::MAX - 2, u32::MAX] {
            for mode in 0..=255 {
                assert_eq!(mode_system(edition, mode), (23, 0));
            }
        }
    }

    /// Mode, what Edition 1's table gives it to, and what Edition 3's does.
    #[test]
    fn worked_values() {
        let worked = [
            (0, "Generic", "Generic"),
            (5, "Generic", "Generic"),
            (6, "Reserved", "Reserved"),
            (10, "Reserved", "Reserved"),
            (11, "Joint STARS", "Joint STARS"),
            (21, "Joint STARS", "Joint STARS"),
            (22, "Reserved", "Reserved"),
            (30, "Reserved", "Reserved"),
            (31, "ASARS-AIP", "ASARS-AIP"),
            (38, "ASARS-AIP", "ASARS-AIP"),
            (39, "Reserved", "Reserved"),
            (51, "ASARS-2", "ASARS-2"),
            (55, "ASARS-2", "ASARS-2"),
            (60, "Reserved", "Reserved"),
            (61, "TUAV", "TUAV"),
            (62, "TUAV", "TUAV"),
            (63, "ARL-M", "ARL-M"),
            (65, "ARL-M", "ARL-M"),
            // Modes with a name but no system.
            (81, "Reserved", "Reserved"),
            (83, "Reserved", "Reserved"),
            (84, "HORIZON", "HORIZON"),
            (86, "HORIZON", "HORIZON"),
            (87, "CRESO", "CRESO"),
            (88, "CRESO", "CRESO"),
            (90, "Reserved", "Reserved"),
            (91, "ASTOR", "Reserved"),
            (93, "ASTOR", "Reserved"),
            (94, "ASTOR", "ASTOR"),
            (95, "ASTOR", "ASTOR"),
            (96, "Reserved", "ASTOR"),
            (97, "Reserved", "ASTOR"),
            (98, "Reserved", "Reserved"),
            (100, "Reserved", "Reserved"),
            (101, "Reserved", "Lynx I/II"),
            (104, "Reserved", "Lynx I/II"),
            (105, "Reserved", "Reserved"),
            (111, "Reserved", "Global Hawk"),
            (113, "Reserved", "Global Hawk"),
            (119, "Reserved", "Reserved"),
            (120, "Reserved", "VADER"),
            (123, "Reserved", "VADER"),
            (124, "Reserved", "Reserved"),
            (255, "Reserved", "Reserved"),
        ];
        for (mode, older, newer) in worked {
            assert_eq!((name_of(1, mode), name_of(3, mode)), (older, newer), "{mode}");
        }
        assert_eq!(mode_system(1, 0), (0, 1));
        assert_eq!(mode_system(3, 55), (0, 4));
        assert_eq!(mode_system(1, 91), (0, 9));
        assert_eq!(mode_system(3, 91), (0, 0));
        assert_eq!(mode_system(1, 123), (0, 0));
        assert_eq!(mode_system(3, 123), (0, 12));
    }

    #[test]
    fn as_many_values_as_lines() {
        for (name, older, newer) in SYSTEMS {
            let values = |edition| (0..=255).filter(|mode| name_of(edition, *mode) == name).count();
            assert_eq!((values(1), values(3)), (older, newer), "{name}");
        }
    }

    /// Every mode outside document 01's list has the same number in both tables,
    /// and every mode in it has two different ones.
    #[test]
    fn new_modes_are_those_given_otherwise() {
        for mode in 0..=255 {
            assert_eq!(is_new_mode(mode), mode_system(1, mode) != mode_system(3, mode), "{mode}");
        }
        let new: Vec<u8> = (0..=255).filter(|mode| is_new_mode(*mode)).collect();
        assert_eq!(new, [91, 92, 93, 96, 97, 101, 102, 103, 104, 111, 112, 113, 120, 121, 122, 123]);
    }
}
