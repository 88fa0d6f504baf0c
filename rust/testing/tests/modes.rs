//! The systems of radar modes: the library's lookup is the independent implementation's, and it differs between the editions just where the
//! Edition 1 reading refuses a mode as new.
mod common;

use common::held;
use std::collections::BTreeSet;
use testing::comparison::Comparison;
use testing::generator::spelling::Packet;
use testing::generator::{valid, Random};
use testing::independent;
use testing::library::{mode_system, Answer};

/// Small ones, those beside the powers of two, and the last. Among them are such as would be 1 or 3 if they were cut to fewer bits.
fn editions() -> BTreeSet<u32> {
    let beside = (0..32).map(|k| 1 << k).flat_map(|power: u32| [power - 1, power, power + 1, power + 3]);
    beside.chain(0..=300).chain(u32::MAX - 4..=u32::MAX).collect()
}

/// The independent implementation's number and system as the package tells them: the system of a refusal, which is 0, is left out.
fn due(edition: u32, mode: u8) -> Result<u32, u32> {
    match independent::mode_system(edition, mode) {
        (0, system) => Ok(system),
        (refusal, system) => {
            assert_eq!(system, 0);
            Err(refusal)
        }
    }
}

#[test]
fn every_mode_of_many_editions() {
    for edition in editions() {
        for mode in 0..=255 {
            assert_eq!(mode_system(edition, mode), due(edition, mode), "edition {edition}, mode {mode}");
        }
    }
}

/// Editions 1 and 3 are never refused, and all others are, with 23.
#[test]
fn other_editions_are_refused() {
    for edition in editions() {
        let refused = (0..=255).filter(|mode| mode_system(edition, *mode) == Err(23)).count();
        let answered = (0..=255).filter(|mode| mode_system(edition, *mode).is_ok()).count();
        assert_eq!((refused, answered), if [1, 3].contains(&edition) { (0, 256) } else { (256, 0) }, "edition {edition}");
    }
}

/// The numbers go up to the twelfth system in Edition 3's table and to the ninth in Edition 1's, with none left out.
#[test]
fn every_system_has_a_mode() {
    for (edition, last) in [(1, 9), (3, 12)] {
        let found: BTreeSet<u32> = (0..=255).filter_map(|mode| mode_system(edition, mode).ok()).collect();
        assert_eq!(found, (0..=last).collect(), "edition {edition}");
        assert!(found.iter().all(|system| independent::system_name(*system).is_some() == (*system > 0)), "edition {edition}");
    }
}

/// A job definition of version 3 is refused by the Edition 1 reading, with J14 named, just where the two tables differ for its mode.
#[test]
fn modes_that_differ_are_those_refused_as_new() {
    let mut comparison = Comparison::new(1001);
    let random = &mut Random::new(1001);
    let mut refused = 0;
    for mode in 0..=255 {
        comparison.begin("J14", mode.into());
        let packet = Packet::new(valid::header(random, 3), vec![valid::job_with(random, mode)]).bytes();
        let (older, newer) = held(comparison.packet(&packet));
        assert!(newer.is_accepted(), "{newer} for J14 {mode}");
        if mode_system(1, mode) == mode_system(3, mode) {
            assert_eq!(older, newer, "J14 {mode}");
        } else {
            assert_eq!(older, Answer::refused(15, 1, 14), "J14 {mode}");
            refused += 1;
        }
    }
    assert_eq!(refused, 16);
}
