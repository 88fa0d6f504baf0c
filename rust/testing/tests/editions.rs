//! Demand 3: the Edition 1 reading of version 3 packets, against the Edition 3 reading and against what the packets hold.
mod common;

use common::held;
use std::collections::BTreeSet;
use testing::cases;
use testing::comparison::{withheld, Comparison};
use testing::generator::records::sheet_of;
use testing::generator::spelling::{Packet, Segment};
use testing::generator::tables::{bit, mask_of, ALWAYS, ANGLES, LAST_FIELD, NEW_MODES};
use testing::generator::valid::{self, Style};
use testing::generator::{hrr, Random};
use testing::independent;
use testing::library::Answer;

/// Demand 3 is compared with every version 3 packet that is accepted; here both of its cases and every field are seen.
#[test]
fn version_3_packets() {
    let mut comparison = Comparison::new(401);
    let mut named = BTreeSet::new();
    let mut alike = 0;
    for index in 0..20_000 {
        let random = &mut Random::of_case(401, index);
        let style = Style { version: 3, new: random.chance(50) };
        let count = random.below(8);
        let packet = valid::packet_in(random, style, count).bytes();
        comparison.begin("version 3 packet", index);
        held(cases::accepted(&mut comparison, &packet));
        match independent::first_new(&packet) {
            Some((_, field)) => drop(named.insert(field)),
            None => alike += 1,
        }
    }
    assert_eq!(named, BTreeSet::from([0, 14, 28, 29, 30, 49]));
    assert!(alike > 1000 && comparison.tally.older[15] > 1000, "{}", comparison.tally);
}

/// Version 1 packets hold nothing new, whatever they hold.
#[test]
fn version_1_packets() {
    let mut comparison = Comparison::new(402);
    for index in 0..6_000 {
        let random = &mut Random::of_case(402, index);
        let count = random.below(8);
        let packet = valid::packet_in(random, Style { version: 1, new: true }, count).bytes();
        comparison.begin("version 1 packet", index);
        held(cases::accepted(&mut comparison, &packet));
        assert_eq!(independent::first_new(&packet), None);
    }
    assert_eq!(comparison.tally.older[15], 0, "{}", comparison.tally);
}

/// Reads a packet of these segments as Edition 1, behind valid segments, and compares.
fn older(comparison: &mut Comparison, random: &mut Random, version: u8, segment: Segment) -> (Answer, u32) {
    let style = Style { version, new: false };
    let mut segments: Vec<Segment> = (0..random.below(4)).map(|_| valid::segment(random, style)).collect();
    segments.push(segment);
    let number = segments.len() as u32;
    let packet = Packet::new(valid::header(random, version), segments).bytes();
    (held(comparison.packet(&packet)).0, number)
}

/// Every J14 in both versions: 15 for just the sixteen that are new.
#[test]
fn every_radar_mode() {
    let mut comparison = Comparison::new(403);
    let random = &mut Random::new(403);
    comparison.begin("J14", 0);
    let mut refused = 0;
    for mode in 0..=255 {
        for version in [1, 3] {
            let job = valid::job_with(random, mode);
            let (answer, number) = older(&mut comparison, random, version, job);
            if version == 3 && NEW_MODES.contains(&mode) {
                assert_eq!(answer, Answer::refused(15, number, 14), "J14 {mode}");
                refused += 1;
            } else {
                assert!(answer.is_accepted(), "{answer} for J14 {mode} in version {version}");
            }
        }
    }
    assert_eq!(refused, 16);
}

/// Every choice of D28 to D30 and D32.18, with targets and without: the earlier in document 01's list is named.
#[test]
fn every_choice_in_a_mask() {
    let mut comparison = Comparison::new(404);
    let random = &mut Random::new(404);
    comparison.begin("masks", 0);
    for choice in 0..16u32 {
        for pair in [0, mask_of(&[33, 34]), mask_of(&[10, 11, 35, 36])] {
            let mut mask = mask_of(&ALWAYS) | pair;
            for (place, field) in ANGLES.into_iter().chain([LAST_FIELD]).enumerate() {
                mask |= if choice >> place & 1 == 1 { bit(field) } else { 0 };
            }
            let unset: Vec<u32> = ANGLES.into_iter().filter(|field| mask & bit(*field) == 0).collect();
            let due = match unset.len() {
                1 | 2 => Some(unset[0]),
                _ => (mask & bit(LAST_FIELD) != 0).then_some(LAST_FIELD),
            };
            let dwell = valid::dwell_with(random, mask, if pair == 0 { 0 } else { 3 }).segment();
            let (answer, number) = older(&mut comparison, random, 3, dwell.clone());
            match due {
                Some(field) => assert_eq!(answer, Answer::refused(15, number, field)),
                None => assert!(answer.is_accepted()),
            }
            let (answer, number) = older(&mut comparison, random, 1, dwell);
            match due {
                Some(field) => assert_eq!(answer, Answer::refused(11, number, field)),
                None => assert!(answer.is_accepted()),
            }
        }
    }
}

/// Two new things in two segments: the first segment's is named.
#[test]
fn first_of_two_new_things() {
    let mut comparison = Comparison::new(405);
    let style = Style { version: 3, new: false };
    let least = mask_of(&ALWAYS);
    for index in 0..400 {
        let random = &mut Random::of_case(405, index);
        let new = |random: &mut Random, choice: u64| match choice {
            0 => (hrr::any(random).segment(), 0),
            1 => (valid::dwell_with(random, least | bit(28), 0).segment(), 29),
            2 => (valid::dwell_with(random, least | bit(LAST_FIELD), 0).segment(), 49),
            _ => (valid::job_with(random, 97), 14),
        };
        let (first, field) = new(random, index % 4);
        let (second, _) = new(random, index / 4 % 4);
        let segments = vec![valid::segment(random, style), first, valid::segment(random, style), second];
        let packet = Packet::new(valid::header(random, 3), segments).bytes();
        comparison.begin("two new things", index);
        let (older, newer) = held(comparison.packet(&packet));
        assert_eq!((older, newer.is_accepted()), (Answer::refused(15, 2, field), true));
    }
}

/// An HRR segment is new in version 3, whatever its fields hold, and opaque in version 1 under both readings.
#[test]
fn hrr_segments_of_both_versions() {
    let mut comparison = Comparison::new(407);
    for index in 0..500 {
        let random = &mut Random::of_case(407, index);
        let segment = hrr::any(random).segment();
        let length = segment.body.len();
        comparison.begin("HRR segment", index);
        let (answer, number) = older(&mut comparison, random, 3, segment.clone());
        assert_eq!(answer, Answer::refused(15, number, 0));
        let packet = Packet::new(valid::header(random, 1), vec![segment]).bytes();
        let kept = Answer::accepted(1, 0, 0, 33 + 6 + 34 * length.div_ceil(32) as u32);
        assert_eq!(held(comparison.packet(&packet)), (kept, kept));
    }
}

/// D27 and J26 of any value are withheld with their marks; nothing else is. A withheld sheet is not written.
#[test]
fn withheld_fields() {
    let mut comparison = Comparison::new(406);
    let random = &mut Random::new(406);
    comparison.begin("withheld", 0);
    for value in (0..=255u32).chain((0..256).map(|high| high << 8)).chain([0x1234, 0xFFFF]) {
        let mut dwell = valid::dwell_with(random, mask_of(&ALWAYS) | mask_of(&ANGLES), 0);
        dwell.values[27] = value;
        let mut job = valid::job_with(random, 1);
        job.body[65] = value as u8;
        let segments = vec![dwell.segment(), job];
        let packet = Packet::new(valid::header(random, 3), segments).bytes();
        held(cases::accepted(&mut comparison, &packet));
        let (older, newer) = (sheet_of(1, &packet).unwrap_or_default(), sheet_of(3, &packet).unwrap_or_default());
        assert_eq!(older, withheld(&newer));
        assert_eq!((older[33 + 87], older[121 + 69], newer[33 + 87], newer[121 + 69]), (0, 0, 1, 1));
        assert_eq!(held(comparison.sheet(&older)), Answer::refused(19, 0, 0));
    }
}
