//! How long a sheet can get: whoever lends as many bytes as `sheet_bound` says is never refused with 16, and there are packets whose sheet
//! falls 542 bytes short of it.
mod common;

use common::held;
use testing::comparison::Comparison;
use testing::generator::faults::Fault;
use testing::generator::records::sheet_of;
use testing::generator::spelling::Packet;
use testing::generator::tables::{bit, mask_of, HRR_ALWAYS, MOST_DWELLS, MOST_TARGETS};
use testing::generator::{aimed, damage, hrr, valid, Random};
use testing::independent;
use testing::library::{sheet_bound, Answer, LONGEST_PACKET, LONGEST_SHEET};

/// 33 + 45 × (n − 32) / 4, rounded down, and 0 for what is no length of a packet. No number of this is too long for 128 bits.
fn formula(n: usize) -> u128 {
    let n = n as u128;
    if !(32..=65_536).contains(&n) {
        return 0;
    }
    33 + 45 * (n - 32) / 4
}

fn assert_bound(n: usize) {
    assert_eq!(sheet_bound(n) as u128, formula(n), "{n}");
    assert_eq!(independent::sheet_bound(n) as u128, formula(n), "{n}");
}

#[test]
fn every_length_of_a_packet() {
    (0..=70_000).for_each(assert_bound);
    assert_eq!(sheet_bound(LONGEST_PACKET), LONGEST_SHEET);
}

/// Lengths that would come out small if 45 × (n − 32) were cut to 64 bits, or n to 32 or 16; and those near the end of all numbers.
#[test]
fn other_lengths() {
    let round = (0..45u128).map(|times| ((times << 64).div_ceil(45)) as usize);
    let powers = (16..64).map(|power| 1usize << power);
    for middle in round.chain(powers).chain([usize::MAX]) {
        (0..200).for_each(|more| assert_bound(middle.wrapping_sub(100).wrapping_add(more)));
    }
}

/// Lent just the bound, the answer to a packet is not 16. Accepted, its sheet is no longer, and just as long only without segments.
fn assert_enough(comparison: &mut Comparison, packet: &[u8]) {
    let bound = sheet_bound(packet.len());
    for edition in [1, 3] {
        let answer = held(comparison.read(edition, packet, bound));
        assert_ne!(answer.number, 16, "edition {edition}, packet {packet:02x?}");
        if answer.is_accepted() {
            assert!(answer.length as usize <= bound, "edition {edition}, packet {packet:02x?}");
            assert_eq!(answer.length as usize == bound, answer.segments == 0, "edition {edition}, packet {packet:02x?}");
        }
    }
}

#[test]
fn enough_for_valid_packets() {
    let mut comparison = Comparison::new(701);
    for index in 0..10_000 {
        comparison.begin("valid packet", index);
        assert_enough(&mut comparison, &valid::packet(&mut Random::of_case(701, index)).bytes());
    }
    let tally = comparison.tally;
    assert!(tally.older[0] > 1000 && tally.newer[0] == 10_000, "{tally}");
}

#[test]
fn enough_for_packets_with_faults() {
    let mut comparison = Comparison::new(702);
    let mut index = 0;
    for fault in Fault::all() {
        for _ in 0..50 {
            index += 1;
            comparison.begin("packet with one fault", index);
            let aimed = aimed::one(&mut Random::of_case(702, index), fault).expect("every fault can stand alone");
            assert_enough(&mut comparison, &aimed.bytes);
        }
    }
    let tally = comparison.tally;
    assert!((2..=15).all(|row| tally.older[row] > 0 && (tally.newer[row] > 0 || row == 15)), "{tally}");
    assert!(tally.newer[21] > 0 && tally.newer[22] > 0, "{tally}");
}

#[test]
fn enough_for_damaged_packets() {
    let mut comparison = Comparison::new(703);
    for index in 0..20_000 {
        let random = &mut Random::of_case(703, index);
        let packet = valid::packet(random).bytes();
        comparison.begin("damaged packet", index);
        assert_enough(&mut comparison, &damage::packet(random, &packet));
    }
    let tally = comparison.tally;
    assert!(tally.newer[0] > 1000 && tally.newer[1..].iter().sum::<u64>() > 1000, "{tally}");
}

#[test]
fn enough_for_full_packets() {
    let mut comparison = Comparison::new(704);
    comparison.begin("full packet", 0);
    let pairs: Vec<u32> = (0..MOST_DWELLS).collect();
    let dwells = valid::packet_by_pairs(&mut Random::new(704), &pairs).bytes();
    let targets = valid::longest(MOST_TARGETS).bytes();
    let mut long = valid::longest(MOST_TARGETS);
    long.rest = vec![0];
    for packet in [dwells, targets, long.bytes()] {
        assert_enough(&mut comparison, &packet);
    }
    assert_eq!((comparison.tally.newer[0], comparison.tally.newer[2]), (2, 1), "{}", comparison.tally);
}

/// Full of HRR segments: of as many scatterers as fit in one, each of one byte, and of as many segments without scatterers as fit. The
/// first makes 9 bytes of sheet out of a byte, the most of all but targets.
#[test]
fn enough_for_full_packets_of_hrr_segments() {
    let mut comparison = Comparison::new(708);
    let random = &mut Random::new(708);
    let least = mask_of(&HRR_ALWAYS);
    let room = LONGEST_PACKET - 32;
    let scatterers = hrr::with_widths(random, least | bit(6), (1, 0), room - 41).segment();
    let empty = hrr::with(random, least, 0).segment();
    for (index, segments) in [vec![scatterers], vec![empty; room / 39]].into_iter().enumerate() {
        comparison.begin("full packet", index as u64);
        let packet = Packet::new(valid::header(random, 3), segments).bytes();
        assert!(packet.len() > LONGEST_PACKET - 39);
        assert_enough(&mut comparison, &packet);
    }
    assert_eq!((comparison.tally.newer[0], comparison.tally.older[15]), (2, 2), "{}", comparison.tally);
}

/// The bound cannot be lower: a packet without segments has a sheet just as long.
#[test]
fn reached_without_segments() {
    let mut comparison = Comparison::new(705);
    comparison.begin("header alone", 0);
    for version in [1, 3] {
        let packet = Packet::new(valid::header(&mut Random::new(705), version), vec![]).bytes();
        let due = Answer::accepted(0, 0, 0, sheet_bound(packet.len()) as u32);
        assert_eq!(held(comparison.packet(&packet)), (due, due));
    }
}

/// A packet of k targets by deltas falls 542 bytes short of the bound, in either reading, and the writer gives it back.
fn assert_falls_short(comparison: &mut Comparison, k: u32) {
    let packet = valid::longest(k).bytes();
    assert!(packet == independent::longest_packet(k as usize), "{k}");
    assert_eq!(packet.len(), 88 + 4 * k as usize);
    let due = Answer::accepted(1, 1, k, sheet_bound(packet.len()) as u32 - 542);
    assert_eq!(held(comparison.packet(&packet)), (due, due), "{k}");
    let sheet = sheet_of(3, &packet).expect("the packet is valid");
    assert_eq!(held(comparison.write(&sheet, packet.len())), Answer { length: packet.len() as u32, ..due }, "{k}");
}

#[test]
fn longest_packets_fall_short() {
    let mut comparison = Comparison::new(706);
    for k in [1, 2, 3, 100, 1453, 1454, MOST_TARGETS] {
        comparison.begin("longest packet", k.into());
        assert_falls_short(&mut comparison, k);
    }
}

/// One target more makes the packet too long.
#[test]
fn one_target_too_many() {
    let mut comparison = Comparison::new(707);
    comparison.begin("longest packet", 0);
    let refused = Answer::refused(2, 0, 0);
    assert_eq!(held(comparison.packet(&valid::longest(MOST_TARGETS + 1).bytes())), (refused, refused));
}
