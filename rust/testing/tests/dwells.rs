//! How many dwells are counted: as many as there are different pairs of D2 and D3 in the packet. A pair is one number here, with D2 in its
//! high half and D3 in its low half.
mod common;

use common::held;
use std::collections::BTreeSet;
use testing::comparison::Comparison;
use testing::generator::records::sheet_of;
use testing::generator::tables::MOST_DWELLS;
use testing::generator::{valid, Random};
use testing::library::Answer;

/// A packet of dwells without targets that have these pairs.
fn packet_of(pairs: &[u32]) -> Vec<u8> {
    valid::packet_by_pairs(&mut Random::new(601), pairs).bytes()
}

/// Both readings of the packet, and the writer on its sheet, count so many dwells; segments and the sheet go by all of them.
fn assert_counted(name: &str, pairs: impl Iterator<Item = u32>, dwells: u32) {
    let pairs: Vec<u32> = pairs.collect();
    let packet = packet_of(&pairs);
    let segments = pairs.len() as u32;
    let due = Answer::accepted(segments, dwells, 0, 33 + 88 * segments);
    let mut comparison = Comparison::new(601);
    comparison.begin("many dwells", 0);
    assert_eq!(held(comparison.packet(&packet)), (due, due), "{name}");
    let sheet = sheet_of(3, &packet).expect("the packet is valid");
    let written = held(comparison.write(&sheet, packet.len()));
    assert_eq!(written, Answer { length: packet.len() as u32, ..due }, "{name}");
}

#[test]
fn full_packets_in_order() {
    assert_counted("rising", 0..MOST_DWELLS, MOST_DWELLS);
    assert_counted("rising in D2 alone", (0..MOST_DWELLS).map(|n| n << 16 | 9), MOST_DWELLS);
    assert_counted("rising up to the highest", (0..MOST_DWELLS).map(|n| u32::MAX - MOST_DWELLS + 1 + n), MOST_DWELLS);
    assert_counted("falling", (0..MOST_DWELLS).rev(), MOST_DWELLS);
    assert_counted("falling in D2 alone", (0..MOST_DWELLS).rev().map(|n| n << 16 | 9), MOST_DWELLS);
    assert_counted("falling from the highest", (0..MOST_DWELLS).map(|n| u32::MAX - n), MOST_DWELLS);
}

#[test]
fn full_packets_with_repeats() {
    let half = MOST_DWELLS / 2;
    assert_counted("all alike", (0..MOST_DWELLS).map(|_| 7), 1);
    assert_counted("all the lowest", (0..MOST_DWELLS).map(|_| 0), 1);
    assert_counted("all the highest", (0..MOST_DWELLS).map(|_| u32::MAX), 1);
    assert_counted("each twice, side by side", (0..MOST_DWELLS).map(|n| n / 2), half);
    assert_counted("each twice, half a packet apart", (0..MOST_DWELLS).map(|n| n % half), half);
    assert_counted("each twice, up and down again", (0..half).chain((0..half).rev()), half);
    assert_counted("two by turns", (0..MOST_DWELLS).map(|n| n % 2), 2);
    assert_counted("three by turns, falling", (0..MOST_DWELLS).map(|n| 2 - n % 3), 3);
    assert_counted("the first again at the end", (0..MOST_DWELLS - 1).chain([0]), MOST_DWELLS - 1);
    assert_counted("a further one below at the end", (1..MOST_DWELLS).chain([0]), MOST_DWELLS);
    assert_counted("halves swapped by turns", (0..MOST_DWELLS).map(|n| if n % 2 == 0 { 1 << 16 | 2 } else { 2 << 16 | 1 }), 2);
}

/// One dwell more makes the packet too long, whatever its pairs.
#[test]
fn one_dwell_too_many() {
    let mut comparison = Comparison::new(602);
    comparison.begin("many dwells", 0);
    let packet = packet_of(&vec![7; MOST_DWELLS as usize + 1]);
    let refused = Answer::refused(2, 0, 0);
    assert_eq!(held(comparison.packet(&packet)), (refused, refused));
}

/// Every run of up to five of four pairs that share halves, bytes or their sum.
#[test]
fn every_short_run() {
    let four = [1 << 16 | 2, 2 << 16 | 1, 258, 2];
    let mut comparison = Comparison::new(603);
    let mut runs: Vec<Vec<u32>> = vec![Vec::new()];
    for index in 0..5 {
        comparison.begin("few dwells", index);
        runs = runs.iter().flat_map(|run| four.map(|pair| [&run[..], &[pair]].concat())).collect();
        for run in &runs {
            let different: BTreeSet<&u32> = run.iter().collect();
            let segments = run.len() as u32;
            let due = Answer::accepted(segments, different.len() as u32, 0, 33 + 88 * segments);
            let packet = packet_of(run);
            for edition in [1, 3] {
                assert_eq!(held(comparison.read(edition, &packet, due.length as usize)), due, "{run:x?}");
            }
            let sheet = sheet_of(3, &packet).expect("the packet is valid");
            let written = held(comparison.write(&sheet, packet.len()));
            assert_eq!(written, Answer { length: packet.len() as u32, ..due }, "{run:x?}");
        }
    }
}
