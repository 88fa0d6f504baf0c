//! Packets and sheets cut short at every byte.
mod common;

use common::held;
use testing::comparison::Comparison;
use testing::generator::records::sheet_of;
use testing::generator::{damage, valid, Random};
use testing::library::Answer;

/// Every truncation of a packet, with P2 left and with P2 patched.
#[test]
fn packets() {
    let mut comparison = Comparison::new(301);
    for index in 0..250 {
        let packet = valid::packet(&mut Random::of_case(301, index)).bytes();
        comparison.begin("truncated packet", index);
        for length in 0..packet.len() {
            for is_patched in [false, true] {
                let cut = damage::truncated(&packet, length, is_patched);
                for edition in [1, 3] {
                    let answer = held(comparison.reading(edition, &cut));
                    let due = if length < 32 { 2 } else { 4 };
                    assert!(length >= 32 && is_patched || answer == Answer::refused(due, 0, 0), "{answer}");
                }
            }
        }
    }
    let tally = comparison.tally;
    assert!([2, 4, 6, 8, 16].iter().all(|row| tally.older[*row] > 0 && tally.newer[*row] > 0), "{tally}");
    assert!(tally.newer[0] > 100, "a packet cut between segments is whole\n{tally}");
}

/// Every truncation of a segment, with S2 and P2 patched to it.
#[test]
fn segments() {
    let mut comparison = Comparison::new(302);
    for index in 0..250 {
        let random = &mut Random::of_case(302, index);
        let mut packet = valid::packet(random);
        let Some(mut last) = packet.segments.pop() else { continue };
        comparison.begin("truncated segment", index);
        while last.body.pop().is_some() {
            packet.segments.push(last.clone());
            let bytes = packet.bytes();
            packet.segments.pop();
            held(comparison.reading(1, &bytes));
            held(comparison.reading(3, &bytes));
        }
    }
    let tally = comparison.tally;
    assert!([9, 12].iter().all(|row| tally.older[*row] > 0 && tally.newer[*row] > 0), "{tally}");
    assert!(tally.newer[22] > 0, "{tally}");
}

/// Every truncation of a sheet, P2 as it was.
#[test]
fn sheets() {
    let mut comparison = Comparison::new(303);
    for index in 0..250 {
        let packet = valid::packet(&mut Random::of_case(303, index)).bytes();
        let sheet = sheet_of(3, &packet).expect("the packet is valid");
        comparison.begin("truncated sheet", index);
        for length in 0..sheet.len() {
            let answer = held(comparison.write(&sheet[..length], packet.len()));
            assert!(!answer.is_accepted());
        }
    }
    assert_eq!(comparison.tally.rows_written(), [17, 18, 19], "{}", comparison.tally);
}
