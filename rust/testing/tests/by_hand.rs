//! The reader written by hand against the verified one. The other tests compare it too; here it is asked without the independent
//! implementation.
use testing::by_hand;
use testing::generator::faults::Fault;
use testing::generator::{aimed, damage, valid, Random};
use testing::library::Answer;

/// The verified reader's answer for this packet and this lent length; the other gives it too, and leaves the same sheet.
fn compare(edition: u32, packet: &[u8], lent: usize) -> Answer {
    let (mut ours, mut theirs) = (vec![0xA5; lent], vec![0xA5; lent]);
    let verified = testing::library::read(edition, packet, &mut ours);
    let answer = by_hand::read(edition, packet, &mut theirs);
    assert_eq!(answer, verified, "edition {edition}, {lent} bytes lent, packet {packet:02x?}");
    assert!(ours == theirs, "sheets differ: edition {edition}, {lent} bytes lent, packet {packet:02x?}");
    verified
}

fn compare_both(packet: &[u8]) -> [Answer; 2] {
    [1, 3].map(|edition| {
        let answer = compare(edition, packet, testing::library::sheet_bound(packet.len()));
        let length = answer.length as usize;
        compare(edition, packet, length);
        compare(edition, packet, length.saturating_sub(1));
        answer
    })
}

#[test]
fn valid_packets() {
    let mut accepted = 0;
    for index in 0..10_000 {
        let packet = valid::packet(&mut Random::of_case(501, index)).bytes();
        let [older, newer] = compare_both(&packet);
        assert!(newer.is_accepted());
        accepted += u32::from(older.is_accepted());
    }
    assert!(accepted > 1000);
}

#[test]
fn packets_with_faults() {
    for (number, fault) in Fault::all().into_iter().enumerate() {
        for index in 0..50 {
            let aimed = aimed::one(&mut Random::of_case(502 + number as u64, index), fault).expect("every fault can stand alone");
            let [older, newer] = compare_both(&aimed.bytes);
            let numbers = |due: Option<aimed::Refusal>| due.unwrap_or_default();
            assert_eq!((older.number, older.segment, older.field), numbers(aimed.older));
            assert_eq!((newer.number, newer.segment, newer.field), numbers(aimed.newer));
        }
    }
}

#[test]
fn damaged_packets() {
    for index in 0..20_000 {
        let random = &mut Random::of_case(503, index);
        let packet = valid::packet(random).bytes();
        compare_both(&damage::packet(random, &packet));
    }
}

#[test]
fn other_editions() {
    for edition in [0, 2, 4, 5, u32::MAX] {
        assert_eq!(compare(edition, &[], 0), Answer::refused(1, 0, 0));
        let packet = valid::packet(&mut Random::new(504)).bytes();
        assert_eq!(compare(edition, &packet, 1000), Answer::refused(1, 0, 0));
    }
}

#[test]
fn every_mode_of_some_editions() {
    for edition in [0, 1, 2, 3, 4, 257, 259, u32::MAX] {
        for mode in 0..=255 {
            assert_eq!(by_hand::mode_system(edition, mode), testing::library::mode_system(edition, mode), "edition {edition}, mode {mode}");
        }
    }
}
