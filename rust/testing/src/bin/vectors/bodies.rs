//! Row 10: text. Pieces, opaque bodies, and values of missions.
use crate::parts::{dwell, job, location, mission, packet, segment, test, text};
use crate::trials::{Lend, Trials};
use std::slice::from_ref;

pub fn mission_texts(t: &mut Trials) {
    for (name, part, field) in [
        ("M1 first", mission().with(1, b"\0CE WATCH 04"), 1),
        ("M1 last", mission().with(1, b"ICE WATCH 0\x7F"), 1),
        ("M2 first", mission().with(2, b"\x1FLAN 2009-11"), 2),
        ("M2 last", mission().with(2, b"PLAN 2009-1\x80"), 2),
        ("M4 first", mission().with(4, b"\x0EORTH COVE"), 4),
        ("M4 last", mission().with(4, b"NORTH COV\xFF"), 4),
        ("M2 and M4", mission().with(2, &[0; 12]).with(4, &[0; 10]), 2),
        ("M4 before M6", mission().with(4, &[9; 10]).with(6, 0), 4),
    ] {
        t.read(&format!("text {name}"), 3, packet(3, &[part]), &format!("no 10 1 {field}"));
    }
    t.read("text M1 second segment", 3, packet(3, &[dwell(""), mission().with(1, &[0xE9; 12])]), "no 10 2 1");
    let numbers = mission().with(3, 255).with(5, 0xFFFF);
    t.read("mission numbers unchecked", 3, packet(3, from_ref(&numbers)), "ok 1 0 0 73");
    let ends = numbers.with(1, b"\n\x0C\r ~ABCDEFG").with(4, &[b' '; 10]);
    t.read("text line ends in M1", 1, packet(1, &[ends]), "no 10 1 1");
}

pub fn other_texts(t: &mut Trials) {
    t.read("text J3 first", 3, packet(3, &[job().with(3, b"\x0BADAR9")]), "no 10 1 3");
    t.read("text J3 last", 1, packet(1, &[job().with(3, b"RADAR\0")]), "no 10 1 3");
    t.read("text line ends in J3", 3, packet(3, &[job().with(3, b"\n\x0C\r ~0")]), "no 10 1 3");
    let zeros = [&[0; 5][..], b"      ", &[0; 57]].concat();
    t.read("job numbers zero", 3, packet(3, &[segment(5, &zeros)]), "ok 1 0 0 103");
    let ones = [&[255; 5][..], b"~~~~~~", &[255; 57]].concat();
    t.read("job numbers all ones", 3, packet(3, &[segment(5, &ones)]), "ok 1 0 0 103");
    for (name, part, field) in [
        ("F1 first", text(b"abc").with(1, b"\0IRST-NAME"), 1),
        ("F1 last", text(b"abc").with(1, b"FIRST-NAM\x7F"), 1),
        ("F2 first", text(b"abc").with(2, b"\x1FECONDNAME"), 2),
        ("F2 last", text(b"").with(2, b"SECONDNAM\x1B"), 2),
        ("F3 first", text(b"\0bc"), 3),
        ("F3 last", text(&[&[b'x'; 64][..], b"\x80"].concat()), 3),
        ("F3 33rd", text(&[&[b'x'; 32][..], b"\txxxxx"].concat()), 3),
        ("F3 only", text(b"\x7F"), 3),
        ("F2 and F3", text(b"\0").with(2, &[0; 10]), 2),
        ("F1 and F3", text(b"\0").with(1, &[0; 10]), 1),
    ] {
        t.read(&format!("text {name}"), 3, packet(3, &[part]), &format!("no 10 1 {field}"));
    }
    t.read("text F3 second segment", 3, packet(3, &[text(b"fine\n"), text(b"not\x08")]), "no 10 2 3");
    let unchecked = packet(3, &[segment(12, &[0; 5]), test(), location()]);
    t.read("text opaque and test unchecked", 3, unchecked, "ok 3 0 0 112");
}

/// Signs of text that differ from their neighbours.
pub fn words(size: usize) -> Vec<u8> {
    (0..size).map(|k| 0x20 + (k % 95) as u8).collect()
}

/// Bytes that differ from their neighbours.
pub fn octets(size: usize) -> Vec<u8> {
    (0..size).map(|k| ((7 * k + 3) % 256) as u8).collect()
}

/// The opaque types. The first is so in version 1 alone.
pub const OPAQUE: [u8; 9] = [3, 4, 7, 8, 9, 11, 12, 101, 102];

pub fn pieces(t: &mut Trials) {
    let sizes = [0, 1, 31, 32, 33, 64, 65];
    for size in sizes {
        let pieces = 34 * usize::div_ceil(size, 32);
        let lend = if size == 32 { Lend::Exact } else { Lend::Usual };
        let packet_ = packet(3, &[text(&words(size))]);
        t.read_to(&format!("text piece {size}"), 3, packet_, &format!("ok 1 0 0 {}", 58 + pieces), lend);
        let lend = if size == 33 { Lend::Exact } else { Lend::Usual };
        let packet_ = packet(3, &[segment(7, &octets(size))]);
        t.read_to(&format!("opaque piece {size}"), 1, packet_, &format!("ok 1 0 0 {}", 39 + pieces), lend);
    }
    let total: usize = sizes.iter().map(|size| 34 * size.div_ceil(32)).sum();
    let texts = sizes.map(|size| text(&words(size)));
    t.read("text pieces", 3, packet(3, &texts), &format!("ok 7 0 0 {}", 33 + 7 * 25 + total));
    let bodies = sizes.map(|size| segment(7, &octets(size)));
    t.read("opaque pieces", 1, packet(3, &bodies), &format!("ok 7 0 0 {}", 33 + 7 * 6 + total));
    t.read_to("opaque piece 32 short", 3, packet(3, &[segment(8, &[0; 32])]), "no 16 0 0", Lend::Short);
    t.read_to("text piece 33 short", 3, packet(3, &[text(&[b'x'; 33])]), "no 16 0 0", Lend::Short);
    t.read("text piece line ends", 3, packet(3, &[text(b"a\r\nb\x0Cc\n")]), "ok 1 0 0 92");
}

pub fn opaque_types(t: &mut Trials) {
    let bodies = OPAQUE.map(|segment_type| segment(segment_type, &[0, 255, 128]));
    t.read("opaque types", 3, packet(3, &bodies[1..]), "ok 8 0 0 353");
    let older: Vec<_> = OPAQUE[1..].iter().map(|segment_type| segment(*segment_type, &[1])).collect();
    t.read_to("opaque types old reading", 1, packet(3, &older), "ok 8 0 0 353", Lend::Exact);
    for edition in [1, 3] {
        t.read(&format!("opaque types version 1 reading {edition}"), edition, packet(1, &bodies), "ok 9 0 0 393");
    }
}

pub fn dates(t: &mut Trials) {
    let dated = |month: i64, day: i64| mission().with(6, month).with(7, day);
    for (month, day, field) in [(0, 1, 6), (13, 1, 6), (255, 1, 6), (1, 0, 7), (1, 32, 7), (12, 255, 7), (0, 0, 6), (13, 32, 6)] {
        t.read(&format!("month {month} day {day}"), 3, packet(3, &[dated(month, day)]), &format!("no 13 1 {field}"));
    }
    t.read("months and days", 3, packet(3, &[dated(1, 1), dated(12, 31), dated(2, 31)]), "ok 3 0 0 153");
}
