//! Rows 1 to 5: the call and the header. Rows 6 to 9: the heads and the sizes of segments.
use crate::parts::{dwell, header, job, location, mission, packet, raw, segment, test, text, Part};
use crate::trials::{Lend, Trials};

pub fn call(t: &mut Trials) {
    let bare = packet(3, &[]);
    for edition in [0, 2, 4, u32::MAX] {
        t.read_to(&format!("call reading {edition}"), edition, bare.clone(), "no 1 0 0", Lend::Bytes(36));
    }
    t.read("call before length", 2, vec![], "no 1 0 0");
    t.read("call before segment", 31, packet(3, &[raw(&[1])]), "no 1 0 0");

    let short = header(3).with(2, 31).packet(&[])[..31].to_vec();
    t.read("length 0", 3, vec![], "no 2 0 0");
    t.read("length 1", 1, b"3".to_vec(), "no 2 0 0");
    t.read_to("length 31", 3, short.clone(), "no 2 0 0", Lend::Bytes(40));
    t.read("length before P1", 3, [b"99", &short[2..]].concat(), "no 2 0 0");
    for version in [1, 3] {
        t.both(&format!("bare header version {version}"), &packet(version, &[]), "ok 0 0 0 33");
    }
    t.read_to("bare header exact", 3, bare.clone(), "ok 0 0 0 33", Lend::Exact);
    t.read_to("bare header short", 3, bare.clone(), "no 16 0 0", Lend::Short);
    t.read_to("bare header nothing lent", 1, bare, "no 16 0 0", Lend::Bytes(0));
}

pub fn versions(t: &mut Trials) {
    for first in [b'0', b'2', b'4', 0, 1, 0xB3] {
        t.read(&format!("P1 first {first:02x}"), 3, header(3).with(1, &[first, b'0']).packet(&[]), "no 3 0 0");
    }
    for second in [b'/', b':', b' ', 0, 0xB0] {
        t.read(&format!("P1 second {second:02x}"), 3, header(3).with(1, &[b'3', second]).packet(&[]), "no 3 0 0");
    }
    for (name, edition, p1, want) in [
        ("P1 version 1 second 3a", 1, b"1:", "no 3 0 0"),
        ("P1 digit before version", 1, b"03", "no 3 0 0"),
        ("P1 39", 3, b"39", "ok 0 0 0 33"),
        ("P1 19", 1, b"19", "ok 0 0 0 33"),
    ] {
        t.read(name, edition, header(3).with(1, p1).packet(&[]), want);
    }
}

pub fn packet_sizes(t: &mut Trials) {
    let sized = |size: i64| header(3).with(2, size).packet(&[]);
    t.read_to("P2 one less", 3, sized(31), "no 4 0 0", Lend::Bytes(36));
    t.read("P2 one more", 3, sized(33), "no 4 0 0");
    t.read("P2 zero", 3, sized(0), "no 4 0 0");
    t.read("P2 low byte only", 3, sized(0x0100_0020), "no 4 0 0");
    t.read("P2 low half only", 3, sized(0x0001_0020), "no 4 0 0");
    t.read("P2 backwards", 1, header(1).with(2, 0x2000_0000).packet(&[]), "no 4 0 0");
    t.read("P2 without segments", 3, header(3).with(2, 32).packet(&[test()]), "no 4 0 0");
    let mut cut = packet(3, &[mission()]);
    cut.pop();
    t.read("P2 cut short", 3, cut, "no 4 0 0");
}

pub fn header_texts(t: &mut Trials) {
    for (name, header, field) in [
        ("P3 first 1f", header(3).with(3, b"\x1FR"), 3),
        ("P3 second 7f", header(3).with(3, b"F\x7F"), 3),
        ("P5 first 00", header(3).with(5, b"\0N"), 5),
        ("P5 second ff", header(3).with(5, b"X\xFF"), 5),
        ("P8 first 09", header(3).with(8, b"\tTATION 07"), 8),
        ("P8 last 0e", header(3).with(8, b"STATION 0\x0E"), 8),
        ("P8 middle 0b", header(3).with(8, b"STA\x0BION 07"), 8),
        ("P8 middle 80", header(3).with(8, b"STA\x80ION 07"), 8),
        ("P3 and P8", header(3).with(3, b"\0R").with(8, b"\0TATION 07"), 3),
        ("P5 and P8", header(3).with(5, b"X\0").with(8, b"STATION 0\0"), 5),
    ] {
        let lend = if field == 8 { Lend::Bytes(36) } else { Lend::Usual };
        t.read_to(&format!("text {name}"), 3, header.packet(&[]), &format!("no 5 0 {field}"), lend);
    }
    t.read("text P3 old reading", 1, header(3).with(3, b"\0R").packet(&[]), "no 5 0 3");
    let ends = header(3).with(3, b"\n\x0C").with(5, b"\r ").with(8, b"~ \n\x0C\r!}AZ0");
    t.read("text line ends in P3", 3, ends.packet(&[]), "no 5 0 3");
    let ones = header(3).with(4, 255).with(6, 0xFFFF).with(7, 255).with(9, 0xFFFF_FFFF).with(10, 0xFFFF_FFFF);
    t.read("header numbers unchecked", 3, ones.packet(&[]), "ok 0 0 0 33");
    let zeros = header(1).with(4, 0).with(6, 0).with(7, 0).with(9, 0).with(10, 0);
    t.read("header numbers zero", 1, zeros.packet(&[]), "ok 0 0 0 33");
    let p2_and_text = header(3).with(2, 99).with(3, b"\0\0");
    t.read("P1 before P2", 3, p2_and_text.clone().with(1, b"20").packet(&[]), "no 3 0 0");
    t.read("P2 before text", 3, p2_and_text.packet(&[]), "no 4 0 0");
    t.read("text before segment", 3, header(3).with(8, &[0; 10]).packet(&[raw(&[0])]), "no 5 0 8");
}

pub fn types(t: &mut Trials) {
    for left in 1..=4 {
        t.read(&format!("left {left}"), 3, packet(3, &[raw(&[7, 0, 0, 0, 5][..left])]), "no 6 1 0");
        t.read(&format!("left {left} behind a segment"), 1, packet(3, &[test(), raw(&[255; 4][..left])]), "no 6 2 0");
    }
    for unknown in [0, 14, 100, 103, 127, 128, 255] {
        t.read(&format!("type {unknown}"), 3, packet(3, &[segment(unknown, &[])]), "no 7 1 0");
    }
    t.read("type before S2", 3, packet(3, &[segment(14, &[]).claiming(0)]), "no 7 1 0");
    t.read("type unknown second", 1, packet(1, &[location(), segment(99, b"abc")]), "no 7 2 0");
}

pub fn claimed_sizes(t: &mut Trials) {
    let abc = |s2: u32| packet(3, &[segment(7, b"abc").claiming(s2)]);
    for s2 in [0, 1, 4] {
        t.read(&format!("S2 {s2}"), 3, abc(s2), "no 8 1 0");
    }
    for segment_type in [1, 2, 5, 6, 10, 13, 102] {
        let part = segment(segment_type, &[0; 80]).claiming(4);
        t.read(&format!("S2 4 of type {segment_type}"), 3, packet(3, &[part]), "no 8 1 0");
    }
    t.read("S2 5 empty", 3, packet(3, &[segment(7, &[])]), "ok 1 0 0 39");
    t.read("S2 past the end by 1", 3, abc(9), "no 8 1 0");
    t.read("S2 empty past the end by 1", 3, packet(3, &[segment(7, &[]).claiming(6)]), "no 8 1 0");
    t.read("S2 as long as the packet", 3, abc(40), "no 8 1 0");
    for s2 in [0xFFFF_FFFF, 0x8000_0000, 0x0100_0008, 0xFFFF_FFE0, 0xFFFF_FFE8] {
        t.read(&format!("S2 {s2:x}"), 3, abc(s2), "no 8 1 0");
    }
    t.read("S2 ffffffff second", 3, packet(3, &[test(), test().claiming(u32::MAX)]), "no 8 2 0");
    t.read("S2 one less leaves one", 3, abc(7), "no 6 2 0");
    let inner = [b"abc", &segment(8, b"d").bytes()[..]].concat();
    t.read("S2 less makes a segment", 3, packet(3, &[segment(7, &inner).claiming(8)]), "ok 2 0 0 113");
}

pub fn sizes(t: &mut Trials) {
    for (made, sheet) in [(mission as fn() -> Part, 73), (job, 103), (test, 48), (location, 57)] {
        let good = made().bytes().len();
        let name = format!("size of type {}", made().segment_type);
        t.read(&name, 3, packet(3, &[made()]), &format!("ok 1 0 0 {sheet}"));
        t.read(&format!("{name} one less"), 3, packet(3, &[made().sized(good - 1)]), "no 9 1 0");
        t.read(&format!("{name} one more"), 1, packet(1, &[made().sized(good + 1)]), "no 9 1 0");
        t.read(&format!("{name} second and one more"), 3, packet(3, &[made(), made().sized(good + 1)]), "no 9 2 0");
        t.read(&format!("{name} empty"), 3, packet(3, &[made().sized(5)]), "no 9 1 0");
    }
    for (name, part, want) in [
        ("6 24", text(b"").sized(24), "no 9 1 0"),
        ("6 5", text(b"").sized(5), "no 9 1 0"),
        ("6 25", text(b""), "ok 1 0 0 58"),
        ("2 12", dwell("").sized(12), "no 9 1 0"),
        ("2 5", dwell("").sized(5), "no 9 1 0"),
        ("2 12 before mask", segment(2, &[0; 7]), "no 9 1 0"),
        ("2 13 zero mask", segment(2, &[0; 8]), "no 11 1 2"),
        ("2 13 good mask", dwell("").sized(13), "no 12 1 0"),
    ] {
        t.read(&format!("size of type {name}"), 3, packet(3, &[part]), want);
    }
}
