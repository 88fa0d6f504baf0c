//! Sheets that are written back, and row 20.
use crate::bodies::{octets, words, OPAQUE};
use crate::dwells::{beside_others, by_pairs, Counted};
use crate::parts::{absolute, dwell, every_kind, job, location, mission, packet, segment, test, text, trial, trial_dwell};
use crate::parts::{ABSOLUTE, ALL_ABSOLUTE, ALL_DELTAS};
use crate::records::{opaque_record, piece, pieces, record, sheet, target, text_record, trial_target};
use crate::trials::{Lend, Trials};
use std::slice::from_ref;
use testing::generator::records::sheet_of;
use testing::independent;

/// The sheet of an accepted packet.
fn read(edition: u32, packet: &[u8]) -> Vec<u8> {
    sheet_of(edition, packet).unwrap_or_default()
}

pub fn each_kind(t: &mut Trials) {
    for version in [1, 3] {
        let trial_sheet = sheet(version, 92, &[record(&trial_dwell()), trial_target()]);
        // Type 3 is opaque in version 1 alone.
        let opaque_type = if version == 1 { 3 } else { 4 };
        let opaque = sheet(version, 40, &[opaque_record(opaque_type, 3), piece(&[0, 255, 0])]);
        for (name, sheet, want, part) in [
            ("mission", sheet(version, 32 + 44, &[record(&mission())]), "ok 1 0 0 76", mission()),
            ("dwell", sheet(version, 32 + 48, &[record(&dwell(""))]), "ok 1 1 0 80", dwell("")),
            ("target", trial_sheet, "ok 1 1 1 92", trial_dwell()),
            ("text", sheet(version, 32 + 28, &[text_record(3), piece(b"abc")]), "ok 1 0 0 60", text(b"abc")),
            ("opaque", opaque, "ok 1 0 0 40", segment(opaque_type, &[0, 255, 0])),
            ("job", sheet(version, 32 + 73, &[record(&job())]), "ok 1 0 0 105", job()),
            ("test", sheet(version, 32 + 19, &[record(&test())]), "ok 1 0 0 51", test()),
            ("location", sheet(version, 32 + 28, &[record(&location())]), "ok 1 0 0 60", location()),
        ] {
            t.gives(&format!("{name} version {version}"), sheet, want, &packet(version, &[part]));
        }
        t.gives(&format!("header version {version}"), sheet(version, 32, &[]), "ok 0 0 0 32", &packet(version, &[]));
    }
}

pub fn with_pieces(t: &mut Trials) {
    for size in [0, 1, 32, 33, 65] {
        let f3 = words(size);
        let length = 57 + size as i64;
        let sheet = sheet(3, length, &[text_record(size as i64), pieces(&f3)]);
        t.gives(&format!("text piece {size}"), sheet, &format!("ok 1 0 0 {length}"), &packet(3, &[text(&f3)]));
    }
    for size in [0, 31, 32, 33, 64] {
        let body = octets(size);
        let length = 37 + size as i64;
        let sheet = sheet(1, length, &[opaque_record(12, size as i64), pieces(&body)]);
        t.gives(&format!("opaque piece {size}"), sheet, &format!("ok 1 0 0 {length}"), &packet(1, &[segment(12, &body)]));
    }
    let records: Vec<Vec<u8>> = OPAQUE.iter().flat_map(|number| [opaque_record(*number, 1), piece(&[0])]).collect();
    let parts = OPAQUE.map(|number| segment(number, &[0]));
    t.gives("opaque types", sheet(1, 32 + 9 * 6, &records), "ok 9 0 0 86", &packet(1, &parts));
    let lines = b"a\r\nb\x0Cc\n";
    let made = sheet(3, 57 + 7, &[text_record(7), piece(lines)]);
    t.gives("text line ends", made, "ok 1 0 0 64", &packet(3, &[text(lines)]));
}

pub fn dwells(t: &mut Trials) {
    for version in [1, 3] {
        for (name, words, count, size) in [("absolute", ALL_ABSOLUTE, 1, 32 + 91 - 8 + 31), ("deltas", ALL_DELTAS, 2, 32 + 91 + 2 * 27)] {
            let made = packet(version, &[dwell(words).usual_targets(count)]);
            let name = format!("all fields {name} version {version}");
            t.gives(&name, read(3, &made), &format!("ok 1 1 {count} {size}"), &made);
        }
    }
    let made = packet(3, &[dwell(&format!("{ALL_ABSOLUTE} D32.18")).usual_targets(1)]);
    t.gives("all fields absolute and D32.18", read(3, &made), "ok 1 1 1 147", &made);
    for (words, part, size) in [
        ("D28", dwell("D28"), 50),
        ("D29 D30", dwell("D29 D30"), 52),
        ("D32.18", dwell("D32.18"), 48),
        ("D31", dwell("D31").with(31, 0), 49),
        ("D12-D14", dwell("D12-D14").with(12, 0).with(14, 0), 58),
    ] {
        let made = sheet(3, 32 + size, &[record(&part)]);
        t.gives(&format!("dwell with {words}"), made, &format!("ok 1 1 0 {}", 32 + size), &packet(3, &[part]));
    }
    let zeros = [(2, 0), (3, 0), (7, 0), (8, 0)];
    let part = dwell(&format!("{ABSOLUTE} D32.7 D32.8")).target(&zeros);
    let made = sheet(3, 32 + 60, &[record(&part), target("", &zeros, 0, 0)]);
    t.gives("dwell with an announced zero target", made, "ok 1 1 1 92", &packet(3, &[part]));
    let part = absolute(&[(0x4000_0000, 0xFFFF_FFFB), (0x8000_0000, 0xFFFF_FFFA)]);
    let first = target("", &[(2, 0x4000_0000), (3, 0xFFFF_FFFB)], 45_000_000, 0);
    let second = target("", &[(2, 0x8000_0000), (3, 0xFFFF_FFFA)], -90_000_000, 359_999_999);
    t.gives("longitude 360 is 0", sheet(3, 32 + 64, &[record(&part), first, second]), "ok 1 1 2 96", &packet(3, &[part]));
    let part = dwell(ABSOLUTE);
    t.gives("D5 0 with positions announced", sheet(3, 32 + 48, &[record(&part)]), "ok 1 1 0 80", &packet(3, &[part]));
}

pub fn both_readings(t: &mut Trials) {
    let mode = job().with(14, 91);
    t.gives("new mode", sheet(3, 32 + 73, &[record(&mode)]), "ok 1 0 0 105", &packet(3, from_ref(&mode)));
    let (no_d27, no_j26) = (dwell("").with(27, 0), job().with(26, 0));
    let made = sheet(3, 32 + 48 + 73, &[record(&no_d27), record(&no_j26)]);
    t.gives("D27 and J26 zero and shown", made, "ok 2 1 0 153", &packet(3, &[no_d27, no_j26]));
    let made = packet(1, &[dwell("D28-D30"), mode, segment(3, &[])]);
    for edition in [1, 3] {
        t.gives(&format!("sheet of reading {edition} version 1"), read(edition, &made), "ok 3 1 0 164", &made);
    }
    let made = packet(3, &[trial_dwell(), job(), dwell("D28-D30")]);
    let mut filled = read(1, &made);
    independent::fill_in(&mut filled, &read(3, &made));
    t.gives("sheet filled in", filled, "ok 3 1 1 219", &made);
    for version in [1, 3] {
        let made = packet(version, &every_kind());
        t.gives(&format!("mixture version {version}"), read(3, &made), "ok 10 1 3 500", &made);
    }
    let mut parts = every_kind();
    parts.reverse();
    let made = packet(3, &parts);
    t.gives_to("mixture backwards", read(3, &made), "ok 10 1 3 500", &made, Lend::Exact);
}

pub fn row_20(t: &mut Trials) {
    let short = "no 20 0 0";
    let bare = packet(3, &[]);
    for (name, lend, want) in [
        ("nothing", Lend::Bytes(0), short),
        ("31", Lend::Short, short),
        ("32", Lend::Exact, "ok 0 0 0 32"),
        ("33", Lend::Bytes(33), "ok 0 0 0 32"),
        ("100", Lend::Bytes(100), "ok 0 0 0 32"),
    ] {
        t.gives_to(&format!("header to {name}"), sheet(3, 32, &[]), want, &bare, lend);
    }
    for (name, lend, want) in [
        ("nothing", Lend::Bytes(0), short),
        ("1", Lend::Bytes(1), short),
        ("the header", Lend::Bytes(32), short),
        ("91", Lend::Short, short),
        ("92", Lend::Exact, "ok 1 1 1 92"),
        ("93", Lend::Bytes(93), "ok 1 1 1 92"),
        ("300", Lend::Bytes(300), "ok 1 1 1 92"),
    ] {
        let made = sheet(3, 92, &[record(&trial_dwell()), trial_target()]);
        t.gives_to(&format!("trial to {name}"), made, want, &trial(), lend);
    }
    // Here the packet is longer than the sheet.
    let many = packet(1, &vec![test(); 9]);
    for (name, lent, want) in [("203", 203, "ok 9 0 0 203"), ("202", 202, short), ("the sheet", 168, short)] {
        t.gives_to(&format!("nine tests to {name}"), read(3, &many), want, &many, Lend::Bytes(lent));
    }
}

/// The writer's counts are those of the packet that it gives back.
fn gives_back(t: &mut Trials, name: &str, version: u8, counted: &Counted) {
    let made = packet(version, &counted.parts);
    t.gives(name, read(3, &made), &format!("ok {} {}", counted.counts, made.len()), &made);
}

pub fn pairs(t: &mut Trials) {
    for counted in by_pairs() {
        gives_back(t, counted.name, 3, &counted);
    }
    let part = dwell("");
    let made = sheet(3, 32 + 3 * 48, &[record(&part), record(&part.clone().with(3, 0)), record(&part)]);
    let parts = [part.clone(), part.clone().with(3, 0), part];
    t.gives("two pairs in three records", made, "ok 3 2 0 176", &packet(3, &parts));
}

pub fn other_types(t: &mut Trials) {
    for (counted, older) in beside_others(3).iter().zip(beside_others(1)) {
        gives_back(t, counted.name, 3, counted);
        gives_back(t, &format!("{} version 1", counted.name), 1, &older);
    }
}
