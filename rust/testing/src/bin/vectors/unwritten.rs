//! Rows 17 to 19, and the order of the writer's rows.
use crate::parts::{dwell, header, job, location, mask, masked, mission, packet, segment, test, text, trial, trial_dwell};
use crate::parts::{Header, ABSOLUTE, DELTAS, LEAST};
use crate::records::{
    opaque_record, piece, piece_with, pieces, record, sheet, sheet_behind, target, text_record, trial_target, trial_target_at,
};
use crate::trials::Trials;
use std::slice::from_ref;
use testing::generator::records::sheet_of;

pub fn row_17_kinds(t: &mut Trials) {
    let want = "no 17 0 0";
    t.refused("nothing", vec![], want);
    t.refused_to("nothing to a buffer", vec![], want, 40);
    for kind in [0, 13, 255] {
        t.refused(&format!("kind {kind} alone"), vec![kind], want);
        t.refused(&format!("kind {kind} behind"), sheet(3, 32, &[vec![kind]]), want);
        let between = [&[kind][..], &[0; 14]].concat();
        t.refused_to(&format!("kind {kind} between"), sheet(3, 51, &[between, record(&test())]), want, 60);
    }
    for (kind, made) in [
        (2, record(&mission())),
        (3, record(&dwell(""))),
        (4, trial_target()),
        (5, text_record(0)),
        (6, piece(b"abc")),
        (7, opaque_record(7, 0)),
        (8, record(&job())),
        (9, record(&test())),
        (10, record(&location())),
    ] {
        t.refused(&format!("kind {kind} cut by 1"), sheet(3, 32, &[made[..made.len() - 1].to_vec()]), want);
        t.refused(&format!("kind {kind} bare"), sheet(3, 32, &[vec![kind]]), want);
    }
}

pub fn row_17_headers(t: &mut Trials) {
    let want = "no 17 0 0";
    let cut = |mut sheet: Vec<u8>| {
        sheet.pop();
        sheet
    };
    let trial_records = [record(&trial_dwell()), trial_target()];
    t.refused("header cut by 1", cut(sheet(3, 32, &[])), want);
    t.refused("header bare", vec![1], want);
    t.refused("target cut by 1", cut(sheet(3, 92, &trial_records)), want);
    t.refused("piece cut by 1", cut(sheet(3, 60, &[text_record(3), piece(b"abc")])), want);
    t.refused("no header", record(&mission()), want);
    t.refused("no header but a dwell", trial_records.concat(), want);
    let test = record(&test());
    t.refused("header last", [test.clone(), sheet(3, 51, &[])].concat(), want);
    t.refused("header between", [test.clone(), sheet(3, 70, from_ref(&test))].concat(), want);
    t.refused("header twice", sheet(3, 32, &[sheet(3, 32, &[])]), want);
    t.refused("header twice and far", sheet(3, 51, &[test, sheet(3, 51, &[])]), want);
    let [dwell, target] = trial_records;
    t.refused("header among targets", sheet(3, 92, &[dwell, sheet(3, 92, &[]), target]), want);
}

/// A target at 45 degrees north, 90 degrees east.
fn far_target() -> Vec<u8> {
    target("", &[(2, 0x4000_0000), (3, 0x4000_0000)], 45_000_000, 90_000_000)
}

pub fn row_18_targets(t: &mut Trials) {
    let want = "no 18 0 0";
    let of = |count: i64| record(&dwell(ABSOLUTE).with(5, count));
    let target = far_target();
    for count in [0, 1, 3] {
        t.refused(&format!("{count} targets of 2"), sheet(3, 96, &[of(2), target.repeat(count)]), want);
    }
    for (name, length, records) in [
        ("target where D5 is 0", 88, vec![of(0), target.clone()]),
        ("D5 65535", 80, vec![record(&dwell("").with(5, 65_535))]),
        ("D5 65535 and a target", 88, vec![of(65_535), target.clone()]),
        ("D5 257 and a target", 88, vec![of(257), target.clone()]),
        ("D5 256", 80, vec![record(&dwell("").with(5, 256))]),
        ("target of another dwell", 136, vec![of(1), of(1), target.repeat(2)]),
        ("targets parted", 115, vec![of(2), target.clone(), record(&test()), target.clone()]),
        ("target before its dwell", 88, vec![target, of(1)]),
    ] {
        t.refused(name, sheet(3, length, &records), want);
    }
}

pub fn row_18_places(t: &mut Trials) {
    let want = "no 18 0 0";
    for (name, before, target_too) in [
        ("header", vec![], true),
        ("mission", record(&mission()), true),
        ("test", record(&test()), false),
        ("location", record(&location()), true),
        ("job", record(&job()), false),
        ("empty text", text_record(0), false),
        ("empty opaque", opaque_record(7, 0), true),
    ] {
        if target_too {
            t.refused(&format!("target after {name}"), sheet(3, 88, &[before.clone(), far_target()]), want);
        }
        t.refused(&format!("piece after {name}"), sheet(3, 88, &[before, piece(b"abc")]), want);
    }
    let abc = || piece(b"abc");
    let one = record(&dwell(ABSOLUTE).with(5, 1));
    for (name, length, records) in [
        ("piece after dwell", 80, vec![record(&dwell("")), abc()]),
        ("piece for a target", 88, vec![one, abc()]),
        ("piece after target", 92, vec![record(&trial_dwell()), trial_target(), abc()]),
        ("target for a piece", 60, vec![text_record(3), far_target()]),
        ("target after piece", 60, vec![text_record(3), abc(), far_target()]),
        ("test for a piece", 59, vec![opaque_record(7, 3), record(&test()), abc()]),
    ] {
        t.refused(name, sheet(3, length, &records), want);
    }
}

/// By turns in a text and in an opaque body.
pub fn row_18_pieces(t: &mut Trials) {
    let x = |count: usize| piece(&vec![b'x'; count]);
    let full = |count: u8| piece_with(&[b'x'; 32], count, &[]);
    let most = 4_294_967_295;
    for (index, (name, length, pieces)) in [
        ("count 0", 3, piece_with(b"abc", 0, &[])),
        ("count 0 of nothing", 0, x(0)),
        ("count 33", 33, full(33)),
        ("count 33 and rest", 64, [full(33), x(31)].concat()),
        ("count 255", 255, full(255)),
        ("count 20 where 32", 33, [x(20), x(13)].concat()),
        ("count 31 where 32", 33, [x(31), x(2)].concat()),
        ("count 32 second", 33, [x(1), x(32)].concat()),
        ("count 31 where 30", 30, x(31)),
        ("count 32 where 1", 33, x(32).repeat(2)),
        ("last piece missing", 33, x(32)),
        ("last piece missing of 65", 65, x(32).repeat(2)),
        ("only piece missing", 1, vec![]),
        ("piece too many", 32, [x(32), x(1)].concat()),
        ("empty piece behind 32", 32, [x(32), x(0)].concat()),
        ("length one less", 2, piece(b"abc")),
        ("length one more", 4, piece(b"abc")),
        ("length low byte only", 0x0100_0003, piece(b"abc")),
        ("length 4294967295", most, vec![]),
        ("length 4294967295 and pieces", most, x(32).repeat(2)),
        ("length low half only", 65_539, piece(b"abc")),
    ]
    .into_iter()
    .enumerate()
    {
        let (kind, first, head) = if index % 2 == 1 { ("text", 57, text_record(length)) } else { ("opaque", 37, opaque_record(7, length)) };
        t.refused(&format!("{kind} {name}"), sheet(3, first + length % 256, &[head, pieces]), "no 18 0 0");
    }
    t.refused("text length 4294967295", sheet(3, 57, &[text_record(most)]), "no 18 0 0");
    t.refused("text length one more", sheet(3, 60, &[text_record(4), piece(b"abc")]), "no 18 0 0");
}

pub fn row_19_header(t: &mut Trials) {
    let want = "no 19 0 0";
    let usual = || header(3).with(2, 51);
    let changed: [(&str, Header); 8] = [
        ("P2 one less", usual().with(2, 50)),
        ("P2 one more", usual().with(2, 52)),
        ("P2 0", usual().with(2, 0)),
        ("P2 low byte only", usual().with(2, 0x0100_0033)),
        ("P1 20", usual().with(1, b"20")),
        ("P1 3a", usual().with(1, b"3a")),
        ("P3 text", usual().with(3, b"F\x7F")),
        ("P8 text", usual().with(8, b"\0TATION 07")),
    ];
    for (name, header) in changed {
        t.refused_to(name, sheet_behind(header, &[record(&test())]), want, 60);
    }
    t.refused("P2 length of the sheet", sheet(3, 48, &[record(&test())]), want);
}

pub fn row_19_values(t: &mut Trials) {
    let want = "no 19 0 0";
    t.refused("M2 text", sheet(3, 76, &[record(&mission().with(2, &[0; 12]))]), want);
    t.refused_to("M6 13", sheet(3, 76, &[record(&mission().with(6, 13))]), want, 80);
    t.refused("M7 0", sheet(1, 76, &[record(&mission().with(7, 0))]), want);
    t.refused("J3 text", sheet(3, 105, &[record(&job().with(3, b"RADAR\0"))]), want);
    let mut f1 = text_record(0);
    f1[1..11].copy_from_slice(b"FIRST\tNAME");
    t.refused("F1 text", sheet(3, 57, &[f1]), want);
    t.refused_to("F3 text", sheet(3, 60, &[text_record(3), piece(b"ab\x80")]), want, 70);
    t.refused("D4 2", sheet(3, 80, &[record(&dwell("").with(4, 2))]), want);
    let place = [(2, 0x4000_0000), (3, 0x4000_0000)];
    for (j, value, length) in [(6, -1001, 90), (11, 101, 89), (15, 5001, 90)] {
        let head = record(&dwell(&format!("{ABSOLUTE} D32.{j}")).with(5, 1));
        let target = target("", &[place[0], place[1], (j, value)], 45_000_000, 90_000_000);
        t.refused(&format!("D32.{j} {value}"), sheet(3, length, &[head, target]), want);
    }
    let near = record(&dwell(DELTAS).with(5, 1).with(24, 0x7FFF_FFFF).with(10, 1).with(25, 0));
    t.refused("latitude out", sheet(3, 92, &[near, target("", &[(4, 2), (5, 0)], 90_000_000, 0)]), want);
    let head = record(&dwell("D32.1").with(5, 1));
    t.refused("target without a position pair", sheet(3, 82, &[head, target("D32.1", &[], 0, 0)]), want);
    let head = record(&dwell("").with(5, 1));
    t.refused("target without fields", sheet(3, 80, &[head, target("", &[], 0, 0)]), want);
}

pub fn row_19_marks(t: &mut Trials) {
    let want = "no 19 0 0";
    for mark in [0, 2] {
        t.refused_to(&format!("mark {mark} of D27"), sheet(3, 80, &[record(&dwell("").marked(mark))]), want, 90);
        t.refused_to(&format!("mark {mark} of J26"), sheet(3, 105, &[record(&job().marked(mark))]), want, 110);
    }
    t.refused("mark 0 of D27 zeroed", sheet(3, 80, &[record(&dwell("").marked(0).with(27, 0))]), want);
    t.refused("mark 0 of J26 zeroed", sheet(3, 105, &[record(&job().marked(0).with(26, 0))]), want);
    t.refused("mark 0 of D27 version 1", sheet(1, 80, &[record(&dwell("").marked(0))]), want);
    let older = sheet_of(1, &packet(3, &[dwell(""), job()])).unwrap_or_default();
    t.refused_to("sheet of reading 1 version 3", older, want, 200);
    for (name, filling) in [("first", vec![1]), ("last", [&[0; 28][..], &[0x80]].concat()), ("space", vec![b' '])] {
        let piece = piece_with(b"abc", 3, &filling);
        t.refused(&format!("text filling {name}"), sheet(3, 60, &[text_record(3), piece.clone()]), want);
        t.refused_to(&format!("opaque filling {name}"), sheet(3, 40, &[opaque_record(7, 3), piece]), want, 50);
    }
    let records = [opaque_record(7, 33), piece(&[b'x'; 32]), piece_with(b"x", 1, b"x")];
    t.refused("filling of the last piece", sheet(3, 70, &records), want);
}

pub fn row_19_positions(t: &mut Trials) {
    let want = "no 19 0 0";
    for (name, latitude, longitude) in [
        ("latitude 1 more", -351_562, 359_648_438),
        ("latitude 1 less", -351_564, 359_648_438),
        ("latitude sign", 351_563, 359_648_438),
        ("latitude 0", 0, 359_648_438),
        ("longitude 1 more", -351_563, 359_648_439),
        ("longitude 1 less", -351_563, 359_648_437),
        ("longitude signed", -351_563, -351_562),
        ("longitude 0", -351_563, 0),
    ] {
        let made = sheet(3, 92, &[record(&trial_dwell()), trial_target_at(latitude, longitude)]);
        t.refused(name, made, want);
    }
    let one = || record(&dwell(ABSOLUTE).with(5, 1));
    let whole = target("", &[(2, 0x4000_0000), (3, 0xFFFF_FFFB)], 45_000_000, 360_000_000);
    t.refused("longitude 360000000", sheet(3, 88, &[one(), whole]), want);
    let swapped = target("", &[(2, 0x4000_0000), (3, 0x4000_0000)], 90_000_000, 45_000_000);
    t.refused("positions swapped", sheet(3, 88, &[one(), swapped]), want);
    for (field, value) in [(10, 1), (12, 0x8000_0000), (23, 1), (28, 1), (31, 255)] {
        t.refused(&format!("unannounced D{field}"), sheet(3, 80, &[record(&dwell("").with(field, value))]), want);
    }
    for j in [1, 2, 3, 16, 18] {
        let target = target(DELTAS, &[(4, -128), (5, -64), (j, 1)], -351_563, 359_648_438);
        t.refused(&format!("unannounced D32.{j}"), sheet(3, 92, &[record(&trial_dwell()), target]), want);
    }
    let target = target("", &[(2, 0x4000_0000), (3, 0x4000_0000), (4, 1)], 45_000_000, 90_000_000);
    t.refused("unannounced D32.4", sheet(3, 88, &[one(), target]), want);
}

pub fn row_19_masks(t: &mut Trials) {
    let want = "no 19 0 0";
    let no_count = dwell(ABSOLUTE).without("D5").with(5, 1);
    t.refused("unannounced D5 of a target", sheet(3, 86, &[record(&no_count), far_target()]), want);
    t.refused("unannounced D5 0", sheet(3, 78, &[record(&dwell("").without("D5"))]), want);
    for (name, version, length, part) in [
        ("zero", 3, 45, masked(0)),
        ("lacks D27", 3, 78, dwell("").without("D27")),
        ("lacks D27 zeroed", 3, 78, dwell("").without("D27").with(27, 0)),
        ("D12 only", 3, 84, dwell("D12")),
        ("reserved bit 0", 3, 80, masked(mask(LEAST) | 1)),
        ("D28 version 1", 1, 82, dwell("D28")),
        ("D32.18 version 1", 1, 80, dwell("D32.18")),
        ("both position pairs", 3, 88, dwell(&format!("{DELTAS} {ABSOLUTE}"))),
    ] {
        t.refused(&format!("mask {name}"), sheet(version, length, &[record(&part)]), want);
    }
    // A kind 7 whose type has records of its own, or is unknown.
    let own = |name: &'static str, part: crate::parts::Part| (name, part.segment_type, part.body());
    for (name, segment_type, body) in [
        own("1", mission()),
        own("2", dwell("")),
        ("2 with a target", 2, trial()[37..].to_vec()),
        ("2 empty", 2, vec![]),
        own("5", job()),
        own("6", text(b"abc")),
        own("10", test()),
        own("13", location()),
        own("0", segment(0, &[])),
        own("14", segment(14, b"abc")),
        own("200", segment(200, b"abc")),
        own("255", segment(255, &[])),
    ] {
        let length = body.len() as i64;
        let records = [opaque_record(segment_type, length), pieces(&body)];
        t.refused(&format!("opaque type {name}"), sheet(3, 37 + length, &records), want);
    }
}

/// The first bytes of a record.
fn cut(record: Vec<u8>, length: usize) -> Vec<u8> {
    record[..length].to_vec()
}

/// Two faults at once: the first row over the whole sheet.
pub fn order_of_17(t: &mut Trials) {
    let lone = piece(b"abc");
    let marked = record(&dwell("").marked(0));
    for (name, records) in [
        ("early 18 late kind", [lone.clone(), vec![0]]),
        ("early 18 late cut", [lone.clone(), cut(record(&test()), 14)]),
        ("early 18 late header", [lone, sheet(3, 66, &[])]),
        ("4 GB and cut", [opaque_record(7, 4_294_967_295), cut(record(&test()), 5)]),
        ("D5 65535 and kind 13", [record(&dwell("").with(5, 65_535)), vec![13]]),
        ("early 19 late kind", [marked.clone(), vec![255]]),
        ("early 19 late cut", [marked, cut(record(&mission()), 39)]),
    ] {
        t.refused(&format!("17 before {name}"), sheet(3, 80, &records), "no 17 0 0");
    }
    t.refused_to("17 before P2", sheet(3, 99, &[vec![13]]), "no 17 0 0", 99);
    t.refused_to("17 before 20", sheet(3, 51, &[cut(record(&test()), 14)]), "no 17 0 0", 0);
}

/// As above, with the later rows.
pub fn order_of_18_and_19(t: &mut Trials) {
    let lone = piece(b"abc");
    let marked = record(&dwell("").marked(0));
    for (name, records) in [
        ("early 19 late piece", vec![marked.clone(), lone.clone()]),
        ("early 19 late target", vec![record(&mission().with(6, 0)), trial_target()]),
        ("early 19 late length", vec![opaque_record(200, 0), text_record(1)]),
        ("4 GB of type 200", vec![opaque_record(200, 4_294_967_295)]),
        ("filling", vec![text_record(4), piece_with(b"abc", 3, b"x")]),
        ("mark", vec![record(&dwell(ABSOLUTE).with(5, 1).marked(0))]),
        ("unannounced D5", vec![record(&dwell("").without("D5").with(5, 1))]),
        ("unannounced D5 and mask", vec![record(&masked(0).with(5, 7))]),
    ] {
        t.refused(&format!("18 before {name}"), sheet(3, 80, &records), "no 18 0 0");
    }
    t.refused_to("18 before P2", sheet(3, 0, &[lone]), "no 18 0 0", 99);
    t.refused_to("18 before 20", sheet(3, 57, &[text_record(1)]), "no 18 0 0", 0);
    for (name, made, lent) in [
        ("P2", sheet(3, 50, &[record(&test())]), 0),
        ("mark", sheet(3, 80, from_ref(&marked)), 0),
        ("filling", sheet(3, 60, &[text_record(3), piece_with(b"abc", 3, &[1])]), 0),
        ("position", sheet(3, 92, &[record(&trial_dwell()), trial_target_at(-351_563, 359_648_437)]), 0),
        ("by one", sheet(3, 80, from_ref(&marked)), 79),
    ] {
        t.refused_to(&format!("19 before 20 {name}"), made, "no 19 0 0", lent);
    }
}
