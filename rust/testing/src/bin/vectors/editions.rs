//! Packets on which demand 3 is run.
use crate::longest;
use crate::newer::NEW;
use crate::parts::{by_deltas, dwell, dwell_of, every_kind, header, hrr, job, location, mission, packet, raw, segment, test, text};
use crate::parts::{trial, trial_dwell, Part, ABSOLUTE, ALL_DELTAS};
use crate::trials::is_name;
use crate::verdict::{verdict, INDEPENDENT};
use std::collections::BTreeSet;
use testing::generator::tables::{MOST_DWELLS, MOST_TARGETS};

/// The list, and what is wrong with it.
#[derive(Default)]
pub struct Editions {
    pub packets: Vec<(String, Vec<u8>)>,
    pub faults: Vec<String>,
    names: BTreeSet<String>,
}

impl Editions {
    /// A packet with the line that document 01 gives its two readings; the independent implementation must agree.
    fn add(&mut self, name: &str, packet: Vec<u8>, want: &str) {
        let found = verdict(INDEPENDENT, &packet);
        if found != want {
            self.faults.push(format!("{name}: {found} where {want} is due"));
        }
        if !is_name(name) || !self.names.insert(name.to_string()) {
            self.faults.push(format!("{name}: no name, or not the first of this name"));
        }
        self.packets.push((name.to_string(), packet));
    }
}

/// The whole list.
pub fn list() -> Editions {
    let mut e = Editions::default();
    masks(&mut e);
    modes(&mut e);
    later(&mut e);
    two(&mut e);
    nothing_new(&mut e);
    several(&mut e);
    version_1(&mut e);
    refused(&mut e);
    pairs(&mut e);
    long_sheets(&mut e);
    line_ends(&mut e);
    e
}

fn masks(e: &mut Editions) {
    e.add("type 3", packet(3, &[hrr("H6").scatterers(3)]), "new no 15 1 0");
    e.add("type 3 without scatterers", packet(3, &[hrr("")]), "new no 15 1 0");
    for (words, field) in [("D28", 29), ("D29", 28), ("D30", 28), ("D28 D29", 30), ("D28 D30", 29), ("D29 D30", 28)] {
        e.add(&format!("angles {words}"), packet(3, &[dwell(words)]), &format!("new no 15 1 {field}"));
    }
    e.add("angles none", packet(3, &[dwell("")]), "alike ok 1 1 0 121");
    e.add("angles all", packet(3, &[dwell("D28-D30")]), "alike ok 1 1 0 121");
    e.add("D32.18", packet(3, &[dwell("D32.18")]), "new no 15 1 49");
    let with_target = |words: &str| packet(3, &[dwell(&format!("{ABSOLUTE} {words}")).usual_targets(1)]);
    e.add("D32.18 with a target", with_target("D32.18"), "new no 15 1 49");
    e.add("D32.17 with a target", with_target("D32.16 D32.17"), "alike ok 1 1 1 166");
}

fn modes(e: &mut Editions) {
    let mode = |mode: i64| packet(3, &[job().with(14, mode)]);
    for new in NEW {
        e.add(&format!("mode {new}"), mode(new), "new no 15 1 14");
    }
    for old in [0, 90, 94, 95, 98, 100, 105, 110, 114, 119, 124, 255] {
        e.add(&format!("mode {old}"), mode(old), "alike ok 1 0 0 103");
    }
    let beside = job().with(13, 91).with(15, 0x5B00).with(14, 0);
    e.add("mode 91 in J15", packet(3, &[beside]), "alike ok 1 0 0 103");
}

fn later(e: &mut Editions) {
    let behind = |last: Part| packet(3, &[mission(), trial_dwell(), job(), text(b"abc"), last]);
    e.add("later type 3", behind(hrr("")), "new no 15 5 0");
    e.add("later angles", behind(dwell("D28")), "new no 15 5 29");
    e.add("later D32.18", behind(dwell("D32.18")), "new no 15 5 49");
    e.add("later mode", behind(job().with(14, 123)), "new no 15 5 14");
    let jobs = [90, 94, 91].map(|mode| job().with(14, mode));
    e.add("mode in the last of three jobs", packet(3, &jobs), "new no 15 3 14");
}

/// Two new things in one mask or in two segments.
fn two(e: &mut Editions) {
    e.add("angles and D32.18", packet(3, &[dwell("D28 D32.18")]), "new no 15 1 29");
    e.add("angles D29 D30 and D32.18", packet(3, &[dwell("D29 D30 D32.18")]), "new no 15 1 28");
    e.add("all angles and D32.18", packet(3, &[dwell("D28-D30 D32.18")]), "new no 15 1 49");
    let type_3 = || hrr("");
    let mode = |mode: i64| job().with(14, mode);
    for (name, parts, want) in [
        ("D32.18 then type 3", vec![dwell("D32.18"), type_3()], "new no 15 1 49"),
        ("type 3 then angles", vec![type_3(), dwell("D30")], "new no 15 1 0"),
        ("mode then angles", vec![test(), mode(120), dwell("D28")], "new no 15 2 14"),
        ("D32.18 then angles", vec![dwell(""), dwell("D32.18"), dwell("D28")], "new no 15 2 49"),
        ("mode then type 3 then D32.18", vec![segment(4, &[]), mode(97), type_3(), dwell("D32.18")], "new no 15 2 14"),
    ] {
        e.add(name, packet(3, &parts), want);
    }
}

/// Nothing new: D27 and J26 are withheld.
fn nothing_new(e: &mut Editions) {
    e.add("bare header", packet(3, &[]), "alike ok 0 0 0 33");
    e.add("P1 39", header(3).with(1, b"39").packet(&[]), "alike ok 0 0 0 33");
    e.add("trial", trial(), "alike ok 1 1 1 166");
    e.add("D27 ffff", packet(3, &[dwell("").with(26, 0xFFFF).with(27, 0xFFFF)]), "alike ok 1 1 0 121");
    for (name, d27) in [("0001", 1), ("0100", 0x0100), ("0", 0)] {
        e.add(&format!("D27 {name}"), packet(3, &[dwell("").with(27, d27)]), "alike ok 1 1 0 121");
    }
    e.add("J26 ff", packet(3, &[job().with(25, 255).with(26, 255).with(27, 255)]), "alike ok 1 0 0 103");
    e.add("J26 0", packet(3, &[job().with(26, 0)]), "alike ok 1 0 0 103");
}

fn several(e: &mut Editions) {
    let parts = [
        dwell("").with(27, 0x1234),
        job().with(26, 1),
        trial_dwell(),
        dwell("D28-D30").with(27, 0xFEDC),
        job().with(26, 128),
        job().with(26, 2),
    ];
    let length = 33 + 3 * 88 + 45 + 3 * 70;
    e.add("dwells and jobs", packet(3, &parts), &format!("alike ok 6 1 1 {length}"));
    for version in [1, 3] {
        e.add(&format!("mixture version {version}"), packet(version, &every_kind()), "alike ok 10 1 3 686");
        let all = dwell(ALL_DELTAS).usual_targets(2);
        e.add(&format!("all fields version {version}"), packet(version, &[all]), "alike ok 1 1 2 211");
    }
    let parts = [mission(), test(), location(), text(&[b'x'; 33]), segment(101, &[0; 64])];
    let length = 33 + 40 + 15 + 24 + 25 + 68 + 6 + 68;
    e.add("neither dwell nor job", packet(3, &parts), &format!("alike ok 5 0 0 {length}"));
}

/// Version 1: nothing is new, nothing is withheld.
fn version_1(e: &mut Editions) {
    let modes = [91, 123].map(|mode| job().with(14, mode));
    for (name, parts, want) in [
        ("header", vec![], "alike ok 0 0 0 33"),
        ("type 3", vec![segment(3, b"abc")], "alike ok 1 0 0 73"),
        ("HRR segment", vec![hrr("H6").scatterers(3)], "alike ok 1 0 0 107"),
        ("HRR segment without H24", vec![hrr("").without("H24")], "alike ok 1 0 0 107"),
        ("modes", modes.to_vec(), "alike ok 2 0 0 173"),
        ("dwell", vec![dwell("D28-D30").with(27, 0xABCD)], "alike ok 1 1 0 121"),
        ("angles", vec![dwell("D28")], "no 11 1 29"),
        ("D32.18", vec![dwell("D32.18")], "no 11 1 49"),
    ] {
        e.add(&format!("version 1 {name}"), packet(1, &parts), want);
    }
}

/// Refused by the Edition 3 reading, with or without something new.
fn refused(e: &mut Editions) {
    let type_3 = || hrr("");
    let mode = || job().with(14, 91);
    e.add("refused nothing", vec![], "no 2 0 0");
    e.add("refused P1 20", header(3).with(1, b"20").packet(&[]), "no 3 0 0");
    e.add("refused P2", header(3).with(2, 38).packet(&[type_3()]), "no 4 0 0");
    e.add("refused P8", header(3).with(8, &[0; 10]).packet(&[]), "no 5 0 8");
    for (name, parts, want) in [
        ("left 3", vec![type_3(), raw(&[3, 0, 0])], "no 6 2 0"),
        ("type 77", vec![type_3(), segment(77, &[])], "no 7 2 0"),
        ("S2 of type 3", vec![segment(3, &[]).claiming(6)], "no 8 1 0"),
        ("size of type 3", vec![segment(3, b"abc")], "no 9 1 0"),
        ("size of a job", vec![mode().sized(74)], "no 9 1 0"),
        ("J3", vec![mode().with(3, b"\0ADAR9")], "no 10 1 3"),
        ("mask", vec![dwell("D28 D32.2 D32.18")], "no 11 1 34"),
        ("size of a dwell", vec![dwell("D28").sized(49)], "no 12 1 0"),
        ("D4", vec![dwell("D32.18").with(4, 2)], "no 13 1 4"),
        ("latitude", vec![mode(), by_deltas(1, 0x7FFF_FFFF, 2)], "no 14 2 35"),
        ("HRR mask", vec![mode(), hrr("").without("H24")], "no 21 2 0"),
        ("H25", vec![type_3(), hrr("").with(25, 0)], "no 22 2 0"),
        ("size of an HRR segment", vec![hrr("H6").scatterers(3).sized(43)], "no 22 1 0"),
    ] {
        e.add(&format!("refused {name}"), packet(3, &parts), want);
    }
}

/// Both readings and the writer count the same dwells: as many as there are different pairs of D2 and D3.
fn pairs(e: &mut Editions) {
    let split = [dwell_of((7, 9)), job(), dwell_of((7, 9))];
    e.add("one dwell in two segments", packet(3, &split), "alike ok 3 1 0 279");
    e.add("version 1 one dwell in two segments", packet(1, &split), "alike ok 3 1 0 279");
    e.add("three dwells in falling order", packet(3, &[(8, 0), (7, 9), (7, 8)].map(dwell_of)), "alike ok 3 3 0 297");
    e.add("first dwell again behind another", packet(3, &[(7, 9), (8, 0), (7, 9)].map(dwell_of)), "alike ok 3 2 0 297");
    e.add("new behind a dwell in two segments", packet(3, &[&split[..], &[dwell("D32.18")]].concat()), "new no 15 4 49");
    let mut full: Vec<Part> = (0..i64::from(MOST_DWELLS)).map(|n| dwell_of((n / 100, n % 100))).collect();
    e.add("full packet of dwells in rising order", packet(3, &full), "alike ok 1364 1364 0 120065");
    full.reverse();
    e.add("full packet of dwells in falling order", packet(3, &full), "alike ok 1364 1364 0 120065");
}

/// Sheets that fall 542 bytes short of the bound: the second is the last that fits 65,536 bytes.
fn long_sheets(e: &mut Editions) {
    for (targets, length) in [(1, 166), (1453, 65_506), (1454, 65_551), (MOST_TARGETS, 736_411)] {
        let name = format!("longest packet of {targets} targets");
        e.add(&name, longest::packet(targets), &format!("alike ok 1 1 {targets} {length}"));
    }
}

/// A line end in a name is refused, also before something new; both readings take one in F3.
fn line_ends(e: &mut Editions) {
    e.add("refused line feed in P8", header(3).with(8, b"STATION\n07").packet(&[segment(3, &[])]), "no 5 0 8");
    e.add("refused line feed in J3", packet(3, &[job().with(3, b"RADAR\n").with(14, 91)]), "no 10 1 3");
    e.add("line ends in F3", packet(3, &[text(b"a\r\nb\x0C"), job()]), "alike ok 2 0 0 162");
    e.add("version 1 line ends in F3", packet(1, &[text(b"a\r\nb\x0C"), job()]), "alike ok 2 0 0 162");
}
