//! Positions of targets, and masks of many shapes.
use crate::parts::{absolute, by_deltas, by_longitude_deltas, dwell, packet, trial, Part, ABSOLUTE, ALL_ABSOLUTE, ALL_DELTAS, DELTAS};
use crate::trials::{Lend, Trials};
use std::slice::from_ref;

const ONE: &str = "ok 1 1 1 166";

/// The trials that document 01 marks P.
pub fn trials(t: &mut Trials) {
    for (steps, micro) in [
        (0x4000_0000, 45_000_000),
        (0x8000_0000u32, -90_000_000),
        (0x7FFF_FFFF, 90_000_000),
        (0x0080_0000, 351_563),
        (0xFF80_0000, -351_563),
    ] {
        let part = absolute(&[(steps.into(), 0)]);
        t.read_at(&format!("P trial latitude {steps:08x}"), 3, packet(3, &[part]), ONE, &[(micro, 0)]);
    }
    for (steps, micro) in [(0xFFFF_FFFAu32, 359_999_999), (0xFFFF_FFFB, 0), (0x0040_0000, 351_563)] {
        let part = absolute(&[(0, steps.into())]);
        t.read_at(&format!("P trial longitude {steps:08x}"), 3, packet(3, &[part]), ONE, &[(0, micro)]);
    }
    t.read_at("P trial sum 90 degrees", 3, packet(3, &[by_deltas(1, 0x7FFF_FFFF, 1)]), ONE, &[(90_000_000, 0)]);
    t.read("P trial sum out", 3, packet(3, &[by_deltas(1, 0x7FFF_FFFF, 2)]), "no 14 1 35");
}

pub fn rounding(t: &mut Trials) {
    let latitudes = [
        (0x0000_0000, 0),
        (0x0000_0001, 0),
        (0x0000_000B, 0),
        (0x0000_000C, 1),
        (0xFFFF_FFFF, 0),
        (0xFFFF_FFF5, 0),
        (0xFFFF_FFF4, -1),
        (0x007F_FFFF, 351_562),
        (0x0080_0001, 351_563),
        (0xFF80_0001, -351_562),
        (0xFF7F_FFFF, -351_563),
        (0x0180_0000, 1_054_688),
        (0xFE80_0000, -1_054_688),
        (0xFD80_0000, -1_757_813),
        (0xC000_0000, -45_000_000),
        (0x8000_0001, -90_000_000),
    ];
    let part = absolute(&latitudes.map(|(steps, _)| (steps, 0x8000_0000)));
    let at = latitudes.map(|(_, micro)| (micro, 180_000_000));
    t.read_at("latitudes", 3, packet(3, &[part]), "ok 1 1 16 841", &at);
    let longitudes = [
        (0x0000_0005, 0),
        (0x0000_0006, 1),
        (0x003F_FFFF, 351_562),
        (0x00C0_0000, 1_054_688),
        (0x7FFF_FFFF, 180_000_000),
        (0xFFC0_0000, 359_648_438),
        (0xFFFF_FFF5, 359_999_999),
        (0xFFFF_FFF4, 359_999_999),
        (0xFFFF_FFFF, 0),
        (0xC000_0000, 270_000_000),
    ];
    let part = absolute(&longitudes.map(|(steps, _)| (0x4000_0000, steps)));
    let at = longitudes.map(|(_, micro)| (45_000_000, micro));
    t.read_at("longitudes", 1, packet(3, &[part]), "ok 1 1 10 571", &at);
}

/// D32.4 × D10 + D24, both ends: "must lie from −2^31 to 2^31".
pub fn latitude_sums(t: &mut Trials) {
    let big = 0x8000_0000;
    let sums = [
        (1, big + 1, -1, -90_000_000),
        (1, big, 0, -90_000_000),
        (big, 0, 1, -90_000_000),
        (big, 0, -1, 90_000_000),
        (big, -1, -1, 90_000_000),
        (-1, 0, 32_767, -1373),
        (-1, 0, -32_768, 1373),
        (-1, 100, 1, 4),
        (0, 0x0080_0000, 32_767, 351_563),
        (65_536, 0, -128, -351_563),
        (65_536, 0x0100_0000, -128, 351_563),
        (65_536, 0, -384, -1_054_688),
        (65_535, 0, 32_767, 89_995_880),
        (65_536, 0, -32_768, -90_000_000),
        (3, -4, 2, 0),
    ];
    let parts = sums.map(|(d10, d24, d32_4, _)| by_deltas(d10, d24, d32_4));
    let at = sums.map(|(.., micro)| (micro, 0));
    t.read_at("sums of latitude", 3, packet(3, &parts), "ok 15 1 15 2028", &at);
    for (name, d10, d24, d32_4) in [
        ("below lowest", 1, big, -1),
        ("below lowest by much", 0x7FFF_FFFF, 0, -32_768),
        ("above highest by much", 0x7FFF_FFFF, 0, 32_767),
        ("product of the two lowest", big, 0, -32_768),
        ("D10 lowest less once and 1", big, 1, -1),
        ("D10 lowest twice from highest", big, 0x7FFF_FFFF, 2),
        ("D32.4 lowest reaches over", 65_537, 0, -32_768),
    ] {
        t.read(&format!("sum latitude {name}"), 3, packet(3, &[by_deltas(d10, d24, d32_4)]), "no 14 1 35");
    }
}

/// D32.5 × D11 + D25, "reduced to 0 to 2^32−1".
pub fn longitude_sums(t: &mut Trials) {
    let sums = [
        (1, 0, -1, 0),
        (1, 0, -6, 359_999_999),
        (65_536, 0, -64, 359_648_438),
        (1, 0xFFFF_FFFF, 1, 0),
        (0x0040_0000, 0xFFFF_FFFF, 2, 703_125),
        (1, 0xFFFF_FFF0, 10, 359_999_999),
        (1, 0xFFFF_FFF0, 11, 0),
        (0xFFFF_FFFF, 0x0040_0000, 1, 351_562),
        (0xFFFF_FFFF, 0, 32_767, 359_997_254),
        (0xFFFF_FFFF, 0, -32_768, 2747),
        (0xFFFF_FFFF, 0xFFFF_FFFF, 32_767, 359_997_253),
        (0x8000_0000, 0, 3, 180_000_000),
        (0x8000_0000, 0x4000_0000, -2, 90_000_000),
        (0, 0xC000_0000, -5, 270_000_000),
        (1, 0x8000_0000, 0, 180_000_000),
    ];
    let parts = sums.map(|(d11, d25, d32_5, _)| by_longitude_deltas(d11, d25, d32_5));
    let at = sums.map(|(.., micro)| (0, micro));
    t.read_at("sums of longitude", 1, packet(3, &parts), "ok 15 1 15 2028", &at);
}

pub fn printed(t: &mut Trials) {
    let at = [(-351_563, 359_648_438)];
    t.read_at("trial 92 bytes", 3, trial(), ONE, &at);
    t.read_to("trial 92 bytes exact", 3, trial(), ONE, Lend::Exact);
    t.read_to("trial 92 bytes short", 3, trial(), "no 16 0 0", Lend::Short);
    t.read_to("trial 92 bytes old reading", 1, trial(), ONE, Lend::Exact);
    t.read_at("D11 1 and D32.5 less 1", 3, packet(3, &[by_longitude_deltas(1, 0, -1)]), ONE, &[(0, 0)]);
    let zeros = absolute(&[(0, 0), (0, 0x4000_0000), (0x4000_0000, 0)]).with(24, 0x2000_0000).with(25, 0x2000_0000);
    let at = [(0, 0), (0, 90_000_000), (45_000_000, 0)];
    t.read_at("zero is not absent", 3, packet(3, &[zeros]), "ok 1 1 3 256", &at);
    let zero = dwell(DELTAS).with(24, 0x4000_0000).with(25, 0x2000_0000).target(&[(4, 0), (5, 0)]);
    t.read_at("zero D32.4 is not absent", 3, packet(3, &[zero]), ONE, &[(45_000_000, 45_000_000)]);
    let several = dwell(DELTAS).with(10, 0x0080_0000).with(11, 0x0040_0000).with(24, 0).with(25, 0);
    let several = [(-1, 1), (0, 0), (1, -1), (256, -256)].iter().fold(several, |part, (d4, d5)| part.target(&[(4, *d4), (5, *d5)]));
    let at = [(-351_563, 351_563), (0, 0), (351_563, 359_648_438), (90_000_000, 270_000_000)];
    t.read_at("several targets by deltas", 3, packet(3, &[several]), "ok 1 1 4 301", &at);
    let places = [(0x2000_0000, 0x2000_0000), (-0x2000_0000, 0xE000_0000), (0, 0xFFFF_FFFB)];
    let several = dwell(&format!("{ABSOLUTE} D32.1"));
    let several = places.iter().fold(several, |part, (d2, d3)| part.target(&[(2, *d2), (3, *d3)]));
    let at = [(22_500_000, 45_000_000), (-22_500_000, 315_000_000), (0, 0)];
    t.read_at("several targets absolute", 1, packet(1, &[several]), "ok 1 1 3 256", &at);
}

/// One packet with sheets of lengths around its own, 166.
pub fn lent_lengths(t: &mut Trials) {
    for (lent, want) in [(0, "no 16 0 0"), (1, "no 16 0 0"), (164, "no 16 0 0"), (167, ONE), (168, ONE), (266, ONE)] {
        t.read_to(&format!("trial 92 bytes to {lent}"), 3, trial(), want, Lend::Bytes(lent));
    }
}

pub fn all_fields(t: &mut Trials) {
    for (name, words, count) in [("absolute", ALL_ABSOLUTE, 1), ("deltas", ALL_DELTAS, 2)] {
        let name = format!("all fields {name}");
        let sheet = format!("ok 1 1 {count} {}", 121 + 45 * count);
        let part = dwell(words).usual_targets(count);
        for (version, edition) in [(1, 1), (1, 3), (3, 1), (3, 3)] {
            t.read(&format!("{name} version {version} reading {edition}"), edition, packet(version, from_ref(&part)), &sheet);
        }
        let part = dwell(&format!("{words} D32.18")).usual_targets(count);
        t.read(&format!("{name} and D32.18"), 3, packet(3, from_ref(&part)), &sheet);
        t.read(&format!("{name} and D32.18 old reading"), 1, packet(3, from_ref(&part)), "no 15 1 49");
        t.read(&format!("{name} and D32.18 version 1"), 3, packet(1, &[part]), "no 11 1 49");
    }
}

pub fn shapes(t: &mut Trials) {
    let some = [
        "D28 D30 D32.1 D32.2 D32.3 D32.6 D32.8 D32.10 D32.12 D32.14 D32.18",
        "D29 D31 D32.2 D32.3 D32.7 D32.9 D32.11 D32.13 D32.15",
        "D10 D11 D32.4 D32.5 D15-D17 D21-D23 D29 D31 D32.7 D32.9 D32.11 D32.13 D32.15 D32.18",
        "D12-D14 D18-D20 D28 D30 D32.2 D32.3 D32.16 D32.17",
        "D10 D11 D32.4 D32.5 D12-D14 D32.1 D32.6 D32.16-D32.18",
        "D15-D17 D32.2 D32.3 D32.18",
        "D18-D20 D30 D32.2 D32.3 D32.10",
        "D21-D23 D31 D32.2 D32.3 D32.14 D32.15",
        "D31 D10 D11 D32.4 D32.5 D32.8 D32.12",
    ];
    let mut parts: Vec<Part> = Vec::new();
    for (index, words) in some.into_iter().enumerate() {
        let number = index + 1;
        let count = 1 + number % 3;
        parts.push(dwell(words).with(2, number as i64).usual_targets(count));
        let lend = if number % 3 == 0 { Lend::Exact } else { Lend::Usual };
        let want = format!("ok 1 1 {count} {}", 121 + 45 * count);
        t.read_to(&format!("shape {number}"), 3, packet(3, &parts[index..]), &want, lend);
    }
    t.read("shapes 1 to 4", 3, packet(3, &parts[..4]), "ok 4 4 8 745");
    t.read("shapes 5 to 9", 3, packet(3, &parts[4..]), "ok 5 5 10 923");
    let some = ["D12-D14", "D15-D17", "D18-D20", "D21-D23", "D31", "D12-D14 D18-D20", "D15-D17 D21-D23 D28-D30"];
    let mut parts: Vec<Part> = some.into_iter().map(dwell).collect();
    parts.extend([dwell(&format!("{DELTAS} D32.1")), dwell("D32.6 D32.8 D32.10")]);
    for edition in [1, 3] {
        t.read(&format!("shapes without targets reading {edition}"), edition, packet(3, &parts), "ok 9 1 0 825");
    }
    let seven = dwell(&format!("{DELTAS} D32.1 D32.9")).usual_targets(7);
    t.read("seven targets", 3, packet(3, &[seven]), "ok 1 1 7 436");
    let twenty = (0..20).fold(dwell(DELTAS), |part, k| part.target(&[(4, k), (5, -k)]));
    t.read_to("twenty targets", 3, packet(3, &[twenty]), "ok 1 1 20 1021", Lend::Exact);
}
