//! HRR segments of Edition 3: rows 9, 21 and 22, and their records. In version 1 they are opaque, and new to the Edition 1 reading.
use crate::parts::{dwell, every_kind_and, hrr, hrr_masked, mask, mission, packet, raw, segment, test, trial_dwell, Part, LEAST};
use crate::trials::{Lend, Trials};
use std::slice::from_ref;
use testing::generator::hrr::WRAPPING;
use testing::generator::tables::{bit, mask_of, HRR_ALWAYS, HRR_FREE, HRR_SPARE, SCATTERER_FREE};

/// Two segments byte by byte, all zero but the mask and H25; the second has H6 3 and the magnitudes 7, 8 and 9.
pub fn spelt() -> [Part; 2] {
    let least = [&[0xE2, 0xFB, 0xC7, 0x82, 0x00][..], &[0; 27], &[1, 0]].concat();
    let three = [&[0xEA, 0xFB, 0xC7, 0x82, 0x00, 0, 0, 0, 0, 0, 0, 3][..], &[0; 22], &[1, 0, 7, 8, 9]].concat();
    [segment(3, &least), segment(3, &three)]
}

/// A segment under each version and reading: the Edition 3 reading of version 3 answers so, that of Edition 1 names the type, and in
/// version 1 the bytes are kept.
fn everywhere(t: &mut Trials, name: &str, part: &Part, want: &str) {
    let made = packet(3, from_ref(part));
    t.read(name, 3, made.clone(), want);
    t.read(&format!("{name} old reading"), 1, made, "no 15 1 0");
    let kept = format!("ok 1 0 0 {}", 33 + 6 + 34 * part.body().len().div_ceil(32));
    t.both(&format!("{name} version 1"), &packet(1, from_ref(part)), &kept);
}

pub fn printed(t: &mut Trials) {
    let [least, three] = spelt();
    everywhere(t, "HRR least", &least, "ok 1 0 0 100");
    everywhere(t, "HRR three magnitudes", &three, "ok 1 0 0 127");
}

/// Row 21: a mask that lacks a field which every mask announces, or sets a bit which announces nothing. All other bits are free.
pub fn masks(t: &mut Trials) {
    let want = "no 21 1 0";
    let least = mask_of(&HRR_ALWAYS);
    let name = |field: u32| if field < 32 { format!("H{field}") } else { format!("H32.{}", field - 31) };
    for field in HRR_ALWAYS {
        t.read(&format!("HRR mask lacks {}", name(field)), 3, packet(3, &[hrr_masked(least & !bit(field))]), want);
    }
    for field in HRR_SPARE {
        t.read(&format!("HRR mask spare bit {}", 41 - field), 3, packet(3, &[hrr_masked(least | bit(field))]), want);
    }
    let all = mask("H2-H31 H32.1-H32.4");
    let others =
        [("zero", 0), ("all ones", !0), ("all but H2", all & !bit(2)), ("all but H32.1", all & !bit(32)), ("of a dwell", mask(LEAST))];
    for (name, mask) in others {
        t.read(&format!("HRR mask {name}"), 3, packet(3, &[hrr_masked(mask).scatterers(1)]), want);
    }
    t.read("HRR mask all fields", 3, packet(3, &[hrr_masked(all).scatterers(1)]), "ok 1 0 0 109");
    let alone: Vec<Part> = HRR_FREE.into_iter().chain(SCATTERER_FREE).map(|field| hrr_masked(least | bit(field))).collect();
    t.read("HRR mask each free field alone", 3, packet(3, &alone), "ok 16 0 0 1105");
    let absent: Vec<Part> = HRR_FREE.into_iter().chain(SCATTERER_FREE).map(|field| hrr_masked(all & !bit(field)).scatterers(1)).collect();
    t.read("HRR mask each free field absent", 3, packet(3, &absent), "ok 16 0 0 1249");
    let late = segment(3, &[&[0xE2, 0xFB, 0xC7, 0x82, 0x20][..], &[0; 27], &[1, 0]].concat());
    t.read("HRR mask spare bit of the least", 3, packet(3, &[late]), want);
}

/// Row 22: H25 is 1 or 2, and H26 at most 2, also where no phase is announced. The size is what they would give.
pub fn widths(t: &mut Trials) {
    for (h25, want) in [(0, "no 22 1 0"), (1, "ok 1 0 0 118"), (2, "ok 1 0 0 118"), (3, "no 22 1 0"), (255, "no 22 1 0")] {
        t.read(&format!("H25 {h25}"), 3, packet(3, &[hrr("H6").with(25, h25).scatterers(2)]), want);
        let none = if want.starts_with("ok") { "ok 1 0 0 100" } else { want };
        t.read(&format!("H25 {h25} without scatterers"), 3, packet(3, &[hrr("").with(25, h25)]), none);
    }
    for (h26, want) in [(0, "ok 1 0 0 118"), (1, "ok 1 0 0 118"), (2, "ok 1 0 0 118"), (3, "no 22 1 0"), (255, "no 22 1 0")] {
        for (name, words) in [("with phase", "H6 H32.2"), ("without phase", "H6")] {
            t.read(&format!("H26 {h26} {name}"), 3, packet(3, &[hrr(words).with(26, h26).scatterers(2)]), want);
        }
    }
    let phases = hrr("H6").with(26, 2).scatterers(2);
    t.read("H26 2 without phase but its bytes", 3, packet(3, &[phases.clone().sized(phases.bytes().len() + 4)]), "no 22 1 0");
    let none = hrr("H6 H32.2").with(26, 0).scatterers(2);
    t.read("H26 0 with phase and its bytes", 3, packet(3, &[none.clone().sized(none.bytes().len() + 2)]), "no 22 1 0");
    t.read("HRR every pattern of widths", 3, packet(3, &patterns()), "ok 32 0 0 2753");
    let ends = [[0, 0, 0, 0], [0xFFFF, 0xFFFF, 0xFF, 0xFF], [0x0100, 0x00FF, 1, 0x80]];
    let wide = ends.into_iter().fold(hrr("H6 H32.2-H32.4").with(25, 2).with(26, 2), Part::scatterer);
    t.read("HRR ends of the values", 3, packet(3, &[wide]), "ok 1 0 0 127");
}

/// A segment with two scatterers for each pattern of widths, phases of every width announced or not.
pub fn patterns() -> Vec<Part> {
    let mut parts = Vec::new();
    for indices in ["", "H32.3", "H32.4", "H32.3 H32.4"] {
        for (phase, h26) in [("", 2), ("H32.2", 0), ("H32.2", 1), ("H32.2", 2)] {
            for h25 in [1, 2] {
                let two = |part: Part| part.scatterer([0x1121, 0x2241, 0x61, 0x81]).scatterer([0x3322, 0x4442, 0x62, 0x82]);
                parts.push(two(hrr(&format!("H6 {phase} {indices}")).with(25, h25).with(26, h26)));
            }
        }
    }
    parts
}

/// As many scatterers as H6 says where it is announced, also 0; else H7 times H8, with an absent H7 as zero.
pub fn counts(t: &mut Trials) {
    let counted = |words: &str, h6: i64, h7: i64, h8: i64| hrr(words).with(6, h6).with(7, h7).with(8, h8);
    for (name, part, there, want) in [
        ("H6 0 and H7 times H8 6", counted("H6 H7", 0, 2, 3), 0, "ok 1 0 0 100"),
        ("H6 0 and H7 times H8 6 of 6", counted("H6 H7", 0, 2, 3), 6, "no 22 1 0"),
        ("H6 3 and H7 times H8 6", counted("H6 H7", 3, 2, 3), 3, "ok 1 0 0 127"),
        ("H6 3 and H7 times H8 6 of 6", counted("H6 H7", 3, 2, 3), 6, "no 22 1 0"),
        ("H6 3 without H7", counted("H6", 3, 2, 3), 3, "ok 1 0 0 127"),
        ("H6 absent and H7 times H8 6", counted("H7", 5, 2, 3), 6, "ok 1 0 0 154"),
        ("H6 absent and H7 times H8 6 of 5", counted("H7", 5, 2, 3), 5, "no 22 1 0"),
        ("H6 absent and H7 3 times H8 2", counted("H7", 0, 3, 2), 6, "ok 1 0 0 154"),
        ("H6 absent and H7 0 times H8 65535", counted("H7", 5, 0, 65_535), 0, "ok 1 0 0 100"),
        ("H6 absent and H7 65535 times H8 0", counted("H7", 5, 65_535, 0), 0, "ok 1 0 0 100"),
        ("H6 and H7 absent and H8 5", counted("", 5, 5, 5), 0, "ok 1 0 0 100"),
        ("H6 and H7 absent and H8 5 of 5", counted("", 5, 5, 5), 5, "no 22 1 0"),
        ("H6 and H7 absent and H8 65535", counted("", 5, 5, 65_535), 0, "ok 1 0 0 100"),
        ("H6 65535 of none", counted("H6", 65_535, 0, 0), 0, "no 22 1 0"),
        ("H6 257 of 1", counted("H6", 257, 0, 0), 1, "no 22 1 0"),
        ("H6 256 of none", counted("H5 H6", 256, 0, 0), 0, "no 22 1 0"),
    ] {
        t.read(&format!("HRR count {name}"), 3, packet(3, &[part.scatterers(there)]), want);
    }
    let many = counted("H5 H7", 0, 40, 20).scatterers(800);
    t.read("HRR count 40 by 20 samples", 3, packet(3, &[many]), "ok 1 0 0 7300");
}

/// Counts whose bytes pass 32 bits, with the bytes that are left of them modulo 2^32; for scatterers of one byte modulo 2^16.
pub fn products(t: &mut Trials) {
    let of_bytes = ["", "H32.3", "H32.3 H32.4", "H32.2 H32.3", "H32.2-H32.4", "H32.2-H32.4"];
    for (at, ((h7, h8), words)) in WRAPPING.into_iter().zip(of_bytes).enumerate() {
        let each = at as u64 + 1;
        let h25 = if each == 6 { 2 } else { 1 };
        let part = hrr(&format!("H7 {words}")).with(25, h25).with(26, 2).with(7, i64::from(h7)).with(8, i64::from(h8));
        let left = u64::from(h7) * u64::from(h8) * each % if each == 1 { 1 << 16 } else { 1 << 32 };
        let size = part.bytes().len() + left as usize;
        t.read(&format!("HRR {h7} by {h8} samples of {each} bytes"), 3, packet(3, &[part.clone().sized(size)]), "no 22 1 0");
        let most = part.with(7, 65_535).with(8, 65_535);
        t.read(&format!("HRR 65535 by 65535 samples of {each} bytes"), 3, packet(3, &[most]), "no 22 1 0");
    }
}

/// Row 9 where the body cannot hold the mask, and row 22 for every other size.
pub fn sizes(t: &mut Trials) {
    let least = hrr("");
    for size in 5..=9 {
        everywhere(t, &format!("HRR size {size}"), &least.clone().sized(size), "no 9 1 0");
    }
    for size in [10, 11, 12, 37, 38, 40, 41, 300] {
        t.read(&format!("HRR size {size}"), 3, packet(3, &[least.clone().sized(size)]), "no 22 1 0");
    }
    t.read("HRR size 39", 3, packet(3, &[least.clone().sized(39)]), "ok 1 0 0 100");
    let two = hrr("H6 H32.2-H32.4").with(25, 2).with(26, 2).scatterers(2);
    let size = two.bytes().len();
    for (name, size, want) in [
        ("exact", size, "ok 1 0 0 118"),
        ("1 less", size - 1, "no 22 1 0"),
        ("1 more", size + 1, "no 22 1 0"),
        ("a scatterer less", size - 6, "no 22 1 0"),
        ("a scatterer more", size + 6, "no 22 1 0"),
    ] {
        t.read(&format!("HRR two scatterers {name}"), 3, packet(3, &[two.clone().sized(size)]), want);
    }
    let all = hrr("H2-H31 H32.1-H32.4");
    for size in [39, 49, 50, 60, 70] {
        t.read(&format!("HRR all fields size {size}"), 3, packet(3, &[all.clone().sized(size)]), "no 22 1 0");
    }
    t.read("HRR all fields size 71", 3, packet(3, &[all.clone().sized(71)]), "ok 1 0 0 100");
    for (name, part) in [("4", all.clone().claiming(4)), ("past the end", all.clone().claiming(72)), ("ffffffff", all.claiming(u32::MAX))] {
        t.read(&format!("HRR S2 {name}"), 3, packet(3, &[part]), "no 8 1 0");
    }
}

/// The same segments under both versions and both readings.
pub fn versions(t: &mut Trials) {
    let wide = hrr("H2-H31 H32.1-H32.4").with(25, 2).with(26, 1).scatterers(3);
    everywhere(t, "HRR all fields and three scatterers", &wide, "ok 1 0 0 127");
    everywhere(t, "HRR by samples", &hrr("H7").scatterers(2), "ok 1 0 0 118");
    everywhere(t, "HRR that lacks H24", &hrr("").without("H24"), "no 21 1 0");
    everywhere(t, "HRR that lacks H9 alone", &hrr("H5-H7 H15 H20-H22 H27-H31"), "ok 1 0 0 100");
    everywhere(t, "HRR with H25 0", &hrr("").with(25, 0), "no 22 1 0");
    everywhere(t, "HRR with H26 3", &hrr("").with(26, 3), "no 22 1 0");
    everywhere(t, "HRR of another size", &hrr("H6").scatterers(2).sized(44), "no 22 1 0");
}

/// The first fault is named, in the order of segments and then of rows.
pub fn order(t: &mut Trials) {
    let lacking = || hrr("").without("H2");
    let wide = || hrr("").with(25, 3);
    let profile = || hrr("H6").scatterers(2);
    for (name, parts, want) in [
        ("9 and 21", vec![segment(3, &[0; 4])], "no 9 1 0"),
        ("21 and 22 of H25", vec![lacking().with(25, 0)], "no 21 1 0"),
        ("21 and 22 of H26", vec![lacking().with(26, 3)], "no 21 1 0"),
        ("21 and 22 of size", vec![lacking().sized(10)], "no 21 1 0"),
        ("spare bit and size", vec![hrr_masked(mask_of(&HRR_ALWAYS) | bit(41)).sized(300)], "no 21 1 0"),
        ("21 in segment 3", vec![mission(), profile(), lacking()], "no 21 3 0"),
        ("22 in segment 3", vec![trial_dwell(), profile(), wide()], "no 22 3 0"),
        ("21 then 22", vec![lacking(), wide()], "no 21 1 0"),
        ("22 then 21", vec![wide(), lacking()], "no 22 1 0"),
        ("22 then 9", vec![wide(), test().sized(18)], "no 22 1 0"),
        ("21 then 7", vec![lacking(), segment(0, &[])], "no 21 1 0"),
        ("11 then 21", vec![dwell("D12"), lacking()], "no 11 1 13"),
        ("13 then 22", vec![mission().with(6, 0), wide()], "no 13 1 6"),
        ("22 then left", vec![wide(), raw(&[1])], "no 22 1 0"),
        ("accepted then left", vec![profile(), raw(&[1])], "no 6 2 0"),
        ("accepted then 13", vec![profile(), mission().with(7, 32)], "no 13 2 7"),
    ] {
        t.read(&format!("HRR order {name}"), 3, packet(3, &parts), want);
    }
    for (name, lent, part, want) in [("21", 0, lacking(), "no 21 2 0"), ("22", 200, wide(), "no 22 2 0")] {
        t.read_to(&format!("HRR order {name} before 16"), 3, packet(3, &[profile(), part]), want, Lend::Bytes(lent));
    }
    t.read("HRR behind every kind", 3, packet(3, &every_kind_and(profile())), "ok 11 1 3 771");
    t.read("HRR behind every kind old reading", 1, packet(3, &every_kind_and(profile())), "no 15 11 0");
    let around = [profile(), trial_dwell(), hrr(""), segment(4, b"abc"), profile()];
    t.read("HRR around other segments", 3, packet(3, &around), "ok 5 1 1 443");
}

/// Lent just enough, and less: by a byte, without the last record, and within the first.
pub fn lent(t: &mut Trials) {
    let two = packet(3, &[hrr("H6").scatterers(2)]);
    t.read_to("HRR to 118", 3, two.clone(), "ok 1 0 0 118", Lend::Exact);
    for lent in [117, 110, 109, 101, 100, 99, 34, 33, 0] {
        t.read_to(&format!("HRR to {lent}"), 3, two.clone(), "no 16 0 0", Lend::Bytes(lent));
    }
    let [least, _] = spelt();
    t.read_to("HRR least to 100", 3, packet(3, from_ref(&least)), "ok 1 0 0 100", Lend::Exact);
    t.read_to("HRR least to 99", 3, packet(3, &[least]), "no 16 0 0", Lend::Short);
}
