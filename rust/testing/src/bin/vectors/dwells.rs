//! Rows 11 to 14: masks, sizes and values of dwells. Then how many dwells there are.
use crate::parts::{dwell, dwell_of, hrr, mask, masked, mission, packet, segment, text, Part, ABSOLUTE, ALL_DELTAS, DELTAS, LEAST};
use crate::trials::{Lend, Trials};
use std::slice::from_ref;
use testing::generator::tables::bit;

/// Masks under each version and reading: version 1, version 3 read as Edition 3, version 3 read as Edition 1.
pub fn printed_masks(t: &mut Trials) {
    let ok = "ok 1 1 0 121";
    for (words, one, three, old) in [
        ("FF-00-03-C0-00-00-00-00", ok, ok, ok),
        ("FF-00-03-F8-00-00-00-00", ok, ok, ok),
        ("FF-00-03-E0-00-00-00-00", "no 11 1 29", ok, "no 15 1 29"),
        ("FF-00-03-C0-00-01-00-00", "no 11 1 49", ok, "no 15 1 49"),
        ("FF-00-03-E0-00-01-00-00", "no 11 1 29", ok, "no 15 1 29"),
        ("FF-00-03-D0-00-01-80-00", "no 11 1 28", "no 11 1 50", "no 11 1 50"),
        ("FF-C0-03-C1-E0-00-00-00", "no 11 1 35", "no 11 1 35", "no 11 1 35"),
        ("FF-00-03-C1-60-00-00-00", "no 11 1 10", "no 11 1 10", "no 11 1 10"),
        ("FF-00-03-C1-00-00-00-00", "no 11 1 34", "no 11 1 34", "no 11 1 34"),
    ] {
        for (version, edition, want) in [(1, 1, one), (1, 3, one), (3, 3, three), (3, 1, old)] {
            let name = format!("mask {words} version {version} reading {edition}");
            t.read(&name, edition, packet(version, &[masked(hex(words))]), want);
        }
    }
}

/// The mask that is printed in hexadecimal, byte by byte.
fn hex(words: &str) -> u64 {
    words.split('-').fold(0, |mask, byte| mask << 8 | u64::from_str_radix(byte, 16).expect("a byte in hexadecimal"))
}

pub fn fields_of_masks(t: &mut Trials) {
    for field in (2..=9).chain(24..=27) {
        let part = dwell("").without(&format!("D{field}"));
        t.read(&format!("mask lacks D{field}"), 3, packet(3, &[part]), &format!("no 11 1 {field}"));
    }
    t.read("mask zero", 3, packet(3, &[segment(2, &[0; 43])]), "no 11 1 2");
    t.read("mask all ones", 3, packet(3, &[masked(!0)]), "no 11 1 35");
    let ones = masked(hex("FF-3F-FF-FF-9F-FF-FF-FF"));
    t.read("mask all ones but deltas", 1, packet(3, from_ref(&ones)), "no 11 1 50");
    t.read("mask all ones but deltas version 1", 3, packet(1, &[ones]), "no 11 1 49");
    for reserved in (0..16).rev() {
        let part = masked(mask(LEAST) | 1 << reserved);
        t.read(&format!("mask reserved bit {reserved}"), 3, packet(3, &[part]), &format!("no 11 1 {}", 65 - reserved));
    }
    for group in ["D12-D14", "D15-D17", "D18-D20", "D21-D23", DELTAS, ABSOLUTE, "D32.16 D32.17"] {
        for unset in (2..50).filter(|field| mask(group) & bit(*field) != 0) {
            let part = masked(mask(LEAST) | mask(group) & !bit(unset));
            t.read(&format!("mask group with field {unset} unset"), 3, packet(3, &[part]), &format!("no 11 1 {unset}"));
        }
    }
}

pub fn groups_of_masks(t: &mut Trials) {
    for (words, unset) in [
        ("D12", 13),
        ("D14", 12),
        ("D16", 15),
        ("D20", 18),
        ("D22", 21),
        ("D10", 11),
        ("D11", 10),
        ("D32.4", 10),
        ("D32.3", 33),
        ("D32.17", 47),
        ("D10 D11", 35),
        ("D32.4 D32.5", 10),
    ] {
        t.read(&format!("mask with only {words}"), 1, packet(3, &[dwell(words)]), &format!("no 11 1 {unset}"));
    }
    t.read("mask two groups", 3, packet(3, &[dwell("D22 D32.16 D12")]), "no 11 1 13");
    t.read("mask reserved and group", 3, packet(3, &[masked(hex("FF-00-03-C0-00-02-80-00"))]), "no 11 1 47");
    for (words, field) in [("D32.4", 10), ("D10 D11 D32.4", 35), ("D10 D11 D32.5", 35), ("D10 D11", 35)] {
        let part = dwell(&format!("{ABSOLUTE} {words}"));
        t.read(&format!("mask absolute with {words}"), 3, packet(3, &[part]), &format!("no 11 1 {field}"));
    }
}

pub fn angles(t: &mut Trials) {
    let some = [("D29", 28), ("D30", 28), ("D28 D29", 30), ("D28 D30", 29), ("D29 D30", 28)];
    for (words, unset) in some {
        t.read(&format!("angles {words} version 1"), 3, packet(1, &[dwell(words)]), &format!("no 11 1 {unset}"));
        t.read(&format!("angles {words} version 3 old"), 1, packet(3, &[dwell(words)]), &format!("no 15 1 {unset}"));
    }
    let mut parts: Vec<Part> = some.iter().map(|(words, _)| dwell(words)).collect();
    parts.push(dwell("D29").with(29, 0));
    t.read("angles version 3", 3, packet(3, &parts), "ok 6 1 0 561");
    t.read("angles with D32.18 whole old", 1, packet(3, &[dwell("D28-D30 D32.18")]), "no 15 1 49");
    t.read("angles with D32.18 part old", 1, packet(3, &[dwell("D29 D30 D32.18")]), "no 15 1 28");
    let alone = dwell(&format!("{ABSOLUTE} D32.7 D32.12")).usual_targets(1);
    t.read("pairs D32.7 alone allowed", 3, packet(3, &[alone]), "ok 1 1 1 166");
}

pub fn sizes(t: &mut Trials) {
    let least = masked(hex("FF-00-03-C0-00-00-00-00"));
    t.read("P trial dwell 48", 3, packet(3, &[least.clone().sized(48)]), "ok 1 1 0 121");
    t.read("P trial dwell 49", 3, packet(3, &[least.clone().sized(49)]), "no 12 1 0");
    for size in [47, 15, 20] {
        t.read(&format!("dwell {size}"), 3, packet(3, &[least.clone().sized(size)]), "no 12 1 0");
    }
    t.read("dwell all fields size 48", 3, packet(3, &[dwell("D12-D23 D28-D31").sized(48)]), "no 12 1 0");
    let two = dwell(&format!("{ABSOLUTE} D32.9")).usual_targets(2);
    let size = two.bytes().len();
    t.read("two targets", 3, packet(3, from_ref(&two)), "ok 1 1 2 211");
    for (name, size) in [("9 less", size - 9), ("1 less", size - 1), ("1 more", size + 1), ("9 more", size + 9)] {
        t.read(&format!("two targets {name}"), 3, packet(3, &[two.clone().sized(size)]), "no 12 1 0");
    }
    for count in [0, 1, 3] {
        let part = dwell(ABSOLUTE).with(5, count).usual_targets(2);
        t.read(&format!("D5 {count} of two"), 3, packet(3, &[part]), "no 12 1 0");
    }
}

pub fn counts(t: &mut Trials) {
    let one = dwell(DELTAS).usual_targets(1);
    let seven = dwell("D32.1").usual_targets(7);
    let all = dwell("D12-D23 D28-D31 D32.1 D32.6-D32.18").usual_targets(1);
    for (name, edition, part, want) in [
        ("ffff of one", 3, one.clone().with(5, 0xFFFF), "no 12 1 0"),
        ("ffff of none", 3, dwell(DELTAS).with(5, 0xFFFF), "no 12 1 0"),
        ("0101 of one", 3, one.with(5, 0x0101), "no 12 1 0"),
        ("ffff without target fields", 3, dwell("").with(5, 0xFFFF), "no 13 1 5"),
        ("7 without target fields", 1, dwell("").with(5, 7), "no 13 1 5"),
        ("7 with D32.1 only", 3, seven.clone(), "no 13 1 5"),
        ("7 with D32.1 only size 61", 3, seven.sized(61), "no 12 1 0"),
        ("0 with D32.1 only", 3, dwell("D32.1"), "ok 1 1 0 121"),
        ("1 with all but positions", 3, all, "no 13 1 5"),
        ("0 with positions", 3, dwell(ABSOLUTE), "ok 1 1 0 121"),
    ] {
        t.read(&format!("D5 {name}"), edition, packet(3, &[part]), want);
    }
}

/// A dwell of these targets, of which D32.6, D32.11 and D32.15 are announced.
fn some(targets: &[&[(usize, i64)]]) -> Part {
    targets.iter().fold(dwell(&format!("{ABSOLUTE} D32.6 D32.11 D32.15")), |part, target| part.target(target))
}

pub fn values(t: &mut Trials) {
    t.read("D4 0 and 1", 3, packet(3, &[dwell("").with(4, 0), dwell("").with(4, 1)]), "ok 2 1 0 209");
    t.read("D4 2", 3, packet(3, &[dwell("").with(4, 2)]), "no 13 1 4");
    t.read("D4 255", 1, packet(1, &[dwell("").with(4, 255)]), "no 13 1 4");
    t.read("D4 before D5", 3, packet(3, &[dwell("").with(4, 2).with(5, 7)]), "no 13 1 4");
    let allowed = [(6, -1000), (6, 32_767), (6, 10_001), (6, 0), (11, 100), (11, 0), (15, 5000), (15, 0)];
    let allowed = allowed.iter().fold(some(&[]), |part, value| part.target(&[*value]));
    t.read("D32.6 D32.11 D32.15 allowed", 3, packet(3, &[allowed]), "ok 1 1 8 481");
    for (j, value) in [(6, -1001), (6, -32_768), (11, 101), (11, 255), (15, 5001), (15, 65_535), (15, 32_768)] {
        t.read(&format!("D32.{j} {value}"), 3, packet(3, &[some(&[&[(j, value)]])]), &format!("no 13 1 {}", 31 + j));
    }
    for (name, part, want) in [
        ("D32.6 and D32.11", some(&[&[(6, -1001), (11, 101)]]), "no 13 1 37"),
        ("D32.11 and D32.15", some(&[&[(11, 101), (15, 5001)]]), "no 13 1 42"),
        ("D32.15 of target 1 and D32.6 of target 2", some(&[&[(15, 5001)], &[(6, -1001)]]), "no 13 1 46"),
    ] {
        t.read(name, 3, packet(3, &[part]), want);
    }
    t.read_to("D32.11 of target 3", 3, packet(3, &[some(&[&[], &[], &[(11, 101)]])]), "no 13 1 42", Lend::Full);
    let third = packet(3, &[some(&[&[], &[], &[(15, 5001)]])]);
    t.read_to("D32.15 of target 3 short sheet", 3, third, "no 13 1 46", Lend::Bytes(0));
    t.read("D5 before targets", 3, packet(3, &[dwell("D32.11").target(&[(11, 101)])]), "no 13 1 5");
    t.read("D4 before targets", 3, packet(3, &[some(&[&[(11, 101)]]).with(4, 3)]), "no 13 1 4");
}

/// Row 14 beside row 13, in targets near the pole.
pub fn latitudes_out(t: &mut Trials) {
    let near = dwell(&format!("{DELTAS} D32.6 D32.11 D32.15")).with(10, 1).with(24, 0x7FFF_FFFF);
    let out = |targets: &[&[(usize, i64)]]| targets.iter().fold(near.clone(), |part, target| part.target(target));
    for (name, part, want, lend) in [
        ("14 of target 1 and 13 of target 2", out(&[&[(4, 2)], &[(4, 0), (11, 101)]]), "no 14 1 35", Lend::Full),
        ("13 of target 1 and 14 of target 2", out(&[&[(4, 0), (11, 101)], &[(4, 2)]]), "no 13 1 42", Lend::Usual),
        ("13 and 14 of target 1", out(&[&[(4, 2), (15, 5001)]]), "no 13 1 46", Lend::Usual),
        ("13 D32.6 and 14 of target 1", out(&[&[(4, 2), (6, -1001)]]), "no 13 1 37", Lend::Usual),
        ("14 of target 2 and 13 of target 3", out(&[&[(4, 1)], &[(4, 2)], &[(4, 0), (6, -1001)]]), "no 14 1 35", Lend::Usual),
        ("14 of target 3", out(&[&[(4, 1)], &[(4, 0)], &[(4, 2)]]), "no 14 1 35", Lend::Full),
        ("D4 before 14", out(&[&[(4, 2)]]).with(4, 2), "no 13 1 4", Lend::Usual),
    ] {
        t.read_to(name, 3, packet(3, &[part]), want, lend);
    }
    let longer = dwell(DELTAS).with(10, 1).with(24, 0x7FFF_FFFF).target(&[(4, 2)]).sized(61);
    t.read("size before 14", 3, packet(3, &[longer]), "no 12 1 0");
    t.read_to("14 with nothing lent", 3, packet(3, &[out(&[&[(4, 2)]])]), "no 14 1 35", Lend::Bytes(0));
}

/// Segments of a packet, and what is answered by the writer and by every reading that accepts it.
pub struct Counted {
    pub name: &'static str,
    pub parts: Vec<Part>,
    /// The numbers of segments, dwells and targets.
    pub counts: &'static str,
    /// The length of the sheet.
    length: usize,
}

impl Counted {
    fn new(name: &'static str, parts: Vec<Part>, counts: &'static str, length: usize) -> Counted {
        Counted { name, parts, counts, length }
    }

    /// Dwells without targets that have these pairs of D2 and D3.
    fn dwells(name: &'static str, pairs: &[(i64, i64)], counts: &'static str, length: usize) -> Counted {
        Counted::new(name, pairs.iter().copied().map(dwell_of).collect(), counts, length)
    }

    /// The answer of a reading that accepts the packet.
    fn read(&self) -> String {
        format!("ok {} {}", self.counts, self.length)
    }
}

/// There are as many dwells as different pairs of D2 and D3: a station may split a long dwell over several segments.
pub fn by_pairs() -> Vec<Counted> {
    vec![
        Counted::dwells("one dwell", &[(7, 9)], "1 1 0", 121),
        Counted::dwells("one dwell in two segments", &[(7, 9), (7, 9)], "2 1 0", 209),
        Counted::dwells("another D2 alone", &[(7, 9), (6, 9)], "2 2 0", 209),
        Counted::dwells("another D3 alone", &[(7, 9), (7, 10)], "2 2 0", 209),
        Counted::dwells("pairs 1 2 and 2 1", &[(1, 2), (2, 1)], "2 2 0", 209),
        Counted::dwells("pairs 0 258 and 1 2", &[(0, 258), (1, 2)], "2 2 0", 209),
        Counted::dwells("first pair again behind another", &[(7, 9), (8, 0), (7, 9)], "3 2 0", 297),
        Counted::dwells("two pairs by turns", &[(8, 0), (7, 9), (8, 0), (7, 9), (8, 0)], "5 2 0", 473),
        Counted::dwells("pairs rise and repeat", &[(0, 0), (0, 0), (0, 1), (0, 1), (1, 0)], "5 3 0", 473),
        Counted::dwells("pairs fall", &[(3, 0), (2, 9), (2, 8), (0, 1)], "4 4 0", 385),
        Counted::dwells("pairs fall and repeat", &[(3, 0), (3, 0), (2, 9), (0, 1), (0, 1)], "5 3 0", 473),
        Counted::dwells("lowest and highest pair", &[(0, 0), (0, 0xFFFF), (0xFFFF, 0), (0xFFFF, 0xFFFF), (0, 0)], "5 4 0", 473),
        Counted::new("one pair under four masks", one_pair(), "4 1 3", 520),
        Counted::new("two pairs among other segments", among_others(), "6 2 0", 470),
    ]
}

/// Parts of one dwell that differ in all but D2 and D3: in their masks, in other fields, and in whether they have targets.
fn one_pair() -> Vec<Part> {
    let parts = [dwell(ABSOLUTE).usual_targets(2), dwell(DELTAS), dwell(ALL_DELTAS).usual_targets(1), dwell("").with(4, 0).with(6, 1)];
    parts.map(|part| part.with(2, 7).with(3, 9)).to_vec()
}

/// Two dwells, one of them in two parts, with other segments between; one of these has the bytes of a third dwell.
fn among_others() -> Vec<Part> {
    let [first, second, third] = [(7, 9), (7, 8), (1, 1)].map(dwell_of);
    let opaque = segment(4, &third.body());
    vec![first.clone(), mission(), second, opaque, text(b"abc"), first]
}

/// Dwells are counted by their pairs; the segment that a refusal names is counted by segments.
pub fn pairs(t: &mut Trials) {
    for counted in by_pairs() {
        t.both(counted.name, &packet(3, &counted.parts), &counted.read());
    }
    let twice = [(7, 9), (7, 9)].map(dwell_of);
    t.read("one dwell in two segments version 1", 3, packet(1, &twice), "ok 2 1 0 209");
    t.read("refusal behind a dwell in two segments", 3, packet(3, &[&twice[..], &[mission().with(6, 0)]].concat()), "no 13 3 6");
}

/// One dwell, and a segment of another type whose bytes would read as a dwell with another pair. That of type 10 has room for the first
/// 14 of them: T2 and T3, its own revisit and dwell, are then zero. That of type 3 is in version 3 one whose own revisit and dwell, H2 and
/// H3, are the other pair.
pub fn beside_others(version: u8) -> Vec<Counted> {
    let [one, other] = [(7, 9), (1, 1)].map(dwell_of);
    let beside = |part: Part| vec![one.clone(), part];
    let (type_3, length) = if version == 3 { (hrr("").with(2, 1).with(3, 1), 188) } else { (segment(3, &other.body()), 195) };
    vec![
        Counted::new("dwell beside type 3", beside(type_3), "2 1 0", length),
        Counted::new("dwell beside type 4", beside(segment(4, &other.body())), "2 1 0", 195),
        Counted::new("dwell beside type 10", beside(segment(10, &other.body()[..14])), "2 1 0", 136),
    ]
}

/// Only segments of type 2 are dwells. Type 3 is new in Edition 3.
pub fn other_types(t: &mut Trials) {
    for (counted, older) in beside_others(3).iter().zip(beside_others(1)) {
        let (name, want) = (counted.name, counted.read());
        let is_new = counted.parts[1].segment_type == 3;
        t.read(&format!("{name} reading 1"), 1, packet(3, &counted.parts), if is_new { "no 15 2 0" } else { &want });
        t.read(&format!("{name} reading 3"), 3, packet(3, &counted.parts), &want);
        t.both(&format!("{name} version 1"), &packet(1, &older.parts), &older.read());
    }
}
