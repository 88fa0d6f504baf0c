//! A refusal in words: the package's table is that of the manual, each row has its sentences, and every refused packet gets one of them.
use gmti::{Edition, Refusal};
use std::fs;
use testing::generator::damage::{self, segment_places};
use testing::generator::faults::Fault;
use testing::generator::spelling::{Dwell, Hrr, Packet, Segment, Target};
use testing::generator::tables::{bit, mask_of, ABSOLUTE, ALWAYS, DELTAS, HRR_ALWAYS, J14_PLACE, M6_PLACE, M7_PLACE};
use testing::generator::valid::{self, Pair, Style};
use testing::generator::{aimed, hrr, Random};
use testing::root;

/// The rows of the manual's table: number, 'When' and 'What to do'.
fn rows_of_the_manual() -> Vec<[String; 3]> {
    let manual = fs::read_to_string(root().join("docs/MANUAL.md")).unwrap();
    let section = manual.lines().skip_while(|line| *line != "## Refusals");
    let rows = section.skip_while(|line| !line.starts_with("|---")).skip(1).take_while(|line| line.starts_with('|'));
    let cells = rows.map(|row| row.trim_matches('|').split('|').map(|cell| cell.trim().to_string()).collect::<Vec<_>>());
    cells.map(|cells| [0, 1, 3].map(|column| cells[column].clone())).collect()
}

#[test]
fn the_table_is_that_of_the_manual() {
    let rows: Vec<_> = Refusal::ROWS.iter().map(|row| [row.number.to_string(), row.when.into(), row.remedy.into()]).collect();
    assert_eq!(rows, rows_of_the_manual());
}

/// What a reading refuses the packet with, lent a long sheet.
fn refusal(edition: Edition, packet: &[u8]) -> Refusal {
    gmti::read(edition, packet, &mut vec![0; gmti::sheet_bound(packet.len())]).expect_err("a packet that is to be refused")
}

fn words(packet: &[u8]) -> String {
    refusal(Edition::Three, packet).to_string()
}

/// A packet with spaces for all but P1 and P2.
fn packet(version: &[u8; 2], segments: Vec<Segment>) -> Packet {
    let mut header = [b' '; 32];
    header[..2].copy_from_slice(version);
    Packet::new(header, segments)
}

/// The words for a version 3 packet of this segment alone, and for one of version 1.
fn words_of(segment: Segment) -> String {
    words(&packet(b"30", vec![segment]).bytes())
}

fn words_of_version_1(segment: Segment) -> String {
    words(&packet(b"10", vec![segment]).bytes())
}

/// The words of the Edition 1 reading of a version 3 packet.
fn words_of_edition_1(segment: Segment) -> String {
    refusal(Edition::One, &packet(b"30", vec![segment]).bytes()).to_string()
}

/// A body of spaces but for one byte.
fn with(segment_type: u8, length: usize, at: usize, byte: u8) -> Segment {
    let mut body = vec![b' '; length];
    body[at] = byte;
    Segment::new(segment_type, body)
}

/// A dwell with these fields beside those that each has; all values are zero but D5.
fn dwell(fields: &[u32], targets: Vec<Target>) -> Dwell {
    let mut values = [0; 32];
    values[5] = targets.len() as u32;
    Dwell { mask: mask_of(&ALWAYS) | mask_of(fields), values, targets }
}

/// A dwell with these fields, and without one of them.
fn without(fields: &[u32], missing: u32) -> Segment {
    let mut dwell = dwell(fields, vec![]);
    dwell.mask &= !bit(missing);
    dwell.segment()
}

#[test]
fn samples_have_their_words() {
    let of = |edition, file: &str| refusal(edition, &fs::read(root().join("samples").join(file)).unwrap()).to_string();
    let damaged = |file: &str| of(Edition::Three, file);
    assert_eq!(damaged("damaged_height.gmti"), "segment 1 (dwell), target 3: D32.6, height -1001, is under -1000");
    assert_eq!(damaged("damaged_platform_name.gmti"), "character 7 of P8, platform, is 0x0A, not among 0x20 to 0x7E");
    assert_eq!(damaged("damaged_profile_mask.gmti"), "segment 2 (HRR): H24, processing, is mandatory and not announced");
    let count = "segment 2 (HRR): S2, segment size 55, is not 56, which its mask, widths and 13 scatterers call for";
    assert_eq!(damaged("damaged_profile_count.gmti"), count);
    assert_eq!(damaged("damaged_cut_short.gmti"), "P2, packet size 131, is not the packet's length, 121");
    let recording = "P2, packet size 149, is not the packet's length, 1088; a recording is to be split by P2";
    assert_eq!(damaged("recording.gmti"), recording);
    let new = |file: &str| of(Edition::One, file);
    assert_eq!(new("new_range_profile.gmti"), "segment 2 (HRR): an HRR segment is laid out otherwise in Edition 1");
    let heading = "segment 1 (dwell): D29, sensor pitch, is not announced while D28, sensor heading, is, which Edition 3 alone allows";
    assert_eq!(new("new_heading_alone.gmti"), heading);
    assert_eq!(new("new_cross_section.gmti"), "segment 1 (dwell): D32.18, radar cross section, is new in Edition 3");
    let mode = "segment 2 (job definition): J14, radar mode 101, is Lynx I/II in Edition 3 and given to no system in Edition 1";
    assert_eq!(new("new_radar_mode.gmti"), mode);
}

/// Rows 2 to 5.
#[test]
fn headers() {
    assert_eq!(words(&[]), "the packet's length, 0, is under 32");
    assert_eq!(words(&[0; 31]), "the packet's length, 31, is under 32");
    assert_eq!(words(&[0; 65_537]), "the packet's length, 65537, is above 65536");
    let version = |p1: &[u8; 2]| words(&packet(p1, vec![]).bytes());
    assert_eq!(version(b"29"), "P1, version 29, is Edition 2, which is not covered");
    assert_eq!(version(b"2x"), "P1, version 2x, is not the character 1 or 3 and a digit");
    assert_eq!(version(b"03"), "P1, version 03, is not the character 1 or 3 and a digit");
    assert_eq!(version(b"3 "), "P1, version 0x33 0x20, is not the character 1 or 3 and a digit");
    assert_eq!(version(&[0, 0xFF]), "P1, version 0x00 0xFF, is not the character 1 or 3 and a digit");
    let size = |p2| words(&Packet { size: Some(p2), ..packet(b"30", vec![Segment::new(12, vec![])]) }.bytes());
    assert_eq!(size(31), "P2, packet size 31, is not the packet's length, 37");
    assert_eq!(size(32), "P2, packet size 32, is not the packet's length, 37; a recording is to be split by P2");
    assert_eq!(size(36), "P2, packet size 36, is not the packet's length, 37; a recording is to be split by P2");
    assert_eq!(size(u32::MAX), "P2, packet size 4294967295, is not the packet's length, 37");
    let character = |at: usize, byte| {
        let mut bytes = packet(b"30", vec![]).bytes();
        bytes[at] = byte;
        words(&bytes)
    };
    assert_eq!(character(6, 0), "character 1 of P3, nationality, is 0x00, not among 0x20 to 0x7E");
    assert_eq!(character(10, 0x7F), "character 2 of P5, security system, is 0x7F, not among 0x20 to 0x7E");
    assert_eq!(character(23, 0xE6), "character 10 of P8, platform, is 0xE6, not among 0x20 to 0x7E");
}

/// Rows 6 to 8.
#[test]
fn heads_of_segments() {
    let left = |count| words(&Packet { rest: vec![1; count], ..packet(b"30", vec![Segment::new(7, vec![])]) }.bytes());
    assert_eq!(left(1), "segment 2: 1 byte left, too few for the type and S2, which take 5");
    assert_eq!(left(4), "segment 2: 4 bytes left, too few for the type and S2, which take 5");
    assert_eq!(words_of(Segment::new(0, vec![])), "segment 1: type 0 is not known");
    assert_eq!(words_of(Segment::new(255, vec![])), "segment 1: type 255 is not known");
    let size = |size| words_of(Segment { size: Some(size), ..Segment::new(1, vec![b' '; 39]) });
    assert_eq!(size(0), "segment 1 (mission): S2, segment size 0, is under 5");
    assert_eq!(size(4), "segment 1 (mission): S2, segment size 4, is under 5");
    assert_eq!(size(45), "segment 1 (mission): S2, segment size 45, leads 1 byte past the packet's end");
    assert_eq!(size(u32::MAX), "segment 1 (mission): S2, segment size 4294967295, leads 4294967251 bytes past the packet's end");
}

/// By table 2-2 of Edition 3; that of Edition 1 has 4.
#[test]
fn types_have_their_names() {
    let names = [
        (1, "mission"),
        (2, "dwell"),
        (3, "HRR"),
        (4, "range-Doppler"),
        (5, "job definition"),
        (6, "free text"),
        (7, "low reflectivity index"),
        (8, "group"),
        (9, "attached target"),
        (10, "test and status"),
        (11, "system-specific"),
        (12, "processing history"),
        (13, "platform location"),
        (101, "job request"),
        (102, "job acknowledge"),
    ];
    for (segment_type, name) in names {
        let words = words_of(Segment { size: Some(4), ..Segment::new(segment_type, vec![]) });
        assert_eq!(words, format!("segment 1 ({name}): S2, segment size 4, is under 5"));
    }
}

/// Rows 9 and 10.
#[test]
fn sizes_and_text_of_segments() {
    let sized = |segment_type, body| words_of(Segment::new(segment_type, vec![b' '; body]));
    assert_eq!(sized(1, 40), "segment 1 (mission): S2, segment size 45, is not 44");
    assert_eq!(sized(2, 7), "segment 1 (dwell): S2, segment size 12, is under 13");
    assert_eq!(sized(3, 4), "segment 1 (HRR): S2, segment size 9, is under 10");
    assert_eq!(sized(5, 67), "segment 1 (job definition): S2, segment size 72, is not 73");
    assert_eq!(sized(6, 19), "segment 1 (free text): S2, segment size 24, is under 25");
    assert_eq!(sized(10, 0), "segment 1 (test and status): S2, segment size 5, is not 19");
    assert_eq!(sized(13, 24), "segment 1 (platform location): S2, segment size 29, is not 28");
    let mission = |at| words_of(with(1, 39, at, 0x1F));
    assert_eq!(mission(11), "segment 1 (mission): character 12 of M1, mission plan, is 0x1F, not among 0x20 to 0x7E");
    assert_eq!(mission(12), "segment 1 (mission): character 1 of M2, flight plan, is 0x1F, not among 0x20 to 0x7E");
    assert_eq!(mission(34), "segment 1 (mission): character 10 of M4, configuration, is 0x1F, not among 0x20 to 0x7E");
    let job = "segment 1 (job definition): character 6 of J3, sensor model, is 0x0D, not among 0x20 to 0x7E";
    assert_eq!(words_of(with(5, 68, 10, 0x0D)), job);
    let text = |at| words_of(with(6, 70, at, 0x0B));
    assert_eq!(text(0), "segment 1 (free text): character 1 of F1, sender, is 0x0B, not among 0x20 to 0x7E");
    assert_eq!(text(19), "segment 1 (free text): character 10 of F2, recipient, is 0x0B, not among 0x20 to 0x7E");
    let f3 = "segment 1 (free text): character 50 of F3, free text, is 0x0B, not among 0x20 to 0x7E, 0x0A, 0x0C, 0x0D";
    assert_eq!(text(69), f3);
    let lines = Segment::new(6, [&[b' '; 20][..], b"\n\x0C\r\x00"].concat());
    assert_eq!(words_of(lines), f3.replace("50", "4").replace("0x0B", "0x00"));
}

/// Row 11.
#[test]
fn masks_of_dwells() {
    assert_eq!(words_of(without(&[], 2)), "segment 1 (dwell): D2, revisit, is mandatory and not announced");
    assert_eq!(words_of(without(&[], 27)), "segment 1 (dwell): D27, half extent in angle, is mandatory and not announced");
    let with = |field| dwell(&[field], vec![]).segment();
    assert_eq!(words_of(with(50)), "segment 1 (dwell): field 50, bit 15 of D1, is reserved and announced");
    assert_eq!(words_of(with(65)), "segment 1 (dwell): field 65, bit 0 of D1, is reserved and announced");
    let cross_section = "segment 1 (dwell): D32.18, radar cross section, is reserved in version 1 and announced";
    assert_eq!(words_of_version_1(with(49)), cross_section);
    let both: Vec<u32> = ABSOLUTE.into_iter().chain(DELTAS).collect();
    let beside = "segment 1 (dwell): D32.4, latitude from D24, is announced beside D32.2 and D32.3";
    assert_eq!(words_of(dwell(&both, vec![]).segment()), beside);
}

/// Row 11: a group of which one is not announced.
#[test]
fn groups_of_masks() {
    let missing = |named: &str, other: &str| format!("segment 1 (dwell): {named}, is not announced while {other}, is");
    let cases: [(&[u32], u32, &str, &str); 11] = [
        (&DELTAS, 10, "D10, latitude scale", "D11, longitude scale"),
        (&DELTAS, 11, "D11, longitude scale", "D10, latitude scale"),
        (&DELTAS, 35, "D32.4, latitude from D24", "D10, latitude scale"),
        (&DELTAS, 36, "D32.5, longitude from D25", "D10, latitude scale"),
        (&[12, 13, 14], 12, "D12, deviation along track", "D13, deviation across track"),
        (&[15, 16, 17], 17, "D17, sensor vertical speed", "D15, sensor track"),
        (&[18, 19, 20], 19, "D19, deviation of speed", "D18, deviation of track"),
        (&[21, 22, 23], 23, "D23, platform roll", "D21, platform heading"),
        (&ABSOLUTE, 33, "D32.2, latitude", "D32.3, longitude"),
        (&[47, 48], 48, "D32.17, truth tag entity", "D32.16, truth tag application"),
        (&[14], 12, "D12, deviation along track", "D14, deviation in height"),
    ];
    for (group, field, named, other) in cases {
        assert_eq!(words_of(without(group, field)), missing(named, other));
    }
    assert_eq!(words_of_version_1(without(&[28, 29, 30], 28)), missing("D28, sensor heading", "D29, sensor pitch"));
}

/// Row 12, and of row 13 D4 and D5.
#[test]
fn sizes_and_values_of_dwells() {
    let body = |fields: &[u32], count, length| {
        let mut segment = dwell(fields, vec![[0; 19]; count]).segment();
        segment.body.resize(length, 0);
        words_of(segment)
    };
    assert_eq!(body(&[], 0, 42), "segment 1 (dwell): S2, segment size 47, is under 48");
    let longer = "segment 1 (dwell): S2, segment size 49, is not 48, which its mask and D5, target count 0, call for";
    assert_eq!(body(&[], 0, 44), longer);
    let shorter = "segment 1 (dwell): S2, segment size 63, is not 64, which its mask and D5, target count 2, call for";
    assert_eq!(body(&DELTAS, 2, 58), shorter);
    let mut last = dwell(&[], vec![]);
    last.values[4] = 2;
    assert_eq!(words_of(last.segment()), "segment 1 (dwell): D4, last of revisit 2, is above 1");
    let nowhere = "segment 1 (dwell): D5, target count 3, is above 0 with no position announced";
    assert_eq!(words_of(dwell(&[32], vec![[0; 19]; 3]).segment()), nowhere);
}

/// Row 13.
#[test]
fn values_of_missions_and_targets() {
    let day = |month, day| {
        let mut mission = with(1, 39, M6_PLACE, month);
        mission.body[M7_PLACE] = day;
        words_of(mission)
    };
    assert_eq!(day(0, 1), "segment 1 (mission): M6, month 0, is under 1");
    assert_eq!(day(13, 1), "segment 1 (mission): M6, month 13, is above 12");
    assert_eq!(day(12, 0), "segment 1 (mission): M7, day 0, is under 1");
    assert_eq!(day(12, 32), "segment 1 (mission): M7, day 32, is above 31");
    let target = |j: u32, value: i32| {
        let mut targets = vec![[0; 19]; 2];
        targets[1][j as usize] = value as u32;
        words_of(dwell(&[33, 34, 31 + j], targets).segment())
    };
    assert_eq!(target(6, -32_768), "segment 1 (dwell), target 2: D32.6, height -32768, is under -1000");
    assert_eq!(target(11, 101), "segment 1 (dwell), target 2: D32.11, class probability 101, is above 100");
    assert_eq!(target(15, 65_535), "segment 1 (dwell), target 2: D32.15, deviation of speed 65535, is above 5000");
}

/// Row 14: 2^31 steps are the pole.
#[test]
fn latitudes_beyond_a_pole() {
    let words = |scale: i32, centre: i32, delta: i32| {
        let mut targets = vec![[0; 19]; 3];
        targets[2][4] = delta as u32;
        let mut dwell = dwell(&DELTAS, targets);
        (dwell.values[10], dwell.values[24]) = (scale as u32, centre as u32);
        words_of(dwell.segment())
    };
    let latitude =
        |degrees: &str| format!("segment 1 (dwell), target 3: the latitude, D32.4 x D10 + D24, is {degrees} degrees, beyond a pole");
    assert_eq!(words(1, i32::MAX, 2), latitude("90.00000004"));
    assert_eq!(words(65_537, 0, -32_768), latitude("-90.00137329"));
    assert_eq!(words(i32::MIN, i32::MIN, 1), latitude("-180.00000000"));
    assert_eq!(words(i32::MIN, 0, -32_768), latitude("2949120.00000000"));
}

/// Row 15.
#[test]
fn what_is_new_in_edition_3() {
    let angles = |fields: &[u32]| words_of_edition_1(dwell(fields, vec![]).segment());
    let alone = "segment 1 (dwell): D28, sensor heading, is not announced while D30, sensor roll, is, which Edition 3 alone allows";
    assert_eq!(angles(&[30, 49]), alone);
    assert_eq!(angles(&[49]), "segment 1 (dwell): D32.18, radar cross section, is new in Edition 3");
    assert_eq!(words_of_edition_1(Segment::new(3, vec![])), "segment 1 (HRR): an HRR segment is laid out otherwise in Edition 1");
    let mode = |mode| words_of_edition_1(with(5, 68, J14_PLACE, mode));
    let withdrawn = "segment 1 (job definition): J14, radar mode 91, is given to no system in Edition 3 and ASTOR in Edition 1";
    assert_eq!(mode(91), withdrawn);
    let added = "segment 1 (job definition): J14, radar mode 123, is VADER in Edition 3 and given to no system in Edition 1";
    assert_eq!(mode(123), added);
}

/// Rows 16 to 20.
#[test]
fn room_and_writer() {
    let header = packet(b"30", vec![]).bytes();
    let lent = |count| gmti::read(Edition::Three, &header, &mut vec![0; count]).unwrap_err().to_string();
    assert_eq!(lent(32), "the sheet does not fit the 32 bytes lent; 33 are enough");
    assert_eq!(lent(1), "the sheet does not fit the 1 byte lent; 33 are enough");
    let written = |sheet: &[u8]| gmti::write(sheet, &mut [0; 31]).unwrap_err().to_string();
    let run = "the sheet is empty, has a kind that is not 1 to 12, ends within a record, or kind 1 is not its first record and only that";
    assert_eq!(written(&[]), run);
    let sheet = [&[1], &header[..]].concat();
    let called_for =
        "a dwell, text, opaque or HRR record is not followed by just the targets, pieces or scatterers that it calls for, or one of \
                      these stands elsewhere";
    assert_eq!(written(&[&sheet[..], &[7, 12, 0, 0, 0, 1]].concat()), called_for);
    let other = [&sheet[..], &[7, 12, 0, 0, 0, 0]].concat();
    assert_eq!(written(&other), "no packet reads to this sheet, or its packet would be longer than 65,536 bytes");
    assert_eq!(written(&sheet), "the packet does not fit the lent bytes");
}

/// An HRR segment with these fields beside those that each has, with these values and so many bytes of scatterers. H25 is 1.
fn profile(fields: &[u32], set: &[(usize, u32)], scatterers: usize) -> Segment {
    let mut hrr = Hrr { mask: mask_of(&HRR_ALWAYS) | mask_of(fields), values: [0; 32], scatterers: vec![] };
    hrr.values[25] = 1;
    set.iter().for_each(|(field, value)| hrr.values[*field] = *value);
    let mut segment = hrr.segment();
    segment.body.resize(segment.body.len() + scatterers, 0);
    segment
}

/// Rows 21 and 22.
#[test]
fn high_range_resolution() {
    let without = |field: u32| {
        let hrr = Hrr { mask: mask_of(&HRR_ALWAYS) & !bit(field), values: [0; 32], scatterers: vec![] };
        words_of(hrr.segment())
    };
    assert_eq!(without(2), "segment 1 (HRR): H2, revisit, is mandatory and not announced");
    assert_eq!(without(32), "segment 1 (HRR): H32.1, magnitude, is mandatory and not announced");
    assert_eq!(words_of(profile(&[36, 41], &[], 0)), "segment 1 (HRR): bit 5 of H1 is set and announces no field");
    assert_eq!(words_of(profile(&[41], &[], 0)), "segment 1 (HRR): bit 0 of H1 is set and announces no field");
    assert_eq!(words_of(profile(&[], &[(25, 0)], 0)), "segment 1 (HRR): H25, bytes of a magnitude 0, is under 1");
    assert_eq!(words_of(profile(&[], &[(25, 3)], 0)), "segment 1 (HRR): H25, bytes of a magnitude 3, is above 2");
    assert_eq!(words_of(profile(&[9, 15], &[(26, 255)], 0)), "segment 1 (HRR): H26, bytes of a phase 255, is above 2");
    let mut cut = profile(&[5], &[], 0);
    cut.body.pop();
    assert_eq!(words_of(cut), "segment 1 (HRR): S2, segment size 40, is under 41, which its mask alone calls for");
    let one = "segment 1 (HRR): S2, segment size 46, is not 47, which its mask, widths and 1 scatterer call for";
    assert_eq!(words_of(profile(&[6, 33, 34, 35], &[(6, 1), (7, 9), (8, 9), (25, 2), (26, 2)], 5)), one);
    let product = "segment 1 (HRR): S2, segment size 41, is not 8589672491, which its mask, widths and 4294836225 scatterers call for";
    assert_eq!(words_of(profile(&[7], &[(7, 65_535), (8, 65_535), (25, 2)], 0)), product);
}

/// Where the fields of a target stand goes by the mask: any target, of any mask.
#[test]
fn targets_of_any_mask() {
    for index in 0..3000 {
        let random = &mut Random::of_case(901, index);
        let (j, value, fault) = random.pick([
            (6, -1001, "D32.6, height -1001, is under -1000"),
            (11, 255, "D32.11, class probability 255, is above 100"),
            (15, 5001, "D32.15, deviation of speed 5001, is above 5000"),
        ]);
        let pair = random.pick([Pair::Absolute, Pair::Deltas]);
        let mask = valid::mask(random, Style { version: 3, new: true }, pair) | bit(31 + j);
        let count = 1 + random.below(6);
        let mut dwell = valid::dwell_with(random, mask, count);
        let at = random.below(count);
        dwell.targets[at][j as usize] = value as u32;
        assert_eq!(words_of(dwell.segment()), format!("segment 1 (dwell), target {}: {fault}", at + 1), "case {index}");
    }
}

/// A segment with so many bytes behind it is longer than what calls for its size.
fn assert_longer(name: &str, mut segment: Segment, more: usize, called_for: &str) {
    let due = segment.length();
    segment.body.resize(segment.body.len() + more, 0);
    let words = format!("segment 1 ({name}): S2, segment size {}, is not {due}, which its {called_for} call for", due + more);
    assert_eq!(words_of(segment), words);
}

/// Sizes go by mask and counts: any dwell, and any HRR segment.
#[test]
fn sizes_of_any_mask() {
    for index in 0..3000 {
        let random = &mut Random::of_case(902, index);
        let (dwell, hrr) = (valid::dwell(random, Style { version: 3, new: true }), hrr::any(random));
        let more = 1 + random.below(9);
        assert_longer("dwell", dwell.segment(), more, &format!("mask and D5, target count {},", dwell.targets.len()));
        let plural = if hrr.claimed() == 1 { "" } else { "s" };
        assert_longer("HRR", hrr.segment(), more, &format!("mask, widths and {} scatterer{plural}", hrr.claimed()));
    }
}

/// What the standard calls the field that a refusal names. A bit that no field has goes by its number.
fn label(refusal: &Refusal, packet: &[u8]) -> String {
    let field = refusal.field();
    let segment_type = refusal.segment().checked_sub(1).map(|before| packet[segment_places(packet)[before as usize]]);
    match (segment_type, field) {
        (None, _) => format!("P{field}"),
        (Some(1), _) => format!("M{field}"),
        (Some(5), _) => format!("J{field}"),
        (Some(6), _) => format!("F{field}"),
        (_, 32..=49) => format!("D32.{}", field - 31),
        (_, 50..) => field.to_string(),
        _ => format!("D{field}"),
    }
}

/// A refused packet's words say more than its row, on one line, and have the segment and the field that the library names.
fn assert_says(refusal: &Refusal, packet: &[u8]) {
    let (words, numbers) = (refusal.to_string(), refusal.numbers());
    let row = Refusal::ROWS.iter().find(|row| row.number == refusal.number()).unwrap();
    assert_eq!((refusal.when(), refusal.remedy()), (row.when, row.remedy));
    assert!(!words.ends_with(row.when[1..].trim_end_matches('.')), "{numbers}: {words}");
    assert!(words.bytes().all(|byte| matches!(byte, 0x20..=0x7E)), "{numbers}: {words}");
    let parts: Vec<&str> = words.split([' ', ',', ':', ';']).collect();
    if refusal.segment() > 0 {
        assert_eq!(parts[..2], ["segment", &refusal.segment().to_string()], "{numbers}");
    }
    let is_of_target = refusal.number() == 14 || refusal.number() == 13 && refusal.field() >= 32;
    assert_eq!(words.contains("), target "), is_of_target, "{numbers}: {words}");
    if refusal.field() > 0 {
        assert!(parts.contains(&label(refusal, packet).as_str()), "{numbers}: {words}");
    }
}

/// Both readings of the packet; gives how many refused it.
fn assert_all_say(packet: &[u8], lent: usize) -> usize {
    let read = |edition| {
        let answer = testing::library::read(edition, packet, &mut vec![0; lent]);
        let reading = if edition == 1 { Edition::One } else { Edition::Three };
        let refusal = gmti::read(reading, packet, &mut vec![0; lent]).err()?;
        assert_eq!(refusal.numbers().to_string(), answer.to_string());
        assert_says(&refusal, packet);
        Some(refusal)
    };
    [1, 3].into_iter().filter_map(read).count()
}

#[test]
fn every_fault_has_words() {
    for (index, fault) in (0..).zip(Fault::all().into_iter().cycle().take(4000)) {
        let packet = aimed::one(&mut Random::of_case(903, index), fault).expect("a packet with one fault").bytes;
        assert!(assert_all_say(&packet, gmti::sheet_bound(packet.len())) > 0, "{fault:?}");
    }
}

#[test]
fn damaged_packets_have_words() {
    let mut refused = 0;
    for index in 0..20_000 {
        let random = &mut Random::of_case(904, index);
        let whole = valid::packet(random).bytes();
        let length = random.below(whole.len());
        let any = random.bytes(length.min(300));
        let packet = match index % 4 {
            0 => damage::truncated(&whole, length, true),
            1 => [&whole[..32], &any].concat(),
            _ => damage::packet(random, &whole),
        };
        let bound = gmti::sheet_bound(packet.len());
        refused += assert_all_say(&packet, random.pick([bound, bound, bound / 8]));
    }
    assert!(refused > 20_000, "{refused}");
}
