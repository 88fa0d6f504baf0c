//! Packets to which no row applies in the Edition 3 reading.
use super::random::Random;
use super::spelling::{Dwell, Packet, Segment, Target};
use super::tables::{bit, mask_of, width, TextField, TextSet, ABSOLUTE, ALWAYS, ANGLES, BODY_TEXT, DELTAS, GROUPS, HEADER_TEXT};
use super::tables::{HRR_TYPE, J14_PLACE, LAST_FIELD, LINE_ENDS, M6_PLACE, M7_PLACE, NEW_MODES, OPAQUE_TYPES, SINGLE};
use super::{hrr, pairs};

/// What the segments of a packet may hold.
#[derive(Clone, Copy, Debug)]
pub struct Style {
    /// 1 or 3.
    pub version: u8,
    /// Whether a version 3 packet may hold what is new in Edition 3.
    pub new: bool,
}

impl Style {
    /// Either version; half of the packets of version 3 hold nothing new.
    pub fn any(random: &mut Random) -> Style {
        Style { version: random.pick([1, 3, 3]), new: random.chance(50) }
    }

    /// Whether a new thing may stand in the packet: those of type and J14 are not new to version 1.
    fn takes_new(self) -> bool {
        self.version == 1 || self.new
    }
}

/// How the targets of a dwell give their positions.
#[derive(Clone, Copy, Debug, PartialEq, Eq)]
pub enum Pair {
    /// Not at all: there is none.
    Neither,
    /// D32.2 and D32.3.
    Absolute,
    /// D32.4 and D32.5, over D10, D11, D24, D25.
    Deltas,
}

/// A packet of any shape: none to many segments, of one type or mixed.
pub fn packet(random: &mut Random) -> Packet {
    let style = Style::any(random);
    let many = random.below(40);
    let count = random.pick([0, 1, 1, 2, 2, 3, 4, 5, 7, many]);
    packet_in(random, style, count)
}

/// A packet of this style with so many segments. Its dwells have a run of pairs of D2 and D3.
pub fn packet_in(random: &mut Random, style: Style, count: usize) -> Packet {
    // Type 2 stands five times: what a run of pairs does shows only in a packet of many dwells.
    let only = if random.chance(40) { Some(random.pick([1, 2, 2, 2, 2, 2, 3, 5, 6, 7, 10, 13])) } else { None };
    let mut segments: Vec<Segment> = (0..count)
        .map(|_| match only {
            Some(segment_type) => segment_of(random, style, segment_type),
            None => segment(random, style),
        })
        .collect();
    pairs::set(&mut segments, &pairs::run(random, count));
    Packet::new(header(random, style.version), segments)
}

/// A packet of version 3 with dwells of these pairs of D2 and D3, without targets and alike in all else. More of them than
/// [`MOST_DWELLS`](super::tables::MOST_DWELLS) make it too long.
pub fn packet_by_pairs(random: &mut Random, pairs: &[u32]) -> Packet {
    let dwell = dwell_with(random, mask_of(&ALWAYS), 0).segment();
    let mut segments = vec![dwell; pairs.len()];
    pairs::set(&mut segments, pairs);
    Packet::new(header(random, 3), segments)
}

/// A packet whose sheet falls 542 bytes short of the bound: one dwell with so many targets by deltas alone. P1 is 30 and text
/// is spaces; all else but sizes, type, mask and D5 is zero. More targets than [`MOST_TARGETS`](super::tables::MOST_TARGETS) make it too
/// long.
pub fn longest(targets: u32) -> Packet {
    let mut header = [0; 32];
    header[..2].copy_from_slice(b"30");
    for field in HEADER_TEXT {
        header[field.place(32)].fill(b' ');
    }
    let mut values = [0; 32];
    values[5] = targets;
    let dwell = Dwell { mask: mask_of(&ALWAYS) | mask_of(&DELTAS), values, targets: vec![[0; 19]; targets as usize] };
    Packet::new(header, vec![dwell.segment()])
}

/// A header of this version with any digit; P2 is left for later.
pub fn header(random: &mut Random, version: u8) -> [u8; 32] {
    let mut header = [0; 32];
    for byte in &mut header {
        *byte = random.byte();
    }
    header[0] = b'0' + version;
    header[1] = b'0' + random.below(10) as u8;
    for field in HEADER_TEXT {
        set_text(random, &mut header, field);
    }
    header
}

/// So many bytes of text.
pub fn text(random: &mut Random, set: TextSet, count: usize) -> Vec<u8> {
    (0..count)
        .map(|_| {
            let any = 0x20 + random.below(95) as u8;
            let rare = random.pick([0x0A, 0x0C, 0x0D, 0x20, 0x7E]);
            if set.holds(rare) && random.chance(15) {
                rare
            } else {
                any
            }
        })
        .collect()
}

/// Text in a field of a header or a body.
fn set_text(random: &mut Random, bytes: &mut [u8], field: TextField) {
    let place = field.place(bytes.len());
    let text = text(random, field.set, place.len());
    bytes[place].copy_from_slice(&text);
}

/// A byte that may not stand in such text. For a name it is a line end, which F3 may hold, in a third of the cases.
pub fn not_text(random: &mut Random, set: TextSet) -> u8 {
    let (any, line_end) = (random.byte(), random.pick(LINE_ENDS));
    if !set.holds(line_end) && random.below(3) == 0 {
        line_end
    } else if set.holds(any) {
        random.pick([0x00, 0x09, 0x0B, 0x0E, 0x1F, 0x7F, 0x80, 0xFF])
    } else {
        any
    }
}

/// The length of a text or an opaque body: those around a full piece are frequent.
pub fn body_length(random: &mut Random) -> usize {
    let short = random.below(40);
    let long = random.below(300);
    random.pick([0, 0, 1, 2, 31, 32, 33, 63, 64, 65, 96, short, long])
}

/// A segment of any known type.
pub fn segment(random: &mut Random, style: Style) -> Segment {
    let segment_type = random.pick([1, 2, 2, 2, 2, 2, 2, 3, 3, 5, 5, 6, 6, 7, 7, 10, 13]);
    segment_of(random, style, segment_type)
}

/// A segment of a type; type 7 stands for any opaque one, and type 3 too where the style does not take it.
pub fn segment_of(random: &mut Random, style: Style, segment_type: u8) -> Segment {
    match segment_type {
        1 => mission(random),
        2 => dwell(random, style).segment(),
        HRR_TYPE if style.takes_new() => high_range(random, style),
        5 => job(random, style),
        6 => free_text(random),
        10 => Segment::new(10, random.bytes(14)),
        13 => Segment::new(13, random.bytes(23)),
        _ => opaque(random),
    }
}

/// A segment of this type and body, with text in its text fields.
fn with_text(random: &mut Random, segment_type: u8, mut body: Vec<u8>) -> Segment {
    for (_, field) in BODY_TEXT.into_iter().filter(|(found, _)| *found == segment_type) {
        set_text(random, &mut body, field);
    }
    Segment::new(segment_type, body)
}

/// A mission with any month and day.
pub fn mission(random: &mut Random) -> Segment {
    let mut body = random.bytes(39);
    body[M6_PLACE] = random.between(1, 12) as u8;
    body[M7_PLACE] = random.between(1, 31) as u8;
    with_text(random, 1, body)
}

/// A job definition; J14 is new only where the style takes that.
pub fn job(random: &mut Random, style: Style) -> Segment {
    let mut mode = random.byte();
    if style.takes_new() && random.chance(40) {
        mode = random.pick(NEW_MODES);
    }
    while !style.takes_new() && NEW_MODES.contains(&mode) {
        mode = mode.wrapping_add(1);
    }
    job_with(random, mode)
}

/// A job definition with this J14.
pub fn job_with(random: &mut Random, mode: u8) -> Segment {
    let mut body = random.bytes(68);
    body[J14_PLACE] = mode;
    with_text(random, 5, body)
}

/// A free text, with F3 from nothing to several pieces.
pub fn free_text(random: &mut Random) -> Segment {
    let length = 20 + body_length(random);
    with_text(random, 6, vec![0; length])
}

/// A segment that is opaque in both versions.
pub fn opaque(random: &mut Random) -> Segment {
    let length = body_length(random);
    Segment::new(random.pick(OPAQUE_TYPES), random.bytes(length))
}

/// An HRR segment. In version 1 it is opaque: any bytes, or those of a segment that version 3 would read field by field, whole or cut.
pub fn high_range(random: &mut Random, style: Style) -> Segment {
    let mut segment = hrr::any(random).segment();
    if style.version == 1 && random.chance(50) {
        segment.body = opaque(random).body;
    } else if style.version == 1 && random.chance(50) {
        segment.body.truncate(random.below(segment.body.len()));
    }
    segment
}

/// A dwell with any mask, and none to a few dozen targets.
pub fn dwell(random: &mut Random, style: Style) -> Dwell {
    let pair = random.pick([Pair::Neither, Pair::Absolute, Pair::Deltas, Pair::Deltas]);
    let many = random.below(40);
    let count = if pair == Pair::Neither { 0 } else { random.pick([0, 1, 1, 2, 3, 5, many]) };
    let mask = mask(random, style, pair);
    dwell_with(random, mask, count)
}

/// A mask with this position pair; every group, and every field that may stand alone, is in or out.
pub fn mask(random: &mut Random, style: Style, pair: Pair) -> u64 {
    let mut mask = mask_of(&ALWAYS);
    let likely = random.pick([10, 50, 90]);
    for group in [GROUPS[0], GROUPS[1], GROUPS[2], GROUPS[3], GROUPS[6], &ANGLES, &[31]] {
        if random.chance(likely) {
            mask |= mask_of(group);
        }
    }
    for field in SINGLE {
        if random.chance(likely) {
            mask |= bit(field);
        }
    }
    match pair {
        Pair::Neither => {}
        Pair::Absolute => mask |= mask_of(&ABSOLUTE),
        Pair::Deltas => mask |= mask_of(&DELTAS),
    }
    if style.version == 3 && style.new {
        for field in ANGLES.into_iter().chain([LAST_FIELD]) {
            if random.chance(25) {
                mask ^= bit(field);
            }
        }
    }
    mask
}

/// A dwell of this mask with so many targets, all values in their ranges.
pub fn dwell_with(random: &mut Random, mask: u64, count: usize) -> Dwell {
    let mut values = [0; 32];
    for field in 2..=31 {
        values[field as usize] = random.value(width(field));
    }
    values[4] = random.below(2) as u32;
    values[5] = count as u32;
    let targets = (0..count).map(|_| target(random)).collect();
    let mut dwell = Dwell { mask, values, targets };
    set_areas(random, &mut dwell);
    set_deltas(random, &mut dwell);
    dwell
}

/// A target at any place, its values in their ranges; D32.4 is left for later.
fn target(random: &mut Random) -> Target {
    let mut target = [0; 19];
    for j in 1..=18 {
        target[j as usize] = random.value(width(31 + j));
    }
    target[2] = latitude_steps(random) as u32;
    target[3] = longitude_steps(random);
    let velocity = random.between(-1000, 32767);
    target[6] = random.pick([-1000, -999, -1, 0, 32767, velocity]) as u32;
    let percent = random.between(0, 100) as u32;
    target[11] = random.pick([0, 99, 100, percent]);
    let width = random.between(0, 5000) as u32;
    target[15] = random.pick([0, 4999, 5000, 256, width]);
    target
}

/// Steps of latitude: the poles, the equator, halves of a microdegree (odd multiples of 2^23) and their neighbours, or any.
pub fn latitude_steps(random: &mut Random) -> i32 {
    let half = ((random.between(-128, 127) * 2 + 1) << 23) as i32;
    let near = half.wrapping_add(random.between(-1, 1) as i32);
    let small = random.between(-40, 40) as i32;
    let any = random.number() as i32;
    random.pick([i32::MIN, i32::MAX, i32::MIN + 1, 0, half, half, near, small, any, any])
}

/// Steps of longitude: as above, with halves at odd multiples of 2^22, and those that round to 360 degrees.
pub fn longitude_steps(random: &mut Random) -> u32 {
    let half = ((random.between(0, 511) * 2 + 1) << 22) as u32;
    let near = half.wrapping_add(random.between(-1, 1) as u32);
    let small = random.below(40) as u32;
    let any = random.number() as u32;
    random.pick([0, 1 << 31, half, half, near, small, u32::MAX - small, u32::MAX - small % 8, any, any])
}

/// D10, D11, D24 and D25 as deltas need them: all multiples of a half, at the end of the range, or any.
fn set_areas(random: &mut Random, dwell: &mut Dwell) {
    let wide = random.number() as i32;
    let narrow = random.between(-70_000, 70_000) as i32;
    let halves = random.between(-3, 3) as i32 * (1 << 23);
    let (scale, centre) = if random.chance(30) {
        (halves, (random.between(-256, 255) << 23) as i32)
    } else {
        (random.pick([0, 1, -1, 65_536, -65_536, i32::MAX, i32::MIN, wide, narrow, narrow]), latitude_steps(random))
    };
    dwell.values[10] = scale as u32;
    dwell.values[24] = centre as u32;
    let wide = random.number() as u32;
    let narrow = random.below(70_000) as u32;
    let halves = (random.below(9) << 22) as u32;
    dwell.values[11] = random.pick([0, 1, u32::MAX, 1 << 31, 65_536, halves, halves, wide, narrow]);
    dwell.values[25] = longitude_steps(random);
}

/// D32.4 and D32.5 of each target, the latitude in its range.
pub fn set_deltas(random: &mut Random, dwell: &mut Dwell) {
    let (low, high) = fitting_deltas(dwell);
    for target in &mut dwell.targets {
        let any = random.between(low, high);
        let small = random.between(-40, 40).clamp(low, high);
        target[4] = random.pick([low, high, 0, small, small, any]) as u32;
        let any = random.between(-32768, 32767);
        let small = random.between(-40, 40);
        target[5] = random.pick([-32768, 32767, 0, small, small, any]) as u32;
    }
}

/// The least and the greatest D32.4 that keep D32.4 × D10 + D24 from −2^31 to 2^31. 0 always does.
pub fn fitting_deltas(dwell: &Dwell) -> (i64, i64) {
    let scale = i64::from(dwell.values[10] as i32);
    let centre = i64::from(dwell.values[24] as i32);
    let pole = 1i64 << 31;
    if scale == 0 {
        return (-32768, 32767);
    }
    // Steps up to the pole on the side that D10 points to, and on the other side.
    let (ahead, behind) = if scale > 0 { (pole - centre, pole + centre) } else { (pole + centre, pole - centre) };
    let size = scale.abs();
    ((-(behind / size)).max(-32768), (ahead / size).min(32767))
}
