//! Segments with faults.
use super::faults::{Fault, Host};
use super::hrr;
use super::random::Random;
use super::spelling::{Dwell, Segment};
use super::tables::{bit, fixed_body, is_known, mask_of, TextField, TextSet, ABSOLUTE, ALWAYS, ANGLES, BODY_TEXT, DELTAS, GROUPS};
use super::tables::{HRR_MASK, HRR_TYPE, J14_PLACE, LAST_FIELD, M6_PLACE, M7_PLACE, NEW_MODES};
use super::valid::{self, not_text, Pair, Style};

/// A segment with these faults, and the faults in the order in which they are looked at. An S2 past the end is left to the packet.
pub fn segment(random: &mut Random, style: Style, faults: &[Fault]) -> Option<(Segment, Vec<Fault>)> {
    let host = faults.iter().find_map(|fault| match fault.host() {
        Host::Type(segment_type) => Some(segment_type),
        _ => None,
    });
    let segment_type = host.unwrap_or(random.pick([1, 2, 3, 5, 6, 7, 10, 13]));
    let (mut segment, mut order) = match segment_type {
        2 => dwell(random, style, faults)?,
        HRR_TYPE if style.version == 3 => high_range(random, faults),
        _ => plain(random, style, segment_type, faults),
    };
    for fault in faults.iter().filter(|fault| fault.host() == Host::Any) {
        match fault {
            Fault::UnknownType => segment.segment_type = unknown_type(random),
            Fault::SizeBelow => segment.size = Some(random.below(5) as u32),
            _ => {}
        }
        order.push((fault.place(0), *fault));
    }
    order.sort();
    Some((segment, order.into_iter().map(|(_, fault)| fault).collect()))
}

/// A fault with its place in the order of rows.
type Placed = ((u32, usize, u32), Fault);

/// A type that is not known.
pub fn unknown_type(random: &mut Random) -> u8 {
    let any = random.byte();
    if is_known(any) {
        random.pick([0, 14, 100, 103, 255])
    } else {
        any
    }
}

/// An HRR segment of a version 3 packet. To the Edition 1 reading it is new, whatever else it is.
fn high_range(random: &mut Random, faults: &[Fault]) -> (Segment, Vec<Placed>) {
    let mut segment = hrr::faulty(random, faults);
    if faults.contains(&Fault::BodySize(HRR_TYPE)) {
        spoil_size(random, &mut segment);
    }
    let mut order = placed(faults, &[]);
    if !faults.contains(&Fault::NewType) {
        order.push((Fault::NewType.place(0), Fault::NewType));
    }
    (segment, order)
}

/// A segment without a mask that is read.
fn plain(random: &mut Random, style: Style, segment_type: u8, faults: &[Fault]) -> (Segment, Vec<Placed>) {
    let mut segment = valid::segment_of(random, style, segment_type);
    if faults.contains(&Fault::Text(6, 3)) && segment.body.len() == 20 {
        segment.body.extend(valid::text(random, TextSet::Lines, 33));
    }
    for fault in faults {
        match fault {
            Fault::Text(_, field) => spoil_body_text(random, &mut segment, *field),
            Fault::Month => segment.body[M6_PLACE] = random.pick([0, 13, 14, 0x81, 255]),
            Fault::Day => segment.body[M7_PLACE] = random.pick([0, 32, 33, 0x81, 255]),
            Fault::NewMode => segment.body[J14_PLACE] = random.pick(NEW_MODES),
            _ => {}
        }
    }
    if faults.iter().any(|fault| matches!(fault, Fault::BodySize(_))) {
        spoil_size(random, &mut segment);
    }
    (segment, placed(faults, &[]))
}

/// The faults that stand in this segment's body, with their places; targets are given where they stand in one.
fn placed(faults: &[Fault], targets: &[(Fault, usize)]) -> Vec<Placed> {
    let target_of = |fault: Fault| targets.iter().find(|(other, _)| *other == fault).map_or(0, |(_, target)| *target);
    let inside = faults.iter().filter(|fault| fault.host() != Host::Any);
    inside.map(|fault| (fault.place(target_of(*fault)), *fault)).collect()
}

/// A byte of a text field that may not stand there.
fn spoil_body_text(random: &mut Random, segment: &mut Segment, number: u32) {
    for (_, field) in BODY_TEXT.into_iter().filter(|(found, field)| *found == segment.segment_type && field.number == number) {
        spoil_text(random, &mut segment.body, field);
    }
}

/// A byte of a text field of a header or a body that may not stand there: the first, the last or any. An empty F3 stays empty.
pub(super) fn spoil_text(random: &mut Random, bytes: &mut [u8], field: TextField) {
    let place = field.place(bytes.len());
    if !place.is_empty() {
        let any = place.start + random.below(place.len());
        let at = random.pick([place.start, place.end - 1, any]);
        bytes[at] = not_text(random, field.set);
    }
}

/// A size that is wrong for the type: the body itself is cut or lengthened, or S2 alone claims less.
fn spoil_size(random: &mut Random, segment: &mut Segment) {
    let length = segment.body.len();
    let short = random.below(20);
    let wrong = match (segment.segment_type, fixed_body(segment.segment_type)) {
        (2, _) => random.below(8),
        (HRR_TYPE, _) => random.below(HRR_MASK),
        (6, _) => random.pick([19, short]),
        (_, Some(right)) => {
            let any = random.below(2 * right);
            let wrong = random.pick([right - 1, right + 1, 0, any]);
            if wrong == right {
                right + 1
            } else {
                wrong
            }
        }
        _ => length,
    };
    if wrong < length && random.chance(30) {
        segment.size = Some(5 + wrong as u32);
    } else {
        segment.size = None;
        segment.body.resize(wrong, b' ');
    }
}

/// A dwell.
fn dwell(random: &mut Random, style: Style, faults: &[Fault]) -> Option<(Segment, Vec<Placed>)> {
    let has = |fault: Fault| faults.contains(&fault);
    let in_target = faults.iter().any(|fault| fault.is_of_target());
    let pair = if has(Fault::NoPair) {
        Pair::Neither
    } else if has(Fault::Latitude) {
        Pair::Deltas
    } else if in_target {
        random.pick([Pair::Absolute, Pair::Deltas])
    } else {
        random.pick([Pair::Neither, Pair::Absolute, Pair::Deltas])
    };
    let mask = valid::mask(random, style, pair);
    let mask = new_mask(random, mask, faults);
    let few = random.between(1, 5) as usize;
    let count = if in_target || has(Fault::NoPair) || pair != Pair::Neither && random.chance(60) { few } else { 0 };
    let mut dwell = valid::dwell_with(random, mask, count);
    let targets = spoil_values(random, &mut dwell, faults);
    let is_late = random.chance(50);
    for fault in faults {
        if let Fault::Mask(field) = fault {
            let wrong = faulty_mask(random, dwell.mask, *field)?;
            let mut segment = dwell.segment();
            if is_late {
                segment.body[..8].copy_from_slice(&wrong.to_be_bytes());
            } else {
                dwell.mask = wrong;
                segment = dwell.segment();
            }
            spoil_dwell_size(random, &mut segment, &dwell, faults);
            return Some((segment, placed(faults, &targets)));
        }
    }
    let mut segment = dwell.segment();
    spoil_dwell_size(random, &mut segment, &dwell, faults);
    Some((segment, placed(faults, &targets)))
}

/// The mask with what is new in Edition 3, and with the fields whose values are to be spoilt.
fn new_mask(random: &mut Random, mut mask: u64, faults: &[Fault]) -> u64 {
    for fault in faults {
        match fault {
            Fault::NewAngles(field) => mask = broken(random, mask, &ANGLES, *field),
            Fault::NewField => mask |= bit(LAST_FIELD),
            Fault::TargetValue(field) => mask |= bit(*field),
            _ => {}
        }
    }
    mask
}

/// The mask with a group of which this field is the lowest that is not set, while another is.
fn broken(random: &mut Random, mask: u64, group: &[u32], field: u32) -> u64 {
    let mut mask = mask & !bit(field);
    let later: Vec<u32> = group.iter().copied().filter(|other| *other > field).collect();
    let is_first = group.first() == Some(&field);
    for other in group.iter().filter(|other| **other < field) {
        mask |= bit(*other);
    }
    for other in &later {
        mask &= !bit(*other);
        if random.chance(50) {
            mask |= bit(*other);
        }
    }
    if is_first {
        mask |= random.one_of(&later).map_or(0, bit);
    }
    mask
}

/// A mask whose lowest field at fault is this one; further faults may stand behind it.
pub fn faulty_mask(random: &mut Random, mask: u64, field: u32) -> Option<u64> {
    let mask = spoil_later(random, mask, field);
    if ALWAYS.contains(&field) {
        return Some(mask & !bit(field));
    }
    if field >= LAST_FIELD {
        return Some(mask | bit(field));
    }
    if ABSOLUTE.contains(&field) {
        return Some(broken(random, mask, &ABSOLUTE, field));
    }
    let both = mask_of(&ABSOLUTE) | mask_of(&DELTAS);
    match field {
        35 if random.chance(50) => return Some((mask | both) & if random.chance(50) { !0 } else { !bit(36) }),
        36 => return Some((mask | both) & !mask_of(&ABSOLUTE) & !bit(36)),
        _ => {}
    }
    let mut groups = GROUPS.iter().copied().chain([&ANGLES[..]]);
    let group = groups.find(|group| group.contains(&field))?;
    Some(broken(random, mask, group, field))
}

/// Faults that no lower field shares: fields that must be set, reserved ones, and groups that stand wholly behind.
fn spoil_later(random: &mut Random, mut mask: u64, field: u32) -> u64 {
    if random.chance(50) {
        return mask;
    }
    for later in ALWAYS.into_iter().filter(|later| *later > field) {
        if random.chance(10) {
            mask &= !bit(later);
        }
    }
    for later in 50..=65 {
        if later > field && random.chance(10) {
            mask |= bit(later);
        }
    }
    for group in GROUPS {
        if group.iter().all(|member| *member > field) && random.chance(20) {
            let member = random.one_of(group).unwrap_or(0);
            mask ^= bit(member);
        }
    }
    mask
}

/// The values of row 13 and 14 out of their ranges; tells in which target each stands.
fn spoil_values(random: &mut Random, dwell: &mut Dwell, faults: &[Fault]) -> Vec<(Fault, usize)> {
    let mut targets = Vec::new();
    if faults.contains(&Fault::D4) {
        dwell.values[4] = random.pick([2, 3, 128, 255]);
    }
    for fault in faults.iter().filter(|fault| fault.is_of_target()) {
        let at = random.below(dwell.targets.len());
        match fault {
            Fault::Latitude => spoil_latitude(random, dwell, at),
            _ => spoil_target(random, dwell, at, fault.field()),
        }
        targets.push((*fault, at));
    }
    targets
}

fn spoil_target(random: &mut Random, dwell: &mut Dwell, at: usize, field: u32) {
    let any = random.between(-32_768, -1001);
    let target = &mut dwell.targets[at];
    match field {
        37 => target[6] = random.pick([-1001, -1002, -32_768, any]) as u32,
        42 => target[11] = random.pick([101, 102, 128, 255]),
        _ => target[15] = random.pick([5001, 5002, 32_768, 65_535]),
    }
}

/// A D32.4 that leads past a pole. Where none does, D10 and D24 are those of document 01's trial.
fn spoil_latitude(random: &mut Random, dwell: &mut Dwell, at: usize) {
    if valid::fitting_deltas(dwell) == (-32_768, 32_767) {
        dwell.values[10] = 1;
        dwell.values[24] = i32::MAX as u32;
        valid::set_deltas(random, dwell);
    }
    let (low, high) = valid::fitting_deltas(dwell);
    let below = random.between(-32_768, low - 1);
    let above = random.between(high + 1, 32_767);
    let mut out = Vec::new();
    if low > -32_768 {
        out.extend([low - 1, -32_768, below]);
    }
    if high < 32_767 {
        out.extend([high + 1, 32_767, above]);
    }
    dwell.targets[at][4] = random.one_of(&out).unwrap_or(2) as u32;
}

/// Where row 9 or 12 is wanted, an S2 that no mask allows, or not this one with this D5.
fn spoil_dwell_size(random: &mut Random, segment: &mut Segment, dwell: &Dwell, faults: &[Fault]) {
    if faults.contains(&Fault::DwellSize) {
        let length = segment.body.len();
        let least = random.between(8, 42) as usize;
        let count = dwell.targets.len();
        match random.below(4) {
            0 => segment.body.resize(least, 0),
            1 if dwell.target_width() > 0 && length >= 15 => {
                let other = random.pick([count + 1, count.wrapping_sub(1), count + 256, count + 32_768, 65_535]) as u16;
                segment.body[13..15].copy_from_slice(&other.to_be_bytes());
            }
            2 if length > 44 => segment.size = Some(5 + length as u32 - 1),
            _ => {
                let more = random.pick([1, 2, 4, 40]);
                segment.body.resize(length + more, 0);
            }
        }
    }
    if faults.contains(&Fault::BodySize(2)) {
        spoil_size(random, segment);
    }
}
