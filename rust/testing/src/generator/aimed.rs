//! Packets with one fault or two, behind valid segments, and the answers that document 01 gives them.
use super::faults::{Fault, Host};
use super::faulty;
use super::random::Random;
use super::spelling::{patch_size, Packet, Segment};
use super::tables::HEADER_TEXT;
use super::valid::{self, Style};

/// Number, segment and field of a refusal.
pub type Refusal = (u32, u32, u32);

/// A packet, and what each reading must answer, given a long sheet: a refusal, or none where it accepts.
#[derive(Clone, Debug)]
pub struct Aimed {
    /// The packet.
    pub bytes: Vec<u8>,
    /// What it was given.
    pub faults: Vec<Fault>,
    /// The Edition 1 reading's refusal.
    pub older: Option<Refusal>,
    /// The Edition 3 reading's refusal.
    pub newer: Option<Refusal>,
}

/// A packet with one fault.
pub fn one(random: &mut Random, fault: Fault) -> Option<Aimed> {
    match fault.host() {
        Host::Header | Host::End => build(random, &[fault], &[]),
        _ => build(random, &[], &[vec![fault]]),
    }
}

/// A packet with two faults in the header, in one segment each in this order, or one in the header and one behind it.
pub fn apart(random: &mut Random, first: Fault, second: Fault) -> Option<Aimed> {
    let is_outside = |fault: Fault| matches!(fault.host(), Host::Header | Host::End);
    match (is_outside(first), is_outside(second)) {
        (true, true) => build(random, &[first, second], &[]),
        (true, false) => build(random, &[first], &[vec![second]]),
        (false, true) => build(random, &[second], &[vec![first]]),
        (false, false) => build(random, &[], &[vec![first], vec![second]]),
    }
}

/// A packet with two faults in one segment; none where no segment can have both.
pub fn together(random: &mut Random, first: Fault, second: Fault) -> Option<Aimed> {
    let is_one_segment = match (first.host(), second.host()) {
        (Host::Type(one), Host::Type(other)) => one == other,
        (Host::Any, Host::Any | Host::Type(_)) | (Host::Type(_), Host::Any) => true,
        _ => false,
    };
    if !is_one_segment || !is_possible(first, second) {
        return None;
    }
    build(random, &[], &[vec![first, second]])
}

/// Whether one segment can have both faults as they are: one mask has one lowest fault, one S2 is too small or too
/// great, and a latitude takes a position pair.
fn is_possible(first: Fault, second: Fault) -> bool {
    let both = [first, second];
    let is = |fault: Fault| both.contains(&fault);
    let same_kind = std::mem::discriminant(&first) == std::mem::discriminant(&second);
    let is_mask = matches!(first, Fault::Mask(_) | Fault::NewAngles(_) | Fault::HrrMask(_));
    if is(Fault::NoPair) && is(Fault::Latitude) || is(Fault::SizeBelow) && is(Fault::SizePast) {
        return false;
    }
    first != second && !(same_kind && is_mask)
}

/// The version that the faults need, or either; none where they need both.
fn version_for(random: &mut Random, faults: &[Fault]) -> Option<u8> {
    let mut needed = faults.iter().filter_map(|fault| fault.version());
    match needed.next() {
        Some(version) => needed.all(|other| other == version).then_some(version),
        None => Some(random.pick([1, 3])),
    }
}

/// A packet with these faults outside of its segments, and with a segment for each list of faults.
fn build(random: &mut Random, outside: &[Fault], inside: &[Vec<Fault>]) -> Option<Aimed> {
    let faults: Vec<Fault> = outside.iter().copied().chain(inside.iter().flatten().copied()).collect();
    let style = Style { version: version_for(random, &faults)?, new: false };
    let mut packet = Packet::new(valid::header(random, style.version), Vec::new());
    let mut found = Vec::new();
    for group in inside {
        let before = random.below(3);
        add_valid(random, style, &mut packet, before);
        let (segment, order) = faulty::segment(random, style, group)?;
        packet.segments.push(segment);
        found.push((packet.segments.len(), order));
    }
    let after = random.below(3);
    add_valid(random, style, &mut packet, after);
    if outside.contains(&Fault::Left) {
        let left = random.between(1, 4) as usize;
        packet.rest = random.bytes(left);
    }
    for (number, order) in &found {
        if order.contains(&Fault::SizePast) {
            claim_past_end(random, &mut packet, *number - 1);
        }
    }
    let bytes = spell(random, packet.clone(), outside);
    let answer = |edition| expected(edition, outside, &found, packet.segments.len());
    Some(Aimed { bytes, older: answer(1), newer: answer(3), faults })
}

fn add_valid(random: &mut Random, style: Style, packet: &mut Packet, count: usize) {
    for _ in 0..count {
        let segment = valid::segment(random, style);
        packet.segments.push(segment);
    }
}

/// What a reading answers: the first fault that it has, of the header, of each segment in turn, of the end.
fn expected(edition: u32, outside: &[Fault], inside: &[(usize, Vec<Fault>)], count: usize) -> Option<Refusal> {
    let mut header: Vec<Fault> = outside.iter().copied().filter(|fault| fault.host() == Host::Header).collect();
    header.sort_by_key(|fault| fault.place(0));
    if let Some(fault) = header.first() {
        return Some((fault.row(), 0, fault.field()));
    }
    for (number, order) in inside {
        if let Some(fault) = order.iter().find(|fault| edition == 1 || !fault.is_new()) {
            return Some((fault.row(), *number as u32, fault.field()));
        }
    }
    outside.contains(&Fault::Left).then_some((6, count as u32 + 1, 0))
}

/// An S2 that is greater than what is left from this segment on.
fn claim_past_end(random: &mut Random, packet: &mut Packet, segment: usize) {
    let left = packet.length_from(segment) as u32;
    let any = random.number() as u32;
    let near = u32::MAX - random.below(70) as u32;
    let size = random.pick([left + 1, left + 2, left + 32, left + 33, near, near, 1 << 31, left.wrapping_neg(), any]);
    packet.segments[segment].size = Some(size.max(left + 1));
}

/// The packet's bytes with the faults of its header and its end.
fn spell(random: &mut Random, mut packet: Packet, outside: &[Fault]) -> Vec<u8> {
    if outside.contains(&Fault::Long) {
        let above = random.pick([65_537, 65_538, 66_000]);
        let body = random.bytes(above - 32 - 5);
        packet.segments.insert(0, Segment::new(7, body));
    }
    for fault in outside {
        match fault {
            Fault::Version => spoil_version(random, &mut packet.header),
            Fault::HeaderText(field) => spoil_header_text(random, &mut packet.header, *field),
            _ => {}
        }
    }
    let mut bytes = packet.bytes();
    if outside.contains(&Fault::Short) {
        bytes.truncate(random.below(32));
        if random.chance(50) {
            patch_size(&mut bytes);
        }
    }
    if outside.contains(&Fault::PacketSize) {
        let length = bytes.len() as u32;
        spoil_packet_size(random, &mut bytes, length);
    }
    bytes
}

/// P1 that is no version or no digit.
pub(super) fn spoil_version(random: &mut Random, header: &mut [u8]) {
    let any = [random.byte() | 0x40, random.byte()];
    let version = header[0];
    let p1 = [*b"00", *b"20", *b"40", *b"03", *b"01", [version, b'/'], [version, b':'], [version, 0], [version, 0xB0], any];
    header[..2].copy_from_slice(&random.pick(p1));
}

/// A byte of a text field that may not stand there.
fn spoil_header_text(random: &mut Random, header: &mut [u8], number: u32) {
    for field in HEADER_TEXT.into_iter().filter(|field| field.number == number) {
        faulty::spoil_text(random, header, field);
    }
}

/// P2 that is not the length, by one, by a byte of it, or by much.
pub(super) fn spoil_packet_size(random: &mut Random, bytes: &mut [u8], length: u32) {
    let any = random.number() as u32;
    let size = random.pick([length + 1, length.wrapping_sub(1), 0, 32, length | 1 << 24, length | 1 << 16, length.swap_bytes(), any]);
    let size = if size == length { length + 1 } else { size };
    if let Some(p2) = bytes.get_mut(2..6) {
        p2.copy_from_slice(&size.to_be_bytes());
    }
}
