//! The loops over the targets of a dwell.
use super::mask::{self, bit};
use super::position::{microdegrees, Area, Origin};
use super::spread::{Layout, Places};
use super::{bytes, Fault};
use std::slice::ChunksExactMut;

/// The first fault of the targets (rows 13 and 14), which are all of the bytes.
#[inline(always)]
pub fn check(mask: u64, places: &Places, area: &Area, targets: &[u8]) -> Result<(), Fault> {
    if mask & mask::DELTA != 0 && !area.is_within() {
        first_fault::<true>(&Limits::of(mask, places), area, places.each, targets)
    } else if mask & mask::CHECKED != 0 {
        first_fault::<false>(&Limits::of(mask, places), area, places.each, targets)
    } else {
        Ok(())
    }
}

#[inline(never)]
fn first_fault<const DELTA: bool>(limits: &Limits, area: &Area, each: usize, targets: &[u8]) -> Result<(), Fault> {
    targets.chunks_exact(each).try_for_each(|target| limits.fault::<DELTA>(area, target))
}

/// Where the checked values lie and what they may be. One that is not announced may be anything, and is read at the target's begin.
struct Limits {
    /// D32.4, where the target has it.
    position: usize,
    d32_6: usize,
    least_6: i16,
    d32_11: usize,
    most_11: u8,
    d32_15: usize,
    most_15: u16,
}

impl Limits {
    #[inline(always)]
    fn of(mask: u64, places: &Places) -> Limits {
        let (d32_6, least_6) = if bit(mask, 37) != 0 { (places.d32_6, -1000) } else { (0, i16::MIN) };
        let (d32_11, most_11) = if bit(mask, 42) != 0 { (places.d32_11, 100) } else { (0, u8::MAX) };
        let (d32_15, most_15) = if bit(mask, 46) != 0 { (places.d32_16 - 2, 5000) } else { (0, u16::MAX) };
        Limits { position: places.position, d32_6, least_6, d32_11, most_11, d32_15, most_15 }
    }

    /// The first fault of a target; row 14 is tried where it has D32.4.
    #[inline(always)]
    fn fault<const DELTA: bool>(&self, area: &Area, target: &[u8]) -> Result<(), Fault> {
        if i16::from_be_bytes(bytes(target, self.d32_6)) < self.least_6 {
            Err((13, 37))
        } else if target[self.d32_11] > self.most_11 {
            Err((13, 42))
        } else if u16::from_be_bytes(bytes(target, self.d32_15)) > self.most_15 {
            Err((13, 46))
        } else if DELTA && area.is_out(i16::from_be_bytes(bytes(target, self.position))) {
            Err((14, 35))
        } else {
            Ok(())
        }
    }
}

/// A record of kind 4.
pub const RECORD: usize = 45;

/// Sets out the targets, a record for each. The dwell's body begins the bytes, which go on to the end of the packet; `first` is the place
/// of the first target in them.
#[inline(always)]
pub fn fill(mask: u64, from: &[u8], first: usize, records: &mut [u8]) {
    let origin = Area::of(mask, from).origin();
    if mask & mask::DELTA == 0 {
        fill_by::<false>(mask, &origin, from, first, records);
    } else {
        fill_by::<true>(mask, &origin, from, first, records);
    }
}

/// The masks that are met most have their own loops.
#[inline(always)]
fn fill_by<const DELTA: bool>(mask: u64, origin: &Origin, from: &[u8], first: usize, records: &mut [u8]) {
    const ALL: u64 = mask::D32_6_17 | mask::D32_18;
    match (mask & mask::D32_1, mask & ALL) {
        (0, 0) => straight::<DELTA, 0, 0>(origin, &from[first..], records),
        (mask::D32_1, 0) => straight::<DELTA, 2, 0>(origin, &from[first..], records),
        (mask::D32_1, mask::D32_6_17) => straight::<DELTA, 2, 21>(origin, &from[first..], records),
        (mask::D32_1, ALL) => straight::<DELTA, 2, 22>(origin, &from[first..], records),
        _ => spread::<DELTA>(&Layout::of(mask), origin, from, first, records),
    }
}

/// Targets with all places constant: FIRST bytes of D32.1, the position fields, REST bytes of D32.6 to D32.17 or D32.18.
#[inline(never)]
fn straight<const DELTA: bool, const FIRST: usize, const REST: usize>(origin: &Origin, from: &[u8], records: &mut [u8]) {
    let rest = FIRST + if DELTA { 4 } else { 8 };
    for (record, target) in records.chunks_exact_mut(RECORD).zip(from.chunks_exact(rest + REST)) {
        record[0] = 4;
        record[1..1 + FIRST].copy_from_slice(&target[..FIRST]);
        record[1 + FIRST..3].fill(0);
        let position = put_position::<DELTA>(record, &target[FIRST..rest]);
        record[15..15 + REST].copy_from_slice(&target[rest..]);
        record[15 + REST..37].fill(0);
        record[37..].copy_from_slice(&microdegrees::<DELTA>(origin, position));
    }
}

/// Puts the 4 or 8 bytes of the position fields in place, with zeros for the others, and gives them as a number.
#[inline(always)]
fn put_position<const DELTA: bool>(record: &mut [u8], fields: &[u8]) -> u64 {
    if DELTA {
        record[3..11].fill(0);
        record[11..15].copy_from_slice(fields);
        u64::from(u32::from_be_bytes(bytes(fields, 0))) << 32
    } else {
        record[3..11].copy_from_slice(fields);
        record[11..15].fill(0);
        u64::from_be_bytes(bytes(fields, 0))
    }
}

/// More bytes than a target has, so that eight bytes can be read at each of its fields.
const WINDOW: usize = 40;

/// Targets that any mask announces.
#[inline(never)]
fn spread<const DELTA: bool>(layout: &Layout, origin: &Origin, from: &[u8], first: usize, records: &mut [u8]) {
    let mut records = records.chunks_exact_mut(RECORD);
    let mut at = first;
    while let Some(target) = from.get(at..at + WINDOW) {
        let Some(record) = records.next() else { return };
        spread_target::<DELTA>(layout, origin, |place| u64::from_le_bytes(bytes(target, place & 31)), record);
        at += layout.places.each;
    }
    spread_last::<DELTA>(layout, origin, from, at, records);
}

/// The targets that end less than a window before the end of the packet. Apart, since the compiler would mix the two loops.
#[inline(never)]
fn spread_last<const DELTA: bool>(layout: &Layout, origin: &Origin, from: &[u8], first: usize, records: ChunksExactMut<u8>) {
    let mut at = first;
    for record in records {
        spread_target::<DELTA>(layout, origin, |place| eight_near_end(from, at + place), record);
        at += layout.places.each;
    }
}

/// Sets out a target of which eight bytes can be read at each field's place.
#[inline(always)]
fn spread_target<const DELTA: bool>(layout: &Layout, origin: &Origin, eight: impl Fn(usize) -> u64, record: &mut [u8]) {
    let places = &layout.places;
    record[0] = 4;
    record[1..3].copy_from_slice(&(eight(0) as u16 & layout.d32_1).to_le_bytes());
    let position = eight(places.position).to_le_bytes();
    let position = put_position::<DELTA>(record, if DELTA { &position[..4] } else { &position });
    record[15..23].copy_from_slice(&layout.d32_6_to_10.apply(eight(places.d32_6)).to_le_bytes());
    record[23..31].copy_from_slice(&layout.d32_11_to_15.apply(eight(places.d32_11)).to_le_bytes());
    record[31..39].copy_from_slice(&layout.d32_16_to_18(eight(places.d32_16)).to_le_bytes());
    record[37..].copy_from_slice(&microdegrees::<DELTA>(origin, position));
}

/// Eight bytes, of which some may lie after the end of the packet; those may be anything.
#[inline(always)]
fn eight_near_end(from: &[u8], at: usize) -> u64 {
    let begin = at.min(from.len() - 8);
    u64::from_le_bytes(bytes(from, begin)) >> ((8 * (at - begin)) & 63)
}
