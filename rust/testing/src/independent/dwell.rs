//! The dwell: its mask, and where each announced field stands ("Dwell and mask").

use super::mask::{bit, bits, mask_of, Layout};
use super::positions::{LatitudeSteps, LongitudeSteps};
use super::tables::{DWELL_FIELDS, DWELL_LEAST, MASK, SEGMENT_HEADER, TARGET_FIELDS};

/// The number of D32.j.
pub const fn d32(j: u32) -> u32 {
    31 + j
}

/// Fields that every dwell announces.
const ALWAYS: u64 = bits(2, 9) | bits(24, 27);

/// Bits that no version announces.
const RESERVED: u64 = bits(50, 65);

/// D32.18, reserved in version 1.
const D32_18: u64 = bit(d32(18));

/// The two position pairs.
const ABSOLUTE_PAIR: u64 = bit(d32(2)) | bit(d32(3));
const RELATIVE_PAIR: u64 = bit(d32(4)) | bit(d32(5));

/// Groups of which all or none are announced.
const GROUPS: [u64; 7] =
    [bits(12, 14), bits(15, 17), bits(18, 20), bits(21, 23), bit(10) | bit(11) | RELATIVE_PAIR, ABSOLUTE_PAIR, bit(d32(16)) | bit(d32(17))];

/// D28 to D30, a group in version 1 only: in Edition 3 an omitted one means zero.
const D28_TO_D30: u64 = bits(28, 30);

/// The members of a group that are unset while another of it is set.
fn missing(group: u64, mask: u64) -> u64 {
    if mask & group == 0 {
        0
    } else {
        group & !mask
    }
}

/// The lowest field of a set of bits: 2 plus the zeros in front of its bit.
fn lowest(faults: u64) -> Option<u32> {
    if faults == 0 {
        None
    } else {
        Some(2 + faults.leading_zeros())
    }
}

/// The lowest mask field at fault, for row 11.
pub fn mask_at_fault(is_version_1: bool, mask: u64) -> Option<u32> {
    let mut faults = ALWAYS & !mask;
    faults |= RESERVED & mask;
    for group in GROUPS {
        faults |= missing(group, mask);
    }
    if is_version_1 {
        faults |= D32_18 & mask;
        faults |= missing(D28_TO_D30, mask);
    }
    if mask & ABSOLUTE_PAIR == ABSOLUTE_PAIR {
        faults |= RELATIVE_PAIR & mask;
    }
    lowest(faults)
}

/// The field by which a mask is new in Edition 3, for row 15 of the dwell:
/// D28 to D30 come before D32.18.
pub fn new_in_mask(mask: u64) -> Option<u32> {
    lowest(missing(D28_TO_D30, mask)).or(lowest(D32_18 & mask))
}

impl Layout<30> {
    /// D2 to D31.
    pub fn of_dwell(mask: u64) -> Layout<30> {
        Layout::new(mask, 2, &DWELL_FIELDS)
    }
}

impl Layout<18> {
    /// D32.1 to D32.18 of one target.
    pub fn of_target(mask: u64) -> Layout<18> {
        Layout::new(mask, d32(1), &TARGET_FIELDS)
    }
}

/// The mask D1 at the front of a dwell's body or record.
pub fn dwell_mask_of(body: &[u8]) -> u64 {
    mask_of(body, MASK)
}

/// A dwell whose length is what its mask and D5 give.
pub struct Dwell<'a> {
    pub mask: u64,
    pub layout: Layout<30>,
    pub fields: &'a [u8],
    pub target_layout: Layout<18>,
    pub target_count: u32,
    targets: &'a [u8],
}

impl<'a> Dwell<'a> {
    /// Nothing where row 12 refuses: S2 under 48 or not what mask and D5 give.
    /// The mask must have passed row 11, so that D5 is announced.
    pub fn new(body: &'a [u8]) -> Option<Dwell<'a>> {
        if body.len() < DWELL_LEAST - SEGMENT_HEADER {
            return None;
        }
        let mask = dwell_mask_of(body);
        let layout = Layout::of_dwell(mask);
        let target_layout = Layout::of_target(mask);
        let (fields, targets) = body[MASK..].split_at_checked(layout.length)?;
        let target_count = layout.value(5, fields)?;
        if targets.len() != target_count as usize * target_layout.length {
            return None;
        }
        Some(Dwell { mask, layout, fields, target_layout, target_count, targets })
    }

    /// Whether the mask announces a position pair. By row 11 a pair is announced
    /// whole or not at all, so any one of the four bits tells.
    pub fn has_position(&self) -> bool {
        self.mask & (ABSOLUTE_PAIR | RELATIVE_PAIR) != 0
    }

    /// The bytes of each target in order. Only for a dwell with a position pair
    /// or without targets, where no target is empty.
    pub fn targets(&self) -> impl Iterator<Item = &'a [u8]> {
        self.targets.chunks_exact(self.target_layout.length.max(1))
    }

    /// D2 and D3. Segments with the same two are parts of one dwell (request A1).
    /// By row 11 both are announced.
    pub fn pair(&self) -> (u32, u32) {
        (self.own(2), self.own(3))
    }

    /// The value of a field of the dwell itself, 0 where it is absent.
    fn own(&self, field: u32) -> u32 {
        self.layout.value(field, self.fields).unwrap_or(0)
    }

    /// D32.2, else D32.4 × D10 + D24. The casts give the two's complement forms.
    pub fn latitude(&self, target: &[u8]) -> LatitudeSteps {
        let value = |field| self.target_layout.value(field, target);
        match value(d32(2)) {
            Some(d32_2) => LatitudeSteps::absolute(d32_2 as i32),
            None => {
                let d32_4 = value(d32(4)).unwrap_or(0) as u16 as i16;
                LatitudeSteps::relative(d32_4, self.own(10) as i32, self.own(24) as i32)
            }
        }
    }

    /// D32.3, else D32.5 × D11 + D25; D11 and D25 are unsigned.
    pub fn longitude(&self, target: &[u8]) -> LongitudeSteps {
        let value = |field| self.target_layout.value(field, target);
        match value(d32(3)) {
            Some(d32_3) => LongitudeSteps::absolute(d32_3),
            None => {
                let d32_5 = value(d32(5)).unwrap_or(0) as u16 as i16;
                LongitudeSteps::relative(d32_5, self.own(11), self.own(25))
            }
        }
    }
}
