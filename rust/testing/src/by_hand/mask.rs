//! The mask of a dwell: bit 65 - n announces field n.

/// The bits of the fields from one number to another.
pub const fn fields(from: u32, to: u32) -> u64 {
    (u64::MAX >> (from - 2)) & (u64::MAX << (65 - to))
}

const MANDATORY: u64 = fields(2, 9) | fields(24, 27);
/// D10 and D11, which come with D32.4 and D32.5.
pub const SCALES: u64 = fields(10, 11);
pub const D12_14: u64 = fields(12, 14);
pub const D15_17: u64 = fields(15, 17);
pub const D18_20: u64 = fields(18, 20);
pub const D21_23: u64 = fields(21, 23);
pub const D28: u64 = fields(28, 28);
pub const D29: u64 = fields(29, 29);
pub const D30: u64 = fields(30, 30);
const D28_30: u64 = D28 | D29 | D30;
pub const D31: u64 = fields(31, 31);
pub const D32_1: u64 = fields(32, 32);
/// D32.2 and D32.3.
pub const ABSOLUTE: u64 = fields(33, 34);
/// D32.4 and D32.5.
pub const DELTA: u64 = fields(35, 36);
/// D32.6 to D32.17.
pub const D32_6_17: u64 = fields(37, 48);
/// The values that row 13 looks at in a target: D32.6, D32.11 and D32.15.
pub const CHECKED: u64 = fields(37, 37) | fields(42, 42) | fields(46, 46);
pub const D32_18: u64 = fields(49, 49);
const RESERVED: u64 = fields(50, 65);

/// The groups of both versions but D10, D11, D32.4 and D32.5.
const GROUPS: [u64; 6] = [D12_14, D15_17, D18_20, D21_23, ABSOLUTE, fields(47, 48)];

/// The bits whose next lower bit is of the same group, in both versions.
const JOINTS: u64 = {
    let mut joints = fields(10, 10) | fields(35, 35);
    let mut i = 0;
    while i < GROUPS.len() {
        joints |= GROUPS[i] & GROUPS[i] << 1;
        i += 1;
    }
    joints
};

/// 1 where a mask announces a field, or 0.
#[inline(always)]
pub fn bit(mask: u64, field: u32) -> usize {
    (mask >> (65 - field) & 1) as usize
}

/// The lowest field at fault (row 11), or 0.
#[inline(always)]
pub fn fault(mask: u64, version_1: bool) -> u32 {
    let (joints, reserved) = if version_1 { (JOINTS | D28 | D29, RESERVED | D32_18) } else { (JOINTS, RESERVED) };
    // Neighbours in a group that differ, D10 and D32.4 that differ, D32.2 and D32.4 that are both set.
    let uneven = (mask ^ mask << 1) & joints | (mask ^ mask << 25) & fields(10, 10) | mask & mask << 2 & fields(33, 33);
    if !mask & MANDATORY | mask & reserved | uneven == 0 {
        0
    } else {
        lowest_fault(mask, version_1, reserved)
    }
}

/// The lowest field at fault of a mask that has one, by document 01's words.
#[cold]
fn lowest_fault(mask: u64, version_1: bool, reserved: u64) -> u32 {
    let mut faults = !mask & MANDATORY | mask & reserved;
    for group in GROUPS.into_iter().chain([SCALES | DELTA, if version_1 { D28_30 } else { 0 }]) {
        if mask & group != 0 {
            faults |= group & !mask;
        }
    }
    if mask & ABSOLUTE == ABSOLUTE {
        faults |= mask & DELTA;
    }
    2 + faults.leading_zeros()
}

/// The field of a version 3 mask that is new in Edition 3 (row 15), or 0.
pub fn new_field(mask: u64) -> u32 {
    let some = mask & D28_30;
    if some != 0 && some != D28_30 {
        2 + (D28_30 & !mask).leading_zeros()
    } else if mask & D32_18 != 0 {
        49
    } else {
        0
    }
}

/// How many bytes the announced fields D10 to D23 have, of a mask without fault: a group is there as a whole or not at all.
#[inline(always)]
pub fn before_d24(mask: u64) -> usize {
    8 * bit(mask, 10) + 10 * bit(mask, 12) + 7 * bit(mask, 15) + 5 * bit(mask, 18) + 6 * bit(mask, 21)
}

/// How many bytes the announced fields D28 to D31 have.
#[inline(always)]
pub fn after_d27(mask: u64) -> usize {
    2 * (bit(mask, 28) + bit(mask, 29) + bit(mask, 30)) + bit(mask, 31)
}
