//! Positions: whether a latitude is in range, and microdegrees.
use super::{bytes, mask};

/// A latitude step is STEP / 2^24 microdegrees, a longitude step STEP / 2^23.
const STEP: i64 = 703_125;

/// D10, D11, D24 and D25: what a target's position depends on beside its own fields.
pub struct Area {
    d10: i64,
    d11: u32,
    d24: i64,
    d25: u32,
}

impl Area {
    /// Of a dwell whose body begins the bytes.
    #[inline(always)]
    pub fn of(mask: u64, from: &[u8]) -> Area {
        let unsigned = |at: usize| u32::from_be_bytes(bytes(from, at));
        let signed = |at: usize| i64::from(i32::from_be_bytes(bytes(from, at)));
        let (d10, d11) = if mask & mask::SCALES != 0 { (signed(31), unsigned(35)) } else { (0, 0) };
        let d24 = 31 + mask::before_d24(mask);
        Area { d10, d11, d24: signed(d24), d25: unsigned(d24 + 4) }
    }

    /// Whether no D32.4 whatever leads out of the range of latitudes.
    #[inline(always)]
    pub fn is_within(&self) -> bool {
        self.d10.abs() * (1 << 15) + self.d24.abs() <= 1 << 31
    }

    /// Whether the latitude of a D32.4 is out of range (row 14).
    #[inline(always)]
    pub fn is_out(&self, d32_4: i16) -> bool {
        !(-1 << 31..=1 << 31).contains(&(i64::from(d32_4) * self.d10 + self.d24))
    }

    /// What the loops that set targets out need of it, multiplied beforehand.
    #[inline(always)]
    pub fn origin(&self) -> Origin {
        Origin { d10: self.d10 * STEP, d24: self.d24 * STEP, d11: self.d11, d25: self.d25 }
    }
}

/// An area whose latitudes are multiplied by STEP.
pub struct Origin {
    d10: i64,
    d24: i64,
    d11: u32,
    d25: u32,
}

/// The position of a target in range from its position fields: D32.2 and D32.3, or D32.4 and D32.5 in the high half.
#[inline(always)]
pub fn microdegrees<const DELTA: bool>(origin: &Origin, fields: u64) -> [u8; 8] {
    let (latitude, longitude) = if DELTA {
        let (d32_4, d32_5) = ((fields >> 48) as i16, (fields >> 32) as i16);
        (i64::from(d32_4) * origin.d10 + origin.d24, (i32::from(d32_5) as u32).wrapping_mul(origin.d11).wrapping_add(origin.d25))
    } else {
        ((fields as i64 >> 32) * STEP, fields as u32)
    };
    // A half is added, less the least fraction below zero, so that a half goes away from zero without a branch.
    let latitude = (latitude + (1 << 23) + (latitude >> 63)) >> 24;
    // A half is added, of which 5 steps before the multiplication: so the last 5 longitudes, which round to 360 degrees, begin again at 0.
    let longitude = (u64::from(longitude.wrapping_add(5)) * STEP as u64 + (1 << 22) - 5 * STEP as u64) >> 23;
    ((latitude as u64) << 32 | longitude).to_be_bytes()
}
