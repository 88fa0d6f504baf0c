//! Latitude and longitude ("Positions").
//!
//! Steps of latitude and of longitude have types of their own, so that the two
//! are never added together.

/// Latitude in steps of 180/2^32 degrees.
#[derive(Clone, Copy, Debug, PartialEq, Eq)]
pub struct LatitudeSteps(pub i64);

/// Longitude in steps of 360/2^32 degrees, from 0 to 2^32−1.
#[derive(Clone, Copy, Debug, PartialEq, Eq)]
pub struct LongitudeSteps(pub i64);

/// The latitude steps of the poles.
const POLE: i64 = 1 << 31;

/// One turn in longitude steps, and in microdegrees.
const TURN_STEPS: i64 = 1 << 32;
const TURN_MICRODEGREES: i64 = 360_000_000;

impl LatitudeSteps {
    /// D32.2.
    pub fn absolute(d32_2: i32) -> LatitudeSteps {
        LatitudeSteps(i64::from(d32_2))
    }

    /// D32.4 × D10 + D24.
    pub fn relative(d32_4: i16, d10: i32, d24: i32) -> LatitudeSteps {
        LatitudeSteps(i64::from(d32_4) * i64::from(d10) + i64::from(d24))
    }

    /// From −2^31 to 2^31, both ends in.
    pub fn is_in_range(self) -> bool {
        (-POLE..=POLE).contains(&self.0)
    }

    /// Steps × 703125 / 2^24, to the nearest, a half away from zero.
    pub fn microdegrees(self) -> i32 {
        // At most 90,000,000 either way for steps in range.
        rounded(self.0 * 703_125, 1 << 24) as i32
    }
}

impl LongitudeSteps {
    /// D32.3.
    pub fn absolute(d32_3: u32) -> LongitudeSteps {
        LongitudeSteps(i64::from(d32_3))
    }

    /// D32.5 × D11 + D25, reduced to 0 to 2^32−1.
    pub fn relative(d32_5: i16, d11: u32, d25: u32) -> LongitudeSteps {
        let steps = i64::from(d32_5) * i64::from(d11) + i64::from(d25);
        LongitudeSteps(steps.rem_euclid(TURN_STEPS))
    }

    /// Steps × 703125 / 2^23, to the nearest; 360000000 becomes 0.
    pub fn microdegrees(self) -> u32 {
        let microdegrees = rounded(self.0 * 703_125, 1 << 23);
        if microdegrees == TURN_MICRODEGREES {
            0
        } else {
            microdegrees as u32
        }
    }
}

/// `value / divisor` to the nearest, a half away from zero. Rust's division
/// cuts towards zero, so half the divisor is added on the value's own side.
fn rounded(value: i64, divisor: i64) -> i64 {
    let half = divisor / 2;
    if value < 0 {
        (value - half) / divisor
    } else {
        (value + half) / divisor
    }
}
