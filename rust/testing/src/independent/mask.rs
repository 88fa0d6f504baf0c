//! What the masks of the dwell and of the HRR segment have in common: which bit
//! announces a field, and where each announced field stands.
//!
//! Both are held in 64 bits, the 5 bytes of an HRR mask as the first 5 of 8. So
//! bit 63 announces D2 as it does H2, and so on down.

/// The mask bit of a field. Field numbers are n for Dn and Hn, 31+j for D32.j and
/// H32.j.
pub const fn bit(field: u32) -> u64 {
    1 << (65 - field)
}

/// The mask bits of the fields `first` to `last`.
pub const fn bits(first: u32, last: u32) -> u64 {
    let mut set = 0;
    let mut field = first;
    while field <= last {
        set |= bit(field);
        field += 1;
    }
    set
}

/// The mask in the first `width` bytes of a body or record.
pub fn mask_of(body: &[u8], width: usize) -> u64 {
    let mut mask = [0; 8];
    for (place, byte) in mask.iter_mut().zip(body.iter().take(width)) {
        *place = *byte;
    }
    u64::from_be_bytes(mask)
}

/// Where each announced field stands among the announced fields, for D2 to D31,
/// for one target's D32.1 to D32.18, or for H2 to H31.
pub struct Layout<const N: usize> {
    first: u32,
    widths: &'static [usize; N],
    places: [Option<usize>; N],
    pub length: usize,
}

impl<const N: usize> Layout<N> {
    /// `first` is the number of the table's first field.
    pub fn new(mask: u64, first: u32, widths: &'static [usize; N]) -> Layout<N> {
        let mut places = [None; N];
        let mut length = 0;
        for ((place, width), field) in places.iter_mut().zip(widths).zip(first..) {
            if mask & bit(field) != 0 {
                *place = Some(length);
                length += width;
            }
        }
        Layout { first, widths, places, length }
    }

    /// Number, width and place of each field in order; no place where it is absent.
    pub fn fields(&self) -> impl Iterator<Item = (u32, usize, Option<usize>)> + '_ {
        let numbered = (self.first..).zip(self.widths).zip(&self.places);
        numbered.map(|((field, width), place)| (field, *width, *place))
    }

    /// The value of an announced field, highest byte first.
    pub fn value(&self, field: u32, bytes: &[u8]) -> Option<u32> {
        let index = field.checked_sub(self.first)? as usize;
        let place = (*self.places.get(index)?)?;
        let value = bytes.get(place..place + self.widths[index])?.iter();
        Some(value.fold(0, |sum, byte| sum << 8 | u32::from(*byte)))
    }
}
