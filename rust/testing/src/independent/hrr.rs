//! The HRR segment of a version 3 packet: its mask, where each announced field
//! stands, and its scatterers (request A4; document 003, 2.5).

use super::mask::{bit, bits, mask_of, Layout};
use super::tables::{HRR_FIELDS, HRR_MASK, INDEX_BYTES, SCATTERER_VALUE};

/// The number of H32.j.
pub const fn h32(j: u32) -> u32 {
    31 + j
}

/// The magnitude and the fields that the tables 2-5 and 2-5.1 mark mandatory.
///
/// The headings under them say otherwise of two: 2.5.9 calls H9 mandatory, which
/// table and figure call conditional, and 2.5.24 calls H24 optional, which table
/// and figure call mandatory. Request A4 goes by "document 003's table".
const ALWAYS: u64 = bits(2, 4) | bit(8) | bits(10, 14) | bits(16, 19) | bits(23, 26) | bit(h32(1));

/// The six lowest bits, spare in figure 2-5: they announce no field.
const SPARE: u64 = bits(h32(5), h32(10));

/// Whether row 21 refuses this mask. "Any other bit is free": H6 and H7 may both
/// be absent, though 2.5.6 says otherwise.
pub fn is_mask_at_fault(mask: u64) -> bool {
    ALWAYS & !mask != 0 || SPARE & mask != 0
}

/// The mask H1 at the front of an HRR segment's body or record.
pub fn hrr_mask_of(body: &[u8]) -> u64 {
    mask_of(body, HRR_MASK)
}

impl Layout<30> {
    /// H2 to H31.
    pub fn of_hrr(mask: u64) -> Layout<30> {
        Layout::new(mask, 2, &HRR_FIELDS)
    }
}

/// How many scatterers there are, and how wide each one's H32.1 to H32.4 is, 0
/// where nothing of it is there.
pub struct ScattererSet {
    pub count: u64,
    pub widths: [usize; 4],
}

impl ScattererSet {
    /// What a segment says of its scatterers.
    fn of_segment(mask: u64, layout: &Layout<30>, fields: &[u8]) -> ScattererSet {
        ScattererSet::new(mask, |field| layout.value(field, fields).unwrap_or(0))
    }

    /// What a kind 11 record calls for. It holds all fields at full width, and its
    /// mask tells which of them count.
    pub fn of_record(body: &[u8]) -> ScattererSet {
        let layout = Layout::of_hrr(u64::MAX);
        ScattererSet::new(hrr_mask_of(body), |field| layout.value(field, &body[HRR_MASK..]).unwrap_or(0))
    }

    /// "As many scatterers as the number of target scatterers says where announced,
    /// else range samples times Doppler samples." "Absent fields count [...] as
    /// zero."
    fn new(mask: u64, value: impl Fn(u32) -> u32) -> ScattererSet {
        let is_announced = |field| mask & bit(field) != 0;
        let number = |field| if is_announced(field) { value(field) } else { 0 };
        let count = match is_announced(6) {
            true => u64::from(number(6)),
            false => u64::from(number(7)) * u64::from(number(8)),
        };
        let width = |j, bytes: usize| if is_announced(h32(j)) { bytes } else { 0 };
        // More than the 2 bytes that the sheet has for it are no number of bytes of
        // an accepted packet.
        let given = |field| SCATTERER_VALUE.min(number(field) as usize);
        let widths = [width(1, given(25)), width(2, given(26)), width(3, INDEX_BYTES), width(4, INDEX_BYTES)];
        ScattererSet { count, widths }
    }

    /// The bytes of one scatterer.
    fn width(&self) -> usize {
        self.widths.iter().sum()
    }

    /// The bytes of all scatterers: at most 65,535 × 65,535 × 6.
    pub fn length(&self) -> u64 {
        self.count * self.width() as u64
    }
}

/// An HRR segment whose length is what its mask, widths and counts give.
pub struct Hrr<'a> {
    pub mask: &'a [u8],
    pub layout: Layout<30>,
    pub fields: &'a [u8],
    pub set: ScattererSet,
    scatterers: &'a [u8],
}

impl<'a> Hrr<'a> {
    /// Nothing where row 22 refuses: H25 not 1 or 2, H26 above 2 even with no phase
    /// announced, or a length other than mask, widths and counts give. The mask
    /// must have passed row 21, so that H25, H26 and the magnitude are announced.
    pub fn new(body: &'a [u8]) -> Option<Hrr<'a>> {
        let (mask, rest) = body.split_at_checked(HRR_MASK)?;
        let layout = Layout::of_hrr(hrr_mask_of(mask));
        let (fields, scatterers) = rest.split_at_checked(layout.length)?;
        if !matches!(layout.value(25, fields)?, 1 | 2) || layout.value(26, fields)? > 2 {
            return None;
        }
        let set = ScattererSet::of_segment(hrr_mask_of(mask), &layout, fields);
        if scatterers.len() as u64 != set.length() {
            return None;
        }
        Some(Hrr { mask, layout, fields, set, scatterers })
    }

    /// The bytes of each scatterer in order. None is empty: the magnitude is
    /// announced, and it has 1 or 2 bytes.
    pub fn scatterers(&self) -> impl Iterator<Item = &'a [u8]> {
        self.scatterers.chunks_exact(self.set.width().max(1))
    }
}
