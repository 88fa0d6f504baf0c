//! HRR segments of Edition 3: a mask, the fields that it announces, and scatterers of which one has as many bytes as another.
use super::fill::{group, kept};
use super::mask::{bit, fields};
use super::{bytes, Fault};

/// The bytes of the mask. Shifted up to 64 bits it numbers its fields as a dwell's mask does: n for Hn and 31 + j for H32.j.
const MASK: usize = 5;

/// The fields H2 to H31 that have one byte, two bytes and four bytes.
const ONE: u64 = fields(4, 4) | fields(9, 10) | fields(16, 18) | fields(20, 20) | fields(23, 27) | fields(29, 29);
const TWO: u64 = fields(2, 3) | fields(5, 8) | fields(11, 12) | fields(19, 19) | fields(21, 21);
const FOUR: u64 = fields(13, 15) | fields(22, 22) | fields(28, 28) | fields(30, 31);

/// What every mask announces: the fields that document 003's table marks mandatory, H32.1 among them.
const REQUIRED: u64 = fields(2, 4) | fields(8, 8) | fields(10, 14) | fields(16, 19) | fields(23, 26) | fields(32, 32);
/// The bits that announce nothing.
const SPARE: u64 = fields(36, 41);

const _: () = assert!(ONE | TWO | FOUR == fields(2, 31) && REQUIRED >> 24 == 0xE2_FBC7_8200 && SPARE >> 24 == 0x3F);

/// A record of kind 11, and one of kind 12.
const FIRST: usize = 67;
const SCATTERER: usize = 9;

/// The bytes of H32.3 and of H32.4.
const INDEX: usize = 1;

#[inline(always)]
fn mask_of(body: &[u8]) -> u64 {
    let [a, b, c, d, e] = bytes::<MASK>(body, 0);
    u64::from_be_bytes([a, b, c, d, e, 0, 0, 0])
}

/// How many bytes these fields of H2 to H31 have.
#[inline(always)]
fn width(announced: u64) -> usize {
    ((announced & ONE).count_ones() + 2 * (announced & TWO).count_ones() + 4 * (announced & FOUR).count_ones()) as usize
}

/// What the announced fields of a body say of its scatterers.
struct Scatterers {
    count: u64,
    /// The bytes of H32.1 and H32.2; H25 and H26 may say any number.
    magnitude: usize,
    phase: usize,
    /// Those of H32.3 and H32.4.
    range: usize,
    doppler: usize,
}

impl Scatterers {
    #[inline(always)]
    fn of(mask: u64, body: &[u8]) -> Scatterers {
        let number = |field: u32, at: usize| bit(mask, field) as u64 * u64::from(u16::from_be_bytes(bytes(body, at)));
        // H6 lies behind H2 to H5. An absent field counts as zero, whatever lies where it would.
        let h6 = MASK + 5 + 2 * bit(mask, 5);
        let h7 = h6 + 2 * bit(mask, 6);
        let h8 = h7 + 2 * bit(mask, 7);
        let count = if bit(mask, 6) == 1 { number(6, h6) } else { number(7, h7) * number(8, h8) };
        let h25 = MASK + width(mask & fields(2, 24));
        let (magnitude, phase) = (usize::from(body[h25]), usize::from(body[h25 + 1]));
        Scatterers { count, magnitude, phase: bit(mask, 33) * phase, range: INDEX * bit(mask, 34), doppler: INDEX * bit(mask, 35) }
    }

    /// The bytes of each.
    fn each(&self) -> usize {
        self.magnitude + self.phase + self.range + self.doppler
    }
}

/// The length of the records of a body, unless one of the rows 9, 21 and 22 applies. Whatever the counts are, nothing is walked over.
/// Apart, as is the next, so that the walks over other segments stay short.
#[inline(never)]
pub fn check(body: &[u8]) -> Result<u32, Fault> {
    if body.len() < MASK {
        return Err((9, 0));
    }
    let mask = mask_of(body);
    if mask & (REQUIRED | SPARE) != REQUIRED {
        return Err((21, 0));
    }
    let first = MASK + width(mask);
    if body.len() < first {
        return Err((22, 0));
    }
    let h26 = body[MASK + width(mask & fields(2, 25))];
    let scatterers = Scatterers::of(mask, body);
    let rest = scatterers.count * scatterers.each() as u64;
    if !matches!(scatterers.magnitude, 1 | 2) || h26 > 2 || (body.len() - first) as u64 != rest {
        return Err((22, 0));
    }
    Ok(FIRST as u32 + SCATTERER as u32 * scatterers.count as u32)
}

/// Sets out a body without fault and gives the length of its records.
#[inline(never)]
pub fn fill(body: &[u8], sheet: &mut [u8]) -> usize {
    let mask = mask_of(body);
    let scatterers = Scatterers::of(mask, body);
    let length = FIRST + SCATTERER * scatterers.count as usize;
    let (record, records) = sheet[..length].split_at_mut(FIRST);
    let first = first_record(mask, body, record);
    by_magnitude(&scatterers, &body[first..], records);
    length
}

/// The record of kind 11; gives the place of the first scatterer. What always comes together is copied together.
fn first_record(mask: u64, body: &[u8], record: &mut [u8]) -> usize {
    let record = &mut record[..FIRST];
    record.fill(0);
    kept::<{ MASK + 5 }>(11, body, record);
    let at = MASK + 5;
    let at = group::<2>(mask & fields(5, 5), body, at, record, 11);
    let at = group::<2>(mask & fields(6, 6), body, at, record, 13);
    let at = group::<2>(mask & fields(7, 7), body, at, record, 15);
    let at = group::<2>(mask, body, at, record, 17);
    let at = group::<1>(mask & fields(9, 9), body, at, record, 19);
    let at = group::<13>(mask, body, at, record, 20);
    let at = group::<4>(mask & fields(15, 15), body, at, record, 33);
    let at = group::<5>(mask, body, at, record, 37);
    let at = group::<1>(mask & fields(20, 20), body, at, record, 42);
    let at = group::<2>(mask & fields(21, 21), body, at, record, 43);
    let at = group::<4>(mask & fields(22, 22), body, at, record, 45);
    let at = group::<4>(mask, body, at, record, 49);
    let at = group::<1>(mask & fields(27, 27), body, at, record, 53);
    let at = group::<4>(mask & fields(28, 28), body, at, record, 54);
    let at = group::<1>(mask & fields(29, 29), body, at, record, 58);
    let at = group::<4>(mask & fields(30, 30), body, at, record, 59);
    group::<4>(mask & fields(31, 31), body, at, record, 63)
}

fn by_magnitude(widths: &Scatterers, from: &[u8], records: &mut [u8]) {
    match widths.magnitude {
        1 => by_phase::<1>(widths, from, records),
        _ => by_phase::<2>(widths, from, records),
    }
}

fn by_phase<const MAGNITUDE: usize>(widths: &Scatterers, from: &[u8], records: &mut [u8]) {
    match widths.phase {
        0 => by_indices::<MAGNITUDE, 0>(widths, from, records),
        1 => by_indices::<MAGNITUDE, 1>(widths, from, records),
        _ => by_indices::<MAGNITUDE, 2>(widths, from, records),
    }
}

fn by_indices<const MAGNITUDE: usize, const PHASE: usize>(widths: &Scatterers, from: &[u8], records: &mut [u8]) {
    match (widths.range, widths.doppler) {
        (0, 0) => fill_by::<MAGNITUDE, PHASE, 0, 0>(from, records),
        (0, _) => fill_by::<MAGNITUDE, PHASE, 0, INDEX>(from, records),
        (_, 0) => fill_by::<MAGNITUDE, PHASE, INDEX, 0>(from, records),
        _ => fill_by::<MAGNITUDE, PHASE, INDEX, INDEX>(from, records),
    }
}

/// The two bytes of a slot, the first the lowest: WIDTH bytes at a place, behind a zero byte where they are one, or none.
#[inline(always)]
fn slot<const WIDTH: usize>(from: &[u8], at: usize) -> u64 {
    match WIDTH {
        0 => 0,
        1 => u64::from(from[at]) << 8,
        _ => u64::from(u16::from_le_bytes(bytes(from, at))),
    }
}

/// A record of kind 12 for each scatterer, with all widths constant. Its four slots are put together in a word, whose bytes keep the order
/// that they have in the packet, and stored at once.
#[inline(never)]
fn fill_by<const MAGNITUDE: usize, const PHASE: usize, const RANGE: usize, const DOPPLER: usize>(from: &[u8], records: &mut [u8]) {
    let range = MAGNITUDE + PHASE;
    let doppler = range + RANGE;
    for (record, scatterer) in records.chunks_exact_mut(SCATTERER).zip(from.chunks_exact(doppler + DOPPLER)) {
        let first = slot::<MAGNITUDE>(scatterer, 0) | slot::<PHASE>(scatterer, MAGNITUDE) << 16;
        let last = slot::<RANGE>(scatterer, range) | slot::<DOPPLER>(scatterer, doppler) << 16;
        record[0] = 12;
        record[1..].copy_from_slice(&(first | last << 32).to_le_bytes());
    }
}
