//! HRR segments of Edition 3: valid ones, and those with faults of the rows 9, 21 and 22.
use super::faults::Fault;
use super::random::Random;
use super::spelling::{Hrr, Scatterer, Segment};
use super::tables::{bit, hrr_width, mask_of, HRR_ALWAYS, HRR_FREE, HRR_MASK, HRR_SPARE, HRR_TYPE, SCATTERER_FREE};

/// A segment with any mask, and none to a few dozen scatterers.
pub fn any(random: &mut Random) -> Hrr {
    let many = random.below(60);
    let count = random.pick([0, 1, 1, 2, 3, 5, 12, many]);
    let mask = mask(random);
    with(random, mask, count)
}

/// A mask that announces what every mask does; each other field is in or out.
pub fn mask(random: &mut Random) -> u64 {
    let likely = random.pick([10, 50, 90]);
    let mut mask = mask_of(&HRR_ALWAYS);
    for field in HRR_FREE.into_iter().chain(SCATTERER_FREE) {
        if random.chance(likely) {
            mask |= bit(field);
        }
    }
    mask
}

/// A segment of this mask with so many scatterers of any widths; with none where the mask announces neither H6 nor H7.
pub fn with(random: &mut Random, mask: u64, count: usize) -> Hrr {
    let widths = (random.pick([1, 2]), random.pick([0, 1, 2]));
    with_widths(random, mask, widths, count)
}

/// The same with this H25 and this H26.
pub fn with_widths(random: &mut Random, mask: u64, (magnitude, phase): (u32, u32), count: usize) -> Hrr {
    let mut values = [0; 32];
    for field in 2..=31 {
        values[field as usize] = random.value(hrr_width(field));
    }
    (values[25], values[26]) = (magnitude, phase);
    let mut hrr = Hrr { mask, values, scatterers: Vec::new() };
    claim(random, &mut hrr, count as u32);
    let widths = hrr.scatterer_widths();
    hrr.scatterers = (0..hrr.claimed()).map(|_| scatterer(random, widths)).collect();
    hrr
}

fn scatterer(random: &mut Random, widths: [usize; 4]) -> Scatterer {
    let mut scatterer = [0; 5];
    for (value, width) in scatterer[1..].iter_mut().zip(widths) {
        *value = random.value(width);
    }
    scatterer
}

/// H6 that claims so many scatterers; or where it is absent H7 and H8 that do, as far as H7 is announced.
fn claim(random: &mut Random, hrr: &mut Hrr, count: u32) {
    if hrr.has(6) {
        hrr.values[6] = count;
    } else if count == 0 {
        let zero = random.pick([7, 8]);
        hrr.values[zero] = 0;
    } else {
        let factors: Vec<u32> = (1..=count).filter(|factor| count % factor == 0).collect();
        let factor = random.one_of(&factors).unwrap_or(1);
        (hrr.values[7], hrr.values[8]) = (factor, count / factor);
    }
}

/// A segment with these faults.
pub fn faulty(random: &mut Random, faults: &[Fault]) -> Segment {
    let is_wrapping = faults.contains(&Fault::HrrSize) && random.chance(30);
    let right = if is_wrapping { wrapping(random) } else { few(random) };
    let mut wrong = right.clone();
    for fault in faults {
        spoil(random, &mut wrong, *fault);
    }
    // What lies behind the fault goes by it, or stays as it was.
    let mut body = if random.chance(50) { wrong.body() } else { with_mask_and_widths(&right, &wrong) };
    if is_wrapping {
        body.resize(body.len() + left_over(&right), 0);
    }
    let mut segment = Segment::new(HRR_TYPE, body);
    if faults.contains(&Fault::HrrSize) && !is_wrapping {
        spoil_size(random, &mut segment, &right);
    }
    segment
}

/// A segment with any mask and up to five scatterers.
fn few(random: &mut Random) -> Hrr {
    let (mask, count) = (mask(random), random.below(6));
    with(random, mask, count)
}

/// A mask or a width that is at fault.
fn spoil(random: &mut Random, hrr: &mut Hrr, fault: Fault) {
    match fault {
        Fault::HrrMask(field) if HRR_SPARE.contains(&field) => hrr.mask |= bit(field),
        Fault::HrrMask(field) => hrr.mask &= !bit(field),
        Fault::MagnitudeBytes => hrr.values[25] = random.pick([0, 3, 4, 128, 255]),
        Fault::PhaseBytes => hrr.values[26] = random.pick([3, 4, 128, 255]),
        _ => {}
    }
}

/// The body of the one with the mask, H25 and H26 of the other.
fn with_mask_and_widths(right: &Hrr, wrong: &Hrr) -> Vec<u8> {
    let mut body = right.body();
    body[..HRR_MASK].copy_from_slice(&wrong.mask.to_be_bytes()[..HRR_MASK]);
    for field in [25, 26] {
        body[right.place(field)] = wrong.values[field as usize] as u8;
    }
    body
}

/// H7 and H8 whose product, times the bytes of a scatterer, is a multiple of 2^32 or little more; for one byte it is 2^16. The first pair
/// is for scatterers of one byte, the last for those of six.
pub const WRAPPING: [(u32, u32); 6] =
    [(256, 256), (33_025, 65_026), (45_761, 62_571), (32_768, 32_768), (13_210, 65_026), (33_025, 65_026)];

/// A segment that claims so many scatterers, and has none.
fn wrapping(random: &mut Random) -> Hrr {
    let mask = (mask(random) | bit(7)) & !bit(6);
    let mut hrr = with(random, mask, 0);
    let (h7, h8) = WRAPPING[hrr.scatterer_widths().iter().sum::<usize>() - 1];
    (hrr.values[7], hrr.values[8]) = (h7, h8);
    hrr
}

/// How many bytes its scatterers would seem to have, were the number cut to 32 bits, or for one byte each to 16.
fn left_over(hrr: &Hrr) -> usize {
    let each = hrr.scatterer_widths().iter().sum::<usize>() as u64;
    (hrr.claimed() * each) as usize % if each == 1 { 1 << 16 } else { 1 << 32 }
}

/// A size that is not what mask, widths and counts give: too short for the announced fields, by one byte or by some, or by other counts.
fn spoil_size(random: &mut Random, segment: &mut Segment, hrr: &Hrr) {
    let length = segment.body.len();
    match random.below(4) {
        0 => segment.body.truncate(random.between(HRR_MASK as i64, hrr.place(32) as i64 - 1) as usize),
        1 => segment.size = Some(5 + length as u32 - 1),
        2 if hrr.has(6) || hrr.has(7) => spoil_counts(random, &mut segment.body, hrr),
        _ => segment.body.resize(length + random.pick([1, 2, 4, 6, 40]), 0),
    }
}

/// H6 that claims another number of scatterers; or where it is absent H7 and H8 that do.
fn spoil_counts(random: &mut Random, body: &mut [u8], hrr: &Hrr) {
    let count = hrr.scatterers.len() as u32;
    let set = |body: &mut [u8], field: u32, value: u32| {
        let place = hrr.place(field);
        body[place..place + 2].copy_from_slice(&(value as u16).to_be_bytes());
    };
    if hrr.has(6) {
        set(body, 6, random.pick([count + 1, count.wrapping_sub(1), count + 256, count + 32_768, 65_535]));
    } else {
        let (h7, h8) = random.pick([(1, count + 1), (count + 7, 1), (256, 256), (65_535, 65_535), (65_535, count + 1)]);
        set(body, 7, h7);
        set(body, 8, h8);
    }
}
