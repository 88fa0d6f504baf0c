//! Text: a name holds only 0x20 to 0x7E, F3 also 0x0A, 0x0C and 0x0D.
use super::bytes;

const ONES: u64 = 0x0101_0101_0101_0101;
const HIGH: u64 = 0x80 * ONES;

/// The eight bytes at a place.
#[inline(always)]
pub fn word(from: &[u8], at: usize) -> u64 {
    u64::from_le_bytes(bytes(from, at))
}

/// Whether all bytes of these words may stand in a name. The first that may not gets no borrow and no carry from those before it: below 0x20
/// its high bit is set in the difference, for 0x7F in the sum, and above in the byte itself. What becomes of those behind it does not matter.
#[inline(always)]
pub fn are_names<const N: usize>(words: [u64; N]) -> bool {
    let high = words.iter().fold(0, |high, word| high | word | word.wrapping_sub(0x20 * ONES) | word.wrapping_add(ONES));
    high & HIGH == 0
}

/// The first of some names (field, begin, end) that is at fault; one of them is.
#[cold]
pub fn first_fault(from: &[u8], names: &[(u32, usize, usize)]) -> u32 {
    let is_name = |begin: usize, end: usize| from[begin..end].iter().all(|byte| (0x20..=0x7E).contains(byte));
    names.iter().find(|&&(_, begin, end)| !is_name(begin, end)).map_or(0, |&(field, _, _)| field)
}

/// At most 2 for the bytes of F3 and above 2 for all others, by sums and choices of numbers alone, so that the compiler takes many
/// bytes at a time: 0x20 to 0x7E have their distance above 0x7C; 0x0A, 0x0C and 0x0D, with the lowest bit turned, are 0x0B to 0x0D.
#[inline(always)]
fn distance(byte: u8) -> u8 {
    let printable = byte.wrapping_sub(0x20).saturating_sub(0x5C);
    let control = (byte ^ 1).wrapping_sub(0x0B);
    printable.min(control)
}

/// The greatest distance of these bytes. It looks at every byte, also after one that may not stand in F3.
#[inline(always)]
fn farthest(bytes: &[u8]) -> u8 {
    bytes.iter().fold(0, |farthest: u8, &byte| farthest.max(distance(byte)))
}

/// Whether F3 is without fault, in a body whose F1 and F2 are so. Its end, where it is no whole step of 32 bytes, is taken in two steps of
/// 16 that reach back as far as need be: the bytes of names may stand in F3 too.
pub fn is_free_text(body: &[u8]) -> bool {
    let (length, whole) = (body.len(), (body.len() - 20) / 32 * 32);
    let mut most = farthest(&body[20..20 + whole]);
    if 20 + whole < length {
        let last: [[u8; 16]; 2] = [bytes(body, length.saturating_sub(32)), bytes(body, length - 16)];
        most = most.max(farthest(last.as_flattened()));
    }
    most <= 2
}
