//! Packets damaged with no regard for what their bytes mean.
use super::random::Random;
use super::spelling::patch_size;

/// Damages bytes in one of many ways; P2 is then patched or left.
pub fn packet(random: &mut Random, bytes: &[u8]) -> Vec<u8> {
    let mut bytes = bytes.to_vec();
    match random.below(6) {
        0 => flip(random, &mut bytes),
        1 => change(random, &mut bytes),
        2 => cut_out(random, &mut bytes),
        3 => put_in(random, &mut bytes),
        4 => change_size(random, &mut bytes),
        _ => {
            let at = random.below(4);
            let any = random.byte();
            if let Some(byte) = bytes.get_mut(2 + at) {
                *byte = random.pick([0, 1, 255, byte.wrapping_add(1), byte.wrapping_sub(1), any]);
            }
            return bytes;
        }
    }
    if random.chance(70) {
        patch_size(&mut bytes);
    }
    bytes
}

/// One to four flipped bits; more often behind the header.
pub fn flip(random: &mut Random, bytes: &mut [u8]) {
    for _ in 0..random.between(1, 4) {
        let first = if random.chance(70) { 32.min(bytes.len()) } else { 0 };
        let at = first + random.below(bytes.len() - first);
        if let Some(byte) = bytes.get_mut(at) {
            *byte ^= 1 << random.below(8);
        }
    }
}

/// One to four bytes changed to others, or to those that mean something somewhere.
fn change(random: &mut Random, bytes: &mut [u8]) {
    for _ in 0..random.between(1, 4) {
        let any = random.byte();
        let at = random.below(bytes.len());
        if let Some(byte) = bytes.get_mut(at) {
            *byte = random.pick([0, 1, 2, 3, 10, 13, 32, 0x7F, 0x80, 255, any, any]);
        }
    }
}

/// Some bytes cut out.
fn cut_out(random: &mut Random, bytes: &mut Vec<u8>) {
    let first = random.below(bytes.len());
    let any = random.below(60);
    let count = random.pick([1, 2, 4, 5, any]).min(bytes.len() - first);
    bytes.drain(first..first + count);
}

/// Some bytes put in: any, zeros, or a part of the packet itself.
fn put_in(random: &mut Random, bytes: &mut Vec<u8>) {
    let at = random.below(bytes.len() + 1);
    let any = random.below(60);
    let count = random.pick([1, 2, 4, 5, any]);
    let mut more = random.bytes(count);
    if random.chance(30) {
        more.fill(0);
    } else if random.chance(40) {
        let from = random.below(bytes.len());
        more = bytes[from..(from + count).min(bytes.len())].to_vec();
    }
    bytes.splice(at..at, more);
}

/// The S2 of one segment, or its type, changed.
fn change_size(random: &mut Random, bytes: &mut [u8]) {
    let places = segment_places(bytes);
    let Some(at) = random.one_of(&places) else {
        return;
    };
    let size = u32::from_be_bytes([bytes[at + 1], bytes[at + 2], bytes[at + 3], bytes[at + 4]]);
    let any = random.number() as u32;
    let small = random.below(100) as u32;
    let near = u32::MAX - small;
    let left = (bytes.len() - at) as u32;
    let other = random.pick([size.wrapping_add(1), size.wrapping_sub(1), 0, 4, 5, left, left + 1, small, near, any]);
    if random.chance(20) {
        bytes[at] = random.byte() % 16;
    } else {
        bytes[at + 1..at + 5].copy_from_slice(&other.to_be_bytes());
    }
}

/// Where the segments of a packet begin, as far as their sizes lead.
pub fn segment_places(bytes: &[u8]) -> Vec<usize> {
    let mut places = Vec::new();
    let mut at = 32;
    while let Some([a, b, c, d]) = bytes.get(at + 1..at + 5) {
        let size = u32::from_be_bytes([*a, *b, *c, *d]) as usize;
        places.push(at);
        if size < 5 || size > bytes.len() - at {
            break;
        }
        at += size;
    }
    places
}

/// The first so many bytes of a packet, with P2 patched to their number or left.
pub fn truncated(bytes: &[u8], length: usize, is_patched: bool) -> Vec<u8> {
    let mut bytes = bytes[..length.min(bytes.len())].to_vec();
    if is_patched {
        patch_size(&mut bytes);
    }
    bytes
}
