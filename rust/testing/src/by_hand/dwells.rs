//! How many dwells a packet has. A dwell is told by its pair of D2 and D3, and a station may split a long one over several segments.
use super::{bytes, HEADER};

/// What the first walk keeps of the dwells that it has passed. D2 and D3 lie side by side and are taken as one number.
pub struct Dwells {
    /// How often the number rose.
    rises: u32,
    /// One more than the last number; 0 before the first.
    above: u64,
    /// Whether it ever fell.
    fell: bool,
}

impl Dwells {
    /// Before the first segment.
    pub fn none() -> Dwells {
        Dwells { rises: 0, above: 0, fell: false }
    }

    /// Past the dwell whose body begins the bytes. D2 and D3 lie behind the mask, which always announces them.
    #[inline(always)]
    pub fn pass(&mut self, from: &[u8]) {
        let above = u64::from(u32::from_be_bytes(bytes(from, 8))) + 1;
        self.rises += u32::from(above > self.above);
        self.fell |= above < self.above;
        self.above = above;
    }

    /// How many different pairs the packet has, once all of its segments are passed. D2 and D3 are running counts, so they seldom fall;
    /// where they did not, each rise is a further pair. Only where they fell are they gathered and sorted.
    #[inline(always)]
    pub fn count(&self, packet: &[u8]) -> u32 {
        if self.fell {
            different_pairs(packet)
        } else {
            self.rises
        }
    }
}

#[cold]
fn different_pairs(packet: &[u8]) -> u32 {
    let mut pairs = Vec::new();
    let mut rest = &packet[HEADER..];
    while !rest.is_empty() {
        if rest[0] == 2 {
            pairs.push(u32::from_be_bytes(bytes(rest, 13)));
        }
        rest = &rest[u32::from_be_bytes(bytes(rest, 1)) as usize..];
    }
    pairs.sort_unstable();
    pairs.dedup();
    pairs.len() as u32
}
