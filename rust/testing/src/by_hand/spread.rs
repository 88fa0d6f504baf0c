//! Where the fields of a target lie, and how the announced ones are spread over its record.
use super::mask::{self, bit};

/// How the announced bytes of five fields, which lie together in a target, are spread over the eight bytes that the fields have in its
/// record: some move up by four bytes, then some by two, then some by one, and the others are cleared.
#[derive(Clone, Copy)]
pub struct Spread {
    by_four: u64,
    by_two: u64,
    by_one: u64,
    keep: u64,
    length: usize,
}

impl Spread {
    #[inline(always)]
    pub fn apply(&self, packed: u64) -> u64 {
        let x = packed ^ (packed ^ packed << 32) & self.by_four;
        let x = x ^ (x ^ x << 16) & self.by_two;
        let x = x ^ (x ^ x << 8) & self.by_one;
        x & self.keep
    }

    /// The spread with a further announced byte, whose place among the eight is given.
    const fn with(mut self, place: usize) -> Spread {
        let up = place - self.length;
        if up & 4 != 0 {
            self.by_four |= 0xFF << (8 * (self.length + 4));
        }
        if up & 2 != 0 {
            self.by_two |= 0xFF << (8 * (place - (up & 1)));
        }
        if up & 1 != 0 {
            self.by_one |= 0xFF << (8 * place);
        }
        self.keep |= 0xFF << (8 * place);
        self.length += 1;
        self
    }
}

/// The spreads of five fields for each of the 32 ways to announce them; the highest bit announces the first.
const fn spreads(widths: [usize; 5]) -> [Spread; 32] {
    let mut table = [Spread { by_four: 0, by_two: 0, by_one: 0, keep: 0, length: 0 }; 32];
    let mut way = 0;
    while way < 32 {
        let (mut place, mut field) = (0, 0);
        while field < 5 {
            let end = place + widths[field];
            while place < end {
                if way >> (4 - field) & 1 != 0 {
                    table[way] = table[way].with(place);
                }
                place += 1;
            }
            field += 1;
        }
        way += 1;
    }
    table
}

static D32_6_TO_10: [Spread; 32] = spreads([2, 2, 2, 1, 1]);
static D32_11_TO_15: [Spread; 32] = spreads([1, 2, 2, 1, 2]);

/// Where the fields of a target lie.
pub struct Places {
    /// D32.2 or D32.4.
    pub position: usize,
    pub d32_6: usize,
    pub d32_11: usize,
    pub d32_16: usize,
    /// The length of a target.
    pub each: usize,
}

impl Places {
    #[inline(always)]
    pub fn of(mask: u64) -> Places {
        let position = 2 * bit(mask, 32);
        let d32_6 = position + 8 * bit(mask, 33) + 4 * bit(mask, 35);
        let d32_11 = d32_6 + D32_6_TO_10[(mask >> 24) as usize & 31].length;
        let d32_16 = d32_11 + D32_11_TO_15[(mask >> 19) as usize & 31].length;
        Places { position, d32_6, d32_11, d32_16, each: d32_16 + 5 * bit(mask, 47) + bit(mask, 49) }
    }
}

/// How targets are set out that any mask announces.
pub struct Layout {
    pub places: Places,
    /// All ones where D32.1 is announced.
    pub d32_1: u16,
    pub d32_6_to_10: Spread,
    pub d32_11_to_15: Spread,
    /// The announced bytes of D32.16 to D32.18 that lie where D32.16 would.
    last: u64,
    /// D32.18 where D32.16 and D32.17 are absent: it moves up by five bytes.
    moved: u64,
}

impl Layout {
    #[inline(always)]
    pub fn of(mask: u64) -> Layout {
        const D32_16_TO_17: u64 = 0xFF_FFFF_FFFF;
        const D32_18: u64 = 0xFF << 40;
        let (last, moved) = match (bit(mask, 47) != 0, mask & mask::D32_18 != 0) {
            (true, true) => (D32_16_TO_17 | D32_18, 0),
            (true, false) => (D32_16_TO_17, 0),
            (false, true) => (0, D32_18),
            (false, false) => (0, 0),
        };
        Layout {
            places: Places::of(mask),
            d32_1: (bit(mask, 32) as u16).wrapping_neg(),
            d32_6_to_10: D32_6_TO_10[(mask >> 24) as usize & 31],
            d32_11_to_15: D32_11_TO_15[(mask >> 19) as usize & 31],
            last,
            moved,
        }
    }

    /// The six bytes of D32.16 to D32.18, of the eight bytes that follow D32.15.
    #[inline(always)]
    pub fn d32_16_to_18(&self, packed: u64) -> u64 {
        packed & self.last | packed << 40 & self.moved
    }
}
