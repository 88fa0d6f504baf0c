//! Packets laid out from their parts, right or wrong.
use super::tables::{announced_width, bit, hrr_place, hrr_width, width, HRR_MASK, HRR_TYPE, INDEX_WIDTH};

/// A segment. It claims the size that is given, or else its own.
#[derive(Clone, Debug)]
pub struct Segment {
    /// Its type.
    pub segment_type: u8,
    /// The S2 that it claims in the place of its own.
    pub size: Option<u32>,
    /// What follows its 5 header bytes.
    pub body: Vec<u8>,
}

impl Segment {
    /// A segment that claims its own size.
    pub fn new(segment_type: u8, body: Vec<u8>) -> Segment {
        Segment { segment_type, size: None, body }
    }

    /// How many bytes it takes, whatever it claims.
    pub fn length(&self) -> usize {
        5 + self.body.len()
    }

    fn spell(&self, bytes: &mut Vec<u8>) {
        let size = self.size.unwrap_or(self.length() as u32);
        bytes.push(self.segment_type);
        bytes.extend(size.to_be_bytes());
        bytes.extend(&self.body);
    }
}

/// A packet. P2 is the size that is given, or else the packet's own.
#[derive(Clone, Debug)]
pub struct Packet {
    /// The header; its P2 is worked out.
    pub header: [u8; 32],
    /// The P2 that it claims in the place of its own.
    pub size: Option<u32>,
    /// Its segments.
    pub segments: Vec<Segment>,
    /// Bytes after the last segment.
    pub rest: Vec<u8>,
}

impl Packet {
    /// A packet with nothing behind its segments.
    pub fn new(header: [u8; 32], segments: Vec<Segment>) -> Packet {
        Packet { header, size: None, segments, rest: Vec::new() }
    }

    /// Its bytes.
    pub fn bytes(&self) -> Vec<u8> {
        let mut bytes = self.header.to_vec();
        for segment in &self.segments {
            segment.spell(&mut bytes);
        }
        bytes.extend(&self.rest);
        patch_size(&mut bytes);
        if let Some(size) = self.size {
            bytes[2..6].copy_from_slice(&size.to_be_bytes());
        }
        bytes
    }

    /// How many bytes there are from this segment on.
    pub fn length_from(&self, segment: usize) -> usize {
        self.segments.iter().skip(segment).map(Segment::length).sum::<usize>() + self.rest.len()
    }
}

/// Sets P2 to the length of these bytes; leaves bytes that have no P2.
pub fn patch_size(packet: &mut [u8]) {
    let length = (packet.len() as u32).to_be_bytes();
    if let Some(p2) = packet.get_mut(2..6) {
        p2.copy_from_slice(&length);
    }
}

/// The values of D32.1 to D32.18, each at its own number; the first is unused.
pub type Target = [u32; 19];

/// A dwell: every field has a value, and the mask tells which are spelt.
#[derive(Clone, Debug)]
pub struct Dwell {
    /// D1.
    pub mask: u64,
    /// D2 to D31, each at its own number; the first two are unused.
    pub values: [u32; 32],
    /// Its targets; D5 may claim another number of them.
    pub targets: Vec<Target>,
}

impl Dwell {
    /// Whether the mask announces a field.
    pub fn has(&self, field: u32) -> bool {
        self.mask & bit(field) != 0
    }

    /// How many bytes each target takes.
    pub fn target_width(&self) -> usize {
        announced_width(self.mask, 32, 49)
    }

    /// The mask, the announced fields and the targets.
    pub fn body(&self) -> Vec<u8> {
        let mut body = self.mask.to_be_bytes().to_vec();
        for field in (2..=31).filter(|field| self.has(*field)) {
            push(&mut body, self.values[field as usize], width(field));
        }
        for target in &self.targets {
            for field in (32..=49).filter(|field| self.has(*field)) {
                push(&mut body, target[field as usize - 31], width(field));
            }
        }
        body
    }

    /// The segment of this dwell.
    pub fn segment(&self) -> Segment {
        Segment::new(2, self.body())
    }
}

/// The values of H32.1 to H32.4, each at its own number; the first is unused.
pub type Scatterer = [u32; 5];

/// An HRR segment of Edition 3: every field has a value, and the mask tells which are spelt.
#[derive(Clone, Debug)]
pub struct Hrr {
    /// H1, in the highest of 64 bits.
    pub mask: u64,
    /// H2 to H31, each at its own number; the first two are unused.
    pub values: [u32; 32],
    /// Its scatterers; H6, or H7 and H8, may claim another number of them.
    pub scatterers: Vec<Scatterer>,
}

impl Hrr {
    /// Whether the mask announces a field.
    pub fn has(&self, field: u32) -> bool {
        self.mask & bit(field) != 0
    }

    /// The value of Hn that counts: absent fields count as zero.
    fn counted(&self, field: u32) -> u64 {
        if self.has(field) {
            self.values[field as usize].into()
        } else {
            0
        }
    }

    /// How many scatterers the fields claim.
    pub fn claimed(&self) -> u64 {
        if self.has(6) {
            self.counted(6)
        } else {
            self.counted(7) * self.counted(8)
        }
    }

    /// How many bytes H32.1 to H32.4 of each scatterer take.
    pub fn scatterer_widths(&self) -> [usize; 4] {
        let told = [self.values[25] as usize, self.values[26] as usize, INDEX_WIDTH, INDEX_WIDTH];
        std::array::from_fn(|index| if self.has(32 + index as u32) { told[index] } else { 0 })
    }

    /// Where Hn stands in the body, or would stand.
    pub fn place(&self, field: u32) -> usize {
        hrr_place(self.mask, field)
    }

    /// The mask, the announced fields and the scatterers.
    pub fn body(&self) -> Vec<u8> {
        let mut body = self.mask.to_be_bytes()[..HRR_MASK].to_vec();
        for field in (2..=31).filter(|field| self.has(*field)) {
            push(&mut body, self.values[field as usize], hrr_width(field));
        }
        let widths = self.scatterer_widths();
        for scatterer in &self.scatterers {
            for (value, width) in scatterer[1..].iter().zip(widths) {
                push(&mut body, *value, width);
            }
        }
        body
    }

    /// The segment.
    pub fn segment(&self) -> Segment {
        Segment::new(HRR_TYPE, self.body())
    }
}

/// Adds the low bytes of a value, highest first; one of more than four bytes has zeros in front.
pub fn push(bytes: &mut Vec<u8>, value: u32, width: usize) {
    bytes.resize(bytes.len() + width.saturating_sub(4), 0);
    bytes.extend(&value.to_be_bytes()[4 - width.min(4)..]);
}
