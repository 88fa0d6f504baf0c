//! Segments and packets of the vectors. Every field has a usual value that differs from its neighbours', so that a shifted field shows.
use testing::generator::spelling::{patch_size, Dwell, Hrr, Scatterer, Target};
use testing::generator::tables::{bit, hrr_width, mask_of, width, HRR_ALWAYS, HRR_MASK, HRR_TYPE};

/// The fields that every dwell announces, and the two position pairs.
pub const LEAST: &str = "D2-D9 D24-D27";
pub const ABSOLUTE: &str = "D32.2 D32.3";
pub const DELTAS: &str = "D10 D11 D32.4 D32.5";

/// Every field of both versions, with either pair.
pub const ALL_ABSOLUTE: &str = "D12-D31 D32.1-D32.3 D32.6-D32.17";
pub const ALL_DELTAS: &str = "D10-D31 D32.1 D32.4-D32.17";

const P: [usize; 10] = [2, 4, 2, 1, 2, 2, 1, 10, 4, 4];
const M: [usize; 7] = [12, 12, 1, 10, 2, 1, 1];
const J: [usize; 28] = [4, 1, 6, 1, 1, 4, 4, 4, 4, 4, 4, 4, 4, 1, 2, 2, 2, 2, 1, 2, 2, 2, 2, 1, 1, 1, 1, 1];
const F: [usize; 2] = [10, 10];

/// What a field can be given: a number, of which the low bytes are taken, or bytes.
pub trait Value {
    fn bytes(&self, width: usize) -> Vec<u8>;
    fn number(&self) -> u32 {
        self.bytes(4).iter().fold(0, |sum, byte| sum << 8 | u32::from(*byte))
    }
}

impl Value for i64 {
    fn bytes(&self, width: usize) -> Vec<u8> {
        self.to_be_bytes()[8 - width..].to_vec()
    }
}

impl<const N: usize> Value for &[u8; N] {
    fn bytes(&self, _: usize) -> Vec<u8> {
        self.to_vec()
    }
}

impl Value for &[u8] {
    fn bytes(&self, _: usize) -> Vec<u8> {
        self.to_vec()
    }
}

/// Sets the field of a number in bytes that hold all fields of these widths.
fn set(bytes: &mut [u8], widths: &[usize], field: u32, value: impl Value) {
    let index = field as usize - 1;
    let first: usize = widths[..index].iter().sum();
    bytes[first..first + widths[index]].copy_from_slice(&value.bytes(widths[index]));
}

/// The mask of fields in words, as `D10 D12-D14 D32.4` or `H6 H32.2`.
pub fn mask(words: &str) -> u64 {
    let number = |word: &str| match word[1..].strip_prefix("32.") {
        Some(j) => 31 + j.parse::<u32>().expect("a number of D32 or H32"),
        None => word[1..].parse().expect("a number of D or H"),
    };
    words.split_whitespace().fold(0, |mask, word| {
        let (first, last) = word.split_once('-').unwrap_or((word, word));
        (number(first)..=number(last)).fold(mask, |mask, field| mask | bit(field))
    })
}

/// A packet's header.
#[derive(Clone)]
pub struct Header {
    pub bytes: [u8; 32],
    size: Option<u32>,
}

/// The usual header of a version.
pub fn header(version: u8) -> Header {
    let mut bytes = *b"30....FR\x05XN\x80\x01\x81STATION 07\x01\x02\x03\x04\x0A\x0B\x0C\x0D";
    bytes[0] = b'0' + version;
    Header { bytes, size: None }
}

impl Header {
    /// The header with another value in a field; P2 is the packet's length unless it is given.
    pub fn with(mut self, field: u32, value: impl Value) -> Header {
        if field == 2 {
            self.size = Some(value.number());
        } else {
            set(&mut self.bytes, &P, field, value);
        }
        self
    }

    /// A packet of these segments behind this header.
    pub fn packet(&self, parts: &[Part]) -> Vec<u8> {
        let mut packet = self.bytes.to_vec();
        for part in parts {
            packet.extend(part.bytes());
        }
        patch_size(&mut packet);
        if let Some(size) = self.size {
            packet[2..6].copy_from_slice(&size.to_be_bytes());
        }
        packet
    }
}

/// A packet behind the usual header of a version.
pub fn packet(version: u8, parts: &[Part]) -> Vec<u8> {
    header(version).packet(parts)
}

/// What a segment holds.
#[derive(Clone)]
enum Body {
    /// Bytes, in fields of these widths.
    Fields(Vec<u8>, &'static [usize]),
    Dwell(Box<Dwell>),
    Hrr(Box<Hrr>),
    /// Bytes that are no segment at all.
    Raw(Vec<u8>),
}

/// A segment.
#[derive(Clone)]
pub struct Part {
    pub segment_type: u8,
    body: Body,
    size: Option<usize>,
    s2: Option<u32>,
    /// The mask of the fields that were given values.
    given: u64,
    pub mark: u8,
}

fn part(segment_type: u8, body: Body) -> Part {
    Part { segment_type, body, size: None, s2: None, given: 0, mark: 1 }
}

impl Part {
    /// The segment with another value in a field.
    pub fn with(mut self, field: u32, value: impl Value) -> Part {
        match &mut self.body {
            Body::Fields(bytes, widths) => set(bytes, widths, field, value),
            Body::Dwell(dwell) => {
                dwell.values[field as usize] = value.number();
                self.given |= bit(field);
            }
            Body::Hrr(hrr) => {
                hrr.values[field as usize] = value.number();
                self.given |= bit(field);
            }
            Body::Raw(_) => {}
        }
        self
    }

    /// The body cut or lengthened with zeros, so that the segment has this size.
    pub fn sized(mut self, size: usize) -> Part {
        self.size = Some(size);
        self
    }

    /// The segment with a size that it only claims.
    pub fn claiming(mut self, s2: u32) -> Part {
        self.s2 = Some(s2);
        self
    }

    /// The dwell or the HRR segment without these fields.
    pub fn without(mut self, words: &str) -> Part {
        match &mut self.body {
            Body::Dwell(dwell) => dwell.mask &= !mask(words),
            Body::Hrr(hrr) => hrr.mask &= !mask(words),
            _ => {}
        }
        self
    }

    /// The HRR segment with a further scatterer of these values. Unless they were given, H6 tells their number, and H7 does, with H8 1.
    pub fn scatterer(mut self, values: Scattered) -> Part {
        if let Body::Hrr(hrr) = &mut self.body {
            hrr.scatterers.push(scatterer_of(values));
            for field in [6, 7].into_iter().filter(|field| self.given & bit(*field) == 0) {
                hrr.values[field as usize] = hrr.scatterers.len() as u32;
            }
        }
        self
    }

    /// The HRR segment with so many scatterers whose values differ, each of one byte.
    pub fn scatterers(self, count: u32) -> Part {
        (0..count).fold(self, |part, k| part.scatterer([0x21, 0x41, 0x61, 0x81].map(|first| first + k % 32)))
    }

    /// The dwell with a further target: the values of D32.j that are not usual.
    pub fn target(mut self, values: &[(usize, i64)]) -> Part {
        if let Body::Dwell(dwell) = &mut self.body {
            let mut target = usual_target(dwell.targets.len() as i64);
            for (j, value) in values {
                target[*j] = value.number();
            }
            dwell.targets.push(target);
            if self.given & bit(5) == 0 {
                dwell.values[5] = dwell.targets.len() as u32;
            }
        }
        self
    }

    /// The dwell with so many targets of usual values.
    pub fn usual_targets(self, count: usize) -> Part {
        (0..count).fold(self, |part, _| part.target(&[]))
    }

    /// The record with another mark.
    pub fn marked(mut self, mark: u8) -> Part {
        self.mark = mark;
        self
    }

    /// What follows the segment's header.
    pub fn body(&self) -> Vec<u8> {
        let mut body = match &self.body {
            Body::Fields(bytes, _) | Body::Raw(bytes) => bytes.clone(),
            Body::Dwell(dwell) => dwell.body(),
            Body::Hrr(hrr) => hrr.body(),
        };
        if let Some(size) = self.size {
            body.resize(size - 5, 0);
        }
        body
    }

    /// The whole segment.
    pub fn bytes(&self) -> Vec<u8> {
        let body = self.body();
        if let Body::Raw(bytes) = &self.body {
            return bytes.clone();
        }
        let size = self.s2.unwrap_or(5 + body.len() as u32);
        [&[self.segment_type][..], &size.to_be_bytes(), &body].concat()
    }

    /// The mask of a dwell or an HRR segment, and its fields to D31 or H31 at full widths: absent ones are zero unless they were given, and
    /// D5 is always stored.
    pub fn full_fields(&self) -> Vec<u8> {
        let (mask, length, values, width) = match &self.body {
            Body::Dwell(dwell) => (dwell.mask, 8, &dwell.values, width as fn(u32) -> usize),
            Body::Hrr(hrr) => (hrr.mask, HRR_MASK, &hrr.values, hrr_width as fn(u32) -> usize),
            _ => return Vec::new(),
        };
        let stored = mask | self.given | if length == 8 { bit(5) } else { 0 };
        let mut bytes = mask.to_be_bytes()[..length].to_vec();
        for field in 2..=31 {
            let value = if stored & bit(field) != 0 { values[field as usize] } else { 0 };
            bytes.extend(i64::from(value).bytes(width(field)));
        }
        bytes
    }
}

/// Magnitude, phase, range index and Doppler index.
pub type Scattered = [u32; 4];

fn scatterer_of(values: Scattered) -> Scatterer {
    [0, values[0], values[1], values[2], values[3]]
}

/// So many bytes that tell fields and their bytes apart.
fn pattern(first: usize, step: usize, width: usize, modulus: usize) -> u32 {
    (0..width).fold(0, |value, k| value << 8 | ((first + step * k) % modulus) as u32)
}

/// A mission.
pub fn mission() -> Part {
    part(1, Body::Fields(b"ICE WATCH 04PLAN 2009-11\x16NORTH COVE\x07\xD9\x0B\x1E".to_vec(), &M))
}

/// A job definition.
pub fn job() -> Part {
    let mut bytes = vec![0; 68];
    for (index, width) in J.iter().enumerate().filter(|(_, width)| **width <= 4) {
        set(&mut bytes, &J, index as u32 + 1, i64::from(pattern(index + 1, 16, *width, 251)));
    }
    part(5, Body::Fields(bytes, &J)).with(3, b"RADAR9").with(14, 1).with(26, 0xA6)
}

/// A free text with this F3.
pub fn text(f3: &[u8]) -> Part {
    part(6, Body::Fields([b"FIRST-NAMESECONDNAME", f3].concat(), &F))
}

/// A test and status segment.
pub fn test() -> Part {
    part(10, Body::Fields((0xF0..0xFE).collect(), &[]))
}

/// A platform location.
pub fn location() -> Part {
    part(13, Body::Fields((0x90..0xA7).collect(), &[]))
}

/// A segment of any type with this body.
pub fn segment(segment_type: u8, body: &[u8]) -> Part {
    part(segment_type, Body::Fields(body.to_vec(), &[]))
}

/// Bytes in the place of a segment.
pub fn raw(bytes: &[u8]) -> Part {
    part(0, Body::Raw(bytes.to_vec()))
}

/// A dwell that announces the least and these fields, without targets.
pub fn dwell(more: &str) -> Part {
    masked(mask(LEAST) | mask(more))
}

/// A dwell without targets that has this pair of D2 and D3.
pub fn dwell_of((d2, d3): (i64, i64)) -> Part {
    dwell("").with(2, d2).with(3, d3)
}

/// A dwell of this mask without targets.
pub fn masked(mask: u64) -> Part {
    let mut values = [0; 32];
    for field in 2..=31u32 {
        values[field as usize] = pattern(field as usize, 48, width(field), 256);
    }
    (values[4], values[5]) = (1, 0);
    (values[10], values[11]) = (0x1234, 0x5678);
    (values[24], values[25], values[27]) = (0x1234_5678, 0x9ABC_DEF0, 0x2727);
    part(2, Body::Dwell(Box::new(Dwell { mask, values, targets: Vec::new() })))
}

/// An HRR segment that announces what every one does and these fields, without scatterers: magnitudes have one byte, phases none.
pub fn hrr(more: &str) -> Part {
    hrr_masked(mask_of(&HRR_ALWAYS) | mask(more))
}

/// An HRR segment of this mask, which stands in the highest of 64 bits, without scatterers.
pub fn hrr_masked(mask: u64) -> Part {
    let mut values = [0; 32];
    for field in 2..=31u32 {
        values[field as usize] = pattern(field as usize, 48, hrr_width(field), 256);
    }
    (values[6], values[7], values[8]) = (0, 0, 1);
    (values[25], values[26]) = (1, 0);
    part(HRR_TYPE, Body::Hrr(Box::new(Hrr { mask, values, scatterers: Vec::new() })))
}

/// The usual values of the target of this number, from 0.
pub fn usual_target(index: i64) -> Target {
    let mut target = [0; 19];
    for (field, value) in (32..).zip(&mut target[1..]) {
        *value = pattern(field as usize + 5 * index as usize, 32, width(field), 128);
    }
    for (j, value) in [(4, 0x0102 - index), (5, -3 - index), (6, -1000 + index), (11, 100 - index), (15, 5000 - index)] {
        target[j] = value.number();
    }
    target
}

/// A dwell with one target by deltas.
pub fn by_deltas(d10: i64, d24: i64, d32_4: i64) -> Part {
    dwell(DELTAS).with(10, d10).with(11, 0).with(24, d24).with(25, 0).target(&[(4, d32_4), (5, 0)])
}

/// A dwell with one target by deltas, at latitude 0.
pub fn by_longitude_deltas(d11: i64, d25: i64, d32_5: i64) -> Part {
    dwell(DELTAS).with(10, 0).with(11, d11).with(24, 0).with(25, d25).target(&[(4, 0), (5, d32_5)])
}

/// A dwell with a target at each place, in steps.
pub fn absolute(places: &[(i64, i64)]) -> Part {
    let add = |part: Part, (latitude, longitude): &(i64, i64)| part.target(&[(2, *latitude), (3, *longitude)]);
    places.iter().fold(dwell(ABSOLUTE), add)
}

/// The dwell of the packet of 92 bytes that document 01 prints.
pub fn trial_dwell() -> Part {
    dwell(DELTAS).with(24, 0).with(25, 0).with(10, 65_536).with(11, 65_536).target(&[(4, -128), (5, -64)])
}

/// The packet of 92 bytes that document 01 prints.
pub fn trial() -> Vec<u8> {
    packet(3, &[trial_dwell()])
}

/// A segment of every kind of record.
pub fn every_kind() -> Vec<Part> {
    vec![
        mission(),
        job(),
        dwell(ALL_ABSOLUTE).usual_targets(2),
        text(b"Road 7 open\r\n"),
        test(),
        location(),
        dwell(&format!("D31 {DELTAS}")).usual_targets(1),
        segment(12, &[1, 2]),
        dwell(""),
        segment(102, &[]),
    ]
}

/// The segments of every kind and one more.
pub fn every_kind_and(last: Part) -> Vec<Part> {
    let mut parts = every_kind();
    parts.push(last);
    parts
}
