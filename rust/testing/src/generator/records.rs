//! A sheet as a list of records, so that it can be changed record by record.
use super::spelling::Hrr;
use super::tables::{announced_width, hrr_place, hrr_width, D2_PLACE, HRR_MASK, RECORD_LENGTHS};
use crate::independent;

/// One record.
#[derive(Clone, Debug, PartialEq, Eq)]
pub struct Record {
    /// Its kind.
    pub kind: u8,
    /// What follows the byte of kind.
    pub body: Vec<u8>,
}

impl Record {
    /// A record of any kind and body.
    pub fn new(kind: u8, body: Vec<u8>) -> Record {
        Record { kind, body }
    }

    /// A piece with these bytes, of which 32 at most are taken.
    pub fn piece(bytes: &[u8]) -> Record {
        let taken = &bytes[..bytes.len().min(32)];
        let mut body = vec![taken.len() as u8];
        body.extend(taken);
        body.resize(33, 0);
        Record::new(6, body)
    }

    /// The number in two or four bytes of its body; 0 where it has none there.
    pub fn number(&self, first: usize, width: usize) -> u32 {
        let bytes = self.body.get(first..first + width).unwrap_or(&[]);
        bytes.iter().fold(0, |sum, byte| sum << 8 | u32::from(*byte))
    }

    /// Stores the low bytes of a number.
    pub fn set_number(&mut self, first: usize, width: usize, number: u32) {
        if let Some(bytes) = self.body.get_mut(first..first + width) {
            bytes.copy_from_slice(&number.to_be_bytes()[4 - width..]);
        }
    }

    /// The mask of a kind 3 or 11; the five bytes of the latter are the highest.
    pub fn mask(&self) -> u64 {
        let length = if self.kind == 11 { HRR_MASK } else { 8 };
        let mut mask = [0; 8];
        for (byte, found) in mask.iter_mut().zip(self.body.iter().take(length)) {
            *byte = *found;
        }
        u64::from_be_bytes(mask)
    }

    /// The mask and the values of a kind 11, all of them as they stand there.
    pub fn hrr(&self) -> Hrr {
        let mut values = [0; 32];
        for field in 2..=31 {
            values[field as usize] = self.number(hrr_place(u64::MAX, field), hrr_width(field));
        }
        Hrr { mask: self.mask(), values, scatterers: Vec::new() }
    }

    /// D2 and D3 of a kind 3.
    pub fn pair(&self) -> [u32; 2] {
        [self.number(D2_PLACE, 2), self.number(D2_PLACE + 2, 2)]
    }
}

/// The whole records at the front of a sheet.
pub fn split(sheet: &[u8]) -> Vec<Record> {
    let mut records = Vec::new();
    let mut rest = sheet;
    while let Some((kind, after)) = rest.split_first() {
        let length = RECORD_LENGTHS.get(usize::from(*kind)).copied().unwrap_or(0);
        if length == 0 || after.len() < length {
            break;
        }
        records.push(Record::new(*kind, after[..length].to_vec()));
        rest = &after[length..];
    }
    records
}

/// The bytes of these records.
pub fn join(records: &[Record]) -> Vec<u8> {
    let mut bytes = Vec::new();
    for record in records {
        bytes.push(record.kind);
        bytes.extend(&record.body);
    }
    bytes
}

/// How many bytes these records spell.
pub fn spelt_length(records: &[Record]) -> usize {
    let mut length = 0;
    let (mut mask, mut scatterer) = (0, 0);
    for record in records {
        length += match record.kind {
            1 => 32,
            2 => 5 + 39,
            3 => {
                mask = record.mask();
                5 + 8 + announced_width(mask, 2, 31)
            }
            4 => announced_width(mask, 32, 49),
            5 => 5 + 20,
            6 => record.number(0, 1) as usize,
            7 => 5,
            8 => 5 + 68,
            9 => 5 + 14,
            10 => 5 + 23,
            11 => {
                scatterer = record.hrr().scatterer_widths().iter().sum();
                5 + hrr_place(record.mask(), 32)
            }
            12 => scatterer,
            _ => 0,
        };
    }
    length
}

/// Sets P2 of the first record to the length that the records spell.
pub fn patch_size(records: &mut [Record]) {
    let length = spelt_length(records) as u32;
    if let Some(header) = records.first_mut() {
        header.set_number(2, 4, length);
    }
}

/// The sheet of an accepted packet, by the independent implementation.
pub fn sheet_of(edition: u32, packet: &[u8]) -> Option<Vec<u8>> {
    let mut sheet = vec![0; independent::sheet_bound(packet.len())];
    let answer = independent::read(edition, packet, &mut sheet);
    sheet.truncate(answer.length as usize);
    answer.is_accepted().then_some(sheet)
}
