//! The list of vectors, each with the answer that document 01 gives it; the independent implementation must agree.
use std::collections::BTreeSet;
use testing::generator::records::{sheet_of, split};
use testing::generator::tables::RECORD_LENGTHS;
use testing::independent;
use testing::library::Answer;

/// What lent memory holds before a call.
pub const LENT: u8 = 0xAA;

/// How many bytes are lent.
#[derive(Clone, Copy)]
pub enum Lend {
    /// Three more than the output of an acceptance; for a refusal none to a few, or about as many as the sheet would take.
    Usual,
    Bytes(usize),
    /// As many as the output has.
    Exact,
    /// One fewer.
    Short,
    /// About as many as the sheet would take.
    Full,
}

/// One line: a packet for a reading, or a sheet for the writer.
pub struct Trial {
    pub name: String,
    /// As what the packet is read; none for the writer.
    pub edition: Option<u32>,
    pub given: Vec<u8>,
    pub lent: usize,
}

impl Trial {
    /// The independent implementation's answer, and the lent bytes afterwards.
    pub fn answer(&self) -> (Answer, Vec<u8>) {
        call(self.edition, &self.given, self.lent)
    }
}

fn call(edition: Option<u32>, given: &[u8], lent: usize) -> (Answer, Vec<u8>) {
    let mut memory = vec![LENT; lent];
    let answer = match edition {
        Some(edition) => independent::read(edition, given, &mut memory),
        None => independent::write(given, &mut memory),
    };
    (answer, memory)
}

/// The list, and what is wrong with it.
#[derive(Default)]
pub struct Trials {
    pub trials: Vec<Trial>,
    pub faults: Vec<String>,
    names: BTreeSet<String>,
}

impl Trials {
    /// A reading with the usual number of lent bytes.
    pub fn read(&mut self, name: &str, edition: u32, packet: Vec<u8>, want: &str) {
        self.read_to(name, edition, packet, want, Lend::Usual);
    }

    /// A reading under both editions, with one answer.
    pub fn both(&mut self, name: &str, packet: &[u8], want: &str) {
        for edition in [1, 3] {
            self.read(&format!("{name} reading {edition}"), edition, packet.to_vec(), want);
        }
    }

    /// A reading with the usual number of lent bytes, and the positions that its sheet must hold.
    pub fn read_at(&mut self, name: &str, edition: u32, packet: Vec<u8>, want: &str, positions: &[(i64, i64)]) {
        let found = positions_of(&sheet_of(edition, &packet).unwrap_or_default());
        if found != positions {
            self.faults.push(format!("{name}: positions {found:?} where {positions:?} are due"));
        }
        self.read(name, edition, packet, want);
    }

    /// A reading.
    pub fn read_to(&mut self, name: &str, edition: u32, packet: Vec<u8>, want: &str, lend: Lend) {
        let place = self.trials.len();
        let (answer, _) = call(Some(edition), &packet, 70_000);
        let usual = if answer.is_accepted() {
            answer.length as usize + 3
        } else if answer.segment > 1 || answer.number >= 12 && place % 2 == 1 {
            room(&packet)
        } else {
            place % 5
        };
        let lent = lent_bytes(lend, answer, usual, room(&packet));
        self.add(name.to_string(), Some(edition), packet, lent, want);
    }

    /// A refusal of the writer with the usual number of lent bytes.
    pub fn refused(&mut self, name: &str, sheet: Vec<u8>, want: &str) {
        self.written(name, sheet, want, None, Lend::Usual);
    }

    /// A refusal of the writer.
    pub fn refused_to(&mut self, name: &str, sheet: Vec<u8>, want: &str, lent: usize) {
        self.written(name, sheet, want, None, Lend::Bytes(lent));
    }

    /// A sheet that is written as this packet, with the usual number of lent bytes.
    pub fn gives(&mut self, name: &str, sheet: Vec<u8>, want: &str, packet: &[u8]) {
        self.written(name, sheet, want, Some(packet), Lend::Usual);
    }

    /// A sheet that is written as this packet where enough bytes are lent.
    pub fn gives_to(&mut self, name: &str, sheet: Vec<u8>, want: &str, packet: &[u8], lend: Lend) {
        self.written(name, sheet, want, Some(packet), lend);
    }

    fn written(&mut self, name: &str, sheet: Vec<u8>, want: &str, gives: Option<&[u8]>, lend: Lend) {
        let place = self.trials.len();
        let (answer, memory) = call(None, &sheet, 8192);
        let found = answer.is_accepted().then(|| &memory[..answer.length as usize]);
        if found != gives {
            self.faults.push(format!("write {name}: {answer}, or another packet than is due"));
        }
        let usual = if answer.is_accepted() {
            answer.length as usize + 3
        } else if place % 2 == 1 {
            sheet.len()
        } else {
            place % 5
        };
        let lent = lent_bytes(lend, answer, usual, usual);
        self.add(format!("write {name}"), None, sheet, lent, want);
    }

    fn add(&mut self, name: String, edition: Option<u32>, given: Vec<u8>, lent: usize, want: &str) {
        let trial = Trial { name, edition, given, lent };
        let (answer, _) = trial.answer();
        if answer.to_string() != want {
            self.faults.push(format!("{}: {answer} where {want} is due", trial.name));
        }
        if !is_name(&trial.name) || !self.names.insert(trial.name.clone()) {
            self.faults.push(format!("{}: no name, or not the first of this name", trial.name));
        }
        self.trials.push(trial);
    }
}

/// Letters, digits, dots and hyphens, with single spaces between them.
pub fn is_name(name: &str) -> bool {
    let is_word = |word: &str| !word.is_empty() && word.bytes().all(|byte| byte.is_ascii_alphanumeric() || b".-".contains(&byte));
    name.split(' ').all(is_word)
}

fn lent_bytes(lend: Lend, answer: Answer, usual: usize, full: usize) -> usize {
    let length = answer.length as usize;
    match lend {
        Lend::Usual => usual,
        Lend::Bytes(lent) => lent,
        Lend::Exact => length,
        Lend::Short => length.saturating_sub(1),
        Lend::Full => full,
    }
}

/// The positions of the targets on a sheet.
fn positions_of(sheet: &[u8]) -> Vec<(i64, i64)> {
    let targets = split(sheet).into_iter().filter(|record| record.kind == 4);
    targets.map(|target| (i64::from(target.number(36, 4) as i32), i64::from(target.number(40, 4)))).collect()
}

/// About the length of the sheet, also of a packet with a fault.
fn room(packet: &[u8]) -> usize {
    let mut total = 33;
    let mut at = 32;
    while at + 5 <= packet.len() {
        let size = u32::from_be_bytes([packet[at + 1], packet[at + 2], packet[at + 3], packet[at + 4]]) as usize;
        if size < 5 || size > packet.len() - at {
            break;
        }
        let body = &packet[at + 5..at + size];
        let d5 = body.get(13..15).map_or(0, |d5| usize::from(d5[0]) << 8 | usize::from(d5[1]));
        let pieces = |length: usize| 34 * length.div_ceil(32);
        total += match packet[at] {
            1 => 1 + RECORD_LENGTHS[2],
            2 => 1 + RECORD_LENGTHS[3] + 45 * d5.min(body.len() / 4),
            3 if packet[0] == b'3' => 1 + RECORD_LENGTHS[11] + 9 * body.len().saturating_sub(34),
            5 => 1 + RECORD_LENGTHS[8],
            6 => 1 + RECORD_LENGTHS[5] + pieces(body.len().saturating_sub(20)),
            10 => 1 + RECORD_LENGTHS[9],
            13 => 1 + RECORD_LENGTHS[10],
            _ => 1 + RECORD_LENGTHS[7] + pieces(body.len()),
        };
        at += size;
    }
    total
}
