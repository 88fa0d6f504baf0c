//! Records of HRR segments on a sheet, and faults in them.
use super::hrr;
use super::random::Random;
use super::records::{patch_size, sheet_of, split, Record};
use super::sheet_faults::SheetFault;
use super::spelling::Packet;
use super::tables::{bit, hrr_place, hrr_width, HRR_ALWAYS, HRR_FREE, HRR_SPARE, HRR_TYPE};
use super::valid::{self, body_length};

/// Where Hn stands in the body of a kind 11 record.
fn place(field: u32) -> usize {
    hrr_place(u64::MAX, field)
}

/// Puts the records of an HRR segment with one to four scatterers between those of other segments. It announces one of the two indices.
pub fn add(random: &mut Random, records: &mut Vec<Record>) {
    let mask = hrr::mask(random) & !bit(34) & !bit(35) | bit(random.pick([34, 35])) | bit(random.pick([6, 7]));
    // One field at least is absent that tells no count.
    let absent = HRR_FREE[random.between(3, HRR_FREE.len() as i64 - 1) as usize];
    let count = random.between(1, 4) as usize;
    let segment = hrr::with(random, mask & !bit(absent), count).segment();
    let packet = Packet::new(valid::header(random, 3), vec![segment]).bytes();
    let made = split(&sheet_of(3, &packet).unwrap_or_default());
    let is_between = |at: &usize| !records.get(*at).is_some_and(|next| matches!(next.kind, 4 | 6 | 12));
    let places: Vec<usize> = (1..=records.len()).filter(is_between).collect();
    let at = random.one_of(&places).unwrap_or(records.len());
    records.splice(at..at, made.into_iter().skip(1));
    patch_size(records);
}

/// The first kind 11 that has scatterers, and the place behind its last one.
fn first(records: &[Record]) -> Option<(usize, usize)> {
    let scatterer = records.iter().position(|record| record.kind == 12)?;
    let end = (scatterer..records.len()).find(|at| records[*at].kind != 12).unwrap_or(records.len());
    Some((scatterer.checked_sub(1)?, end))
}

/// Row 18.
pub fn spoil_order(random: &mut Random, records: &mut Vec<Record>, fault: SheetFault) {
    let Some((at, end)) = first(records) else { return };
    let scatterer = at + 1 + random.below(end - at - 1);
    let copy = records[scatterer].clone();
    let other = Record::new(9, random.bytes(14));
    let kind = match fault {
        SheetFault::ScattererForTarget => 4,
        SheetFault::ScattererForPiece => 6,
        _ => random.pick([1, 2, 8, 9, 10]),
    };
    let one = records.iter().position(|record| record.kind == kind).unwrap_or(0);
    match fault {
        SheetFault::ScattererMissing => drop(records.remove(scatterer)),
        SheetFault::ScattererExtra => records.insert(scatterer, copy),
        SheetFault::ScatterersParted => records.insert(scatterer, other),
        SheetFault::LoneScatterer => records.insert(one + 1, copy),
        SheetFault::PieceForScatterer => records[scatterer] = Record::piece(b"abc"),
        SheetFault::ScattererForTarget | SheetFault::ScattererForPiece => records[one] = copy,
        SheetFault::AbsentScattererCount => unannounce_count(&mut records[at]),
        _ => spoil_count(random, &mut records[at]),
    }
}

/// Another H6, or where it is absent another H7.
fn spoil_count(random: &mut Random, record: &mut Record) {
    let told = if record.hrr().has(6) { 6 } else { 7 };
    let count = record.number(place(told), 2);
    let any = random.between(1, 0xFFFF) as u32;
    record.set_number(place(told), 2, count.wrapping_add(random.pick([1, 0xFFFF, 256, any])));
}

/// The field that told the number of scatterers, kept without its bit in the mask: then others tell it, and they tell another.
fn unannounce_count(record: &mut Record) {
    let hrr = record.hrr();
    let (told, count) = (if hrr.has(6) { 6 } else { 7 }, hrr.claimed());
    set_mask(record, hrr.mask & !bit(told));
    if record.hrr().claimed() == count {
        record.set_number(place(7), 2, 0);
    }
}

fn set_mask(record: &mut Record, mask: u64) {
    let bytes = mask.to_be_bytes();
    for (byte, new) in record.body.iter_mut().zip(&bytes[..5]) {
        *byte = *new;
    }
}

/// Row 19.
pub fn spoil_sheet(random: &mut Random, records: &mut Vec<Record>, fault: SheetFault) {
    let Some((at, end)) = first(records) else { return };
    let scatterer = at + 1 + random.below(end - at - 1);
    let mask = records[at].mask();
    match fault {
        SheetFault::HrrVersion => records[0].body[0] = b'1',
        SheetFault::OpaqueHrr => add_opaque(random, records),
        SheetFault::HrrMask => spoil_mask(random, &mut records[at..end]),
        SheetFault::MagnitudeBytes => records[at].body[place(25)] = random.pick([0, 3, 200, 255]),
        SheetFault::PhaseBytes => records[at].body[place(26)] = random.pick([3, 4, 255]),
        SheetFault::AbsentHrrField => spoil_absent(random, &mut records[at].body, mask),
        _ => {
            let widths = records[at].hrr().scatterer_widths();
            spoil_scatterer(random, &mut records[scatterer].body, widths, fault);
        }
    }
    patch_size(records);
}

/// A byte of a field that the mask does not announce, also where it is one that tells a count.
fn spoil_absent(random: &mut Random, body: &mut [u8], mask: u64) {
    let absent: Vec<u32> = HRR_FREE.into_iter().filter(|field| mask & bit(*field) == 0).collect();
    if let Some(field) = random.one_of(&absent) {
        let at = place(field) + random.below(hrr_width(field));
        body[at] = random.pick([1, 128, 255]);
    }
}

/// A byte of a scatterer that no segment has: the high one of a value of one byte, or one of an absent value.
fn spoil_scatterer(random: &mut Random, body: &mut [u8], widths: [usize; 4], fault: SheetFault) {
    let wanted = if fault == SheetFault::HighByte { 1 } else { 0 };
    let slots: Vec<usize> = (0..4).filter(|slot| widths[*slot] == wanted).collect();
    if let Some(slot) = random.one_of(&slots) {
        let at = 2 * slot + if wanted == 1 { 0 } else { random.below(2) };
        body[at] = random.pick([1, 128, 255]);
    }
}

/// A mask that lacks a field, which is then zero, or sets a bit that announces nothing. The count of scatterers stays.
fn spoil_mask(random: &mut Random, records: &mut [Record]) {
    let hrr = records[0].hrr();
    let lacking = random.pick(HRR_ALWAYS);
    if random.chance(30) || lacking == 8 && !hrr.has(6) {
        let spare = random.pick(HRR_SPARE);
        set_mask(&mut records[0], hrr.mask | bit(spare));
        return;
    }
    set_mask(&mut records[0], hrr.mask & !bit(lacking));
    if lacking < 32 {
        records[0].body[place(lacking)..place(lacking) + hrr_width(lacking)].fill(0);
    } else {
        records[1..].iter_mut().for_each(|scatterer| scatterer.body[..2].fill(0));
    }
}

/// A kind 7 of type 3, with the body of an HRR segment or any other.
fn add_opaque(random: &mut Random, records: &mut Vec<Record>) {
    let length = body_length(random);
    let content = if random.chance(50) { hrr::any(random).body() } else { random.bytes(length) };
    let mut body = vec![HRR_TYPE];
    body.extend((content.len() as u32).to_be_bytes());
    records.push(Record::new(7, body));
    records.extend(content.chunks(32).map(Record::piece));
}
