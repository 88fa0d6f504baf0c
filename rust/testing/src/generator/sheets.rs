//! Sheets of valid packets, and sheets with faults in them.
use super::aimed::{spoil_packet_size, spoil_version};
use super::faults::Fault;
use super::faulty::{self, faulty_mask, unknown_type};
use super::random::Random;
use super::records::{join, patch_size, sheet_of, spelt_length, split, Record};
use super::sheet_faults::SheetFault;
use super::spelling::Packet;
use super::tables::{bit, mask_of, names_on_sheets, width, TextSet, ABSOLUTE, D5_PLACE, DELTAS, OWN_TYPES};
use super::valid::{self, not_text, Pair, Style};
use super::{damage, hrr_sheets};

/// A sheet, and the row that must refuse it given a long buffer: 0 where it is written.
#[derive(Clone, Debug)]
pub struct AimedSheet {
    /// The sheet.
    pub bytes: Vec<u8>,
    /// What it was given.
    pub faults: Vec<SheetFault>,
    /// The row, or 0.
    pub number: u32,
}

/// The sheet of a valid packet in one of the two readings; for that of Edition 1 the packet holds nothing new.
pub fn valid(random: &mut Random, edition: u32) -> Vec<u8> {
    let any = Style::any(random);
    let style = Style { new: any.new && edition == 3, ..any };
    let count = random.pick([0, 1, 1, 2, 3, 4, 6, 9]);
    let packet = valid::packet_in(random, style, count).bytes();
    sheet_of(edition, &packet).unwrap_or_default()
}

/// A sheet with one fault.
pub fn one(random: &mut Random, fault: SheetFault) -> AimedSheet {
    with(random, &[fault])
}

/// A sheet with two faults of different rows; none where they are of the same row.
pub fn two(random: &mut Random, first: SheetFault, second: SheetFault) -> Option<AimedSheet> {
    if first.row() == second.row() {
        return None;
    }
    Some(with(random, &[first, second]))
}

/// A sheet with these faults. Those of the later rows come first, since those of the earlier ones leave no sheet in order.
fn with(random: &mut Random, faults: &[SheetFault]) -> AimedSheet {
    let mut records = base(random, faults);
    let mut order = faults.to_vec();
    order.sort();
    for fault in order.iter().rev() {
        if records.is_empty() {
            break;
        }
        match fault.row() {
            17 => spoil_list(random, &mut records, *fault),
            18 if fault.is_of_hrr() => hrr_sheets::spoil_order(random, &mut records, *fault),
            18 => spoil_order(random, &mut records, *fault),
            _ if fault.is_of_hrr() => hrr_sheets::spoil_sheet(random, &mut records, *fault),
            _ => spoil_sheet(random, &mut records, *fault),
        }
    }
    let number = order.first().map_or(0, |fault| fault.row());
    AimedSheet { bytes: join(&records), faults: faults.to_vec(), number }
}

/// The records of a packet that has a segment of every kind, dwells with each pair, and pieces; an HRR segment where a fault needs one,
/// and in half of the packets of version 3 that the Edition 3 reading is given.
fn base(random: &mut Random, faults: &[SheetFault]) -> Vec<Record> {
    let is_older = faults.contains(&SheetFault::Older);
    let needs_hrr = faults.iter().any(|fault| fault.is_of_hrr());
    let style = Style { version: if is_older || needs_hrr { 3 } else { random.pick([1, 3]) }, new: false };
    let mut segments = Vec::new();
    for pair in [Pair::Neither, Pair::Absolute, Pair::Deltas] {
        let mask = valid::mask(random, style, pair) | mask_of(&[37, 42, 46]);
        let count = if pair == Pair::Neither { 0 } else { random.between(1, 4) as usize };
        segments.push(valid::dwell_with(random, mask, count).segment());
    }
    for segment_type in [1, 5, 10, 13] {
        segments.push(valid::segment_of(random, style, segment_type));
    }
    for segment_type in [6, 7] {
        let mut segment = valid::segment_of(random, style, segment_type);
        let length = 20 + random.pick([1, 31, 33, 40, 65]);
        segment.body.resize(length, b'+');
        segments.push(segment);
    }
    if random.chance(50) {
        segments.push(valid::segment(random, style));
    }
    for last in (1..segments.len()).rev() {
        segments.swap(last, random.below(last + 1));
    }
    let packet = Packet::new(valid::header(random, style.version), segments).bytes();
    let mut records = split(&sheet_of(if is_older { 1 } else { 3 }, &packet).unwrap_or_default());
    if needs_hrr || style.version == 3 && !is_older && random.chance(50) {
        hrr_sheets::add(random, &mut records);
    }
    records
}

/// The place of one of the records that fit.
fn find(random: &mut Random, records: &[Record], fits: impl Fn(usize, &Record) -> bool) -> Option<usize> {
    let places: Vec<usize> = (0..records.len()).filter(|at| fits(*at, &records[*at])).collect();
    random.one_of(&places)
}

fn find_kind(random: &mut Random, records: &[Record], kind: u8) -> Option<usize> {
    find(random, records, |_, record| record.kind == kind)
}

/// Row 17.
fn spoil_list(random: &mut Random, records: &mut Vec<Record>, fault: SheetFault) {
    let later = 1 + random.below(records.len());
    match fault {
        SheetFault::UnknownKind => {
            let any = random.between(13, 255) as u8;
            let length = random.below(50);
            let unknown = Record::new(random.pick([0, 13, 14, 255, any]), random.bytes(length));
            let at = random.below(records.len() + 1);
            records.insert(at, unknown);
        }
        SheetFault::Cut => {
            records.truncate(later);
            if let Some(last) = records.last_mut() {
                let any = random.below(last.body.len());
                last.body.truncate(random.pick([0, any, last.body.len().saturating_sub(1)]));
            }
        }
        SheetFault::NoHeader => {
            records.remove(0);
        }
        SheetFault::HeaderTwice => {
            let header = records[0].clone();
            records.insert(later, header);
        }
        SheetFault::HeaderLate => {
            let header = records.remove(0);
            let later = later.min(records.len());
            records.insert(later, header);
        }
        _ => records.clear(),
    }
}

/// Row 18.
fn spoil_order(random: &mut Random, records: &mut Vec<Record>, fault: SheetFault) {
    let (target, piece) = (find_kind(random, records, 4), find_kind(random, records, 6));
    let alone = find(random, records, |_, record| matches!(record.kind, 1 | 2 | 8 | 9 | 10));
    let body = find(random, records, |_, record| matches!(record.kind, 5 | 7));
    let (Some(target), Some(piece), Some(alone), Some(body)) = (target, piece, alone, body) else {
        return;
    };
    let copies = (records[target].clone(), records[piece].clone());
    let other = Record::new(9, random.bytes(14));
    match fault {
        SheetFault::TargetMissing => drop(records.remove(target)),
        SheetFault::TargetExtra => records.insert(target + 1, copies.0),
        SheetFault::TargetsParted => records.insert(target, other),
        SheetFault::LoneTarget => records.insert(alone + 1, copies.0),
        SheetFault::PieceForTarget => records[target] = copies.1,
        SheetFault::PieceMissing => drop(records.remove(piece)),
        SheetFault::PieceExtra => records.insert(piece + 1, copies.1),
        SheetFault::PiecesParted => records.insert(piece, other),
        SheetFault::LonePiece => records.insert(alone + 1, copies.1),
        SheetFault::TargetForPiece => records[piece] = copies.0,
        SheetFault::PieceCount => {
            let count = records[piece].body[0];
            let any = random.byte();
            let others = [0, 33, 255, count.wrapping_add(1), count.wrapping_sub(1), any];
            records[piece].body[0] = other_than(random.pick(others).into(), count.into()) as u8;
        }
        SheetFault::BodyLength => spoil_length(random, &mut records[body]),
        _ => spoil_count(random, records),
    }
}

fn other_than(number: u32, old: u32) -> u32 {
    if number == old {
        old.wrapping_add(1)
    } else {
        number
    }
}

/// Another length of a text or an opaque body; those near 2^32 leave no room for an S2.
fn spoil_length(random: &mut Random, record: &mut Record) {
    let place = record.body.len() - 4;
    let length = record.number(place, 4);
    let near = u32::MAX - random.below(40) as u32;
    let others = [length.wrapping_add(1), length.wrapping_sub(1), 0, length + 32, length | 1 << 16, length | 1 << 24, near, near];
    record.set_number(place, 4, other_than(random.pick(others), length));
}

/// Another D5 of a dwell.
fn spoil_count(random: &mut Random, records: &mut [Record]) {
    if let Some(at) = find_kind(random, records, 3) {
        let count = records[at].number(D5_PLACE, 2);
        let others = [count + 1, count.wrapping_sub(1) & 0xFFFF, 0, 65_535, count + 256];
        records[at].set_number(D5_PLACE, 2, other_than(random.pick(others), count));
    }
}

/// Row 19. P2 is right wherever it is not itself the fault.
fn spoil_sheet(random: &mut Random, records: &mut Vec<Record>, fault: SheetFault) {
    match fault {
        SheetFault::Version => spoil_version(random, &mut records[0].body),
        SheetFault::HeaderText | SheetFault::Text => spoil_name(random, records, fault),
        SheetFault::PacketSize => {
            let length = spelt_length(records) as u32;
            spoil_packet_size(random, &mut records[0].body, length);
        }
        SheetFault::PieceText => spoil_piece(random, records),
        SheetFault::OpaqueType => spoil_type(random, records),
        SheetFault::TooLong => lengthen(random, records),
        SheetFault::Older => {}
        SheetFault::Mask | SheetFault::NoPair | SheetFault::AbsentCount => spoil_mask(random, records, fault),
        SheetFault::TargetValue | SheetFault::LatitudeOut | SheetFault::Position | SheetFault::AbsentTargetField => {
            spoil_target(random, records, fault);
        }
        _ => spoil_value(random, records, fault),
    }
    if fault != SheetFault::PacketSize {
        patch_size(records);
    }
}

/// A value, a mark or filling.
fn spoil_value(random: &mut Random, records: &mut [Record], fault: SheetFault) {
    let kind = match fault {
        SheetFault::Date => 2,
        SheetFault::Filling => 6,
        SheetFault::JobMark => 8,
        _ => 3,
    };
    let found = find(random, records, |_, record| {
        let is_fit = match fault {
            SheetFault::Filling => record.body[0] < 32,
            SheetFault::AbsentField => (2..=31).any(|field| record.mask() & bit(field) == 0),
            _ => true,
        };
        record.kind == kind && is_fit
    });
    let Some(at) = found else { return };
    let mask = records[at].mask();
    let body = &mut records[at].body;
    let mark = random.pick([0, 2, 3, 128, 255]);
    match fault {
        SheetFault::Date if random.chance(50) => body[37] = random.pick([0, 13, 255]),
        SheetFault::Date => body[38] = random.pick([0, 32, 255]),
        SheetFault::D4 => body[12] = random.pick([2, 3, 255]),
        SheetFault::DwellMark => body[86] = mark,
        SheetFault::JobMark => body[68] = mark,
        SheetFault::Filling => {
            let first = 1 + usize::from(body[0]);
            let any = first + random.below(33 - first);
            let at = random.pick([first, 32, any]);
            body[at] = random.pick([1, b' ', 128, 255]);
        }
        _ => spoil_absent(random, body, mask, 2..=31, 8),
    }
}

/// A byte of a field that the mask does not announce. The fields stand at full widths from the first place on.
fn spoil_absent(random: &mut Random, body: &mut [u8], mask: u64, fields: std::ops::RangeInclusive<u32>, first: usize) {
    let mut places = Vec::new();
    let mut at = first;
    for field in fields {
        if mask & bit(field) == 0 {
            places.extend(at..at + width(field));
        }
        at += width(field);
    }
    if let Some(at) = random.one_of(&places) {
        body[at] = random.pick([1, 128, 255]);
    }
}

/// A name in the header's record, or in another that has one.
fn spoil_name(random: &mut Random, records: &mut [Record], fault: SheetFault) {
    let is_of_header = fault == SheetFault::HeaderText;
    let names: Vec<_> = names_on_sheets().into_iter().filter(|(kind, _)| (*kind == 1) == is_of_header).collect();
    let Some((kind, name)) = random.one_of(&names) else { return };
    if let Some(at) = find_kind(random, records, kind) {
        faulty::spoil_text(random, &mut records[at].body, name);
    }
}

/// The first or the last byte of a piece of F3, which may hold line ends.
fn spoil_piece(random: &mut Random, records: &mut [Record]) {
    let found = find(random, records, |at, record| record.kind == 6 && at > 0 && records[at - 1].kind == 5);
    if let Some(at) = found {
        let count = usize::from(records[at].body[0]);
        let place = random.pick([1, count]);
        records[at].body[place] = not_text(random, TextSet::Lines);
    }
}

/// A kind 7 that stands for a segment of a type with records of its own and a valid body, or of an unknown type.
fn spoil_type(random: &mut Random, records: &mut Vec<Record>) {
    let style = Style { version: 1, new: false };
    let mut segment = valid::segment(random, style);
    if !OWN_TYPES.contains(&segment.segment_type) || random.chance(30) {
        segment.segment_type = unknown_type(random);
    }
    let mut body = vec![segment.segment_type];
    body.extend((segment.body.len() as u32).to_be_bytes());
    records.push(Record::new(7, body));
    records.extend(segment.body.chunks(32).map(Record::piece));
}

/// Further segments until the packet has more than 65,536 bytes: one long body, or many small ones.
fn lengthen(random: &mut Random, records: &mut Vec<Record>) {
    let missing = 65_537usize.saturating_sub(spelt_length(records));
    if random.chance(50) {
        let more = random.pick([0, 1, 1000]);
        let length = missing.saturating_sub(5) + more;
        let mut body = vec![7];
        body.extend((length as u32).to_be_bytes());
        records.push(Record::new(7, body));
        records.extend(vec![7; length].chunks(32).map(Record::piece));
    } else {
        let record = Record::new(9, random.bytes(14));
        records.extend(vec![record; missing.div_ceil(19)]);
    }
}

/// A mask at fault, without a position pair, or without the bit of D5; what is then absent is zero.
fn spoil_mask(random: &mut Random, records: &mut [Record], fault: SheetFault) {
    let version = records[0].body[0] - b'0';
    let found = find(random, records, |_, record| record.kind == 3 && (fault == SheetFault::Mask || record.number(D5_PLACE, 2) > 0));
    let Some(at) = found else { return };
    let mask = records[at].mask();
    let faults: Vec<Fault> = Fault::of_masks().into_iter().filter(|fault| fault.version().unwrap_or(version) == version).collect();
    let wrong = match fault {
        SheetFault::NoPair => mask & !mask_of(&ABSOLUTE) & !mask_of(&DELTAS),
        SheetFault::AbsentCount => mask & !bit(5),
        _ => random.one_of(&faults).and_then(|fault| faulty_mask(random, mask, fault.field())).unwrap_or(0),
    };
    records[at].body[..8].copy_from_slice(&wrong.to_be_bytes());
    clear_absent(&mut records[at].body, wrong, 2..=31, 8);
    let mut next = at + 1;
    while records.get(next).is_some_and(|record| record.kind == 4) {
        clear_absent(&mut records[next].body, wrong, 32..=49, 0);
        if fault == SheetFault::NoPair {
            records[next].body[36..].fill(0);
        }
        next += 1;
    }
}

/// Zeroes the fields that the mask does not announce, but for D5.
fn clear_absent(body: &mut [u8], mask: u64, fields: std::ops::RangeInclusive<u32>, first: usize) {
    let mut at = first;
    for field in fields {
        let end = at + width(field);
        if mask & bit(field) == 0 && field != 5 {
            body[at..end].fill(0);
        }
        at = end;
    }
}

/// A target whose value, position or absent field is wrong.
fn spoil_target(random: &mut Random, records: &mut [Record], fault: SheetFault) {
    let needed = if fault == SheetFault::LatitudeOut { 35 } else { 2 };
    let dwell_of = |records: &[Record], at: usize| records[..at].iter().rev().find(|record| record.kind == 3).cloned();
    let found =
        find(random, records, |at, record| record.kind == 4 && dwell_of(records, at).is_some_and(|dwell| dwell.mask() & bit(needed) != 0));
    let Some(at) = found else { return };
    let Some(dwell) = dwell_of(records, at) else { return };
    match fault {
        SheetFault::TargetValue => match random.below(3) {
            0 => records[at].set_number(14, 2, random.pick([-1001, -32_768]) as u32),
            1 => records[at].set_number(22, 1, random.pick([101, 255])),
            _ => records[at].set_number(28, 2, random.pick([5001, 65_535])),
        },
        SheetFault::LatitudeOut => put_latitude_out(records, at),
        SheetFault::Position => spoil_position(random, &mut records[at]),
        _ => spoil_absent(random, &mut records[at].body, dwell.mask(), 32..=49, 0),
    }
}

/// D10, D24 and D32.4 of document 01's trial.
fn put_latitude_out(records: &mut [Record], target: usize) {
    if let Some(dwell) = records[..target].iter_mut().rev().find(|record| record.kind == 3) {
        // D10 stands behind D2 to D9, D24 behind D2 to D23.
        dwell.set_number(8 + 23, 4, 1);
        dwell.set_number(8 + 59, 4, i32::MAX as u32);
    }
    records[target].set_number(10, 2, 2);
    records[target].set_number(36, 4, 90_000_000);
}

/// Another latitude or longitude.
fn spoil_position(random: &mut Random, record: &mut Record) {
    let place = random.pick([36, 40]);
    let right = record.number(place, 4);
    let any = random.number() as u32;
    let others = [right.wrapping_add(1), right.wrapping_sub(1), right.wrapping_neg(), 0, 360_000_000, record.number(76 - place, 4), any];
    record.set_number(place, 4, other_than(random.pick(others), right));
}

/// A sheet damaged with no regard for what its bytes mean, or record by record.
pub fn damaged(random: &mut Random, sheet: &[u8]) -> Vec<u8> {
    let mut records = split(sheet);
    let at = random.below(records.len());
    let other = random.below(records.len());
    let mut bytes = sheet.to_vec();
    match random.below(8) {
        0 | 1 => damage::flip(random, &mut bytes),
        2 => bytes.truncate(random.below(sheet.len() + 1)),
        3 => bytes.extend(random.bytes(3)),
        _ if records.is_empty() => {}
        4 => {
            records.remove(at);
            bytes = join(&records);
        }
        5 => {
            records.insert(other, records[at].clone());
            bytes = join(&records);
        }
        6 => {
            records.swap(at, other);
            bytes = join(&records);
        }
        _ => {
            let place = random.below(records[at].body.len());
            records[at].body[place] = random.byte();
            patch_size(&mut records);
            bytes = join(&records);
        }
    }
    bytes
}
