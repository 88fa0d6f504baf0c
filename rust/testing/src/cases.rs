//! The cases of a run: each is made from the seed and its number alone, and compared.
use crate::comparison::{read_call, Call, Compared, Comparison};
use crate::generator::aimed::{self, Aimed, Refusal};
use crate::generator::faults::Fault;
use crate::generator::sheet_faults::SheetFault;
use crate::generator::sheets::{self, AimedSheet};
use crate::generator::spelling::Segment;
use crate::generator::tables::{bit, MOST_DWELLS};
use crate::generator::valid::{Pair, Style};
use crate::generator::{damage, hrr, pairs, valid, Random};
use crate::library::{Answer, LONGEST_PACKET};

/// The kinds of case, by turns.
const KINDS: [&str; 16] = [
    "valid packet",
    "packet with one fault",
    "packet with two faults",
    "damaged packet",
    "truncated packet",
    "sheet of a packet",
    "sheet with one fault",
    "damaged sheet",
    "valid packet",
    "packet with one fault",
    "packet with two faults",
    "damaged packet",
    "any bytes",
    "sheet with two faults",
    "truncated sheet",
    "any bytes as a sheet",
];

/// One case in so many is a packet of about 65,536 bytes, since it takes as long as hundreds of others.
const LONG: u64 = 1024;

/// Makes the case of this number and compares it.
pub fn run(comparison: &mut Comparison, seed: u64, index: u64) -> Compared<()> {
    let kind = if index % LONG == LONG - 1 { "long packet" } else { KINDS[index as usize % KINDS.len()] };
    let random = &mut Random::of_case(seed, index);
    comparison.begin(kind, index);
    match kind {
        "valid packet" => accepted(comparison, &valid::packet(random).bytes()),
        "packet with one fault" => {
            let fault = any_fault(random);
            aimed_packet(comparison, aimed::one(random, fault))
        }
        "packet with two faults" => aimed_packet(comparison, two_faults(random)),
        "damaged packet" => {
            let packet = valid::packet(random).bytes();
            comparison.packet(&damage::packet(random, &packet)).map(drop)
        }
        "truncated packet" => {
            let packet = valid::packet(random).bytes();
            let length = random.below(packet.len());
            comparison.packet(&damage::truncated(&packet, length, random.chance(80))).map(drop)
        }
        "any bytes" => comparison.packet(&any_packet(random)).map(drop),
        "long packet" => long_packet(comparison, random),
        _ => run_sheet(comparison, random, kind),
    }
}

/// As above, for the writer.
fn run_sheet(comparison: &mut Comparison, random: &mut Random, kind: &str) -> Compared<()> {
    let edition = random.pick([1, 3, 3]);
    match kind {
        "sheet of a packet" => comparison.sheet(&sheets::valid(random, edition)).map(drop),
        "sheet with one fault" => {
            let fault = random.pick(SheetFault::ALL);
            aimed_sheet(comparison, Some(sheets::one(random, fault)))
        }
        "sheet with two faults" => {
            let first = random.pick(SheetFault::ALL);
            let others: Vec<SheetFault> = SheetFault::ALL.into_iter().filter(|other| other.row() != first.row()).collect();
            let second = random.one_of(&others);
            aimed_sheet(comparison, second.and_then(|second| sheets::two(random, first, second)))
        }
        "damaged sheet" => {
            let sheet = sheets::valid(random, edition);
            comparison.sheet(&sheets::damaged(random, &sheet)).map(drop)
        }
        "truncated sheet" => {
            let sheet = sheets::valid(random, edition);
            comparison.sheet(&sheet[..random.below(sheet.len() + 1)]).map(drop)
        }
        _ => comparison.sheet(&any_sheet(random)).map(drop),
    }
}

/// Compares a packet that the Edition 3 reading accepts.
pub fn accepted(comparison: &mut Comparison, packet: &[u8]) -> Compared<()> {
    let (_, newer) = comparison.packet(packet)?;
    comparison.expect(newer, answer_of(newer, None), read_call(3, packet))
}

/// A packet of 65,535 to 65,537 bytes: segments of any type, maybe a thousand targets or some thousand scatterers, and bytes that fill it.
/// Or one full of dwells.
fn long_packet(comparison: &mut Comparison, random: &mut Random) -> Compared<()> {
    if random.chance(25) {
        let pairs = pairs::run(random, MOST_DWELLS as usize);
        return accepted(comparison, &valid::packet_by_pairs(random, &pairs).bytes());
    }
    let length = random.pick([65_535, 65_536, 65_536, 65_537]);
    let style = Style::any(random);
    let count = random.below(20);
    let mut packet = valid::packet_in(random, style, count);
    if random.chance(50) {
        let mask = valid::mask(random, style, Pair::Deltas);
        packet.segments.push(valid::dwell_with(random, mask, 1000).segment());
    } else if style.version == 3 && style.new {
        let mask = hrr::mask(random) | bit(random.pick([6, 7]));
        packet.segments.push(hrr::with(random, mask, 6000).segment());
    }
    while packet.length_from(0) + 37 > length {
        packet.segments.pop();
    }
    let body = random.bytes(length - 37 - packet.length_from(0));
    packet.segments.insert(random.below(packet.segments.len() + 1), Segment::new(12, body));
    let bytes = packet.bytes();
    let (_, newer) = comparison.packet(&bytes)?;
    let due = if length > LONGEST_PACKET { Answer::refused(2, 0, 0) } else { answer_of(newer, None) };
    comparison.expect(newer, due, read_call(3, &bytes))
}

/// Compares a packet, and holds both readings to the answers that it is aimed at. Where there is none the generator is at fault.
pub fn aimed_packet(comparison: &mut Comparison, aimed: Option<Aimed>) -> Compared<()> {
    let Some(aimed) = aimed else { return comparison.not_made(read_call(3, &[])) };
    let (older, newer) = comparison.packet(&aimed.bytes)?;
    for (edition, answer, due) in [(1, older, aimed.older), (3, newer, aimed.newer)] {
        comparison.expect(answer, answer_of(answer, due), read_call(edition, &aimed.bytes))?;
    }
    Ok(())
}

/// The answer that is due: the refusal, or else any acceptance.
fn answer_of(answer: Answer, due: Option<Refusal>) -> Answer {
    match due {
        Some((number, segment, field)) => Answer::refused(number, segment, field),
        None => Answer { number: 0, segment: 0, field: 0, ..answer },
    }
}

/// Compares a sheet, and holds the writer to the row that it is aimed at. Where there is none the generator is at fault.
pub fn aimed_sheet(comparison: &mut Comparison, aimed: Option<AimedSheet>) -> Compared<()> {
    let Some(aimed) = aimed else { return comparison.not_made(Call::Write { sheet: Vec::new() }) };
    let answer = comparison.sheet(&aimed.bytes)?;
    comparison.expect(answer, Answer::refused(aimed.number, 0, 0), Call::Write { sheet: aimed.bytes.clone() })
}

/// A fault of any row: most faults are of row 11, so the row is chosen first.
fn any_fault(random: &mut Random) -> Fault {
    let row = random.pick([2, 3, 4, 5, 6, 7, 8, 9, 10, 11, 12, 13, 14, 15, 21, 22]);
    let faults: Vec<Fault> = Fault::all().into_iter().filter(|fault| fault.row() == row).collect();
    random.one_of(&faults).unwrap_or(Fault::Left)
}

/// Two faults in one segment where that is possible, else apart. Where they need two versions, the second is one of the end.
fn two_faults(random: &mut Random) -> Option<Aimed> {
    let (first, second) = (any_fault(random), any_fault(random));
    let is_together = random.chance(60);
    let together = if is_together { aimed::together(random, first, second) } else { None };
    together.or_else(|| aimed::apart(random, first, second)).or_else(|| aimed::apart(random, first, Fault::Left))
}

/// Any bytes; often behind a valid header, with P2 right.
fn any_packet(random: &mut Random) -> Vec<u8> {
    let length = random.below(200);
    let mut bytes = random.bytes(length);
    if random.chance(70) {
        let version = random.pick([1, 3]);
        bytes.splice(0..0, valid::header(random, version));
        // A known type and a small size, so that some walk further.
        for (at, byte) in [(32, random.byte() % 14), (33, 0), (34, 0), (35, 0), (36, random.byte() % 64)] {
            if let Some(place) = bytes.get_mut(at) {
                *place = byte;
            }
        }
        bytes = damage::truncated(&bytes, bytes.len(), true);
    }
    bytes
}

/// Any bytes; often behind a header record.
fn any_sheet(random: &mut Random) -> Vec<u8> {
    let length = random.below(200);
    let mut bytes = random.bytes(length);
    if random.chance(50) {
        for byte in &mut bytes {
            *byte %= 14;
        }
    }
    if random.chance(70) {
        bytes.splice(0..0, valid::header(random, 3));
        bytes.insert(0, 1);
    }
    bytes
}
