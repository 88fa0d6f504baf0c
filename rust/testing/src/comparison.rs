//! Holds the verified library against the other implementations: one call at a time, and the demands over several calls.
use crate::generator::records::split;
use crate::generator::tables::{D27_PLACE, J26_PLACE};
use crate::generator::Random;
use crate::library::Answer;
use crate::tally::Tally;
use crate::{by_hand, independent};
use std::fmt;

/// What was called, and what it was given.
#[derive(Clone, Debug, PartialEq, Eq)]
pub enum Call {
    /// A reading.
    Read {
        /// As what it is read.
        edition: u32,
        /// The bytes.
        packet: Vec<u8>,
    },
    /// The writer.
    Write {
        /// The bytes.
        sheet: Vec<u8>,
    },
}

/// A call whose answer or lent memory is not what it is held against, with all that it takes to call it again.
#[derive(Clone, Debug)]
pub struct Case {
    /// What kind of packet or sheet it was.
    pub kind: &'static str,
    /// The run's seed.
    pub seed: u64,
    /// The number of the case in its run.
    pub index: u64,
    /// What was called.
    pub call: Call,
    /// How many bytes were lent.
    pub lent: usize,
    /// What differs.
    pub what: String,
    /// The verified library's answer.
    pub verified: Answer,
    /// What it is held against.
    pub other: Answer,
}

impl fmt::Display for Case {
    fn fmt(&self, f: &mut fmt::Formatter<'_>) -> fmt::Result {
        writeln!(f, "{}", self.what)?;
        writeln!(f, "kind {}, seed {}, index {}", self.kind, self.seed, self.index)?;
        writeln!(f, "verified: {} {:?}", self.verified, self.verified)?;
        writeln!(f, "other:    {} {:?}", self.other, self.other)?;
        let bytes = match &self.call {
            Call::Read { edition, packet } => {
                writeln!(f, "edition {edition}, {} bytes of sheet lent, packet of {} bytes:", self.lent, packet.len())?;
                packet
            }
            Call::Write { sheet } => {
                writeln!(f, "writer, {} bytes of packet lent, sheet of {} bytes:", self.lent, sheet.len())?;
                sheet
            }
        };
        bytes.iter().try_for_each(|byte| write!(f, "{byte:02x}"))
    }
}

/// What a comparison gives, or the case in which there is a difference.
pub type Compared<T> = Result<T, Box<Case>>;

/// Bytes in front of and behind lent memory, which no call may touch.
const GUARD: usize = 32;

/// Lent memory, filled with a pattern before each call.
#[derive(Default)]
struct Lent {
    bytes: Vec<u8>,
}

impl Lent {
    fn fill(&mut self, pattern: &[u8]) {
        self.bytes.clear();
        self.bytes.extend_from_slice(pattern);
    }

    fn memory(&mut self) -> &mut [u8] {
        let end = self.bytes.len() - GUARD;
        &mut self.bytes[GUARD..end]
    }

    /// The first bytes of the memory.
    fn front(&self, length: usize) -> &[u8] {
        &self.bytes[GUARD..GUARD + length]
    }
}

/// A run of comparisons, with its counts and its lent memory.
pub struct Comparison {
    /// What has been seen.
    pub tally: Tally,
    kind: &'static str,
    seed: u64,
    index: u64,
    random: Random,
    pattern: Vec<u8>,
    ours: Lent,
    theirs: Lent,
}

/// The functions that read.
type Reader = fn(u32, &[u8], &mut [u8]) -> Answer;

impl Comparison {
    /// A run that has seen nothing yet.
    pub fn new(seed: u64) -> Comparison {
        let random = Random::new(seed);
        let (ours, theirs) = (Lent::default(), Lent::default());
        Comparison { tally: Tally::default(), kind: "none", seed, index: 0, random, pattern: Vec::new(), ours, theirs }
    }

    /// Begins a case. What is lent to its calls depends on the seed and the index alone.
    pub fn begin(&mut self, kind: &'static str, index: u64) {
        self.kind = kind;
        self.index = index;
        self.random = Random::of_case(!self.seed, index);
        self.tally.begin(kind);
    }

    /// Where in the pattern the lent memory and its guards are taken from this time.
    fn take_pattern(&mut self, lent: usize) -> std::ops::Range<usize> {
        let first = self.random.below(256);
        let end = first + lent + 2 * GUARD;
        let mut more = Random::new(self.pattern.len() as u64);
        while self.pattern.len() < end {
            self.pattern.extend(more.number().to_be_bytes());
        }
        first..end
    }

    /// Reads with the verified library and with the others, and compares answers and lent memory.
    pub fn read(&mut self, edition: u32, packet: &[u8], lent: usize) -> Compared<Answer> {
        let pattern = self.take_pattern(lent);
        self.ours.fill(&self.pattern[pattern.clone()]);
        let verified = crate::library::read(edition, packet, self.ours.memory());
        let call = || Call::Read { edition, packet: packet.to_vec() };
        self.check_unchanged(pattern.clone(), verified, call)?;
        for (name, reader) in [("the independent", independent::read as Reader), ("the hand-written", by_hand::read)] {
            self.theirs.fill(&self.pattern[pattern.clone()]);
            let other = reader(edition, packet, self.theirs.memory());
            self.check_same(name, verified, other, call)?;
        }
        self.tally.read(edition, verified);
        Ok(verified)
    }

    /// Writes with the verified library and with the independent one, and compares answers and lent memory.
    pub fn write(&mut self, sheet: &[u8], lent: usize) -> Compared<Answer> {
        let pattern = self.take_pattern(lent);
        self.ours.fill(&self.pattern[pattern.clone()]);
        let verified = crate::library::write(sheet, self.ours.memory());
        let call = || Call::Write { sheet: sheet.to_vec() };
        self.check_unchanged(pattern.clone(), verified, call)?;
        self.theirs.fill(&self.pattern[pattern]);
        let other = independent::write(sheet, self.theirs.memory());
        self.check_same("the independent", verified, other, call)?;
        self.tally.write(verified);
        Ok(verified)
    }

    /// A refusal leaves all lent memory, an acceptance that behind the length that it answers; neither touches what is not lent.
    fn check_unchanged(&self, pattern: std::ops::Range<usize>, verified: Answer, call: impl Fn() -> Call) -> Compared<()> {
        let written = GUARD + verified.length as usize;
        let before = &self.pattern[pattern];
        let after = &self.ours.bytes;
        let is_same = written <= after.len() - GUARD && before[..GUARD] == after[..GUARD] && before[written..] == after[written..];
        if is_same {
            return Ok(());
        }
        self.differ("the verified library changed memory that it may not change", verified, verified, call())
    }

    fn check_same(&self, name: &str, verified: Answer, other: Answer, call: impl Fn() -> Call) -> Compared<()> {
        if verified != other {
            return self.differ(&format!("{name} implementation answers otherwise"), verified, other, call());
        }
        if self.ours.bytes == self.theirs.bytes {
            return Ok(());
        }
        let mut both = self.ours.bytes.iter().zip(&self.theirs.bytes);
        let at = both.position(|(ours, theirs)| ours != theirs).unwrap_or(0) as i64 - GUARD as i64;
        self.differ(&format!("{name} implementation leaves another byte {at} of the lent memory"), verified, other, call())
    }

    /// A difference in the last call.
    fn differ<T>(&self, what: &str, verified: Answer, other: Answer, call: Call) -> Compared<T> {
        let lent = self.ours.bytes.len().saturating_sub(2 * GUARD);
        self.differ_where(what, verified, other, call, lent)
    }

    fn differ_where<T>(&self, what: &str, verified: Answer, other: Answer, call: Call, lent: usize) -> Compared<T> {
        let (kind, seed, index) = (self.kind, self.seed, self.index);
        Err(Box::new(Case { kind, seed, index, call, lent, what: what.to_string(), verified, other }))
    }

    /// The lengths to lend where the output has so many bytes: too short, just enough and more.
    fn lengths(&mut self, length: u32) -> Vec<usize> {
        let length = length as usize;
        let any = self.random.below(2 * length);
        let mut lengths = vec![0, 1, any, length + 100];
        lengths.extend(length.saturating_sub(2)..=length + 2);
        lengths
    }

    /// A packet under one reading, given a sheet as long as the bound first and then sheets of other lengths. The answer is that for the
    /// bound, and it is not row 16.
    pub fn reading(&mut self, edition: u32, packet: &[u8]) -> Compared<Answer> {
        let bound = independent::sheet_bound(packet.len());
        let answer = self.read(edition, packet, bound)?;
        if answer.number == 16 {
            return self.differ("the bound is not enough", answer, Answer::default(), read_call(edition, packet));
        }
        let mut lengths = if answer.is_accepted() { self.lengths(answer.length) } else { vec![0, self.random.below(200)] };
        // More than enough, also for a packet that is too long, for which the bound is 0.
        let ample = if packet.len() > crate::library::LONGEST_PACKET { crate::library::LONGEST_SHEET } else { bound };
        lengths.push(ample + self.random.below(100));
        for lent in lengths {
            let again = self.read(edition, packet, lent)?;
            let due = if answer.is_accepted() && lent < answer.length as usize { Answer::refused(16, 0, 0) } else { answer };
            if again != due {
                return self.differ("the answer goes by the lent length otherwise than row 16", again, due, read_call(edition, packet));
            }
        }
        Ok(answer)
    }

    /// A packet under both readings, and whatever the demands say of it. Gives the answers of the Edition 1 and the Edition 3 reading.
    pub fn packet(&mut self, packet: &[u8]) -> Compared<(Answer, Answer)> {
        let any = self.random.number() as u32;
        let edition = self.random.pick([0, 2, 4, 13, 31, 257, 259, u32::MAX, 1 << 31 | 3, any]);
        self.read(edition, packet, independent::sheet_bound(packet.len()))?;
        let older = self.reading(1, packet)?;
        let newer = self.reading(3, packet)?;
        if newer.is_accepted() {
            self.read(3, packet, newer.length as usize)?;
            let sheet = self.ours.front(newer.length as usize).to_vec();
            self.tally.records(&sheet);
            self.written_back(packet, &sheet, newer)?;
            if packet.first() == Some(&b'3') {
                self.editions(packet, &sheet, newer)?;
            } else {
                self.alike(packet, &sheet, newer)?;
            }
        }
        Ok((older, newer))
    }

    /// Demand 2: the sheet of an accepted packet is written back to that packet with the same counts, into any buffer long enough.
    fn written_back(&mut self, packet: &[u8], sheet: &[u8], reading: Answer) -> Compared<()> {
        for lent in self.lengths(packet.len() as u32) {
            let answer = self.write(sheet, lent)?;
            let accepted = Answer { length: packet.len() as u32, ..reading };
            let due = if lent < packet.len() { Answer::refused(20, 0, 0) } else { accepted };
            let call = || Call::Write { sheet: sheet.to_vec() };
            if answer != due {
                return self.differ("the sheet of a packet is not written back", answer, due, call());
            }
            if answer.is_accepted() && self.ours.front(packet.len()) != packet {
                return self.differ("the sheet of a packet is written back to another packet", answer, due, call());
            }
        }
        Ok(())
    }

    /// Demand 3, of a version 3 packet that the Edition 3 reading accepts.
    fn editions(&mut self, packet: &[u8], newer_sheet: &[u8], newer: Answer) -> Compared<()> {
        let older = self.read(1, packet, newer_sheet.len())?;
        let due = match independent::first_new(packet) {
            Some((segment, field)) => Answer::refused(15, segment, field),
            None => newer,
        };
        if older != due {
            return self.differ("the Edition 1 reading does not go by what is new", older, due, read_call(1, packet));
        }
        if !older.is_accepted() {
            return Ok(());
        }
        let mut filled = self.ours.front(newer_sheet.len()).to_vec();
        if filled != withheld(newer_sheet) {
            return self.differ("the Edition 1 sheet is not the Edition 3 sheet without D27 and J26", older, newer, read_call(1, packet));
        }
        independent::fill_in(&mut filled, newer_sheet);
        let lent = packet.len() + self.random.below(50);
        let written = self.write(&filled, lent)?;
        let due = Answer { length: packet.len() as u32, ..newer };
        if written != due || self.ours.front(packet.len()) != packet {
            return self.differ("the filled in sheet is not written back to the packet", written, due, Call::Write { sheet: filled });
        }
        Ok(())
    }

    /// A version 1 packet reads alike under both readings.
    fn alike(&mut self, packet: &[u8], newer_sheet: &[u8], newer: Answer) -> Compared<()> {
        let older = self.read(1, packet, newer_sheet.len())?;
        if older != newer || self.ours.front(newer_sheet.len()) != newer_sheet {
            return self.differ("a version 1 packet does not read alike under both readings", older, newer, read_call(1, packet));
        }
        Ok(())
    }

    /// A sheet given to the writer with a long buffer first and then with others. The answer is that for the long one.
    pub fn sheet(&mut self, sheet: &[u8]) -> Compared<Answer> {
        // No record has a segment of twice its own length.
        let ample = 2 * sheet.len() + self.random.below(100);
        let answer = self.write(sheet, ample)?;
        if !answer.is_accepted() {
            for lent in [0, self.random.below(200)] {
                let again = self.write(sheet, lent)?;
                if again != answer {
                    return self.differ("a refusal goes by the lent length", again, answer, Call::Write { sheet: sheet.to_vec() });
                }
            }
            return Ok(answer);
        }
        let packet = self.ours.front(answer.length as usize).to_vec();
        let reading = self.read(3, &packet, sheet.len())?;
        let due = Answer { length: sheet.len() as u32, ..answer };
        if reading != due || self.ours.front(sheet.len()) != sheet {
            return self.differ("the written packet does not read to the sheet", reading, due, read_call(3, &packet));
        }
        self.tally.records(sheet);
        self.written_back(&packet, sheet, reading)?;
        Ok(answer)
    }

    /// Holds an answer against the one that a packet was made for.
    pub fn expect(&self, answer: Answer, due: Answer, call: Call) -> Compared<()> {
        if answer == due {
            return Ok(());
        }
        let lent = match &call {
            Call::Read { packet, .. } => independent::sheet_bound(packet.len()),
            Call::Write { sheet } => 2 * sheet.len(),
        };
        self.differ_where("the answer is not the one that the case is aimed at", answer, due, call, lent)
    }

    /// A case that the generator did not make.
    pub fn not_made(&self, call: Call) -> Compared<()> {
        self.differ_where("the generator made no such case", Answer::default(), Answer::default(), call, 0)
    }
}

/// The call of a reading.
pub fn read_call(edition: u32, packet: &[u8]) -> Call {
    Call::Read { edition, packet: packet.to_vec() }
}

/// The Edition 3 sheet with D27, J26 and their marks zeroed.
pub fn withheld(sheet: &[u8]) -> Vec<u8> {
    let mut bytes = sheet.to_vec();
    let mut at = 1;
    for record in split(sheet) {
        let end = at + record.body.len();
        match record.kind {
            3 => {
                bytes[at + D27_PLACE..at + D27_PLACE + 2].fill(0);
                bytes[end - 1] = 0;
            }
            8 => {
                bytes[at + J26_PLACE] = 0;
                bytes[end - 1] = 0;
            }
            _ => {}
        }
        at = end + 1;
    }
    bytes
}
