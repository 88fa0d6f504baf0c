//! What a run of comparisons has seen, so that a run that tries too little can be told.
use crate::generator::records::{split, Record};
use crate::generator::tables::RECORD_LENGTHS;
use crate::library::Answer;
use std::collections::BTreeMap;
use std::fmt;

/// One more than the greatest number that a reading or the writer answers.
const ROWS: usize = 23;

/// Counts of cases, calls, answers and records.
#[derive(Clone, Debug, Default)]
pub struct Tally {
    /// Cases by kind.
    pub kinds: BTreeMap<&'static str, u64>,
    /// Answers of the Edition 1 reading by row; 0 for acceptances.
    pub older: [u64; ROWS],
    /// Those of the Edition 3 reading.
    pub newer: [u64; ROWS],
    /// Those of readings as any other edition.
    pub others: [u64; ROWS],
    /// Those of the writer.
    pub writer: [u64; ROWS],
    /// Answers by row and field, of the rows that name one.
    pub fields: BTreeMap<(u32, u32), u64>,
    /// Records by kind, on the sheets of accepted packets; 0 is unused.
    pub records: [u64; RECORD_LENGTHS.len()],
    /// Those sheets by what the pairs of D2 and D3 on them do, in the order of [`LIKENESSES`]; a sheet counts once for each.
    pub pairs: [u64; LIKENESSES.len()],
}

/// D2 and D3.
type Pair = [u32; 2];

/// Whether something holds of a pair, given those before it.
type Likeness = fn(&[Pair], Pair) -> bool;

/// What the pair of a dwell can be to those before it on its sheet. Each tells some wrong count of dwells from the right one.
pub const LIKENESSES: [(&str, Likeness); 7] = [
    ("above the last", |before, pair| before.last().is_some_and(|last| *last < pair)),
    ("below the last", |before, pair| before.last().is_some_and(|last| *last > pair)),
    ("the last again", |before, pair| before.last() == Some(&pair)),
    ("an earlier again", |before, pair| before.last() != Some(&pair) && before.contains(&pair)),
    ("another D3 alone", |before, [d2, d3]| before.iter().any(|other| other[0] == d2 && other[1] != d3)),
    ("another D2 alone", |before, [d2, d3]| before.iter().any(|other| other[0] != d2 && other[1] == d3)),
    ("D2 and D3 swapped", |before, [d2, d3]| d2 != d3 && before.contains(&[d3, d2])),
];

/// The rows whose answers name a field.
const ROWS_WITH_FIELDS: [u32; 6] = [5, 10, 11, 13, 14, 15];

impl Tally {
    /// Counts a case.
    pub fn begin(&mut self, kind: &'static str) {
        *self.kinds.entry(kind).or_default() += 1;
    }

    /// Counts the answer of a reading.
    pub fn read(&mut self, edition: u32, answer: Answer) {
        let rows = match edition {
            1 => &mut self.older,
            3 => &mut self.newer,
            _ => &mut self.others,
        };
        count(rows, answer);
        if ROWS_WITH_FIELDS.contains(&answer.number) {
            *self.fields.entry((answer.number, answer.field)).or_default() += 1;
        }
    }

    /// Counts the answer of the writer.
    pub fn write(&mut self, answer: Answer) {
        count(&mut self.writer, answer);
    }

    /// Counts the records of a sheet, and what its pairs of D2 and D3 do.
    pub fn records(&mut self, sheet: &[u8]) {
        let records = split(sheet);
        for record in &records {
            self.records[usize::from(record.kind)] += 1;
        }
        let pairs: Vec<Pair> = records.iter().filter(|record| record.kind == 3).map(Record::pair).collect();
        for (count, (_, is_like)) in self.pairs.iter_mut().zip(LIKENESSES) {
            *count += u64::from((0..pairs.len()).any(|at| is_like(&pairs[..at], pairs[at])));
        }
    }

    /// How many cases there were.
    pub fn cases(&self) -> u64 {
        self.kinds.values().sum()
    }

    /// How many calls of the verified library were compared.
    pub fn calls(&self) -> u64 {
        [self.older, self.newer, self.others, self.writer].iter().flatten().sum()
    }

    /// The fields that a row has named.
    pub fn fields_of(&self, row: u32) -> Vec<u32> {
        self.fields.keys().filter(|(found, _)| *found == row).map(|(_, field)| *field).collect()
    }

    /// The rows that one of the readings has answered.
    pub fn rows_read(&self) -> Vec<usize> {
        (1..ROWS).filter(|row| self.older[*row] + self.newer[*row] + self.others[*row] > 0).collect()
    }

    /// The rows that the writer has answered.
    pub fn rows_written(&self) -> Vec<usize> {
        (1..ROWS).filter(|row| self.writer[*row] > 0).collect()
    }
}

fn count(rows: &mut [u64; ROWS], answer: Answer) {
    if let Some(row) = rows.get_mut(answer.number as usize) {
        *row += 1;
    }
}

impl fmt::Display for Tally {
    fn fmt(&self, f: &mut fmt::Formatter<'_>) -> fmt::Result {
        writeln!(f, "{:32} {:>9}", "cases", self.cases())?;
        for (kind, count) in &self.kinds {
            writeln!(f, "  {kind:30} {count:>9}")?;
        }
        writeln!(f, "{:32} {:>9}", "calls", self.calls())?;
        writeln!(f, "{:10} {:>9} {:>9} {:>9} {:>9}", "row", "Edition 1", "Edition 3", "others", "writer")?;
        for row in 0..ROWS {
            let name = if row == 0 { "accepted".to_string() } else { row.to_string() };
            let counts = [self.older[row], self.newer[row], self.others[row], self.writer[row]];
            writeln!(f, "{name:10} {:>9} {:>9} {:>9} {:>9}", counts[0], counts[1], counts[2], counts[3])?;
        }
        for row in ROWS_WITH_FIELDS {
            let fields: Vec<String> = self.fields_of(row).iter().map(u32::to_string).collect();
            writeln!(f, "fields of row {row}: {}", fields.join(" "))?;
        }
        let records: Vec<String> = (1..RECORD_LENGTHS.len()).map(|kind| format!("{kind}: {}", self.records[kind])).collect();
        writeln!(f, "records by kind {}", records.join(", "))?;
        let pairs: Vec<String> = LIKENESSES.iter().zip(self.pairs).map(|((name, _), count)| format!("{name}: {count}")).collect();
        write!(f, "sheets by pairs of D2 and D3 {}", pairs.join(", "))
    }
}
