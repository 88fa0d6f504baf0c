//! The page of a packet: its records with their fields, in one column or two.
use super::values::{hex, runs, words};
use crate::check::line;
use gmti::{Edition, Field, Kind, Record, Value};

/// Where the columns begin.
const LABEL: usize = 8;
const NAME: usize = 28;
const VALUE: usize = 27;

/// The page of a packet that is being written.
pub struct Page<'p> {
    pub to: &'p mut Vec<u8>,
    /// The edition of the packet's version.
    pub version: Edition,
    /// The editions that it is read as, a column each.
    pub columns: &'p [Edition],
    segments: usize,
    targets: usize,
    scatterers: usize,
    /// The text or body whose pieces are being gathered, and whether it is a text.
    gathered: Vec<u8>,
    is_text: bool,
}

impl<'p> Page<'p> {
    pub fn new(to: &'p mut Vec<u8>, version: Edition, columns: &'p [Edition]) -> Page<'p> {
        Page { to, version, columns, segments: 0, targets: 0, scatterers: 0, gathered: Vec::new(), is_text: false }
    }

    /// Whether a column is an Edition 1 reading of a version 3 packet.
    fn is_older(&self) -> bool {
        self.version == Edition::Three && self.columns.contains(&Edition::One)
    }

    /// The names of the columns, where more than one reading was asked for. Below one that refuses stands what is new.
    pub fn head(&mut self, names: &[String]) {
        if names.len() > 1 {
            let columns: String = names.iter().map(|name| format!("{name:<VALUE$}")).collect();
            line(self.to, format_args!("\n{:width$}{}", "", columns.trim_end(), width = 4 + LABEL + NAME));
        }
    }

    /// Sets out a record: the same one of each reading's sheet.
    pub fn record(&mut self, records: &[Record<'_>]) {
        match records[0] {
            Record::Piece(piece) => return self.gathered.extend_from_slice(piece.bytes()),
            Record::Scatterer(_) => return self.scatterer(&records[0]),
            _ => self.end_pieces(),
        }
        self.is_text = records[0].kind() == Kind::Text;
        self.title(&records[0]);
        self.fields(records);
    }

    fn title(&mut self, record: &Record<'_>) {
        if let Record::Target(target) = record {
            self.targets += 1;
            let [latitude, longitude] = [i64::from(target.latitude()), i64::from(target.longitude())].map(degrees);
            return line(self.to, format_args!("\n  target {}: latitude {latitude}, longitude {longitude}", self.targets));
        }
        if let Record::Header(_) = record {
            return line(self.to, format_args!("\n  header"));
        }
        self.segments += 1;
        (self.targets, self.scatterers) = (0, 0);
        let name = record.segment_type().and_then(gmti::segment_name).unwrap_or_default();
        let remark = match record {
            Record::Hrr(_) => ", new in Edition 3",
            Record::Opaque(_) => ", kept as it is",
            _ => "",
        };
        line(self.to, format_args!("\n  segment {}: {name}{remark}", self.segments));
    }

    /// A line for each field that has a value or is withheld, and one for all that are absent.
    fn fields(&mut self, records: &[Record<'_>]) {
        let first = &records[0];
        let fields = first.kind().fields().iter().filter(|field| !["latitude", "longitude"].contains(&field.label));
        let (absent, there): (Vec<_>, Vec<_>) = fields.partition(|field| first.value(field) == Value::Absent);
        for field in there {
            self.field(field, records);
        }
        if !absent.is_empty() {
            line(self.to, format_args!("    {:<LABEL$}{}", "absent", runs(&absent)));
        }
    }

    fn field(&mut self, field: &Field, records: &[Record<'_>]) {
        let mut values: Vec<String> = records.iter().map(|record| words(field, record.value(field), self.version)).collect();
        values.extend(self.remark(field, &records[0]));
        // A number of the standard names a field; what has none there, the length of a text, has its name alone.
        let label = if field.number() == 0 { "" } else { field.label };
        // A value that takes more than its column still has a space behind it.
        let columns: String = values.iter().map(|value| format!("{value:<width$} ", width = VALUE - 1)).collect();
        line(self.to, format_args!("    {label:<LABEL$}{:<NAME$}{}", field.name, columns.trim_end()));
    }

    /// What is to be said of a field beside its value.
    fn remark(&self, field: &Field, record: &Record<'_>) -> Option<String> {
        let new = self.version == Edition::Three && is_new(field, record);
        match field.differs {
            _ if new && field.label == "D1" => Some("announces D32.18, new in Edition 3".to_string()),
            _ if new => Some("new in Edition 3".to_string()),
            Some((_, older)) if self.version == Edition::One => Some(format!("Edition 1: {older}")),
            Some((newer, older)) if self.is_older() => Some(format!("! {newer}; Edition 1: {older}")),
            _ => None,
        }
    }

    /// A scatterer in a line.
    fn scatterer(&mut self, record: &Record<'_>) {
        self.scatterers += 1;
        let shown = |field: &&Field| record.value(field) != Value::Absent;
        let value = |field: &Field| format!("{} {}", field.name, words(field, record.value(field), self.version));
        let values: Vec<String> = record.kind().fields().iter().filter(shown).map(value).collect();
        line(self.to, format_args!("    scatterer {}: {}", self.scatterers, values.join(", ")));
    }

    /// The text or body of the segment before, once its pieces are all there.
    pub fn end_pieces(&mut self) {
        let gathered = std::mem::take(&mut self.gathered);
        let rows: Vec<String> = match self.is_text {
            // A carriage return or a form feed by itself would move about on a terminal.
            true => String::from_utf8_lossy(&gathered).lines().map(|row| row.replace('\r', "\\r").replace('\x0C', "\\f")).collect(),
            false => gathered.chunks(16).map(hex).collect(),
        };
        for (place, row) in rows.iter().enumerate() {
            let label = if self.is_text && place == 0 { "F3" } else { "" };
            line(self.to, format_args!("    {label:<LABEL$}{row}"));
        }
    }
}

/// Whether this field of a version 3 packet holds something that is new in Edition 3.
fn is_new(field: &Field, record: &Record<'_>) -> bool {
    match (record, field.label) {
        (Record::Dwell(dwell), "D1") => dwell.announces(31 + 18),
        (Record::Dwell(dwell), "D28" | "D29" | "D30") => (28..=30).any(|number| !dwell.announces(number)),
        (Record::Target(_), "D32.18") => true,
        (Record::Job(job), "J14") => {
            gmti::mode_system(Edition::One, job.radar_mode()) != gmti::mode_system(Edition::Three, job.radar_mode())
        }
        _ => false,
    }
}

/// Microdegrees as degrees.
fn degrees(microdegrees: i64) -> String {
    let sign = if microdegrees < 0 { "-" } else { "" };
    let [whole, decimals] = [microdegrees.abs() / 1_000_000, microdegrees.abs() % 1_000_000];
    format!("{sign}{whole}.{decimals:06}")
}
