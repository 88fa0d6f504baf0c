//! `gmti targets`: a line for each target.
use crate::check::counted;
use crate::decimal::{Line, Text};
use crate::failure::Failure;
use crate::files::{self, Work};
use crate::output::Output;
use crate::usage::{escaped, Asked, Format, Status};
use gmti::{Dwell, Edition, Field, Form, Found, Kind, Record, Sheet, Target, Value, LONGEST_SHEET};

/// The columns before those of the target itself: file, offset of the packet, P10, D2, D3, D6, and the position.
const FIRST: [&str; 8] = ["file", "offset", "P10", "D2", "D3", "D6", "latitude", "longitude"];

/// D32.1 to D32.18.
fn fields() -> &'static [Field] {
    &Kind::Target.fields()[..18]
}

pub fn run(asked: &Asked) -> Result<Status, Failure> {
    let edition = asked.edition();
    let first = asked.inputs.first();
    let done = files::on_each(asked, |work| {
        // The head stands before the lines of the first file, and of no other of the same name.
        if first.is_some_and(|first| std::ptr::eq(first, work.input)) {
            head(asked.format, work.output.borrow_mut().gathered());
        }
        export(work, edition, asked.format)
    })?;
    Ok(done.status(|status| *status))
}

/// The names of the columns, where a form has them in a line of their own.
fn head(format: Format, to: &mut Vec<u8>) {
    let labels: Vec<&str> = FIRST.into_iter().chain(fields().iter().map(|field| field.label)).collect();
    match format {
        Format::Tsv => to.extend_from_slice((labels.join("\t") + "\n").as_bytes()),
        Format::Csv => to.extend_from_slice((labels.join(",") + "\n").as_bytes()),
        Format::Jsonl => {}
    }
}

fn export(work: &Work<'_>, edition: Edition, format: Format) -> Result<Status, Failure> {
    let name = work.input.in_line();
    let mut lines = Lines::new(format, &work.input.name());
    let mut lent = vec![0; LONGEST_SHEET];
    let mut status = Status::Clean;
    work.walk(|found, output| {
        let words = match found {
            Found::Packet { offset, bytes } => match gmti::read(edition, bytes, &mut lent) {
                Ok(accepted) => return lines.add(offset, accepted.sheet, output),
                Err(refusal) => format!("{name}: offset {offset}, {} bytes: {}: {refusal}\n", bytes.len(), refusal.numbers()),
            },
            Found::Skipped { offset, length, reason } => {
                format!("{name}: offset {offset}, {} skipped: {reason}\n", counted(length, "byte"))
            }
        };
        status = Status::Refused;
        output.say(&words)
    })?;
    Ok(status)
}

/// What stands before a column's value.
fn before(format: Format, label: &str) -> String {
    match (format, label == FIRST[0]) {
        (Format::Tsv | Format::Csv, true) => String::new(),
        (Format::Tsv, _) => "\t".to_string(),
        (Format::Csv, _) => ",".to_string(),
        (Format::Jsonl, true) => format!("{{\"{label}\":"),
        (Format::Jsonl, _) => format!(",\"{label}\":"),
    }
}

/// What stands in the place of a value that is absent, and behind the last value.
fn absent_and_end(format: Format) -> (&'static str, &'static str) {
    match format {
        Format::Tsv | Format::Csv => ("", "\n"),
        Format::Jsonl => ("null", "}\n"),
    }
}

/// A file's name as a cell.
fn cell(format: Format, name: &str) -> String {
    match format {
        Format::Tsv => escaped(name),
        Format::Csv if name.contains([',', '"', '\n', '\r']) => format!("\"{}\"", name.replace('"', "\"\"")),
        Format::Csv => name.to_string(),
        Format::Jsonl => quoted(name),
    }
}

/// A name as JSON has it.
fn quoted(name: &str) -> String {
    let character = |c: char| match c {
        '"' | '\\' => format!("\\{c}"),
        c if c < ' ' => format!("\\u{:04x}", c as u32),
        c => c.to_string(),
    };
    format!("\"{}\"", name.chars().map(character).collect::<String>())
}

/// A value of a target's line: what stands before it, and where its record has it.
struct Column {
    before: Text,
    offset: usize,
    /// How many bits of the four bytes at the offset belong to what stands behind it.
    surplus: u32,
    is_signed: bool,
}

/// The columns of D32.1 to D32.18 that a mask announces, and what stands behind the last of them.
struct Plan {
    mask: [u8; 8],
    columns: Vec<Column>,
    end: Text,
}

impl Plan {
    /// The plan of a dwell's targets. What stands for absent fields is put before the next that is there, so that it takes no step of its own.
    fn new(format: Format, target: &Target<'_>) -> Plan {
        let (absent, end) = absent_and_end(format);
        let mut columns = Vec::new();
        let mut text = String::new();
        for field in fields() {
            text += &before(format, field.label);
            if Record::Target(*target).value(field) == Value::Absent {
                text += absent;
                continue;
            }
            let (before, surplus) = (Text::new(&text), 32 - 8 * field.width as u32);
            text.clear();
            columns.push(Column { before, offset: field.offset, surplus, is_signed: matches!(field.form, Form::Signed | Form::Sa32) });
        }
        Plan { mask: target.of_dwell().mask(), columns, end: Text::new(&(text + end)) }
    }
}

/// The lines of a recording's targets.
struct Lines {
    format: Format,
    /// What stands before the values of the first columns.
    before: Vec<Text>,
    of_file: String,
    /// What all lines of a packet begin with, then those of a dwell.
    of_packet: Line,
    of_dwell: Line,
    line: Line,
    /// The plans of the masks that were met, since a recording has few; and which of them is the dwell's.
    plans: Vec<Plan>,
    plan: usize,
}

/// So many plans are kept. A recording with more masks has them made anew.
const PLANS: usize = 64;

impl Lines {
    fn new(format: Format, name: &str) -> Lines {
        let before_each = FIRST.iter().map(|label| Text::new(&before(format, label))).collect();
        let of_file = before(format, FIRST[0]) + &cell(format, name);
        Lines {
            format,
            before: before_each,
            of_file,
            of_packet: Line::new(),
            of_dwell: Line::new(),
            line: Line::new(),
            plans: Vec::new(),
            plan: 0,
        }
    }

    /// Adds the lines of a packet's targets.
    fn add(&mut self, offset: u64, sheet: Sheet<'_>, output: &mut Output) -> Result<(), Failure> {
        for record in sheet.records() {
            match record {
                Record::Header(header) => self.begin_packet(offset, header.job()),
                Record::Dwell(dwell) => self.begin_dwell(&dwell),
                Record::Target(target) => {
                    self.choose_plan(&target);
                    self.target(&target, record.bytes(), output.gathered());
                    output.write_full()?;
                }
                _ => {}
            }
        }
        Ok(())
    }

    fn begin_packet(&mut self, offset: u64, job: u32) {
        self.of_packet.clear();
        self.of_packet.text(&self.before[1]);
        self.of_packet.wide_number(offset);
        self.of_packet.text(&self.before[2]);
        self.of_packet.number(job);
    }

    fn begin_dwell(&mut self, dwell: &Dwell<'_>) {
        self.of_dwell.clear();
        for (before, number) in self.before[3..].iter().zip([dwell.revisit().into(), dwell.dwell().into(), dwell.time()]) {
            self.of_dwell.text(before);
            self.of_dwell.number(number);
        }
    }

    /// Finds the plan of a target's mask, which mostly is that of the target before.
    fn choose_plan(&mut self, target: &Target<'_>) {
        let mask = target.of_dwell().mask();
        if self.plans.get(self.plan).is_some_and(|plan| plan.mask == mask) {
            return;
        }
        if let Some(found) = self.plans.iter().position(|plan| plan.mask == mask) {
            self.plan = found;
            return;
        }
        if self.plans.len() == PLANS {
            self.plans.clear();
        }
        self.plan = self.plans.len();
        self.plans.push(Plan::new(self.format, target));
    }

    fn target(&mut self, target: &Target<'_>, record: &[u8], to: &mut Vec<u8>) {
        let plan = &self.plans[self.plan];
        let line = &mut self.line;
        line.clear();
        line.text(&self.before[6]);
        line.degrees(target.latitude());
        line.text(&self.before[7]);
        line.degrees(target.longitude() as i32);
        values(plan, record, line);
        line.text(&plan.end);
        to.extend_from_slice(self.of_file.as_bytes());
        to.extend_from_slice(self.of_packet.bytes());
        to.extend_from_slice(self.of_dwell.bytes());
        to.extend_from_slice(line.bytes());
    }
}

/// Adds the values of the fields that are there. No field is the last four bytes of its record, so four can be taken at each.
fn values(plan: &Plan, record: &[u8], line: &mut Line) {
    for column in &plan.columns {
        line.text(&column.before);
        let [a, b, c, d] = record[column.offset..column.offset + 4] else { unreachable!("four bytes") };
        let four = u32::from_be_bytes([a, b, c, d]);
        match column.is_signed {
            true => line.signed(four as i32 >> column.surplus),
            false => line.number(four >> column.surplus),
        }
    }
}
