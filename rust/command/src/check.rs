//! `gmti check`: which packets are refused, and why, and counts.
use crate::failure::Failure;
use crate::files::{self, Work};
use crate::usage::{Asked, Status};
use gmti::{Accepted, Edition, Found, Refusal, LONGEST_SHEET};
use std::collections::BTreeMap;
use std::fmt;
use std::io::Write;
use std::sync::{Mutex, PoisonError};

/// The counts of a recording, or of several.
#[derive(Default)]
struct Tally {
    packets: u64,
    refused: BTreeMap<u32, u64>,
    segments: u64,
    dwells: u64,
    targets: u64,
    skipped: u64,
    ranges: u64,
}

pub fn run(asked: &Asked) -> Result<Status, Failure> {
    let edition = asked.edition();
    let all = Mutex::new(Tally::default());
    let done = files::on_each(asked, |work| {
        let (tally, ended) = check(work, edition);
        // Of one that cannot be opened nothing is told but that.
        if asked.inputs.len() > 1 && (ended.is_ok() || tally.status() != Status::Clean || tally.packets > 0) {
            line(work.output.borrow_mut().gathered(), format_args!("{}: {tally}", work.input.in_line()));
        }
        // What a recording gave before it failed is counted too.
        all.lock().unwrap_or_else(PoisonError::into_inner).add(&tally);
        ended.map(|()| tally.status())
    })?;
    done.streams.write(all.into_inner().unwrap_or_else(PoisonError::into_inner).table().as_bytes())?;
    Ok(done.status(|status| *status))
}

/// Reads every packet of a recording, as far as it can be read.
fn check(work: &Work<'_>, edition: Edition) -> (Tally, Result<(), Failure>) {
    let name = work.input.in_line();
    let mut tally = Tally::default();
    let mut lent = vec![0; LONGEST_SHEET];
    let ended = work.walk(|found, output| {
        match found {
            Found::Packet { offset, bytes } => match gmti::read(edition, bytes, &mut lent) {
                Ok(accepted) => tally.accept(&accepted),
                Err(refusal) => {
                    tally.refuse(&refusal);
                    let length = bytes.len();
                    line(output.gathered(), format_args!("{name}: offset {offset}, {length} bytes: {}: {refusal}", refusal.numbers()));
                }
            },
            Found::Skipped { offset, length, reason } => {
                tally.skip(length);
                line(output.gathered(), format_args!("{name}: offset {offset}, {} skipped: {reason}", counted(length, "byte")));
            }
        }
        output.write_full()
    });
    (tally, ended)
}

/// A number of things, as `1 byte` and `2 bytes`.
pub fn counted(count: u64, thing: &str) -> String {
    format!("{count} {thing}{}", if count == 1 { "" } else { "s" })
}

/// Adds a line.
pub fn line(to: &mut Vec<u8>, words: fmt::Arguments<'_>) {
    // Writing to memory cannot fail.
    let _ = to.write_fmt(words);
    to.push(b'\n');
}

impl Tally {
    fn accept(&mut self, accepted: &Accepted<'_>) {
        self.packets += 1;
        self.segments += u64::from(accepted.segments);
        self.dwells += u64::from(accepted.dwells);
        self.targets += u64::from(accepted.targets);
    }

    fn refuse(&mut self, refusal: &Refusal) {
        self.packets += 1;
        *self.refused.entry(refusal.number()).or_default() += 1;
    }

    fn skip(&mut self, length: u64) {
        self.skipped += length;
        self.ranges += 1;
    }

    fn add(&mut self, other: &Tally) {
        self.packets += other.packets;
        self.segments += other.segments;
        self.dwells += other.dwells;
        self.targets += other.targets;
        self.skipped += other.skipped;
        self.ranges += other.ranges;
        for (number, count) in &other.refused {
            *self.refused.entry(*number).or_default() += count;
        }
    }

    fn all_refused(&self) -> u64 {
        self.refused.values().sum()
    }

    fn status(&self) -> Status {
        if self.refused.is_empty() && self.ranges == 0 {
            Status::Clean
        } else {
            Status::Refused
        }
    }

    /// The counts, a line each.
    fn table(&self) -> String {
        let refused = self.all_refused();
        let counts = [("packets", self.packets), ("accepted", self.packets - refused), ("refused", refused)];
        let by_number = self.refused.iter().map(|(number, count)| (format!("  with {number}"), *count));
        let rest = [("segments", self.segments), ("dwells", self.dwells), ("targets", self.targets), ("bytes skipped", self.skipped)];
        let named = |counts: &[(&str, u64)]| counts.iter().map(|(name, count)| (name.to_string(), *count)).collect::<Vec<_>>();
        let lines = named(&counts).into_iter().chain(by_number).chain(named(&rest));
        lines.map(|(name, count)| format!("{name:<14}{count:>12}\n")).collect()
    }
}

/// The counts in a line.
impl fmt::Display for Tally {
    fn fmt(&self, f: &mut fmt::Formatter<'_>) -> fmt::Result {
        let refused = self.all_refused();
        write!(f, "{}, {} accepted, {refused} refused", counted(self.packets, "packet"), self.packets - refused)?;
        for (number, count) in &self.refused {
            write!(f, ", {count} with {number}")?;
        }
        let things =
            [(self.segments, "segment"), (self.dwells, "dwell"), (self.targets, "target")].map(|(count, thing)| counted(count, thing));
        write!(f, "; {}; {} skipped", things.join(", "), counted(self.skipped, "byte"))
    }
}
