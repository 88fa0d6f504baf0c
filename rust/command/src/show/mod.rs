//! `gmti show`: packets set out for a person to read.
mod page;
mod values;

use crate::check::{counted, line};
use crate::failure::Failure;
use crate::files::{self, Work};
use crate::usage::{Asked, Readings, Status};
use gmti::{Accepted, Edition, Found, Record, Refusal, LONGEST_SHEET};
use page::Page;

pub fn run(asked: &Asked) -> Result<Status, Failure> {
    let editions: &[Edition] = match asked.readings {
        Some(Readings::Both) => &[Edition::Three, Edition::One],
        Some(Readings::One(Edition::One)) => &[Edition::One],
        _ => &[Edition::Three],
    };
    let done = files::on_each(asked, |work| show(work, editions))?;
    Ok(done.status(|status| *status))
}

fn show(work: &Work<'_>, editions: &[Edition]) -> Result<Status, Failure> {
    let name = work.input.in_line();
    let mut lent = vec![vec![0; LONGEST_SHEET]; editions.len()];
    let mut status = Status::Clean;
    work.walk(|found, output| {
        let to = output.gathered();
        match found {
            Found::Packet { offset, bytes } => {
                line(to, format_args!("{name}: packet at offset {offset}, {} bytes", bytes.len()));
                let answers: Vec<_> =
                    editions.iter().zip(&mut lent).map(|(edition, lent)| (*edition, gmti::read(*edition, bytes, lent))).collect();
                if answers.iter().any(|(_, answer)| answer.is_err()) {
                    status = Status::Refused;
                }
                packet(to, &answers);
            }
            Found::Skipped { offset, length, reason } => {
                status = Status::Refused;
                line(to, format_args!("{name}: {} skipped at offset {offset}: {reason}", counted(length, "byte")));
            }
        }
        to.push(b'\n');
        output.write_full()
    })?;
    Ok(status)
}

/// What the readings answer, and the page of those that accept.
fn packet(to: &mut Vec<u8>, answers: &[(Edition, Result<Accepted<'_>, Refusal>)]) {
    answers.iter().for_each(|(edition, answer)| told(to, *edition, answer));
    let accepted: Vec<_> = answers.iter().filter_map(|(edition, answer)| Some((*edition, (*answer).ok()?))).collect();
    let Some((_, first)) = accepted.first() else { return };
    let columns: Vec<Edition> = accepted.iter().map(|(edition, _)| *edition).collect();
    let mut page = Page::new(to, version(first), &columns);
    page.head(&answers.iter().map(column).collect::<Vec<_>>());
    let mut others: Vec<_> = accepted[1..].iter().map(|(_, accepted)| accepted.sheet.records()).collect();
    // Accepted readings have the same records, but for what is withheld.
    for record in first.sheet.records() {
        let records: Vec<Record<'_>> = [record].into_iter().chain(others.iter_mut().filter_map(Iterator::next)).collect();
        page.record(&records);
    }
    page.end_pieces();
}

fn told(to: &mut Vec<u8>, edition: Edition, answer: &Result<Accepted<'_>, Refusal>) {
    let edition = edition.number();
    match answer {
        Ok(Accepted { segments, dwells, targets, .. }) => {
            line(to, format_args!("  Edition {edition} accepts: segments {segments}, dwells {dwells}, targets {targets}"));
        }
        Err(refusal) => {
            line(to, format_args!("  Edition {edition} refuses: {}: {refusal}", refusal.numbers()));
            line(to, format_args!("  What to do: {}", refusal.remedy()));
        }
    }
}

/// The name of a reading's column.
fn column((edition, answer): &(Edition, Result<Accepted<'_>, Refusal>)) -> String {
    let refused = if answer.is_err() { ": refused" } else { "" };
    format!("Edition {}{refused}", edition.number())
}

/// The edition of a packet's version, by P1.
fn version(accepted: &Accepted<'_>) -> Edition {
    match accepted.sheet.records().next() {
        Some(Record::Header(header)) if header.version().starts_with('1') => Edition::One,
        _ => Edition::Three,
    }
}
