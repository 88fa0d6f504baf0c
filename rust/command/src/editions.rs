//! `gmti editions`: of each packet whether an Edition 1 reading may be used.
use crate::check::{counted, line};
use crate::failure::Failure;
use crate::files::{self, Work};
use crate::usage::{Asked, Status};
use gmti::{Edition, Found, LONGEST_SHEET};

pub fn run(asked: &Asked) -> Result<Status, Failure> {
    let done = files::on_each(asked, judge)?;
    Ok(done.status(|status| *status))
}

/// A line for each packet, and for each skipped range. The status is that of the Edition 1 reading: it refuses whatever Edition 3 refuses,
/// and what is new.
fn judge(work: &Work<'_>) -> Result<Status, Failure> {
    let name = work.input.in_line();
    let mut status = Status::Clean;
    let mut lent = vec![0; LONGEST_SHEET];
    work.walk(|found, output| {
        let to = output.gathered();
        let is_alike = match found {
            Found::Packet { offset, bytes } => {
                let newer = gmti::read(Edition::Three, bytes, &mut lent).map(|_| ());
                let older = gmti::read(Edition::One, bytes, &mut lent).map(|_| ());
                let place = format_args!("{name}: offset {offset}");
                match (newer, older) {
                    (Err(refusal), _) => line(to, format_args!("{place}: refused: {}: {refusal}", refusal.numbers())),
                    (_, Err(refusal)) => line(to, format_args!("{place}: Edition 3 only: {}: {refusal}", refusal.numbers())),
                    (Ok(()), Ok(())) => line(to, format_args!("{place}: both")),
                }
                newer.is_ok() && older.is_ok()
            }
            Found::Skipped { offset, length, reason } => {
                line(to, format_args!("{name}: offset {offset}: {} skipped: {reason}", counted(length, "byte")));
                false
            }
        };
        if !is_alike {
            status = Status::Refused;
        }
        output.write_full()
    })?;
    Ok(status)
}
