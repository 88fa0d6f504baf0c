//! `gmti sheet` and `gmti write`: one packet to its sheet, and back.
use crate::failure::Failure;
use crate::files::{self, Work};
use crate::usage::{Asked, Status};
use gmti::{Refusal, LONGEST_PACKET, LONGEST_SHEET};

pub fn read(asked: &Asked) -> Result<Status, Failure> {
    let edition = asked.edition();
    let done = files::on_each(asked, |work| {
        // One byte more than any packet has is enough to see that this is none.
        let packet = work.bytes(LONGEST_PACKET + 1)?;
        let mut lent = vec![0; LONGEST_SHEET];
        tell(work, gmti::read(edition, &packet, &mut lent).map(|accepted| accepted.sheet.bytes()))
    })?;
    Ok(done.status(|status| *status))
}

pub fn write(asked: &Asked) -> Result<Status, Failure> {
    let done = files::on_each(asked, |work| {
        let sheet = work.bytes(LONGEST_SHEET + 1)?;
        if sheet.len() > LONGEST_SHEET {
            work.output.borrow_mut().say(&format!("{}: longer than any sheet\n", work.input.in_line()))?;
            return Ok(Status::Refused);
        }
        let mut lent = vec![0; LONGEST_PACKET];
        tell(work, gmti::write(&sheet, &mut lent).map(|written| written.packet))
    })?;
    Ok(done.status(|status| *status))
}

/// Writes the bytes, or says why there are none.
fn tell(work: &Work<'_>, made: Result<&[u8], Refusal>) -> Result<Status, Failure> {
    let mut output = work.output.borrow_mut();
    match made {
        Ok(bytes) => {
            output.gathered().extend_from_slice(bytes);
            Ok(Status::Clean)
        }
        Err(refusal) => {
            output.say(&format!("{}: {}: {refusal}\n", work.input.in_line(), refusal.numbers()))?;
            Ok(Status::Refused)
        }
    }
}
