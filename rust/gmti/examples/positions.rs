//! Reads recordings as Edition 3, the files that are named or else standard input, and prints each target's latitude and longitude in
//! degrees. Refused packets and skipped ranges are reported on standard error.
use gmti::{Edition, Found, RecordingReader};
use std::fs::File;
use std::io::{self, Read, Write};

/// The length of a record of each kind, its kind byte included. There is no kind 0.
const RECORD_LENGTHS: [usize; 13] = [0, 33, 40, 88, 45, 25, 34, 6, 70, 15, 24, 67, 9];

fn print_positions(name: &str, source: impl Read) -> io::Result<()> {
    let mut recording = RecordingReader::new(source);
    let mut sheet = vec![0; gmti::LONGEST_SHEET];
    while let Some(found) = recording.next_found()? {
        match found {
            Found::Packet { offset, bytes } => match gmti::read(Edition::Three, bytes, &mut sheet) {
                Ok(accepted) => print_targets(accepted.sheet.bytes())?,
                Err(refusal) => eprintln!("{name}: offset {offset}, {} bytes refused: {refusal}", bytes.len()),
            },
            Found::Skipped { offset, length, reason } => eprintln!("{name}: offset {offset}, {length} bytes skipped: {reason}"),
        }
    }
    Ok(())
}

/// Prints the position of each target on a sheet. A target's record has kind 4, the latitude at 37 and the longitude at 41. (The package
/// does this by names, `sheet.records()`; here the bytes are walked, as in any other language.)
fn print_targets(sheet: &[u8]) -> io::Result<()> {
    let mut record = sheet;
    while !record.is_empty() {
        if record[0] == 4 {
            let latitude = i32::from_be_bytes([record[37], record[38], record[39], record[40]]);
            let longitude = u32::from_be_bytes([record[41], record[42], record[43], record[44]]);
            writeln!(io::stdout(), "{:.6} {:.6}", f64::from(latitude) / 1e6, f64::from(longitude) / 1e6)?;
        }
        record = &record[RECORD_LENGTHS[record[0] as usize]..];
    }
    Ok(())
}

fn main() -> io::Result<()> {
    let mut names = std::env::args().skip(1).peekable();
    if names.peek().is_none() {
        return print_positions("standard input", io::stdin());
    }
    names.try_for_each(|name| print_positions(&name, File::open(&name)?))
}
