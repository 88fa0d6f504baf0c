//! The files of the programs: lines of vectors, and the sample packets.
use crate::editions::Editions;
use crate::parts::{every_kind, packet, trial};
use crate::trials::{Trial, Trials, LENT};
use crate::verdict::{verdict, Implementation, INDEPENDENT};
use crate::{lines, longest, modes};
use std::fmt::Write;
use testing::generator::records::{sheet_of, split};

/// A program reads no longer line than this, and `gmti_trials` lends no more than that.
pub const LONGEST_LINE: usize = 262_143;
pub const MOST_LENT: usize = 8192;

/// A file in the folder crates: its path and its content.
pub type File = (&'static str, Vec<u8>);

pub fn hex(bytes: &[u8]) -> String {
    bytes.iter().fold(String::new(), |mut text, byte| {
        let _ = write!(text, "{byte:02x}");
        text
    })
}

/// The bytes that hex digits spell, or the word for what is wrong with them.
fn unhex(text: &str) -> Result<Vec<u8>, &'static str> {
    let digits: Option<Vec<u32>> = text.chars().map(|c| c.to_digit(16)).collect();
    let digits = digits.ok_or("digit")?;
    if digits.len() % 2 == 1 {
        return Err("half");
    }
    Ok(digits.chunks(2).map(|two| (two[0] * 16 + two[1]) as u8).collect())
}

/// The number that digits spell, if it is at most this, or the word for what is wrong with it.
pub fn number(text: &str, most: usize) -> Result<usize, &'static str> {
    let is_number = !text.is_empty() && text.bytes().all(|c| c.is_ascii_digit());
    let value = if is_number { text.parse().ok() } else { None };
    value.filter(|value| *value <= most).ok_or("number")
}

/// `NAME: E LENT HEX`, with w in the place of the edition for the writer.
fn trial_line(trial: &Trial) -> String {
    let edition = trial.edition.map_or("w".to_string(), |edition| edition.to_string());
    format!("{}: {edition} {} {}\n", trial.name, trial.lent, hex(&trial.given))
}

/// `NAME: ANSWER HEX`: the answer and all lent bytes afterwards.
fn answer_line(trial: &Trial) -> String {
    let (answer, memory) = trial.answer();
    format!("{}: {answer} {}\n", trial.name, hex(&memory))
}

/// The files of the vectors and of the sample packets.
pub fn all(trials: &Trials, editions: &Editions) -> Vec<File> {
    let given: String = trials.trials.iter().map(trial_line).collect();
    let answers: String = trials.trials.iter().map(answer_line).collect();
    let packets: String = editions.packets.iter().map(|(name, packet)| format!("{name}: {}\n", hex(packet))).collect();
    let verdicts: String = editions.packets.iter().map(|(name, packet)| format!("{name}: {}\n", verdict(INDEPENDENT, packet))).collect();
    let (other_trials, other_editions) = (lines::trials(), lines::editions());
    let whole = packet(3, &every_kind());
    let sheet = sheet_of(3, &whole).unwrap_or_default();
    vec![
        ("gmti_trials/stdin", (given + &other_trials.given()).into_bytes()),
        ("gmti_trials/stdout", (answers + &other_trials.answers()).into_bytes()),
        ("gmti_editions/stdin", (packets + &other_editions.given()).into_bytes()),
        ("gmti_editions/stdout", (verdicts + &other_editions.answers()).into_bytes()),
        ("gmti_read/stdin", trial()),
        ("gmti_read/stdout", printed(&trial()).into_bytes()),
        ("gmti_sheet/args", b"3\n".to_vec()),
        ("gmti_sheet/stdin", whole.clone()),
        ("gmti_sheet/stdout", sheet.clone()),
        ("gmti_write/stdin", sheet),
        ("gmti_write/stdout", whole),
        ("gmti_longest/stdin", longest::GIVEN.to_vec()),
        ("gmti_longest/stdout", longest::written()),
        ("gmti_modes/stdin", modes::given().into_bytes()),
        ("gmti_modes/stdout", modes::lines().answers().into_bytes()),
    ]
}

/// What document 01's program prints of an accepted packet: the answer, then each target's latitude and longitude on a line.
fn printed(packet: &[u8]) -> String {
    let mut sheet = vec![0; 65_536];
    let answer = testing::independent::read(3, packet, &mut sheet);
    let mut lines = format!("{answer}\n");
    for target in split(&sheet[..answer.length as usize]).iter().filter(|record| record.kind == 4) {
        let _ = writeln!(lines, "{} {}", target.number(36, 4) as i32, target.number(40, 4));
    }
    lines
}

/// A line's answer, under the line's name; where the line has not the program's form, the word for what is wrong with it.
fn named(line: &str, answer: impl Fn(&str) -> Result<String, &'static str>) -> String {
    let name = line.split(':').next().unwrap_or_default();
    let rest = line[name.len()..].strip_prefix(": ").ok_or("form");
    let answer = rest.and_then(answer).unwrap_or_else(|word| format!("unread {word}"));
    format!("{name}: {answer}")
}

/// The line with which an implementation answers a line of `gmti_trials`.
pub fn answer_trial(by: Implementation, line: &str) -> String {
    named(line, |rest| {
        let words: Vec<&str> = rest.splitn(3, ' ').collect();
        let [edition, lent, given] = words[..] else { return Err("form") };
        let (is_writer, lent) = (edition == "w", number(lent, MOST_LENT));
        let edition = if is_writer { 0 } else { number(edition, u32::MAX as usize)? as u32 };
        let (mut memory, given) = (vec![LENT; lent?], unhex(given)?);
        let answer = if is_writer { (by.write)(&given, &mut memory) } else { (by.read)(edition, &given, &mut memory) };
        Ok(format!("{answer} {}", hex(&memory)))
    })
}

/// As above, for a line of `gmti_editions`.
pub fn answer_editions(by: Implementation, line: &str) -> String {
    named(line, |rest| Ok(verdict(by, &unhex(rest)?)))
}

/// Whether a line asks for the writer.
pub fn is_writing(line: &str) -> bool {
    line.split_once(": ").is_some_and(|(_, rest)| rest.starts_with("w "))
}
