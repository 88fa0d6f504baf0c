//! The lines of `gmti_modes`: every radar mode, then modes in other spellings, and lines that are not to be read.
use crate::files::number;
use crate::lines::Lines;
use crate::verdict::Implementation;
use testing::independent;

/// A line of so many bytes or more is too long, and is answered by its first so many.
const LONG: usize = 4096;

/// The modes from the first to the last: their systems in Edition 1 and in Edition 3, and whether they are new.
type Run = (u8, u8, &'static str, &'static str, &'static str);

/// By the tables 2-7.2, and by document 01's list of what is new.
const RUNS: [Run; 24] = [
    (0, 5, "Generic (1)", "Generic (1)", "not new"),
    (6, 10, "Reserved (0)", "Reserved (0)", "not new"),
    (11, 21, "Joint STARS (2)", "Joint STARS (2)", "not new"),
    (22, 30, "Reserved (0)", "Reserved (0)", "not new"),
    (31, 38, "ASARS-AIP (3)", "ASARS-AIP (3)", "not new"),
    (39, 50, "Reserved (0)", "Reserved (0)", "not new"),
    (51, 55, "ASARS-2 (4)", "ASARS-2 (4)", "not new"),
    (56, 60, "Reserved (0)", "Reserved (0)", "not new"),
    (61, 62, "TUAV (5)", "TUAV (5)", "not new"),
    (63, 65, "ARL-M (6)", "ARL-M (6)", "not new"),
    (66, 83, "Reserved (0)", "Reserved (0)", "not new"),
    (84, 86, "HORIZON (7)", "HORIZON (7)", "not new"),
    (87, 88, "CRESO (8)", "CRESO (8)", "not new"),
    (89, 90, "Reserved (0)", "Reserved (0)", "not new"),
    (91, 93, "ASTOR (9)", "Reserved (0)", "new"),
    (94, 95, "ASTOR (9)", "ASTOR (9)", "not new"),
    (96, 97, "Reserved (0)", "ASTOR (9)", "new"),
    (98, 100, "Reserved (0)", "Reserved (0)", "not new"),
    (101, 104, "Reserved (0)", "Lynx I/II (10)", "new"),
    (105, 110, "Reserved (0)", "Reserved (0)", "not new"),
    (111, 113, "Reserved (0)", "Global Hawk (11)", "new"),
    (114, 119, "Reserved (0)", "Reserved (0)", "not new"),
    (120, 123, "Reserved (0)", "VADER (12)", "new"),
    (124, 255, "Reserved (0)", "Reserved (0)", "not new"),
];

/// Zeros in front.
const SPELLINGS: [(&str, &str); 5] = [
    ("000", "000: Edition 1 Generic (1), Edition 3 Generic (1), not new"),
    ("007", "007: Edition 1 Reserved (0), Edition 3 Reserved (0), not new"),
    ("0091", "0091: Edition 1 ASTOR (9), Edition 3 Reserved (0), new"),
    ("0101", "0101: Edition 1 Reserved (0), Edition 3 Lynx I/II (10), new"),
    ("00255", "00255: Edition 1 Reserved (0), Edition 3 Reserved (0), not new"),
];

/// Numbers above 255, among them such as would be 101 if they were cut to 8, 16, 32 or 64 bits; nothing; and other characters than the ten
/// digits, the wide digit 5 and a raised 2 among them.
const UNREAD: [&str; 28] = [
    "256",
    "0256",
    "300",
    "357",
    "1000",
    "65637",
    "4294967295",
    "4294967296",
    "4294967397",
    "18446744073709551717",
    "99999999999999999999",
    "",
    "-1",
    "+5",
    " 5",
    "5 ",
    "5\r",
    "5\t",
    "5\0",
    "\u{FF15}",
    "5\u{B2}",
    "/:",
    "0x65",
    "1e2",
    "5.0",
    "91 to 95",
    "101: Edition 3",
    "abc",
];

/// A line and its answer.
type Due = (String, String);

fn every_mode() -> Vec<Due> {
    let of_run = |(first, last, older, newer, new): Run| {
        (first..=last).map(move |mode| (mode.to_string(), format!("{mode}: Edition 1 {older}, Edition 3 {newer}, {new}")))
    };
    RUNS.into_iter().flat_map(of_run).collect()
}

/// Mode 101 behind so many zeros that the line just fits, and behind more, each time with a line that is answered as ever.
fn long() -> Vec<Due> {
    let zeros = |count| "0".repeat(count);
    let with_zeros = |count| zeros(count) + "101";
    let lynx = "101: Edition 1 Reserved (0), Edition 3 Lynx I/II (10), new";
    vec![
        (with_zeros(4092), zeros(4092) + lynx),
        (with_zeros(4093), zeros(4093) + "101: unread length"),
        ("101".to_string(), lynx.to_string()),
        (with_zeros(4997), zeros(4096) + ": unread length"),
        ("00101".to_string(), format!("00{lynx}")),
    ]
}

/// The lines and their answers.
pub fn lines() -> Lines {
    let spellings = SPELLINGS.map(|(line, answer)| (line.to_string(), answer.to_string()));
    let unread = UNREAD.map(|line| (line.to_string(), format!("{line}: unread number")));
    let due = [every_mode(), spellings.to_vec(), unread.to_vec(), long()].concat();
    let due: Vec<(&str, &str)> = due.iter().map(|(line, answer)| (line.as_str(), answer.as_str())).collect();
    Lines::new(answer, &due)
}

/// What the program is handed. The last line has no line feed.
pub fn given() -> String {
    lines().given().trim_end_matches('\n').to_string()
}

/// The line with which an implementation answers a line.
pub fn answer(by: Implementation, line: &str) -> String {
    let front = line.get(..LONG).unwrap_or(line);
    let answer = mode_of(line).map(|mode| told(by, mode)).unwrap_or_else(|word| format!("unread {word}"));
    format!("{front}: {answer}")
}

/// The mode whose number the line is, or the word for what is wrong with it.
fn mode_of(line: &str) -> Result<u8, &'static str> {
    if line.len() >= LONG {
        return Err("length");
    }
    Ok(number(line, 255)? as u8)
}

/// A mode's system in either edition, and whether the mode is new. Names are the independent implementation's, whoever gives the numbers.
fn told(by: Implementation, mode: u8) -> String {
    let [older, newer] = [1, 3].map(|edition| system((by.mode_system)(edition, mode)));
    let new = if independent::is_new_mode(mode) { "new" } else { "not new" };
    format!("Edition 1 {older}, Edition 3 {newer}, {new}")
}

/// A system's name and number. No answer has a refusal, nor a number that no system has.
fn system(found: Result<u32, u32>) -> String {
    match found {
        Ok(0) => "Reserved (0)".to_string(),
        Ok(number) => format!("{} ({number})", independent::system_name(number).unwrap_or("no system")),
        Err(refusal) => format!("refused with {refusal}"),
    }
}
