//! Lines in another form than that in which the other vectors are written: hex in capitals, and lines that are not to be read.
use crate::files::{answer_editions, answer_trial, hex};
use crate::parts::{packet, trial};
use crate::verdict::{Implementation, INDEPENDENT};

/// The lines for one program, each with its answer, and what is wrong with them.
pub struct Lines {
    lines: Vec<(String, String)>,
    pub faults: Vec<String>,
}

impl Lines {
    /// The lines that are wanted, each with the answer that is due to it.
    pub fn new(answer: fn(Implementation, &str) -> String, wanted: &[(&str, &str)]) -> Self {
        let mut lines = Lines { lines: Vec::new(), faults: Vec::new() };
        for (line, want) in wanted {
            let found = answer(INDEPENDENT, line);
            if found != *want {
                lines.faults.push(format!("{line}: {found} where {want} is due"));
            }
            lines.lines.push((line.to_string(), found));
        }
        lines
    }

    /// What the program is handed.
    pub fn given(&self) -> String {
        self.lines.iter().map(|(line, _)| format!("{line}\n")).collect()
    }

    /// What it must print.
    pub fn answers(&self) -> String {
        self.lines.iter().map(|(_, answer)| format!("{answer}\n")).collect()
    }
}

/// For `gmti_editions`.
pub fn editions() -> Lines {
    let packet = hex(&trial());
    Lines::new(
        answer_editions,
        &[
            (&format!("capitals: {}", packet.to_uppercase()), "capitals: alike ok 1 1 1 166"),
            (&format!("no hex digit: {}", packet.replacen('f', "g", 1)), "no hex digit: unread digit"),
            (&format!("cut within a byte: {}", &packet[..packet.len() - 1]), "cut within a byte: unread half"),
            (&format!("spaces: {}", packet.replacen("ff", "ff ", 1)), "spaces: unread digit"),
            (&format!("carriage return: {packet}\r"), "carriage return: unread digit"),
            (&format!("no space:{packet}"), "no space: unread form"),
            ("no colon", "no colon: unread form"),
            ("nothing behind it:", "nothing behind it: unread form"),
            ("", ": unread form"),
            (&format!(": {packet}"), ": alike ok 1 1 1 166"),
        ],
    )
}

/// For `gmti_trials`.
pub fn trials() -> Lines {
    let packet = hex(&packet(3, &[]));
    let read = |words: &str| format!("{words} {packet}");
    Lines::new(
        answer_trial,
        &[
            (&format!("capitals: 3 2 {}", packet.to_uppercase()), "capitals: no 16 0 0 aaaa"),
            (&format!("no hex digit: 3 2 {}g", &packet[..63]), "no hex digit: unread digit"),
            (&format!("cut within a byte: 3 2 {}", &packet[..63]), "cut within a byte: unread half"),
            (&read("two spaces: 3 2 "), "two spaces: unread digit"),
            (&format!("carriage return: 3 2 {packet}\r"), "carriage return: unread digit"),
            (&read("no space:3 2"), "no space: unread form"),
            ("no colon", "no colon: unread form"),
            ("no hex: 3 2", "no hex: unread form"),
            ("no lent bytes: 3", "no lent bytes: unread form"),
            ("", ": unread form"),
            (&read("no edition:  2"), "no edition: unread number"),
            (&read("edition 2 to the 32: 4294967296 2"), "edition 2 to the 32: unread number"),
            (&read("edition in hex: 0x3 2"), "edition in hex: unread number"),
            (&read("edition with a sign: +3 2"), "edition with a sign: unread number"),
            (&read("edition w3: w3 2"), "edition w3: unread number"),
            (&read("edition with a zero in front: 03 2"), "edition with a zero in front: no 16 0 0 aaaa"),
            (&read("lent bytes 8193: 3 8193"), "lent bytes 8193: unread number"),
            (&read("lent bytes 2 to the 64 and 2: 3 18446744073709551618"), "lent bytes 2 to the 64 and 2: unread number"),
            (&read("lent bytes with a sign: w -2"), "lent bytes with a sign: unread number"),
        ],
    )
}
