//! The two sets of text: a name holds 0x20 to 0x7E and stands on one line, F3 holds line ends too.
use crate::parts::{header, job, mission, packet, raw, segment, text, Header, Part};
use crate::records::{record, sheet_behind};
use crate::trials::{Lend, Trials};

/// Bytes at the ends of both sets: whether one may stand in a name, and whether in F3.
const BYTES: [(u8, bool, bool); 9] = [
    (0x0A, false, true),
    (0x0C, false, true),
    (0x0D, false, true),
    (0x1F, false, false),
    (0x20, true, true),
    (0x7E, true, true),
    (0x7F, false, false),
    (0x80, false, false),
    (0xFF, false, false),
];

const LINE_ENDS: [u8; 3] = [0x0A, 0x0C, 0x0D];

/// A text field: its usual content, and the answers to a packet in which it is the only thing of note.
struct Field {
    name: &'static str,
    usual: &'static [u8],
    kept: &'static str,
    refused: &'static str,
}

const fn field(name: &'static str, usual: &'static [u8], kept: &'static str, refused: &'static str) -> Field {
    Field { name, usual, kept, refused }
}

const NAMES: [Field; 9] = [
    field("P3", b"FR", "ok 0 0 0 33", "no 5 0 3"),
    field("P5", b"XN", "ok 0 0 0 33", "no 5 0 5"),
    field("P8", b"STATION 07", "ok 0 0 0 33", "no 5 0 8"),
    field("M1", b"ICE WATCH 04", "ok 1 0 0 73", "no 10 1 1"),
    field("M2", b"PLAN 2009-11", "ok 1 0 0 73", "no 10 1 2"),
    field("M4", b"NORTH COVE", "ok 1 0 0 73", "no 10 1 4"),
    field("J3", b"RADAR9", "ok 1 0 0 103", "no 10 1 3"),
    field("F1", b"FIRST-NAME", "ok 1 0 0 58", "no 10 1 1"),
    field("F2", b"SECONDNAME", "ok 1 0 0 58", "no 10 1 2"),
];

const F3: Field = field("F3", b"Road 7 open", "ok 1 0 0 92", "no 10 1 3");

impl Field {
    /// A header and segments with this content in the field.
    fn with(&self, version: u8, content: &[u8]) -> (Header, Vec<Part>) {
        let (letter, number) = self.name.split_at(1);
        let number = number.parse().expect("the number of a field");
        let header = header(version);
        match letter {
            "P" => (header.with(number, content), vec![]),
            "M" => (header, vec![mission().with(number, content)]),
            "J" => (header, vec![job().with(number, content)]),
            _ if number == 3 => (header, vec![text(content)]),
            _ => (header, vec![text(b"").with(number, content)]),
        }
    }

    fn packet(&self, version: u8, content: &[u8]) -> Vec<u8> {
        let (header, parts) = self.with(version, content);
        header.packet(&parts)
    }

    fn sheet(&self, content: &[u8]) -> Vec<u8> {
        let (header, parts) = self.with(3, content);
        let length = header.packet(&parts).len() as i64;
        let records: Vec<Vec<u8>> = parts.iter().map(record).collect();
        sheet_behind(header.with(2, length), &records)
    }

    /// The usual content with another byte at a place.
    fn changed(&self, at: usize, byte: u8) -> Vec<u8> {
        changed(self.usual, at, byte)
    }

    fn answer(&self, is_kept: bool) -> &'static str {
        if is_kept {
            self.kept
        } else {
            self.refused
        }
    }
}

fn changed(content: &[u8], at: usize, byte: u8) -> Vec<u8> {
    let mut content = content.to_vec();
    content[at] = byte;
    content
}

/// The first place of so many, one in the middle and the last, as far as there are three.
fn places(length: usize) -> Vec<(&'static str, usize)> {
    let mut places = vec![("first", 0)];
    if length > 2 {
        places.push(("middle", length / 2));
    }
    if length > 1 {
        places.push(("last", length - 1));
    }
    places
}

pub fn every_field(t: &mut Trials) {
    for field in NAMES.iter().chain([&F3]) {
        for (place, at) in places(field.usual.len()) {
            for (byte, in_name, in_f3) in BYTES {
                let is_kept = if field.name == "F3" { in_f3 } else { in_name };
                let packet = field.packet(3, &field.changed(at, byte));
                t.read(&format!("byte {byte:02x} {place} in {}", field.name), 3, packet, field.answer(is_kept));
            }
        }
    }
}

pub fn older_reading(t: &mut Trials) {
    for field in NAMES.iter().chain([&F3]) {
        for version in [1, 3] {
            let packet = field.packet(version, &field.changed(1, b'\n'));
            let name = format!("line feed in {} old reading version {version}", field.name);
            t.read(&name, 1, packet, field.answer(field.name == "F3"));
        }
    }
}

/// F3 of lengths about those of the steps in which a check may take it: full of line ends, and with one byte of neither set.
pub fn lengths(t: &mut Trials) {
    for length in [1, 15, 16, 17, 31, 32, 33, 64, 65] {
        let lines: Vec<u8> = LINE_ENDS.into_iter().cycle().take(length).collect();
        let kept = format!("ok 1 0 0 {}", 58 + 34 * length.div_ceil(32));
        t.read(&format!("line ends {length} in F3"), 3, packet(3, &[text(&lines)]), &kept);
        for ((place, at), byte) in places(length).into_iter().zip([0x0B, 0x7F, 0x80]) {
            let name = format!("byte {byte:02x} {place} of {length} in F3");
            t.read(&name, 3, packet(3, &[text(&changed(&lines, at, byte))]), F3.refused);
        }
    }
}

/// The first field at fault is named, by whichever byte, and rows come in their order.
pub fn order(t: &mut Trials) {
    let plan = || mission().with(2, b"PLAN\n2009-11");
    let radar = || job().with(3, b"RADAR\n");
    let named = || text(b"a\nb").with(2, b"SECOND\nAME");
    for (name, edition, parts, want) in [
        ("F2 and 01 in F3", 3, vec![text(b"a\x01b").with(2, b"SECOND\nAME")], "no 10 1 2"),
        ("F1 and 01 in F3", 3, vec![text(b"\x01").with(1, b"FIRST-NAM\n")], "no 10 1 1"),
        ("F2 and F3", 1, vec![named()], "no 10 1 2"),
        ("F1 and F2", 3, vec![named().with(1, b"\nIRST-NAME")], "no 10 1 1"),
        ("F2 behind 00 in F1", 3, vec![named().with(1, b"FIRST-NAM\0")], "no 10 1 1"),
        ("F3 and 01 in F3", 3, vec![text(b"a\nb\x01")], "no 10 1 3"),
        ("M1 and 00 in M2", 3, vec![mission().with(1, b"ICE WATCH 0\n").with(2, &[0; 12])], "no 10 1 1"),
        ("M2 and M4", 3, vec![plan().with(4, b"\nORTH COVE")], "no 10 1 2"),
        ("M4 and M6 0", 3, vec![mission().with(4, b"NORTH\nCOVE").with(6, 0)], "no 10 1 4"),
        ("M2 and size", 3, vec![plan().sized(45)], "no 9 1 0"),
        ("J3 and new J14", 1, vec![radar().with(14, 91)], "no 10 1 3"),
        ("J3 behind type 3", 1, vec![segment(3, &[]), radar()], "no 15 1 0"),
        ("J3 before type 3", 1, vec![radar(), segment(3, &[])], "no 10 1 3"),
        ("M2 behind lines", 3, vec![text(b"a\nb\n"), plan()], "no 10 2 2"),
        ("M2 behind M6 0", 3, vec![mission().with(6, 0), plan()], "no 13 1 6"),
        ("F2 before type 14", 3, vec![named(), segment(14, &[])], "no 10 1 2"),
    ] {
        t.read(&format!("line feed in {name}"), edition, packet(3, &parts), want);
    }
    t.read_to("line feed in M2 before 16", 3, packet(3, &[plan()]), "no 10 1 2", Lend::Bytes(2));
}

/// As above, in the header.
pub fn header_order(t: &mut Trials) {
    let station = || header(3).with(8, b"STATION\n07");
    for (name, header, want) in [
        ("P8", station(), "no 5 0 8"),
        ("P5 and P8", station().with(5, b"\nN"), "no 5 0 5"),
        ("P3 and 00 in P5", header(3).with(3, b"F\n").with(5, &[0; 2]), "no 5 0 3"),
        ("P8 and P1", station().with(1, b"20"), "no 3 0 0"),
        ("P8 and P2", station().with(2, 32), "no 4 0 0"),
    ] {
        t.read(&format!("line feed in {name} before a byte left"), 3, header.packet(&[raw(&[0])]), want);
    }
    t.read("line feed in P8 before type 3", 1, station().packet(&[segment(3, &[])]), "no 5 0 8");
}

/// No accepted packet has a line end in a name, so no sheet with one is written. Those in F3 are.
pub fn sheets(t: &mut Trials) {
    for field in &NAMES {
        let places = places(field.usual.len()).into_iter().cycle();
        for (byte, (place, at)) in LINE_ENDS.into_iter().zip(places) {
            let name = format!("byte {byte:02x} {place} in {}", field.name);
            t.refused(&name, field.sheet(&field.changed(at, byte)), "no 19 0 0");
        }
    }
    for byte in LINE_ENDS {
        let lines = [byte; 33];
        t.gives(&format!("bytes {byte:02x} in F3"), F3.sheet(&lines), "ok 1 0 0 90", &packet(3, &[text(&lines)]));
    }
}
