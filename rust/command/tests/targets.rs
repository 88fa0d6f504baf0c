//! `gmti targets`: the lines are those of the independent implementation's sheet, by the places that docs/MANUAL.md gives.
mod common;

use common::{damaged, file, folder, recorded, root, run, run_on, run_with, sample, samples};
use std::fs;
use std::io::Write;
use std::process::{Command, Stdio};
use testing::generator::records::{sheet_of, split, Record};
use testing::generator::{valid, Random};

/// A field of a target by the manual: its label, its place behind the kind byte, its width, whether it is signed, and its mask bit.
struct Column {
    label: String,
    place: usize,
    width: usize,
    is_signed: bool,
    bit: u32,
}

/// D32.1 to D32.18.
fn columns() -> Vec<Column> {
    let manual = fs::read_to_string(root().join("docs/MANUAL.md")).expect("the manual");
    let (_, kind) = manual.split_once("### Kind 4: target").expect("the table of targets");
    let number = |cell: &str| cell.parse::<usize>().expect("a number");
    let of_row = |row: Vec<String>| Column {
        label: row[0].clone(),
        place: number(&row[1]) - 1,
        width: number(&row[2]),
        is_signed: ["signed", "SA32"].contains(&&row[3][..]),
        bit: number(&row[4]) as u32,
    };
    let rows = common::rows(kind, "| Field |").into_iter().filter(|row| row[0].starts_with("D32."));
    let columns: Vec<Column> = rows.map(of_row).collect();
    assert_eq!(columns.len(), 18);
    columns
}

impl Column {
    /// The cell of a target whose dwell has this mask.
    fn cell(&self, mask: u64, target: &Record) -> String {
        if mask >> self.bit & 1 == 0 {
            return String::new();
        }
        let number = i64::from(target.number(self.place, self.width));
        let bits = 8 * self.width as u32;
        if self.is_signed && number >> (bits - 1) == 1 {
            (number - (1 << bits)).to_string()
        } else {
            number.to_string()
        }
    }
}

/// The cells of a packet's targets, behind the file's name.
fn cells(columns: &[Column], offset: usize, sheet: &[u8]) -> Vec<Vec<String>> {
    let records = split(sheet);
    let job = records[0].number(28, 4);
    let mut dwell = &records[0];
    let mut lines = Vec::new();
    for record in &records {
        match record.kind {
            3 => dwell = record,
            4 => {
                let degrees = [f64::from(record.number(36, 4) as i32), f64::from(record.number(40, 4))];
                let first =
                    [offset as u32, job, dwell.number(8, 2), dwell.number(10, 2), dwell.number(15, 4)].map(|number| number.to_string());
                let place = degrees.map(|micro| format!("{:.6}", micro / 1e6));
                let fields = columns.iter().map(|column| column.cell(dwell.mask(), record));
                lines.push(first.into_iter().chain(place).chain(fields).collect());
            }
            _ => {}
        }
    }
    lines
}

/// The head and the lines of packets at their offsets, in tab-separated form.
fn expected<'a>(name: &str, edition: u32, packets: impl IntoIterator<Item = (usize, &'a [u8])>) -> String {
    let columns = columns();
    let first = ["file", "offset", "P10", "D2", "D3", "D6", "latitude", "longitude"];
    let head = first.into_iter().chain(columns.iter().map(|column| &column.label[..])).collect::<Vec<_>>().join("\t");
    let accepted = packets.into_iter().filter_map(|(offset, packet)| Some((offset, sheet_of(edition, packet)?)));
    let lines = accepted.flat_map(|(offset, sheet)| cells(&columns, offset, &sheet));
    head + "\n" + &lines.map(|line| format!("{name}\t{}\n", line.join("\t"))).collect::<String>()
}

#[test]
fn samples_give_the_lines_of_their_sheets() {
    for sample in samples().iter().filter(|sample| sample.is_one()) {
        let name = format!("samples/{}", sample.name);
        let ran = run(&format!("targets {name}"));
        assert_eq!(ran.text(), expected(&name, 3, [(0, &sample.bytes[..])]));
        assert_eq!(ran.status, i32::from(sample.newer.starts_with("no")), "{name}");
        let ran = run(&format!("targets --edition 1 --format tsv {name}"));
        assert_eq!(ran.text(), expected(&name, 1, [(0, &sample.bytes[..])]));
        assert_eq!(ran.status, i32::from(sample.older.starts_with("no")), "{name}");
    }
}

#[test]
fn refused_packets_are_said_on_standard_error() {
    let (name, bytes) = ("samples/recording.gmti", sample("recording.gmti"));
    let parts = recorded();
    let packets = || parts.iter().map(|part| (part.offset, &bytes[part.offset..part.offset + part.length]));
    let height = format!("{name}: offset 380, 131 bytes: no 13 1 37: segment 1 (dwell), target 3: D32.6, height -1001, is under -1000\n");
    let section =
        format!("{name}: offset 511, 112 bytes: no 15 1 49: segment 1 (dwell): D32.18, radar cross section, is new in Edition 3\n");
    assert_eq!(run("targets samples/recording.gmti").parts(), (1, &expected(name, 3, packets())[..], &height[..]));
    let older = run("targets --edition=1 samples/recording.gmti");
    assert_eq!(older.parts(), (1, &expected(name, 1, packets())[..], &(height + &section)[..]));
}

#[test]
fn skipped_bytes_are_said_on_standard_error() {
    let folder = folder("skipped_targets");
    for (name, bytes) in damaged() {
        let path = file(&folder, name, &bytes);
        let ran = run_with(["targets", &path]);
        // `check` says the same of them.
        let checked = run_with(["check", &path]);
        let due: String = checked.text().lines().filter(|line| line.starts_with(&path)).map(|line| format!("{line}\n")).collect();
        assert_eq!((ran.status, &ran.words), (1, &due), "{name}");
        assert_eq!(run_on("targets -", &bytes).text(), ran.text().replace(&path, "-"));
    }
}

/// Many packets with many masks, more than the command keeps in mind, and what stands at each offset.
fn generated() -> (Vec<u8>, Vec<(usize, Vec<u8>)>) {
    let packets = (0..400).map(|index| valid::packet(&mut Random::of_case(7, index)).bytes());
    let mut bytes = Vec::new();
    let mut placed = Vec::new();
    for packet in packets {
        placed.push((bytes.len(), packet.clone()));
        bytes.extend(packet);
    }
    (bytes, placed)
}

#[test]
fn generated_packets_give_the_lines_of_their_sheets() {
    let (bytes, placed) = generated();
    let packets = || placed.iter().map(|(offset, packet)| (*offset, &packet[..]));
    let path = file(&folder("generated"), "generated.gmti", &bytes);
    let newer = run_with(["targets", &path]);
    let lines = expected(&path, 3, packets());
    assert!(lines.lines().count() > 1000, "too few targets to tell");
    assert!((newer.status, newer.text(), &newer.words[..]) == (0, &lines[..], ""));
    let older = run_with(["targets", "--edition", "1", &path]);
    let refused = packets().filter(|(_, packet)| sheet_of(1, packet).is_none()).count();
    assert!((older.status, older.text()) == (1, &expected(&path, 1, packets())[..]));
    assert_eq!(older.words.lines().count(), refused);
    assert!(older.words.lines().all(|line| line.contains(" bytes: no 15 ")), "{}", older.words);
}

#[test]
fn commas_and_quotes_stand_in_quotes() {
    let folder = folder("csv");
    for (name, due) in [
        ("plain.gmti", "plain.gmti"),
        ("with, comma.gmti", "\"with, comma.gmti\""),
        ("with \"quotes\".gmti", "\"with \"\"quotes\"\".gmti\""),
        ("two\nlines.gmti", "\"two\nlines.gmti\""),
        ("a\ttab.gmti", "a\ttab.gmti"),
    ] {
        file(&folder, name, &sample("dwell_every_field.gmti"));
        let mut command = common::gmti(["targets", "--format", "csv", name]);
        let ran = common::Ran::from(command.current_dir(&folder).output().expect("the command starts"));
        let tsv = expected("NAME", 3, [(0, &sample("dwell_every_field.gmti")[..])]);
        assert_eq!(ran.parts(), (0, &tsv.replace('\t', ",").replace("NAME", due)[..], ""));
    }
}

/// Reads each line as JSON, and prints its keys, where they are others than before, and its values in the form of tsv.
const FROM_JSON: &str = r#"
import json, sys
shown = None
for line in sys.stdin.buffer:
    pairs = json.loads(line, parse_float=str, object_pairs_hook=list)
    names = "\t".join(name for name, _ in pairs)
    if names != shown:
        print(names)
        shown = names
    assert all(value is None or type(value) in (int, str) for _, value in pairs)
    print("\t".join("" if value is None else str(value) for _, value in pairs))
"#;

/// What python's own module makes of lines of JSON.
fn from_json(lines: &[u8]) -> String {
    let mut python = Command::new("python3");
    python.args(["-c", FROM_JSON]).env("PYTHONIOENCODING", "utf-8").stdin(Stdio::piped()).stdout(Stdio::piped());
    let mut child = python.spawn().expect("python3 starts");
    let mut pipe = child.stdin.take().expect("a pipe");
    let lines = lines.to_vec();
    let writer = std::thread::spawn(move || pipe.write_all(&lines).expect("python3 reads"));
    let output = child.wait_with_output().expect("python3 ends");
    writer.join().expect("the writer ends");
    assert!(output.status.success());
    String::from_utf8(output.stdout).expect("text")
}

#[test]
fn json_has_the_values_of_tsv() {
    let names = "samples/dwell_every_field.gmti samples/recording.gmti samples/printed_trial.gmti samples/long_sheet.gmti";
    let json = run(&format!("targets --format jsonl {names}"));
    let tsv = run(&format!("targets {names}"));
    assert_eq!((json.status, &json.words), (1, &tsv.words));
    assert_eq!(from_json(&json.out), tsv.text());
    let line = json.text().lines().next().expect("a line");
    assert!(line.starts_with(r#"{"file":"samples/dwell_every_field.gmti","offset":0,"P10":3,"#), "{line}");
    assert!(line.contains(r#","latitude":77.824673,"longitude":16.441576,"D32.1":0,"D32.2":null,"#), "{line}");
    assert!(line.ends_with(r#","D32.17":70001,"D32.18":null}"#), "{line}");
}

#[test]
fn json_has_any_name() {
    let folder = folder("json");
    for name in ["quotes \" and \\ backslash.gmti", "control \u{1} and \u{7f}.gmti", "Mäuse 🐭 \u{2028}.gmti"] {
        let path = file(&folder, name, &sample("printed_trial.gmti"));
        let read = from_json(&run_with(["targets", "--format=jsonl", &path]).out);
        assert!(read.split('\n').nth(1).expect("a line").starts_with(&format!("{path}\t0\t3\t")), "{read}");
    }
}

#[test]
fn the_head_stands_once() {
    for format in ["tsv", "csv"] {
        let ran = run(&format!("targets --format {format} samples/printed_trial.gmti samples/mission.gmti samples/printed_trial.gmti"));
        let heads: Vec<bool> = ran.text().lines().map(|line| line.starts_with("file")).collect();
        assert_eq!((ran.status, heads), (0, vec![true, false, false]));
        let ran = run(&format!("targets --format {format} --jobs 3 no_such_file samples/printed_trial.gmti no_such_file"));
        let heads: Vec<bool> = ran.text().lines().map(|line| line.starts_with("file")).collect();
        assert_eq!((ran.status, heads), (2, vec![true, false]));
        assert_eq!(run(&format!("targets --format {format} /dev/null")).text().lines().count(), 1);
    }
    assert_eq!(run("targets --format jsonl /dev/null").parts(), (0, "", ""));
}
