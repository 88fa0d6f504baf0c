//! `gmti check`: the samples, damaged recordings, and files that cannot be read.
mod common;

use common::{damaged, file, folder, gmti, recorded, run, run_in_parts, run_on, run_with, sample, samples, Part, Sample};
use std::collections::BTreeMap;

/// The counts that end what is printed.
#[derive(Default)]
struct Counts {
    packets: u64,
    refused: BTreeMap<u32, u64>,
    /// Segments, dwells and targets of the packets that are accepted.
    held: [u64; 3],
    skipped: u64,
}

impl Counts {
    /// Adds a packet with this answer, `ok` or `no` and numbers.
    fn add(&mut self, answer: &str) {
        let numbers: Vec<u64> = answer[3..].split(' ').map(|number| number.parse().expect("a number")).collect();
        self.packets += 1;
        match answer.starts_with("ok") {
            true => (0..3).for_each(|place| self.held[place] += numbers[place]),
            false => *self.refused.entry(numbers[0] as u32).or_default() += 1,
        }
    }

    fn of<'a>(answers: impl IntoIterator<Item = &'a str>, skipped: u64) -> Counts {
        let mut counts = Counts { skipped, ..Counts::default() };
        answers.into_iter().for_each(|answer| counts.add(answer));
        counts
    }

    /// The lines that are due.
    fn lines(&self) -> String {
        let refused: u64 = self.refused.values().sum();
        let mut lines = vec![("packets".to_string(), self.packets), ("accepted".to_string(), self.packets - refused)];
        lines.push(("refused".to_string(), refused));
        lines.extend(self.refused.iter().map(|(number, count)| (format!("  with {number}"), *count)));
        lines.extend(["segments", "dwells", "targets"].map(String::from).into_iter().zip(self.held));
        lines.push(("bytes skipped".to_string(), self.skipped));
        lines.iter().map(|(name, count)| format!("{name:14}{count:12}\n")).collect()
    }
}

/// The sample alone, read as this edition.
fn assert_checked(sample: &Sample, edition: u32) {
    let ran = run(&format!("check --edition {edition} samples/{}", sample.name));
    let answer = sample.answer(edition);
    let lines = ran.text().strip_suffix(&Counts::of([answer], 0).lines()).unwrap_or_else(|| panic!("{}", ran.text()));
    if answer.starts_with("ok") {
        assert_eq!((ran.status, lines), (0, ""));
    } else {
        let due = format!("samples/{}: offset 0, {} bytes: {answer}: ", sample.name, sample.bytes.len());
        assert!(ran.status == 1 && lines.starts_with(&due) && lines.lines().count() == 1, "{lines}");
    }
    assert_eq!(ran.words, "");
}

#[test]
fn samples_are_answered_as_their_table_says() {
    for sample in samples().iter().filter(|sample| sample.is_one()) {
        assert_checked(sample, 3);
        assert_checked(sample, 1);
    }
    // Without --edition it is Edition 3.
    assert_eq!(run("check samples/new_cross_section.gmti"), run("check --edition 3 samples/new_cross_section.gmti"));
}

const HEIGHT: &str = "no 13 1 37: segment 1 (dwell), target 3: D32.6, height -1001, is under -1000";
const SECTION: &str = "no 15 1 49: segment 1 (dwell): D32.18, radar cross section, is new in Edition 3";

#[test]
fn the_recording_is_told_packet_by_packet() {
    let due = format!(
        "samples/recording.gmti: offset 380, 131 bytes: {HEIGHT}\n\
         packets                  6\n\
         accepted                 5\n\
         refused                  1\n  \
           with 13                1\n\
         segments                10\n\
         dwells                   4\n\
         targets                  9\n\
         bytes skipped            0\n"
    );
    assert_eq!(run("check samples/recording.gmti").parts(), (1, &due[..], ""));
    let older = recorded();
    let counts = Counts::of(older.iter().map(|part| &part.older[..]), 0).lines();
    let due = format!(
        "samples/recording.gmti: offset 380, 131 bytes: {HEIGHT}\nsamples/recording.gmti: offset 511, 112 bytes: {SECTION}\n{counts}"
    );
    assert_eq!(run("check --edition 1 samples/recording.gmti").parts(), (1, &due[..], ""));
}

/// The line of a file among several.
fn line_of(name: &str, counts: &Counts) -> String {
    let Counts { packets, refused, held: [segments, dwells, targets], skipped } = counts;
    let all: u64 = refused.values().sum();
    let by_number: String = refused.iter().map(|(number, count)| format!(", {count} with {number}")).collect();
    let many = |count: &u64, thing: &str| format!("{count} {thing}{}", if *count == 1 { "" } else { "s" });
    let held = [many(segments, "segment"), many(dwells, "dwell"), many(targets, "target")].join(", ");
    let packets_and_answers = format!("{}, {} accepted, {all} refused{by_number}", many(packets, "packet"), packets - all);
    format!("{name}: {packets_and_answers}; {held}; {} skipped", many(skipped, "byte"))
}

#[test]
fn several_files_have_a_line_each_and_one_sum() {
    let samples = samples();
    let names: Vec<String> = samples.iter().map(|sample| format!("samples/{}", sample.name)).collect();
    let parts = recorded();
    let answers = |sample: &Sample| match &sample.name[..] {
        "recording.gmti" => parts.iter().map(|part| part.newer.clone()).collect(),
        "damaged_cut_short.gmti" => vec![],
        _ => vec![sample.newer.clone()],
    };
    let skipped = |sample: &Sample| if sample.name == "damaged_cut_short.gmti" { 121 } else { 0 };
    let counts = |sample: &Sample| Counts::of(answers(sample).iter().map(String::as_str), skipped(sample));
    let ran = run_with(["check".to_string()].iter().chain(&names));
    let all: Vec<String> = samples.iter().flat_map(answers).collect();
    let sum = Counts::of(all.iter().map(String::as_str), 121).lines();
    let lines: Vec<&str> = ran.text().strip_suffix(&sum).expect("the sum").lines().filter(|line| !line.contains(": offset ")).collect();
    let due: Vec<String> = samples.iter().zip(&names).map(|(sample, name)| line_of(name, &counts(sample))).collect();
    assert_eq!((ran.status, &ran.words[..], lines), (1, "", due.iter().map(String::as_str).collect()));
    let told = "samples/damaged_cut_short.gmti: offset 0, 121 bytes skipped: cut short\nsamples/damaged_cut_short.gmti: 0 packets, ";
    assert!(ran.text().contains(told), "{}", ran.text());
}

/// What is told of a damaged recording, but for the name and the counts.
fn told(name: &str) -> Vec<String> {
    let height = |offset: u32| format!("offset {offset}, 131 bytes: {HEIGHT}");
    let wrong = "offset 149, 231 bytes skipped: a packet size (P2) that leads to no other packet".to_string();
    match name {
        "front" => vec!["offset 0, 9 bytes skipped: no header".to_string(), height(389)],
        "middle" => vec!["offset 149, 1000 bytes skipped: no header".to_string(), height(1380)],
        "short" | "long" => vec![wrong, height(380)],
        "cut" => vec![height(380), "offset 827, 260 bytes skipped: cut short".to_string()],
        "noise" => vec!["offset 0, 200000 bytes skipped: no header".to_string()],
        "only_cut" => vec!["offset 0, 100 bytes skipped: cut short".to_string()],
        _ => panic!("{name} is not known"),
    }
}

/// The packets that are left of a damaged recording.
fn left(name: &str, part: &Part) -> bool {
    match name {
        "short" | "long" => part.offset != 149,
        "cut" => part.offset != 827,
        "noise" | "only_cut" => false,
        _ => true,
    }
}

#[test]
fn damage_costs_no_packet_beside_it() {
    let folder = folder("damaged");
    let parts = recorded();
    for (name, bytes) in damaged() {
        let path = file(&folder, name, &bytes);
        let lines: String = told(name).iter().map(|line| format!("{path}: {line}\n")).collect();
        let there: Vec<&Part> = parts.iter().filter(|part| left(name, part)).collect();
        let skipped = bytes.len() - there.iter().map(|part| part.length).sum::<usize>();
        let counts = Counts::of(there.iter().map(|part| &part.newer[..]), skipped as u64);
        assert_eq!(run_with(["check", &path]).parts(), (1, &(lines + &counts.lines())[..], ""), "{name}");
    }
}

#[test]
fn a_pipe_is_checked_as_a_file_is() {
    let folder = folder("pipes");
    let pieces = |bytes: &[u8]| bytes.chunks(7).map(<[u8]>::to_vec).collect::<Vec<_>>().into_iter();
    for (name, bytes) in damaged().into_iter().chain([("whole", sample("recording.gmti")), ("clean", sample("mission.gmti"))]) {
        let path = file(&folder, name, &bytes);
        let mut due = run_with(["check", &path]);
        due.out = due.text().replace(&path, "-").into_bytes();
        assert_eq!(run_on("check -", &bytes), due, "{name}");
        assert_eq!(run_in_parts(&mut gmti(["check", "-"]), pieces(&bytes)), due, "{name}, in pieces");
    }
}

#[test]
fn a_file_that_cannot_be_read_does_not_keep_the_others() {
    let ran = run("check samples no_such_file samples/mission.gmti samples/damaged_height.gmti");
    let words = "gmti check: samples: cannot be read: Is a directory\n\
                 gmti check: no_such_file: cannot be opened: No such file or directory\n";
    assert_eq!((ran.status, &ran.words[..]), (2, words));
    let refused = format!("samples/damaged_height.gmti: offset 0, 131 bytes: {HEIGHT}");
    let counts = ["ok 1 0 0 73", "no 13 1 37"];
    let lines = [
        line_of("samples/mission.gmti", &Counts::of(counts[..1].to_vec(), 0)),
        refused,
        line_of("samples/damaged_height.gmti", &Counts::of(counts[1..].to_vec(), 0)),
    ];
    assert_eq!(ran.text(), lines.join("\n") + "\n" + &Counts::of(counts, 0).lines());
    let alone = run("check no_such_file");
    assert_eq!(alone.parts(), (2, &Counts::default().lines()[..], words.lines().nth(1).map(|line| format!("{line}\n")).unwrap().as_str()));
}

#[test]
fn nothing_is_no_fault() {
    let empty = file(&folder("empty"), "empty.gmti", b"");
    let none = Counts::default().lines();
    assert_eq!(run_with(["check", &empty]).parts(), (0, &none[..], ""));
    assert_eq!(run_on("check -", b"").parts(), (0, &none[..], ""));
    assert_eq!(run("check /dev/null").parts(), (0, &none[..], ""));
}
