//! `gmti editions`: of each packet whether an Edition 1 reading may be used, by the two columns of samples/README.md.
mod common;

use common::{damaged, file, folder, recorded, run, run_on, run_with, samples};

/// What the line of a packet begins with, by the two answers.
fn due(newer: &str, older: &str) -> String {
    match (newer.starts_with("ok"), older.starts_with("ok")) {
        (true, true) => "both".to_string(),
        (true, false) => format!("Edition 3 only: {older}: "),
        (false, _) => format!("refused: {newer}: "),
    }
}

/// Whether the rest of a line is what is due: nothing more behind `both`, and words behind numbers.
fn is_due(rest: &str, newer: &str, older: &str) -> bool {
    let due = due(newer, older);
    rest.strip_prefix(&due).is_some_and(|words| words.is_empty() == (due == "both"))
}

#[test]
fn samples_are_judged_by_both_columns() {
    for sample in samples().iter().filter(|sample| sample.is_one()) {
        let ran = run(&format!("editions samples/{}", sample.name));
        let line = ran.text().strip_prefix(&format!("samples/{}: offset 0: ", sample.name)).and_then(|rest| rest.strip_suffix('\n'));
        let line = line.unwrap_or_else(|| panic!("{}", ran.text()));
        assert!(is_due(line, &sample.newer, &sample.older), "{}: {line}", sample.name);
        let is_clean = sample.newer.starts_with("ok") && sample.older.starts_with("ok");
        assert_eq!((ran.status, &ran.words[..]), (i32::from(!is_clean), ""));
    }
}

#[test]
fn the_first_new_thing_is_said_in_words() {
    for (name, words) in [
        ("range_profile", "segment 2 (HRR): an HRR segment is laid out otherwise in Edition 1"),
        (
            "heading_alone",
            "segment 1 (dwell): D29, sensor pitch, is not announced while D28, sensor heading, is, which Edition 3 alone allows",
        ),
        ("cross_section", "segment 1 (dwell): D32.18, radar cross section, is new in Edition 3"),
        ("radar_mode", "segment 2 (job definition): J14, radar mode 101, is Lynx I/II in Edition 3 and given to no system in Edition 1"),
    ] {
        let ran = run(&format!("editions samples/new_{name}.gmti"));
        assert!(ran.text().ends_with(&format!(": {words}\n")), "{}", ran.text());
    }
}

#[test]
fn every_packet_of_a_recording_has_a_line() {
    let ran = run("editions samples/recording.gmti");
    let lines: Vec<&str> = ran.text().lines().collect();
    let parts = recorded();
    assert_eq!((ran.status, lines.len()), (1, parts.len()));
    for (line, part) in lines.iter().zip(&parts) {
        let rest = line.strip_prefix(&format!("samples/recording.gmti: offset {}: ", part.offset)).expect("the offset");
        assert!(is_due(rest, &part.newer, &part.older), "{line}");
    }
}

#[test]
fn skipped_bytes_are_said() {
    let folder = folder("editions");
    for (name, bytes) in damaged() {
        let path = file(&folder, name, &bytes);
        let ran = run_with(["editions", &path]);
        let skipped = |line: &&str| line.contains(" bytes skipped: ");
        let told: Vec<String> = ran.text().lines().filter(skipped).map(str::to_string).collect();
        // `check` tells the same ranges, with a comma for the colon.
        let checked = run_with(["check", &path]);
        let due = checked.text().lines().filter(skipped).map(|line| line.replacen(", ", ": ", 1));
        assert_eq!((ran.status, told), (1, due.collect()), "{name}");
        assert_eq!(run_on("editions -", &bytes).text(), ran.text().replace(&path, "-"));
    }
}

#[test]
fn several_files_come_in_their_order() {
    let ran = run("editions samples/new_radar_mode.gmti no_such_file samples/mission.gmti");
    let lines: Vec<&str> = ran.text().lines().collect();
    assert!(lines[0].starts_with("samples/new_radar_mode.gmti: offset 0: Edition 3 only: no 15 2 14: "), "{}", ran.text());
    assert_eq!(lines[1..], ["samples/mission.gmti: offset 0: both"]);
    assert_eq!((ran.status, &ran.words[..]), (2, "gmti editions: no_such_file: cannot be opened: No such file or directory\n"));
}
