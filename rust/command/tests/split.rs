//! `gmti split`: a file for each packet, a list of them, and nothing that is written over.
mod common;

use common::{damaged, file, folder, recorded, root, run_in_parts, run_with, sample, shell};
use std::collections::BTreeSet;
use std::fs;
use std::path::Path;

const HEAD: &str = "recording\toffset\tlength\tfile\tanswer\twords";

fn split(folder: &Path, names: &[&str]) -> common::Ran {
    run_with(["split", "--into", folder.to_str().expect("a name")].iter().chain(names))
}

/// The lines of a folder's list behind its head, as cells.
fn listed(folder: &Path) -> Vec<Vec<String>> {
    let list = fs::read_to_string(folder.join("list.tsv")).expect("a list");
    let mut lines = list.lines();
    assert_eq!(lines.next(), Some(HEAD));
    lines.map(|line| line.split('\t').map(str::to_string).collect()).collect()
}

/// The names in a folder.
fn names(folder: &Path) -> BTreeSet<String> {
    let entries = fs::read_dir(folder).expect("a folder");
    entries.map(|entry| entry.expect("an entry").file_name().to_string_lossy().into_owned()).collect()
}

#[test]
fn each_packet_of_a_recording_is_a_file() {
    let into = folder("split").join("made/anew");
    assert_eq!(split(&into, &["samples/recording.gmti"]).parts(), (1, "", ""));
    let recording = sample("recording.gmti");
    let list = listed(&into);
    let parts = recorded();
    assert_eq!(list.len(), parts.len());
    for (cells, part) in list.iter().zip(&parts) {
        let name = format!("recording-{:012}.gmti", part.offset);
        let words = match part.newer.starts_with("ok") {
            true => "",
            false => "segment 1 (dwell), target 3: D32.6, height -1001, is under -1000",
        };
        let due = ["samples/recording.gmti", &part.offset.to_string(), &part.length.to_string(), &name, &part.newer, words];
        assert_eq!(*cells, due);
        assert_eq!(fs::read(into.join(&name)).expect("a packet"), recording[part.offset..part.offset + part.length]);
    }
    let due = list.iter().map(|cells| cells[3].clone()).chain(["list.tsv".to_string()]).collect();
    assert_eq!(names(&into), due);
}

#[test]
fn several_recordings_share_a_list() {
    let into = folder("split_several");
    let ran = split(&into, &["samples/mission.gmti", "no_such_file", "samples/free_text.gmti"]);
    assert_eq!(ran.parts(), (2, "", "gmti split: no_such_file: cannot be opened: No such file or directory\n"));
    let files: Vec<String> = listed(&into).into_iter().map(|cells| cells[3].clone()).collect();
    assert_eq!(files, ["mission-000000000000.gmti", "free_text-000000000000.gmti"]);
    let clean = folder("split_clean");
    assert_eq!(split(&clean, &["samples/mission.gmti", "samples/free_text.gmti"]).parts(), (0, "", ""));
    assert_eq!(names(&clean), names(&into));
}

/// The bytes that a list and its files make up, with the skipped ranges of the recording itself.
fn put_together(folder: &Path, recording: &[u8]) -> Vec<u8> {
    let mut bytes = Vec::new();
    for cells in listed(folder) {
        let [offset, length] = [&cells[1], &cells[2]].map(|cell| cell.parse::<usize>().expect("a number"));
        assert_eq!(offset, bytes.len());
        match &cells[4][..] {
            "skipped" => {
                assert!(cells[3].is_empty() && !cells[5].is_empty(), "{cells:?}");
                bytes.extend(&recording[offset..offset + length]);
            }
            _ => bytes.extend(fs::read(folder.join(&cells[3])).expect("a packet")),
        }
        assert_eq!(bytes.len(), offset + length);
    }
    bytes
}

#[test]
fn files_and_skipped_ranges_make_up_a_damaged_recording() {
    let place = folder("split_damaged");
    for (name, bytes) in damaged() {
        let path = file(&place, &format!("{name}.gmti"), &bytes);
        let into = place.join(name);
        assert_eq!(split(&into, &[&path]).parts(), (1, "", ""), "{name}");
        assert!(put_together(&into, &bytes) == bytes, "{name}");
        let skipped: Vec<String> = listed(&into).iter().filter(|cells| cells[4] == "skipped").map(|cells| cells[5].clone()).collect();
        let checked = run_with(["check", &path]);
        let due = checked.text().lines().filter_map(|line| Some(line.split_once(" bytes skipped: ")?.1.to_string()));
        assert_eq!(skipped, due.collect::<Vec<_>>());
    }
}

#[test]
fn standard_input_is_called_packet() {
    let into = folder("split_standard");
    let mut command = common::gmti(["split", "--into", into.to_str().expect("a name"), "-"]);
    let ran = run_in_parts(&mut command, [sample("recording.gmti")].into_iter());
    assert_eq!(ran.parts(), (1, "", ""));
    let list = listed(&into);
    assert!(list.iter().all(|cells| cells[0] == "-"), "{list:?}");
    assert_eq!(list[1][3], "packet-000000000149.gmti");
    assert_eq!(fs::read(into.join(&list[1][3])).expect("a packet"), sample("dwell_every_field.gmti"));
}

#[test]
fn a_list_is_not_written_over() {
    let into = folder("split_list");
    let list = file(&into, "list.tsv", b"of another day");
    let ran = split(&into, &["samples/recording.gmti"]);
    assert_eq!(ran.parts(), (2, "", &format!("gmti split: {list}: cannot be made: File exists\n")[..]));
    assert_eq!((fs::read(&list).expect("a list"), names(&into).len()), (b"of another day".to_vec(), 1));
}

#[test]
fn a_packet_is_not_written_over() {
    let into = folder("split_packet");
    let packet = file(&into, "recording-000000000149.gmti", b"of another day");
    let ran = split(&into, &["samples/recording.gmti", "samples/mission.gmti"]);
    assert_eq!(ran.parts(), (2, "", &format!("gmti split: {packet}: cannot be made: File exists\n")[..]));
    assert_eq!(fs::read(&packet).expect("a packet"), b"of another day");
    // The list has what was written before.
    let files: Vec<String> = listed(&into).into_iter().map(|cells| cells[3].clone()).collect();
    assert_eq!(files, ["recording-000000000000.gmti"]);
}

#[test]
fn a_folder_that_cannot_be_made_is_said() {
    let place = folder("split_folder");
    let path = file(&place, "file", b"no folder");
    let ran = split(Path::new(&path), &["samples/mission.gmti"]);
    assert_eq!(ran.parts(), (2, "", &format!("gmti split: {path}: cannot be made: File exists\n")[..]));
    let below = format!("{path}/below");
    let ran = split(Path::new(&below), &["samples/mission.gmti"]);
    assert_eq!(ran.parts(), (2, "", &format!("gmti split: {below}: cannot be made: Not a directory\n")[..]));
    assert_eq!(fs::read(&path).expect("a file"), b"no folder");
}

#[test]
fn two_recordings_of_one_name_are_refused() {
    let place = folder("split_names");
    let other = file(&place, "mission.dat", &sample("mission.gmti"));
    let into = place.join("into");
    for names in [["samples/mission.gmti", &other], ["samples/mission.gmti", "samples/mission.gmti"]] {
        let ran = split(&into, &names);
        let due =
            "gmti split: two recordings are called mission, and so would be their packets; split them into two folders\nUsage: gmti split ";
        assert!((ran.status, ran.text()) == (2, "") && ran.words.starts_with(due), "{ran:?}");
        assert!(!into.exists());
    }
}

#[test]
fn names_in_the_list_are_one_cell_each() {
    let place = folder("split_cells");
    let path = file(&place, "with\ta tab.gmti", &sample("mission.gmti"));
    let into = place.join("into");
    assert_eq!(split(&into, &[&path]).parts(), (0, "", ""));
    let due = [&path.replace('\t', "\\t"), "0", "76", "with\\ta tab-000000000000.gmti", "ok 1 0 0 73", ""];
    assert_eq!(listed(&into), [due]);
    assert!(into.join("with\ta tab-000000000000.gmti").exists());
}

/// A file that can get no longer stands for a full disk.
#[test]
fn a_packet_that_cannot_be_written_is_said() {
    let into = folder("split_full");
    let words =
        ["split", "--into", into.to_str().expect("a name"), "samples/mission.gmti", "samples/long_sheet.gmti", "samples/free_text.gmti"];
    let mut command = shell("trap '' XFSZ; ulimit -f 2; exec \"$0\" \"$@\"", words);
    let ran = common::Ran::from(command.current_dir(root()).output().expect("sh starts"));
    let packet = into.join("long_sheet-000000000000.gmti");
    assert_eq!(ran.parts(), (2, "", &format!("gmti split: {}: cannot be written: File too large\n", packet.display())[..]));
    assert_eq!(listed(&into).len(), 1);
}
