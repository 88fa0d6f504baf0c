//! `gmti sheet` and `gmti write`: the bytes of the independent implementation, or none and words.
mod common;

use common::{file, folder, run, run_on, samples, Sample};
use testing::generator::records::sheet_of;
use testing::independent::longest_packet;

/// Nothing but a line on standard error that begins so.
fn assert_refused(ran: common::Ran, due: &str) {
    assert!((ran.status, ran.out.len()) == (1, 0), "{due}: status {}, {} bytes", ran.status, ran.out.len());
    assert!(ran.words.starts_with(due) && ran.words.ends_with('\n') && ran.words.lines().count() == 1, "{}", ran.words);
    assert!(ran.words.trim_end().len() > due.len(), "no words behind {due}");
}

fn assert_sheet(sample: &Sample, edition: u32) {
    let name = format!("samples/{}", sample.name);
    let ran = run(&format!("sheet --edition {edition} {name}"));
    match sheet_of(edition, &sample.bytes) {
        Some(sheet) => assert!((ran.status, &ran.out, &ran.words[..]) == (0, &sheet, ""), "{name}, Edition {edition}"),
        None => assert_refused(ran, &format!("{name}: {}: ", sample.answer(edition))),
    }
}

#[test]
fn sheets_are_those_of_the_independent_implementation() {
    for sample in samples() {
        assert_sheet(&sample, 3);
        assert_sheet(&sample, 1);
    }
}

#[test]
fn what_is_written_is_the_packet() {
    let folder = folder("written");
    for sample in samples().iter().filter(|sample| sample.newer.starts_with("ok")) {
        let sheet = run(&format!("sheet --edition=3 samples/{}", sample.name)).out;
        let path = file(&folder, "sheet", &sheet);
        let by_file = run(&format!("write {path}"));
        assert!((by_file.status, &by_file.out, &by_file.words[..]) == (0, &sample.bytes, ""), "{}", sample.name);
        assert_eq!(run_on("write -", &sheet), by_file, "{}", sample.name);
        assert_eq!(run_on("sheet --edition 3 -", &sample.bytes).out, sheet, "{}", sample.name);
    }
}

#[test]
fn the_older_sheet_of_a_newer_packet_is_refused() {
    let sheet = run("sheet --edition 1 samples/version_3_dwell_and_job.gmti").out;
    assert_eq!(sheet.len(), 326);
    assert_refused(run_on("write -", &sheet), "-: no 19 0 0: ");
    let sheet = run("sheet --edition 1 samples/version_1_dwell_and_job.gmti").out;
    assert_eq!(run_on("write -", &sheet).status, 0);
}

#[test]
fn damaged_sheets_are_refused() {
    let sheet = run("sheet --edition 3 samples/dwell_absolute.gmti").out;
    assert_refused(run_on("write -", &sheet[..sheet.len() - 1]), "-: no 17 0 0: ");
    assert_refused(run_on("write -", &sheet[..sheet.len() - 45]), "-: no 18 0 0: ");
    assert_refused(run_on("write -", &[&sheet[..], &sheet[..]].concat()), "-: no 17 0 0: ");
    assert_refused(run("write samples/mission.gmti"), "samples/mission.gmti: no 17 0 0: ");
    assert_refused(run_on("write -", b""), "-: no 17 0 0: ");
    assert_refused(run_on("sheet --edition 3 -", b""), "-: no 2 0 0: ");
}

#[test]
fn the_longest_packet_goes_there_and_back() {
    let packet = longest_packet(16_362);
    assert_eq!(packet.len(), 65_536);
    let read = run_on("sheet --edition 3 -", &packet);
    assert_eq!((read.status, read.out.len(), &read.words[..]), (0, 736_411, ""));
    let written = run_on("write -", &read.out);
    assert!((written.status, written.out) == (0, packet));
}

#[test]
fn what_is_too_long_is_refused() {
    let packet = longest_packet(16_362);
    for length in [65_537, 1 << 20, 8 << 20] {
        let long: Vec<u8> = packet.iter().copied().cycle().take(length).collect();
        assert_refused(run_on("sheet --edition 3 -", &long), "-: no 2 0 0: ");
        assert_refused(run_on("sheet --edition 1 -", &long), "-: no 2 0 0: ");
    }
    // No sheet has more than 736,953 bytes. One that has just so many is still looked at.
    let header = run("sheet --edition 3 samples/header_only.gmti").out;
    let long = |length: usize| header.iter().copied().cycle().take(length).collect::<Vec<u8>>();
    assert_refused(run_on("write -", &long(736_953)), "-: no 17 0 0: ");
    assert_refused(run_on("write -", &long(736_954)), "-: longer than any ");
    assert_refused(run_on("write -", &long(8 << 20)), "-: longer than any ");
}

#[test]
fn what_cannot_be_read_is_said() {
    for command in ["sheet --edition 3", "write"] {
        let name = command.split(' ').next().expect("a name");
        let missing = format!("gmti {name}: no_such_file: cannot be opened: No such file or directory\n");
        assert_eq!(run(&format!("{command} no_such_file")).parts(), (2, "", &missing[..]));
        let no_file = format!("gmti {name}: samples: cannot be read: Is a directory\n");
        assert_eq!(run(&format!("{command} samples")).parts(), (2, "", &no_file[..]));
    }
}
