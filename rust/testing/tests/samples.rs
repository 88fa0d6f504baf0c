//! The packets of samples read as samples/README.md says, by the verified library and by the independent implementation.
use std::collections::BTreeSet;
use std::fs;
use std::path::{Path, PathBuf};
use std::process::Command;
use testing::generator::damage::segment_places;
use testing::generator::records::{split, Record};
use testing::generator::spelling::patch_size;
use testing::library::Answer;
use testing::{independent, root};

fn samples() -> PathBuf {
    root().join("samples")
}

fn bytes_of(file: &str) -> Vec<u8> {
    fs::read(samples().join(file)).unwrap_or_else(|error| panic!("{file}: {error}"))
}

/// The names of the folder's packets.
fn files() -> BTreeSet<String> {
    let names = fs::read_dir(samples()).unwrap().map(|entry| entry.unwrap().file_name().into_string().unwrap());
    names.filter(|name| name.ends_with(".gmti")).collect()
}

/// The rows of README.md's table that has this heading, each as its cells without back quotes.
fn table(heading: &str) -> Vec<Vec<String>> {
    let readme = fs::read_to_string(samples().join("README.md")).unwrap();
    let lines = readme.lines().skip_while(|line| !line.starts_with(heading)).skip(2);
    let rows = lines.take_while(|line| line.starts_with('|'));
    rows.map(|row| row.trim_matches('|').split('|').map(|cell| cell.trim().trim_matches('`').to_string()).collect()).collect()
}

/// For each file the Edition 3 and the Edition 1 answer, as printed.
fn answers() -> Vec<(String, String, String)> {
    table("| File |").into_iter().map(|row| (row[0].clone(), row[2].clone(), row[3].clone())).collect()
}

type Reader = fn(u32, &[u8], &mut [u8]) -> Answer;

/// What the reader answers, lent a few bytes more than the bound, and the lent sheet afterwards.
fn reading(reader: Reader, edition: u32, packet: &[u8]) -> (Answer, Vec<u8>) {
    let mut sheet = vec![0xAA; testing::library::sheet_bound(packet.len()) + 9];
    let answer = reader(edition, packet, &mut sheet);
    (answer, sheet)
}

/// Both implementations read the packet as the table says and leave the same lent sheet, untouched where they refuse.
fn assert_reads(name: &str, packet: &[u8], edition: u32, expected: &str) {
    let (answer, sheet) = reading(testing::library::read, edition, packet);
    assert_eq!(answer.to_string(), expected, "{name}, Edition {edition}");
    assert_eq!(reading(independent::read, edition, packet), (answer, sheet.clone()), "{name}, Edition {edition}");
    assert!(sheet[answer.length as usize..].iter().all(|&byte| byte == 0xAA), "{name}, Edition {edition}");
}

#[test]
fn every_file_has_one_row() {
    let rows: Vec<String> = answers().into_iter().map(|(file, _, _)| file).collect();
    assert_eq!(rows.iter().cloned().collect::<BTreeSet<_>>(), files());
    assert_eq!(rows.len(), files().len());
}

#[test]
fn files_read_as_the_table_says() {
    for (file, edition_3, edition_1) in answers() {
        let packet = bytes_of(&file);
        assert_reads(&file, &packet, 3, &edition_3);
        assert_reads(&file, &packet, 1, &edition_1);
    }
}

#[test]
fn accepted_sheets_are_written_back() {
    let mut accepted = 0;
    for file in files() {
        let packet = bytes_of(&file);
        let (answer, sheet) = reading(testing::library::read, 3, &packet);
        if !answer.is_accepted() {
            continue;
        }
        accepted += 1;
        for writer in [testing::library::write, independent::write] {
            let mut back = vec![0xAA; packet.len() + 1];
            let written = writer(&sheet[..answer.length as usize], &mut back);
            assert_eq!(written, Answer { length: packet.len() as u32, ..answer }, "{file}");
            assert_eq!(back, [&packet[..], &[0xAA]].concat(), "{file}");
        }
    }
    assert_eq!(accepted, answers().iter().filter(|(_, edition_3, _)| edition_3.starts_with("ok")).count());
}

#[test]
fn packets_of_the_recording_read_as_the_table_says() {
    let recording = bytes_of("recording.gmti");
    let mut at = 0;
    for (i, row) in table("| Packet |").iter().enumerate() {
        let length = u32::from_be_bytes(recording[at + 2..at + 6].try_into().unwrap()) as usize;
        assert_eq!([&row[0], &row[1], &row[2]], [&(i + 1).to_string(), &at.to_string(), &length.to_string()]);
        let packet = &recording[at..at + length];
        if row[3].ends_with(".gmti") {
            assert_eq!(packet, bytes_of(&row[3]), "packet {}", i + 1);
        }
        assert_reads("recording.gmti", packet, 3, &row[4]);
        assert_reads("recording.gmti", packet, 1, &row[5]);
        at += length;
    }
    assert_eq!(at, recording.len());
}

/// The segments of split_dwell.gmti have one pair of D2 and D3. README.md shows the answer and the positions, as `gmti_read` prints them.
#[test]
fn readme_shows_answer_and_positions_of_the_split_dwell() {
    let packet = bytes_of("split_dwell.gmti");
    for reader in [testing::library::read, independent::read] {
        let (answer, sheet) = reading(reader, 3, &packet);
        let records = split(&sheet[..answer.length as usize]);
        let pairs: Vec<[u32; 2]> = records.iter().filter(|record| record.kind == 3).map(Record::pair).collect();
        assert_eq!(pairs, [[1, 7], [1, 7]]);
        let targets = records.iter().filter(|record| record.kind == 4);
        let positions = targets.map(|target| format!("    {} {}\n", target.number(36, 4) as i32, target.number(40, 4)));
        let shown = format!("    {answer}\n{}", positions.collect::<String>());
        let readme = fs::read_to_string(samples().join("README.md")).unwrap();
        assert!(readme.contains(&format!("`split_dwell.gmti`: two segments, one dwell, five targets.\n\n{shown}\n")), "{shown}");
    }
}

/// damaged_platform_name.gmti is mission.gmti with a line feed for the space behind the name in P8.
#[test]
fn the_platform_name_is_damaged_by_one_byte() {
    let mut packet = bytes_of("mission.gmti");
    assert_eq!(packet[14..24], *b"LN-ICE    ");
    packet[20] = b'\n';
    assert_eq!(packet, bytes_of("damaged_platform_name.gmti"));
}

/// The damaged profiles are new_range_profile.gmti with H7 13, and without the bit and the byte of H24.
#[test]
fn the_profiles_are_damaged_in_one_field() {
    let right = bytes_of("new_range_profile.gmti");
    // The HRR segment is the second. H7 stands behind H1 to H5, and H24 to H26 before the twelve samples.
    let (h1, h24) = (segment_places(&right)[1] + 5, right.len() - 12 - 3);
    let mut more = right.clone();
    assert_eq!(more[h1 + 12..h1 + 14], [0, 12]);
    more[h1 + 13] = 13;
    assert_eq!(more, bytes_of("damaged_profile_count.gmti"));
    let mut fewer = right.clone();
    fewer[h1 + 2] &= !2;
    fewer[h1 - 1] -= 1;
    fewer.remove(h24);
    patch_size(&mut fewer);
    assert_eq!(fewer, bytes_of("damaged_profile_mask.gmti"));
}

/// The scatterers of new_profile_with_indices.gmti: magnitude, range index and Doppler index as make.py gives them.
#[test]
fn scatterers_have_their_indices() {
    let (answer, sheet) = reading(testing::library::read, 3, &bytes_of("new_profile_with_indices.gmti"));
    let records = split(&sheet[..answer.length as usize]);
    let scatterers: Vec<&Record> = records.iter().filter(|record| record.kind == 12).collect();
    let found: Vec<[u32; 3]> = scatterers.iter().map(|record| [0, 4, 6].map(|place| record.number(place, 2))).collect();
    assert_eq!(found, [0, 1, 2, 3, 4, 5].map(|k| [40 * k, 3 + 2 * k, 6 + k % 4]));
    assert!(scatterers.iter().all(|record| record.number(2, 2) < 256) && scatterers.iter().any(|record| record.number(2, 2) > 0));
}

/// D27 with its mark and J26 with its mark, of a sheet whose second record is a dwell and whose last is a job.
fn withheld_fields(edition: u32, file: &str) -> [u8; 5] {
    let (answer, sheet) = reading(testing::library::read, edition, &bytes_of(file));
    let (dwell, job) = (33, answer.length as usize - 70);
    assert_eq!((sheet[dwell], sheet[job]), (3, 8), "{file}");
    [sheet[dwell + 78], sheet[dwell + 79], sheet[dwell + 87], sheet[job + 66], sheet[job + 69]]
}

#[test]
fn d27_and_j26_are_shown_and_withheld() {
    let d27 = (10.0f64 * 65536.0 / 360.0).round() as u16;
    let shown = [(d27 >> 8) as u8, d27 as u8, 1, 60, 1];
    assert_eq!(withheld_fields(1, "version_1_dwell_and_job.gmti"), shown);
    assert_eq!(withheld_fields(3, "version_1_dwell_and_job.gmti"), shown);
    assert_eq!(withheld_fields(3, "version_3_dwell_and_job.gmti"), shown);
    assert_eq!(withheld_fields(1, "version_3_dwell_and_job.gmti"), [0; 5]);
}

/// long_sheet.gmti is request A2's packet with 1,453 targets, and the one with 1,454 is the first whose sheet is above 65,536 bytes.
#[test]
fn the_long_sheet_is_that_of_the_request() {
    let packet = bytes_of("long_sheet.gmti");
    assert!(packet == independent::longest_output(b"1453\n"));
    let length = reading(testing::library::read, 3, &packet).0.length;
    let next = reading(testing::library::read, 3, &independent::longest_output(b"1454\n")).0.length;
    assert!((length..next).contains(&65_536), "{length} {next}");
    assert_eq!(length as usize, testing::library::sheet_bound(packet.len()) - 542);
}

#[test]
fn make_writes_the_same_bytes() {
    let folder = Path::new(env!("CARGO_TARGET_TMPDIR")).join("samples");
    fs::create_dir_all(&folder).unwrap();
    let made = Command::new("python3").arg("-B").arg(samples().join("make.py")).arg(&folder).status();
    assert!(made.expect("python3 did not start").success());
    for file in files() {
        assert_eq!(fs::read(folder.join(&file)).unwrap(), bytes_of(&file), "{file}");
        fs::remove_file(folder.join(&file)).unwrap();
    }
    assert_eq!(fs::read_dir(&folder).unwrap().count(), 0, "make.py writes a file that is not in samples");
}
