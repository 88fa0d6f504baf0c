//! samples/each_packet.c, compiled against include/gmti.h and the library, prints what the independent implementation answers. The
//! header's constants are those of the package's table of kinds and fields and of the manual's table of refusals, its bound is that of the
//! Rust package, and its lookup of radar modes is the independent implementation's.
use gmti::{Edition, Kind, Presence, Record};
use std::collections::BTreeSet;
use std::ffi::OsStr;
use std::fs::{self, File};
use std::path::{Path, PathBuf};
use std::process::{Command, Stdio};
use std::sync::OnceLock;
use testing::{independent, root};

fn recording() -> Vec<u8> {
    sample("recording.gmti")
}

fn sample(name: &str) -> Vec<u8> {
    fs::read(root().join("samples").join(name)).unwrap()
}

fn manual() -> String {
    fs::read_to_string(root().join("docs/MANUAL.md")).unwrap()
}

/// A file of this name, out of the way.
fn scratch(name: &str) -> PathBuf {
    Path::new(env!("CARGO_TARGET_TMPDIR")).join(name)
}

/// The program of this source, compiled under a name. The compiler is cc, or what the variable CC names.
fn compiled(source: &Path, name: &str) -> PathBuf {
    let out = scratch(name);
    let compiler = std::env::var_os("CC").unwrap_or("cc".into());
    let mut command = Command::new(compiler);
    command.args(["-std=c99", "-O2", "-Wall", "-Wextra", "-pedantic", "-Werror", "-I"]).arg(root().join("include"));
    command.arg("-o").arg(&out).arg(source);
    command.arg(Path::new(env!("GMTI_LIBRARY_FOLDER")).join("libgmti.a"));
    let output = command.output().expect("the C compiler did not start");
    assert!(output.status.success(), "{}", String::from_utf8_lossy(&output.stderr));
    out
}

/// The program of these lines, compiled under a name.
fn compiled_lines(lines: &str, name: &str) -> PathBuf {
    let source = scratch(&format!("{name}.c"));
    fs::write(&source, lines).unwrap();
    compiled(&source, name)
}

/// samples/each_packet.c, compiled.
fn program() -> &'static Path {
    static PROGRAM: OnceLock<PathBuf> = OnceLock::new();
    PROGRAM.get_or_init(|| compiled(&root().join("samples/each_packet.c"), "each_packet"))
}

/// What the program prints, what it reports on standard error, and its status.
fn run<S: AsRef<OsStr>>(words: &[S], input: Stdio) -> (String, String, Option<i32>) {
    let output = Command::new(program()).args(words).stdin(input).output().unwrap();
    let text = |bytes| String::from_utf8(bytes).unwrap();
    (text(output.stdout), text(output.stderr), output.status.code())
}

/// The lengths of the packets of a recording, and whether the last one's P2 could be trusted.
fn lengths(mut rest: &[u8]) -> (Vec<usize>, bool) {
    let mut found = Vec::new();
    while !rest.is_empty() {
        let is_header = rest.len() >= 32 && rest[..2].iter().all(u8::is_ascii_digit);
        let p2 = if is_header { u32::from_be_bytes(rest[2..6].try_into().unwrap()) as usize } else { 0 };
        if !(32..=65536).contains(&p2) || p2 > rest.len() {
            found.push(rest.len());
            return (found, false);
        }
        found.push(p2);
        rest = &rest[p2..];
    }
    (found, true)
}

/// The independent implementation's answers to the packets of this recording, as the program is to print them, and what it is to report,
/// under the name that it knows the recording by.
fn due(edition: u32, bytes: &[u8], name: &str) -> (String, String, Option<i32>) {
    let (lengths, is_whole) = lengths(bytes);
    let mut sheet = vec![0; testing::library::LONGEST_SHEET];
    let (mut at, mut lines) = (0, String::new());
    for length in &lengths {
        let answer = independent::read(edition, &bytes[at..at + length], &mut sheet);
        lines += &format!("{at} {length} {answer}\n");
        at += length;
    }
    let last = lengths.last().unwrap_or(&0);
    let offset = at - last;
    let report = format!("{name}: offset {offset}: P2 cannot be trusted, the last {last} bytes were taken as one packet\n");
    if is_whole {
        (lines, String::new(), Some(0))
    } else {
        (lines, report, Some(1))
    }
}

/// The program prints the independent implementation's answers to the packets of this recording, from a file and from standard input.
fn assert_prints(name: &str, bytes: &[u8]) -> String {
    let path = scratch(&format!("{name}.gmti"));
    fs::write(&path, bytes).unwrap();
    let input = || File::open(&path).unwrap().into();
    let file = path.to_str().unwrap();
    for edition in ["1", "3"] {
        let number = edition.parse().unwrap();
        assert_eq!(run(&[edition, file], Stdio::null()), due(number, bytes, file), "{name}, Edition {edition}");
        assert_eq!(run(&[edition], input()), due(number, bytes, "standard input"), "{name}, Edition {edition}");
        assert_eq!(run(&[edition, "-"], input()), due(number, bytes, "standard input"), "{name}, Edition {edition}");
    }
    fs::remove_file(&path).unwrap();
    due(3, bytes, file).0
}

#[test]
fn the_recording_is_read_to_its_end() {
    let bytes = recording();
    assert!(lengths(&bytes).1);
    let printed = assert_prints("whole", &bytes);
    let indented: String = printed.lines().map(|line| format!("    {line}\n")).collect();
    assert!(manual().contains(&indented), "docs/MANUAL.md does not show what each_packet prints");
}

#[test]
fn a_recording_cut_short_is_read_up_to_the_cut() {
    let bytes = recording();
    for cut in [0, 1, 6, 31, 32, 148, 149, 150, 181, 379, 380, 826, 859, 1087] {
        assert_eq!(lengths(&bytes[..cut]).1, [0, 149, 380].contains(&cut), "{cut}");
        assert_prints("cut", &bytes[..cut]);
    }
}

#[test]
fn a_packet_length_that_cannot_be_trusted_ends_the_walk() {
    for p2 in [0, 31, 65_537, 0x8000_0000, u32::MAX] {
        let mut bytes = recording();
        bytes[149 + 2..149 + 6].copy_from_slice(&p2.to_be_bytes());
        let printed = assert_prints("length", &bytes);
        assert_eq!(printed.lines().count(), 2, "{p2}");
        assert!(printed.ends_with("149 939 no 4 0 0\n"), "{p2}: {printed}");
    }
    let mut bytes = recording().repeat(100);
    bytes[149 + 2..149 + 6].copy_from_slice(&65_537u32.to_be_bytes());
    assert!(assert_prints("long_length", &bytes).ends_with("149 108651 no 2 0 0\n"));
    let mut bytes = recording();
    bytes[149] = b'x';
    assert!(assert_prints("version", &bytes).ends_with("149 939 no 3 0 0\n"));
}

/// What is left then may be longer than any packet, and longer than the program has room for.
#[test]
fn all_that_is_left_counts_as_one_packet() {
    for (times, length) in [(60, 65_131), (61, 66_219), (1000, 1_087_851)] {
        let mut bytes = recording().repeat(times);
        bytes[149 + 2..149 + 6].copy_from_slice(&65_537u32.to_be_bytes());
        let number = if length > 65_536 { 2 } else { 4 };
        assert!(assert_prints("longer_length", &bytes).ends_with(&format!("149 {length} no {number} 0 0\n")), "{length}");
    }
}

#[test]
fn an_edition_2_packet_is_refused_and_passed_over() {
    let mut bytes = recording();
    bytes[149] = b'2';
    let printed = assert_prints("edition_2", &bytes);
    assert_eq!((printed.lines().nth(1), printed.lines().count()), (Some("149 231 no 3 0 0"), 6));
}

/// The shortest packet and the longest, then another.
#[test]
fn packets_of_every_length_are_read() {
    let bytes = [sample("header_only.gmti"), independent::longest_output(b"16362"), recording()].concat();
    let printed = assert_prints("every_length", &bytes);
    assert!(printed.starts_with("0 32 ok 0 0 0 33\n32 65536 ok 1 1 16362 736411\n65568 149 ok"), "{printed}");
}

#[test]
fn more_than_the_program_first_makes_room_for() {
    let bytes = recording().repeat(2000);
    assert!(bytes.len() > 1 << 20);
    assert_eq!(assert_prints("long", &bytes).lines().count(), 12_000);
}

/// Each line has its file's name in front. What is wrong with one file is reported under its name and does not keep the next from being read.
#[test]
fn several_files_are_read_in_order() {
    let folder = root().join("samples");
    let [first, second, cut] =
        ["mission.gmti", "recording.gmti", "damaged_cut_short.gmti"].map(|name| folder.join(name).display().to_string());
    let folder = folder.display().to_string();
    let missing = folder.clone() + "/there is no such file";
    let named = |name: &str, bytes: &[u8]| due(3, bytes, name).0.lines().map(|line| format!("{name}: {line}\n")).collect::<String>();
    let both = named(&first, &sample("mission.gmti")) + &named(&second, &recording());
    assert_eq!(run(&["3", &first, &second], Stdio::null()), (both.clone(), String::new(), Some(0)));
    let input = File::open(&second).unwrap().into();
    let printed = named(&cut, &sample("damaged_cut_short.gmti")) + &both + &named("standard input", &recording());
    let cannot = format!("{missing}: cannot be read: No such file or directory\n{folder}: cannot be read: Is a directory\n");
    let reported = due(3, &sample("damaged_cut_short.gmti"), &cut).1 + &cannot;
    assert_eq!(run(&["3", &cut, &missing, &first, &folder, &second, "-"], input), (printed, reported, Some(1)));
}

#[test]
fn a_file_that_cannot_be_read_is_named() {
    for (word, reason) in
        [("there/is/no/such/file", "No such file or directory"), ("", "No such file or directory"), (".", "Is a directory")]
    {
        assert_eq!(run(&["3", word], Stdio::null()), (String::new(), format!("{word}: cannot be read: {reason}\n"), Some(1)));
    }
    let folder = File::open(".").unwrap().into();
    assert_eq!(run(&["3"], folder), (String::new(), "standard input: cannot be read: Is a directory\n".into(), Some(1)));
}

#[test]
fn other_words_for_the_edition_get_the_usage() {
    for words in [&[][..], &["2"], &[""], &["3 "], &["13"], &["03"], &["samples/recording.gmti"]] {
        let (printed, reported, status) = run(words, Stdio::null());
        assert_eq!((printed.as_str(), status), ("", Some(2)), "{words:?}");
        assert!(reported.starts_with("usage: each_packet EDITION [FILE...]\n"), "{reported}");
    }
}

/// A device that is always full stands in for a disk that is.
#[test]
fn a_line_that_cannot_be_written_is_reported() {
    let full = File::options().write(true).open("/dev/full").unwrap();
    let file = root().join("samples/mission.gmti");
    let output = Command::new(program()).arg("3").arg(file).stdout(full).output().unwrap();
    assert_eq!(output.stderr, b"standard output: a line could not be written\n");
    assert_eq!(output.status.code(), Some(1));
}

/// Prints the longest packet and the longest sheet, of which the second is usable where C wants a constant, and the bound for each argument.
const BOUNDS: &str = r#"
#include "gmti.h"
#include <stdio.h>
#include <stdlib.h>

static uint8_t sheet[GMTI_LONGEST_SHEET];

int main(int count, char **words) {
    printf("%zu %zu\n", (size_t)GMTI_LONGEST_PACKET, sizeof sheet);
    for (int i = 1; i < count; i++)
        printf("%zu\n", gmti_sheet_bound((size_t)strtoull(words[i], NULL, 10)));
    return 0;
}
"#;

#[test]
fn the_header_has_the_constants_and_the_bound_of_the_package() {
    let lengths = [0, 31, 32, 33, 35, 36, 92, 65_535, 65_536, 65_537, usize::MAX];
    let program = compiled_lines(BOUNDS, "bounds");
    let output = Command::new(program).args(lengths.map(|length| length.to_string())).output().unwrap();
    let printed = String::from_utf8(output.stdout).unwrap();
    let mut lines = printed.lines();
    assert_eq!(lines.next(), Some(format!("{} {}", testing::library::LONGEST_PACKET, testing::library::LONGEST_SHEET).as_str()));
    let bounds: Vec<usize> = lines.map(|line| line.parse().unwrap()).collect();
    assert_eq!(bounds, lengths.map(testing::library::sheet_bound));
    assert_eq!(bounds, lengths.map(independent::sheet_bound));
    assert_eq!(bounds, [0, 0, 33, 44, 66, 78, 708, 736_941, 736_953, 0, 0]);
}

/// For every mode of each edition, prints what is returned and then three numbers, of which the second is stored. Before each call all three
/// are one that no system has.
const MODES: &str = r#"
#include "gmti.h"
#include <inttypes.h>
#include <stdio.h>
#include <stdlib.h>

static void look_up(uint32_t edition, uint8_t mode) {
    uint32_t lent[3] = {UINT32_MAX, UINT32_MAX, UINT32_MAX};
    uint32_t number = gmti_mode_system(edition, mode, &lent[1]);
    printf("%" PRIu32 " %" PRIu32 " %" PRIu32 " %" PRIu32 "\n", number, lent[0], lent[1], lent[2]);
}

int main(int count, char **words) {
    for (int i = 1; i < count; i++)
        for (int mode = 0; mode < 256; mode++)
            look_up((uint32_t)strtoul(words[i], NULL, 10), (uint8_t)mode);
    return 0;
}
"#;

#[test]
fn every_mode_is_looked_up() {
    let editions = [0, 1, 2, 3, 4, 257, u32::MAX];
    let program = compiled_lines(MODES, "modes");
    let output = Command::new(program).args(editions.map(|edition| edition.to_string())).output().unwrap();
    let mut expected = String::new();
    for (edition, mode) in editions.iter().flat_map(|edition| (0..=255).map(move |mode| (*edition, mode))) {
        let (number, system) = independent::mode_system(edition, mode);
        expected += &format!("{number} {} {system} {}\n", u32::MAX, u32::MAX);
    }
    assert_eq!(String::from_utf8(output.stdout).unwrap(), expected);
}

/// The constants whose names begin so and that the header speaks of, in its order.
fn names(group: &str) -> Vec<String> {
    let header = fs::read_to_string(root().join("include/gmti.h")).unwrap();
    let mut names: Vec<String> = Vec::new();
    for word in header.split(|c: char| !c.is_ascii_alphanumeric() && c != '_').filter(|word| word.starts_with(group)) {
        if !names.iter().any(|name| name == word) {
            names.push(word.to_string());
        }
    }
    names
}

/// Prints the names and values of constants, whose rows take the place of `ROWS`. A row stands where C wants a constant.
const CONSTANTS: &str = r#"
#include "gmti.h"
#include <stdio.h>

static const struct {
    const char *name;
    int value;
} rows[] = {ROWS};

int main(void) {
    for (size_t i = 0; i < sizeof rows / sizeof rows[0]; i++)
        printf("%s %d\n", rows[i].name, rows[i].value);
    return 0;
}
"#;

/// What C makes of constants, by a program of this name.
fn values(names: Vec<String>, program: &str) -> Vec<(String, usize)> {
    let rows: Vec<String> = names.iter().map(|name| format!("{{\"{name}\", {name}}}")).collect();
    let program = compiled_lines(&CONSTANTS.replace("ROWS", &rows.join(", ")), program);
    let printed = String::from_utf8(Command::new(program).output().unwrap().stdout).unwrap();
    printed.lines().map(|line| line.split_once(' ').unwrap()).map(|(name, value)| (name.to_string(), value.parse().unwrap())).collect()
}

/// The header's constants of a group, in its order.
fn constants(group: &str) -> Vec<(String, usize)> {
    values(names(group), &group.to_lowercase())
}

/// A constant for each kind, named by what its records are called.
fn for_each_kind(group: &str, value: fn(Kind) -> usize) -> Vec<(String, usize)> {
    Kind::ALL.iter().map(|&kind| (format!("{group}{}", kind.name().to_uppercase()), value(kind))).collect()
}

#[test]
fn the_header_has_the_kinds_of_the_package() {
    assert_eq!(constants("GMTI_KIND_"), for_each_kind("GMTI_KIND_", |kind| kind as usize));
}

/// The constants that a kind is to have: one for each field, named by its number or, where it has none, by kind and name; and one for the
/// mark, its last byte, where a field goes by a mark.
fn offsets(kind: Kind) -> Vec<(String, usize)> {
    let name = |label: &str, number| match number {
        0 => format!("{}_{}", kind.name(), label).to_uppercase(),
        _ => label.replace('.', "_"),
    };
    let fields = kind.fields().iter().map(|field| (format!("GMTI_AT_{}", name(field.label, field.number())), field.offset));
    let marked = kind.fields().iter().filter(|field| field.presence == Presence::Marked);
    fields.chain(marked.map(|field| (format!("GMTI_AT_MARK_OF_{}", field.label), kind.length() - 1))).collect()
}

#[test]
fn the_header_has_the_offset_of_every_field() {
    assert_eq!(constants("GMTI_AT_"), Kind::ALL.into_iter().flat_map(offsets).collect::<Vec<_>>());
}

/// The numbers in the manual's table of refusals, in its order.
fn rows_of_refusals() -> Vec<usize> {
    let manual = manual();
    let section = manual.lines().skip_while(|line| *line != "## Refusals").skip_while(|line| !line.starts_with('|'));
    section.skip(2).map_while(|line| line.strip_prefix("| ")?.split(' ').next()?.parse().ok()).collect()
}

#[test]
fn the_header_has_the_refusals_of_the_manual() {
    let numbers: Vec<usize> = constants("GMTI_REFUSED_").into_iter().map(|(_, number)| number).collect();
    assert_eq!(numbers, rows_of_refusals());
    assert_eq!(numbers, (1..=23).collect::<Vec<_>>());
}

/// The manual says of some constants what they are: a name, the word `is`, a number.
#[test]
fn the_manual_gives_constants_their_values() {
    let manual = manual();
    let words: Vec<&str> = manual.split_whitespace().map(|word| word.trim_matches(',')).collect();
    let said = words.windows(3).filter(|words| words[0].starts_with("GMTI_") && words[1] == "is");
    let said: Vec<(String, usize)> = said.map(|words| (words[0].to_string(), words[2].parse().unwrap())).collect();
    assert!(!said.is_empty());
    assert_eq!(values(said.iter().map(|(name, _)| name.clone()).collect(), "said"), said);
}

/// Reads a packet from standard input as Edition 3 and calls the manual's function, whose lines take the place of `EXAMPLE`.
const POSITIONS: &str = r#"
#include "gmti.h"
#include <inttypes.h>
#include <stdio.h>

EXAMPLE
int main(void) {
    static uint8_t packet[GMTI_LONGEST_PACKET], sheet[GMTI_LONGEST_SHEET];
    uint32_t answer[7];
    gmti_read(3, packet, fread(packet, 1, sizeof packet, stdin), sheet, sizeof sheet, answer);
    print_positions(sheet, answer[GMTI_LENGTH]);
    return 0;
}
"#;

/// The indented lines of the manual that begin with this one.
fn example(first: &str) -> String {
    let manual = manual();
    let lines = manual.lines().skip_while(|line| line.strip_prefix("    ") != Some(first));
    lines.map_while(|line| if line.is_empty() { Some("") } else { line.strip_prefix("    ") }).map(|line| format!("{line}\n")).collect()
}

/// What the manual's function is to print of an accepted packet, and the kinds of its records.
fn positions(packet: &[u8]) -> (String, Vec<Kind>) {
    let mut lent = vec![0; gmti::sheet_bound(packet.len())];
    let records = gmti::read(Edition::Three, packet, &mut lent).unwrap().sheet.records();
    let line = |record| match record {
        Record::Target(target) => Some(format!("{} {}\n", target.latitude(), target.longitude())),
        _ => None,
    };
    (records.clone().filter_map(line).collect(), records.map(|record| record.kind()).collect())
}

/// The lengths come first, since with others the walk might not end. Between them the samples have records of every kind.
#[test]
fn the_header_has_the_lengths_of_the_package_and_the_manual_walks_by_them() {
    assert_eq!(constants("GMTI_LENGTH_OF_"), for_each_kind("GMTI_LENGTH_OF_", Kind::length));
    let program = compiled_lines(&POSITIONS.replace("EXAMPLE", &example("static const size_t lengths[] = {")), "positions");
    let mut seen = BTreeSet::new();
    for entry in fs::read_dir(root().join("samples")).unwrap() {
        let path = entry.unwrap().path();
        let packet = fs::read(&path).unwrap();
        if testing::library::read(3, &packet, &mut vec![0; testing::library::LONGEST_SHEET]).is_accepted() {
            let output = Command::new(&program).stdin(File::open(&path).unwrap()).output().unwrap();
            let (expected, kinds) = positions(&packet);
            assert_eq!(String::from_utf8(output.stdout).unwrap(), expected, "{}", path.display());
            seen.extend(kinds);
        }
    }
    assert_eq!(seen, BTreeSet::from(Kind::ALL));
}
