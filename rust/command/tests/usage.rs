//! Wrong usage says what is wrong, help says what is right, and a file may have any name.
mod common;

use common::{file, folder, root, run, run_with, sample, shell};
use std::collections::BTreeSet;
use std::ffi::{OsStr, OsString};
use std::fs;
use std::os::unix::ffi::{OsStrExt, OsStringExt};

/// The commands and their options.
const COMMANDS: [(&str, &[&str]); 7] = [
    ("check", &["--edition", "--jobs"]),
    ("show", &["--edition", "--jobs"]),
    ("targets", &["--edition", "--format", "--jobs"]),
    ("editions", &["--jobs"]),
    ("sheet", &["--edition"]),
    ("write", &[]),
    ("split", &["--into"]),
];

/// The line of a command's help that shows its usage.
fn usage(command: &str) -> String {
    let help = run(&format!("{command} --help"));
    help.text().lines().find(|line| line.starts_with(&format!("Usage: gmti {command} "))).expect("a line of usage").to_string()
}

/// These words are wrong: nothing is printed, and it is said why and what is right.
fn assert_wrong(words: &str, due: &str) {
    let command = words.split(' ').next().expect("a command");
    let due = format!("gmti: {due}\n{}\n", usage(command));
    assert_eq!(run(words).parts(), (2, "", &due[..]), "gmti {words}");
}

#[test]
fn a_command_is_needed() {
    let ran = run_with([""; 0]);
    assert_eq!((ran.status, ran.text()), (2, ""));
    assert!(ran.words.starts_with("gmti: a COMMAND is missing\nUsage: gmti COMMAND [OPTIONS] FILE..."), "{}", ran.words);
    for word in ["chek", "Check", "", "--edition", "-", "samples/mission.gmti"] {
        let due = format!("gmti: {word} is no command; gmti --help lists them\n");
        assert_eq!(run_with([word]).parts(), (2, "", &due[..]));
    }
}

#[test]
fn no_command_takes_an_option_that_it_does_not_have() {
    let all: BTreeSet<&str> = COMMANDS.iter().flat_map(|(_, options)| *options).copied().chain(["--nope", "-e", "--Edition"]).collect();
    let wrong = COMMANDS.iter().flat_map(|(command, options)| {
        let others = all.iter().filter(|option| !options.contains(option));
        others.map(move |option| (command, option))
    });
    for (command, option) in wrong {
        assert_wrong(&format!("{command} {option} samples/mission.gmti"), &format!("{option} is no option of {command}"));
        assert_wrong(&format!("{command} {option}=3 samples/mission.gmti"), &format!("{option} is no option of {command}"));
    }
}

#[test]
fn every_option_needs_a_value() {
    let options = COMMANDS.iter().flat_map(|(command, options)| options.iter().map(move |option| (command, option)));
    for (command, option) in options {
        let ran = run(&format!("{command} samples/mission.gmti {option}"));
        assert_eq!((ran.status, ran.text()), (2, ""));
        let start = format!("gmti: {option} has no value; it is {option} ");
        assert!(ran.words.starts_with(&start) && ran.words.ends_with(&format!("\n{}\n", usage(command))), "{}", ran.words);
        // An empty value, as an empty variable of a script gives it, is none.
        assert_eq!(run(&format!("{command} {option}= samples/mission.gmti")), ran);
        assert_eq!(run_with([command, option, "", "samples/mission.gmti"]), ran);
    }
}

/// None of these values is taken for an option, which is written in this form.
fn assert_none(command: &str, form: &str, values: &[&str]) {
    let option = form.split(' ').next().expect("an option");
    for value in values {
        assert_wrong(&format!("{command} {option}={value} samples/mission.gmti"), &format!("{option} cannot be {value}; it is {form}"));
        assert_wrong(&format!("{command} samples/mission.gmti {option} {value}"), &format!("{option} cannot be {value}; it is {form}"));
    }
}

#[test]
fn wrong_values_are_said() {
    for command in ["check", "targets", "sheet"] {
        assert_none(command, "--edition 1|3", &["2", "0", "31", "both", "one"]);
    }
    assert_none("show", "--edition 1|3|both", &["2", "all", "Both"]);
    assert_none("targets", "--format tsv|csv|jsonl", &["json", "TSV", "3"]);
}

#[test]
fn jobs_are_a_number_from_1_on() {
    for command in common::PRINTING {
        assert_none(command, "--jobs N, 1 to 1024", &["0", "-1", "two", "1.5", "1025", "18446744073709551617"]);
    }
    assert_eq!(run("check --jobs 1024 samples/mission.gmti"), run("check samples/mission.gmti"));
}

#[test]
fn what_a_command_needs_is_said() {
    for (command, rest) in [("check", ""), ("show", ""), ("targets", ""), ("editions", ""), ("sheet", " --edition 3"), ("write", "")] {
        assert_wrong(&format!("{command}{rest}"), &format!("{command} needs a FILE; - is standard input"));
        assert_wrong(&format!("{command}{rest} --"), &format!("{command} needs a FILE; - is standard input"));
    }
    assert_wrong("split --into packets", "split needs a FILE; - is standard input");
    assert_wrong("split samples/recording.gmti", "split needs --into DIR");
    assert_wrong("sheet samples/mission.gmti", "sheet needs --edition 1 or --edition 3");
    assert!(!root().join("packets").exists());
}

#[test]
fn too_many_files_are_said() {
    assert_wrong("sheet --edition 3 samples/mission.gmti samples/mission.gmti", "sheet takes one FILE, and 2 are given");
    assert_wrong("write - samples/mission.gmti -", "write takes one FILE, and 3 are given");
    for command in ["check", "show", "targets", "editions", "split --into packets"] {
        assert_wrong(&format!("{command} - samples/mission.gmti -"), "- is given twice, and standard input can be read once");
    }
}

#[test]
fn every_command_has_its_help() {
    let overview = run("--help");
    assert_eq!((overview.status, &overview.words[..]), (0, ""));
    assert_eq!([run("-h"), run("help")], [run("--help"), run("--help")]);
    assert_eq!(run("help check"), run("check --help"));
    assert_eq!(run("--version").parts(), (0, concat!("gmti ", env!("CARGO_PKG_VERSION"), "\n"), ""));
    for (command, options) in COMMANDS {
        assert!(overview.text().contains(&format!("\n  {command} ")), "{command}");
        let help = run(&format!("{command} --help"));
        assert_eq!((help.status, &help.words[..]), (0, ""));
        assert!(help.text().starts_with(&format!("gmti {command} ")), "{}", help.text());
        assert!(options.iter().all(|option| usage(command).contains(&format!("{option} "))), "{}", usage(command));
        assert!(help.text().contains("Exit status: 0 "), "{}", help.text());
        assert_eq!(help.text().contains("FILE is a recording"), !["sheet", "write"].contains(&command), "{}", help.text());
        // Help is given whatever stands beside it.
        assert_eq!(run(&format!("{command} samples/mission.gmti -h --nope")), help);
    }
}

/// The line behind `Example:`.
fn example(command: &str) -> String {
    let help = run(&format!("{command} --help"));
    help.text().lines().skip_while(|line| *line != "Example:").nth(1).expect("an example").trim_start().to_string()
}

#[test]
fn every_example_runs() {
    let folder = folder("examples");
    fs::create_dir(folder.join("samples")).expect("a folder");
    common::samples().iter().for_each(|sample| _ = file(&folder.join("samples"), &sample.name, &sample.bytes));
    for (command, status) in [("check", 1), ("show", 0), ("targets", 1), ("editions", 1), ("sheet", 0), ("write", 0), ("split", 1)] {
        let line = example(command);
        assert!(line.starts_with("gmti ") && line.contains(&format!("gmti {command} ")), "{line}");
        let line = format!("PATH=\"$(dirname \"$0\"):$PATH\"; {line}");
        let ended = shell(&line, [""; 0]).current_dir(&folder).output().expect("sh starts");
        assert_eq!(ended.status.code(), Some(status), "{line}: {}", String::from_utf8_lossy(&ended.stderr));
    }
    let made = |name: &str| fs::read(folder.join(name)).expect("the example makes it");
    assert_eq!(made("mission.gmti"), sample("mission.gmti"));
    assert_eq!(made("mission.sheet").len(), 73);
    assert_eq!(made("targets.csv").split(|byte| *byte == b'\n').count(), 1 + 9 + 1);
    assert_eq!(made("packets/recording-000000000149.gmti"), sample("dwell_every_field.gmti"));
}

#[test]
fn options_stand_anywhere_and_in_either_form() {
    let due = run("check --edition 1 --jobs 2 samples/new_cross_section.gmti");
    assert_eq!(due.status, 1);
    assert_eq!(run("check samples/new_cross_section.gmti --jobs=2 --edition=1"), due);
    // The last of several counts.
    assert_eq!(run("check --edition 3 samples/new_cross_section.gmti --edition 1"), due);
}

#[test]
fn a_name_may_begin_with_a_hyphen() {
    let folder = folder("hyphens");
    file(&folder, "-", &sample("mission.gmti"));
    file(&folder, "--edition", &sample("damaged_height.gmti"));
    let mut command = common::gmti(["editions", "--", "-", "--edition"]);
    let ran = common::Ran::from(command.current_dir(&folder).output().expect("the command starts"));
    let due = "-: offset 0: both\n--edition: offset 0: refused: no 13 1 37: ";
    assert!(ran.status == 1 && ran.text().starts_with(due), "{ran:?}");
}

/// A name of bytes that need not be text, in a folder of its own, and the sample that lies there.
fn named(name: &[u8]) -> OsString {
    let path = folder("names").join(OsStr::from_bytes(name));
    fs::write(&path, sample("printed_trial.gmti")).expect("a file");
    path.into_os_string()
}

#[test]
fn names_are_told_in_one_cell() {
    for (name, shown) in [
        (&b"with spaces.gmti"[..], "with spaces.gmti"),
        (b"with\ta tab.gmti", "with\\ta tab.gmti"),
        (b"with\na line\r.gmti", "with\\na line\\r.gmti"),
        (b"with\\t no tab.gmti", "with\\\\t no tab.gmti"),
        (b"not \xff text.gmti", "not \u{fffd} text.gmti"),
        ("Mäuse 🐭.gmti".as_bytes(), "Mäuse 🐭.gmti"),
    ] {
        let path = named(name);
        let ran = run_with([OsStr::new("targets"), &path]);
        let cells: Vec<&str> = ran.text().lines().nth(1).expect("a target").split('\t').collect();
        assert_eq!((ran.status, cells.len()), (0, 8 + 18));
        assert!(cells[0].ends_with(&format!("/{shown}")), "{cells:?}");
        assert_eq!(run_with([OsStr::new("check"), &path]).status, 0);
    }
}

#[test]
fn a_folder_need_not_be_text() {
    let folder = folder("folders");
    let [one, other] = [b"not \xfe text", b"not \xff text"].map(|name| folder.join(OsStr::from_bytes(name)));
    let joined = OsString::from_vec([b"--into=", one.as_os_str().as_bytes()].concat());
    let ran = run_with([OsStr::new("split"), &joined, OsStr::new("samples/mission.gmti")]);
    assert_eq!((ran.parts(), one.join("list.tsv").exists()), ((0, "", ""), true));
    let ran = run_with([OsStr::new("split"), OsStr::new("--into"), other.as_os_str(), OsStr::new("samples/mission.gmti")]);
    assert_eq!((ran.parts(), other.join("list.tsv").exists()), ((0, "", ""), true));
}
