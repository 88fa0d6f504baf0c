//! The vector files of the repository's programs: every implementation gives the answers that stand in them, and they are up to date.
use std::fs;
use std::path::{Path, PathBuf};
use std::process::{Command, Output};
use testing::root;

const PROGRAMS: [&str; 7] = ["gmti_trials", "gmti_editions", "gmti_read", "gmti_sheet", "gmti_write", "gmti_longest", "gmti_modes"];

fn vectors(arguments: &[&Path]) -> Output {
    Command::new(env!("CARGO_BIN_EXE_vectors")).args(arguments).output().expect("the program starts")
}

/// A new folder with a folder for each program.
fn folder(name: &str) -> PathBuf {
    let folder = Path::new(env!("CARGO_TARGET_TMPDIR")).join(name);
    for program in PROGRAMS {
        fs::create_dir_all(folder.join("crates").join(program)).expect("a folder can be made");
    }
    folder
}

#[test]
fn every_implementation_gives_the_answers() {
    let output = vectors(&[Path::new("check"), &root()]);
    assert!(output.status.success(), "{}", String::from_utf8_lossy(&output.stderr));
}

#[test]
fn files_are_up_to_date() {
    let folder = folder("vectors");
    let output = vectors(&[&folder]);
    assert!(output.status.success(), "{}", String::from_utf8_lossy(&output.stderr));
    let mut compared = 0;
    for program in PROGRAMS {
        for file in fs::read_dir(folder.join("crates").join(program)).expect("the folder is there") {
            let path = Path::new("crates").join(program).join(file.expect("a file").file_name());
            assert!(fs::read(folder.join(&path)).ok() == fs::read(root().join(&path)).ok(), "{} is not up to date", path.display());
            compared += 1;
        }
    }
    assert_eq!(compared, 15);
}

/// A digit of one answer changed, or a word left out, is found.
#[test]
fn another_answer_is_found() {
    let folder = folder("changed");
    assert!(vectors(&[&folder]).status.success());
    assert!(vectors(&[Path::new("check"), &folder]).status.success());
    for (program, right, wrong) in [
        ("gmti_trials", "no 13 1 6", "no 13 1 7"),
        ("gmti_editions", "new no 15 1 49", "new no 15 1 48"),
        ("gmti_modes", "Lynx I/II (10)", "Lynx I/II (11)"),
        ("gmti_modes", "Reserved (0), not new", "Reserved (0), new"),
    ] {
        let path = folder.join("crates").join(program).join("stdout");
        let answers = fs::read_to_string(&path).expect("the file is there");
        fs::write(&path, answers.replacen(right, wrong, 1)).expect("the file can be written");
        let output = vectors(&[Path::new("check"), &folder]);
        let told = String::from_utf8_lossy(&output.stderr).into_owned();
        assert_eq!(output.status.code(), Some(1));
        assert!(told.contains(right) && told.contains(wrong), "{told}");
        fs::write(&path, answers).expect("the file can be written");
    }
}

/// The program `compare` ends in `no difference`.
#[test]
fn compare_tells_what_it_tried() {
    let output = Command::new(env!("CARGO_BIN_EXE_compare")).args(["7", "640"]).output().expect("the program starts");
    let told = String::from_utf8_lossy(&output.stdout);
    assert!(output.status.success() && told.ends_with("no difference\n"), "{told}");
    let output = Command::new(env!("CARGO_BIN_EXE_compare")).arg("seven").output().expect("the program starts");
    assert_eq!(output.status.code(), Some(2));
}
