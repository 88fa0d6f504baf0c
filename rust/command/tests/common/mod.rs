//! The command as a process, and the samples that it is tried on.
#![allow(dead_code)]
use std::ffi::OsStr;
use std::fs;
use std::io::Write;
use std::path::{Path, PathBuf};
use std::process::{Child, Command, Output, Stdio};
use std::sync::mpsc::{channel, Receiver};
use std::time::Duration;

/// The commands that read recordings and print.
pub const PRINTING: [&str; 4] = ["check", "show", "targets", "editions"];

/// How long a test waits for what must come. Only a fault takes so long.
pub const LIMIT: Duration = Duration::from_secs(60);

/// The top folder of the repository. The command runs there, so that names are those of the manual.
pub fn root() -> PathBuf {
    Path::new(env!("CARGO_MANIFEST_DIR")).join("../..")
}

/// The command with these words, to be run in the top folder.
pub fn gmti(words: impl IntoIterator<Item = impl AsRef<OsStr>>) -> Command {
    let mut command = Command::new(env!("CARGO_BIN_EXE_gmti"));
    command.args(words).current_dir(root()).stdin(Stdio::null());
    command
}

/// A line of the shell that has the command as `"$0"`, and these words behind it.
pub fn shell(line: &str, words: impl IntoIterator<Item = impl AsRef<OsStr>>) -> Command {
    let mut command = Command::new("sh");
    command.args(["-c", line, env!("CARGO_BIN_EXE_gmti")]).args(words).current_dir(root()).stdin(Stdio::null());
    command
}

/// What a run came to.
#[derive(Debug, PartialEq, Eq)]
pub struct Ran {
    pub status: i32,
    pub out: Vec<u8>,
    pub words: String,
}

impl Ran {
    /// Standard output as text.
    pub fn text(&self) -> &str {
        std::str::from_utf8(&self.out).expect("text")
    }

    /// Status, standard output as text and standard error.
    pub fn parts(&self) -> (i32, &str, &str) {
        (self.status, self.text(), &self.words)
    }
}

impl From<Output> for Ran {
    fn from(output: Output) -> Ran {
        let status = output.status.code().expect("ended by itself");
        Ran { status, out: output.stdout, words: String::from_utf8(output.stderr).expect("text") }
    }
}

/// Runs the command with these words.
pub fn run_with(words: impl IntoIterator<Item = impl AsRef<OsStr>>) -> Ran {
    gmti(words).output().expect("the command starts").into()
}

/// Runs the command with these words, split at spaces.
pub fn run(words: &str) -> Ran {
    run_with(words.split(' '))
}

/// Starts it with all three streams as pipes.
pub fn start(command: &mut Command) -> Child {
    command.stdin(Stdio::piped()).stdout(Stdio::piped()).stderr(Stdio::piped()).spawn().expect("the command starts")
}

/// Runs it with these parts as standard input, one after another, by way of a pipe.
pub fn run_in_parts(command: &mut Command, parts: impl Iterator<Item = Vec<u8>> + Send + 'static) -> Ran {
    let mut child = start(command);
    let mut pipe = child.stdin.take().expect("a pipe");
    // A command that ends early closes the pipe, which is no fault here.
    let writer = std::thread::spawn(move || parts.map(|part| pipe.write_all(&part)).find(Result::is_err));
    let ran = child.wait_with_output().expect("the command ends").into();
    writer.join().expect("the writer ends");
    ran
}

/// Runs it with these bytes as standard input, by way of a pipe.
pub fn run_on(words: &str, input: &[u8]) -> Ran {
    run_in_parts(&mut gmti(words.split(' ')), [input.to_vec()].into_iter())
}

/// What a reader gives, part by part, so that a part can be waited for.
pub fn parts_of(mut reader: impl std::io::Read + Send + 'static) -> Receiver<Vec<u8>> {
    let (sender, receiver) = channel();
    std::thread::spawn(move || {
        let mut part = [0; 4096];
        while let Ok(length @ 1..) = reader.read(&mut part) {
            if sender.send(part[..length].to_vec()).is_err() {
                break;
            }
        }
    });
    receiver
}

/// The bytes of a sample.
pub fn sample(name: &str) -> Vec<u8> {
    fs::read(root().join("samples").join(name)).expect("a sample")
}

/// A sample, and what samples/README.md says that the two readings answer.
pub struct Sample {
    pub name: String,
    pub bytes: Vec<u8>,
    pub newer: String,
    pub older: String,
}

impl Sample {
    /// What a reading answers.
    pub fn answer(&self, edition: u32) -> &str {
        if edition == 1 {
            &self.older
        } else {
            &self.newer
        }
    }

    /// Whether it is one packet by its P2. The others are a recording and a packet that is cut short.
    pub fn is_one(&self) -> bool {
        self.newer != "no 4 0 0"
    }
}

/// The rows of the table of samples/README.md that has this heading, each as its cells without back quotes.
pub fn table(heading: &str) -> Vec<Vec<String>> {
    let readme = fs::read_to_string(root().join("samples/README.md")).expect("a file");
    rows(&readme, heading)
}

/// The rows of a text's table that has this heading.
pub fn rows(text: &str, heading: &str) -> Vec<Vec<String>> {
    let lines = text.lines().skip_while(|line| !line.starts_with(heading)).skip(2);
    let rows = lines.take_while(|line| line.starts_with('|'));
    rows.map(|row| row.trim_matches('|').split('|').map(|cell| cell.trim().trim_matches('`').to_string()).collect()).collect()
}

/// Every sample.
pub fn samples() -> Vec<Sample> {
    let of_row = |row: Vec<String>| Sample { bytes: sample(&row[0]), name: row[0].clone(), newer: row[2].clone(), older: row[3].clone() };
    let samples: Vec<Sample> = table("| File |").into_iter().map(of_row).collect();
    assert!(samples.len() > 20, "README.md has a row for each sample");
    samples
}

/// A packet of recording.gmti: where it stands, its length, and what the two readings answer.
pub struct Part {
    pub offset: usize,
    pub length: usize,
    pub newer: String,
    pub older: String,
}

/// The packets of recording.gmti, by samples/README.md.
pub fn recorded() -> Vec<Part> {
    let number = |cell: &str| cell.parse().expect("a number");
    let of_row = |row: Vec<String>| Part { offset: number(&row[1]), length: number(&row[2]), newer: row[4].clone(), older: row[5].clone() };
    let parts: Vec<Part> = table("| Packet |").into_iter().map(of_row).collect();
    assert_eq!(parts.len(), 6);
    parts
}

/// Recordings that are damaged, each with its name: what is skipped of them and what is found is said where they are tried.
pub fn damaged() -> Vec<(&'static str, Vec<u8>)> {
    let recording = sample("recording.gmti");
    let with_p2 = |p2: u32| {
        let mut bytes = recording.clone();
        bytes[149 + 2..149 + 6].copy_from_slice(&p2.to_be_bytes());
        bytes
    };
    vec![
        ("front", [b"no packet", &recording[..]].concat()),
        ("middle", [&recording[..149], &[0; 1000], &recording[149..]].concat()),
        ("short", with_p2(100)),
        ("long", with_p2(60_000)),
        ("cut", recording[..recording.len() - 1].to_vec()),
        ("noise", b"0123456789".repeat(20_000)),
        ("only_cut", recording[..100].to_vec()),
    ]
}

/// A folder of this test's own, empty.
pub fn folder(name: &str) -> PathBuf {
    let folder = Path::new(env!("CARGO_TARGET_TMPDIR")).join(name);
    let _ = fs::remove_dir_all(&folder);
    fs::create_dir_all(&folder).expect("a folder");
    folder
}

/// A file of these bytes in this test's own folder.
pub fn file(folder: &Path, name: &str, bytes: &[u8]) -> String {
    let path = folder.join(name);
    fs::write(&path, bytes).expect("a file");
    path.to_str().expect("a name").to_string()
}
