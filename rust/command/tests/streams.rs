//! Full devices, closed pipes, files side by side, little memory, live pipes and progress.
mod common;

use common::{
    damaged, file, folder, gmti, parts_of, recorded, run, run_in_parts, run_with, sample, samples, shell, start, Ran, LIMIT, PRINTING,
};
use std::fs::File;
use std::io::{Read, Write};
use std::path::Path;
use std::process::{Child, ChildStdin, Command, Stdio};
use std::sync::mpsc::channel;

/// Words for each command that prints, on inputs that are accepted, with what a message calls it.
fn calls(folder: &Path) -> Vec<(String, String)> {
    let sheet = file(folder, "sheet", &run("sheet --edition 3 samples/mission.gmti").out);
    let one = PRINTING.iter().map(|name| (format!("gmti {name}"), format!("{name} samples/printed_trial.gmti")));
    let two =
        PRINTING.iter().map(|name| (format!("gmti {name}"), format!("{name} --jobs 2 samples/printed_trial.gmti samples/mission.gmti")));
    let others = [
        ("gmti sheet", "sheet --edition 3 samples/mission.gmti".to_string()),
        ("gmti write", format!("write {sheet}")),
        ("gmti", "--help".to_string()),
        ("gmti", "check --help".to_string()),
    ];
    one.chain(two).chain(others.map(|(name, words)| (name.to_string(), words))).collect()
}

/// The output of each of these calls fails: the status is 2, and the words are these.
fn assert_cut(folder: &str, output: fn() -> Stdio, words: &str) {
    for (name, call) in calls(&common::folder(folder)) {
        let ran = Ran::from(gmti(call.split(' ')).stdout(output()).output().expect("the command starts"));
        assert_eq!(ran.parts(), (2, "", &format!("{name}: standard output is cut: {words}\n")[..]), "{call}");
    }
}

#[test]
fn a_full_device_is_said() {
    let full = || File::options().write(true).open("/dev/full").expect("a device that is full").into();
    assert_cut("full", full, "No space left on device");
}

/// A pipe whose reader is gone.
fn closed_pipe() -> ChildStdin {
    let mut reader = Command::new("true").stdin(Stdio::piped()).spawn().expect("true starts");
    let pipe = reader.stdin.take().expect("a pipe");
    reader.wait().expect("true ends");
    pipe
}

#[test]
fn a_closed_pipe_is_said() {
    assert_cut("closed", || closed_pipe().into(), "Broken pipe");
}

/// A recording whose pages are longer than any pipe.
fn long_recording(folder: &Path) -> String {
    file(folder, "long.gmti", &sample("recording.gmti").repeat(1000))
}

/// The reader takes a few bytes and goes.
fn assert_left(words: &[&str]) {
    let mut child = start(&mut gmti(words));
    let mut few = [0; 10];
    child.stdout.take().expect("a pipe").read_exact(&mut few).expect("a few bytes");
    let ran = Ran::from(child.wait_with_output().expect("the command ends"));
    let last = format!("gmti {}: standard output is cut: Broken pipe", words[0]);
    assert_eq!((ran.status, ran.words.lines().last()), (2, Some(&last[..])), "{words:?}");
    assert!(!ran.words.contains("panicked"), "{}", ran.words);
}

#[test]
fn a_reader_that_leaves_is_said() {
    let long = long_recording(&folder("left"));
    for name in PRINTING {
        assert_left(&[name, &long]);
        assert_left(&[name, "--jobs", "2", &long, &long, "samples/mission.gmti"]);
    }
}

/// How a process ends, where it does so within the time limit.
fn end_of(child: Child) -> Option<Ran> {
    let (sender, receiver) = channel();
    std::thread::spawn(move || sender.send(child.wait_with_output().expect("the command ends")));
    receiver.recv_timeout(LIMIT).ok().map(Ran::from)
}

/// A job that waits for its input does not keep the command when the output has failed.
#[test]
fn a_silent_input_does_not_keep_a_command_that_has_failed() {
    let long = long_recording(&folder("silent"));
    for name in PRINTING {
        let mut command = gmti([name, "--jobs", "2", &long, "-"]);
        let mut child = command.stdin(Stdio::piped()).stdout(closed_pipe()).stderr(Stdio::piped()).spawn().expect("the command starts");
        // It is held open until the command has ended.
        let pipe = child.stdin.take();
        let ran = end_of(child).expect("an end while the input is open");
        assert!(ran.status == 2 && ran.words.ends_with(": standard output is cut: Broken pipe\n"), "{ran:?}");
        drop(pipe);
    }
}

#[test]
fn standard_error_may_be_full() {
    for (status, words) in [(1, "targets samples/damaged_height.gmti"), (2, "check no_such_file"), (2, "check --nope"), (2, "no_command")] {
        let ended = shell("exec \"$0\" \"$@\" 2>/dev/full", words.split(' ')).output().expect("sh starts");
        assert_eq!(ended.status.code(), Some(status), "{words}");
    }
}

#[test]
fn an_input_that_cannot_be_read_is_said() {
    for name in PRINTING {
        let mut command = gmti([name, "-"]);
        command.stdin(File::open(common::root()).expect("a folder"));
        let ran = Ran::from(command.output().expect("the command starts"));
        assert_eq!((ran.status, &ran.words[..]), (2, &format!("gmti {name}: -: cannot be read: Is a directory\n")[..]));
    }
}

#[test]
fn files_side_by_side_give_what_they_give_one_by_one() {
    let folder = folder("jobs");
    let mut names: Vec<String> = samples().iter().map(|sample| format!("samples/{}", sample.name)).collect();
    names.extend(damaged().iter().map(|(name, bytes)| file(&folder, name, bytes)));
    names.insert(1, file(&folder, "long.gmti", &sample("recording.gmti").repeat(400)));
    names.insert(5, "no_such_file".to_string());
    names.insert(7, names[1].clone());
    names.push("samples".to_string());
    let with = |name: &str, jobs: &str| run_with([name, "--jobs", jobs].into_iter().chain(names.iter().map(String::as_str)));
    for name in PRINTING {
        let one = with(name, "1");
        assert_eq!((one.status, one.words.lines().filter(|line| line.starts_with("gmti ")).count()), (2, 2), "{name}");
        // The outputs are too long to be printed.
        assert!(with(name, "2") == one, "{name}, 2 jobs");
        assert!(with(name, "8") == one, "{name}, 8 jobs");
    }
}

/// Runs the command under a limit of its memory, in KiB, on so many copies of these bytes, from a pipe.
fn run_in_little(words: &str, bytes: &[u8], copies: usize) -> Ran {
    let mut command = shell("ulimit -v 262144; exec \"$0\" \"$@\"", words.split(' '));
    let (part, parts) = (bytes.repeat(1000), copies / 1000);
    run_in_parts(&mut command, (0..parts).map(move |_| part.clone()))
}

#[test]
fn a_long_stream_takes_little_memory() {
    const COPIES: usize = 276_000;
    let recording = sample("recording.gmti");
    assert!(COPIES * recording.len() > 300_000_000);
    let ran = run_in_little("check -", &recording, COPIES);
    assert_eq!((ran.status, &ran.words[..]), (1, ""));
    let parts = recorded();
    let sum = |place: usize| -> usize {
        let accepted = parts.iter().filter(|part| part.newer.starts_with("ok"));
        accepted.map(|part| part.newer.split(' ').nth(place).expect("a count").parse::<usize>().expect("a number")).sum()
    };
    let counts =
        [("packets", 6), ("accepted", 5), ("refused", 1), ("  with 13", 1), ("segments", sum(1)), ("dwells", sum(2)), ("targets", sum(3))];
    let lines: String = counts.iter().map(|(name, count)| format!("{name:14}{:12}\n", count * COPIES)).collect();
    let due = lines + "bytes skipped            0\n";
    let told = ran.text().strip_suffix(&due).unwrap_or_else(|| panic!("{}", &ran.text()[ran.text().len() - 400..]));
    assert_eq!(told.lines().count(), COPIES);
    let last = (COPIES - 1) * recording.len() + parts[2].offset;
    assert!(told.lines().last().expect("a line").starts_with(&format!("-: offset {last}, 131 bytes: no 13 1 37: ")));
}

#[test]
fn a_long_skipped_range_takes_little_memory() {
    let ran = run_in_little("editions -", &[b'1'; 1024], 300_000);
    assert_eq!(ran.parts(), (1, "-: offset 0: 307200000 bytes skipped: no header\n", ""));
}

/// What is told of the first packet comes before the input ends.
fn assert_live(words: &str, due: &str, is_error: bool) {
    let mut child = start(&mut gmti(words.split(' ')));
    let mut pipe = child.stdin.take().expect("a pipe");
    let parts = match is_error {
        false => parts_of(child.stdout.take().expect("a pipe")),
        true => parts_of(child.stderr.take().expect("a pipe")),
    };
    let packets = [sample("damaged_height.gmti"), sample("printed_trial.gmti")].concat();
    pipe.write_all(&packets).expect("the command reads");
    let mut told = String::new();
    while !told.contains(due) {
        let part = parts.recv_timeout(LIMIT).unwrap_or_else(|_| panic!("gmti {words}: {due} did not come, but {told}"));
        told += std::str::from_utf8(&part).expect("text");
    }
    drop(pipe);
    assert_eq!(child.wait().expect("the command ends").code(), Some(1));
}

#[test]
fn a_live_pipe_is_told_at_once() {
    let refused = "-: offset 0, 131 bytes: no 13 1 37: segment 1 (dwell), target 3: D32.6, height -1001, is under -1000\n";
    assert_live("check -", refused, false);
    assert_live("targets -", refused, true);
    assert_live("targets -", "-\t131\t3\t0\t0\t0\t-0.351563\t359.648438\t", false);
    assert_live("editions -", "-: offset 0: refused: no 13 1 37: ", false);
    assert_live("editions -", "-: offset 131: both\n", false);
    assert_live("show -", "    D32.5   longitude from D25          -64 x D11\n", false);
    assert_live("check --jobs 2 - samples/mission.gmti", refused, false);
}

/// A terminal for standard error, and for standard output too where that is asked for. The input is slow, or the output is.
const TERMINAL: &str = r#"
import os, pty, re, select, subprocess, sys, time

gmti, height, trial, long = sys.argv[1:]
LINE = rb"\r\x1b\[Kgmti (?:check|show): (?:\d+ %, \d+ of )?\d+ MB"
SHOWN = rb"(?:" + LINE + rb")+\r\x1b\[K"


def read_until(terminal, pattern):
    seen = b""
    while not re.search(pattern, seen):
        if not select.select([terminal], [], [], 60)[0]:
            sys.exit(f"{pattern} did not come, but {seen}")
        seen += os.read(terminal, 4096)
    return seen


def rest(terminal):
    seen = b""
    while True:
        try:
            seen += os.read(terminal, 65536)
        except OSError:  # no process has the terminal any more
            os.close(terminal)
            return seen


def started(words, both=False):
    terminal, end = pty.openpty()
    out = end if both else subprocess.PIPE
    process = subprocess.Popen([gmti, *words], stdin=subprocess.PIPE, stdout=out, stderr=end)
    os.close(end)
    return terminal, process


def plain(words, given):
    return subprocess.run([gmti, *words], input=given, capture_output=True).stdout


def must(holds, what):
    if not holds:
        sys.exit(str(what))


packets = [open(name, "rb").read() for name in (height, trial)]
due = plain(["check", "-"], b"".join(packets))

# A slow input: the line comes, and is gone at the end.
terminal, process = started(["check", "-"])
process.stdin.write(packets[0])
process.stdin.flush()
seen = read_until(terminal, LINE)
out, _ = process.communicate(packets[1])
seen += rest(terminal)
must(re.fullmatch(SHOWN, seen), seen)
must((process.returncode, out) == (1, due), out)

# All on one terminal: no line of output stands behind a line of progress.
terminal, process = started(["check", "-"], both=True)
seen = read_until(terminal, LINE)
process.stdin.write(b"".join(packets))
process.stdin.flush()
seen += read_until(terminal, rb"no 13 1 37[^\n]*\n")
seen += read_until(terminal, LINE)
process.stdin.close()
process.wait()
seen += rest(terminal)
must(re.sub(SHOWN, b"", seen) == due.replace(b"\n", b"\r\n"), seen)

# A slow output of a file, whose length is known.
terminal, process = started(["show", long])
seen = read_until(terminal, rb"gmti show: \d+ %, \d+ of 1 MB")
out, _ = process.communicate()
seen += rest(terminal)
must(re.fullmatch(SHOWN, seen), seen)
must((process.returncode, out) == (1, plain(["show", long], b"")), "the pages are others")

# No terminal, no progress.
process = subprocess.Popen([gmti, "check", "-"], stdin=subprocess.PIPE, stdout=subprocess.PIPE, stderr=subprocess.PIPE)
process.stdin.write(packets[0])
process.stdin.flush()
time.sleep(0.5)
out, words = process.communicate(packets[1])
must((process.returncode, out, words) == (1, due, b""), words)
"#;

#[test]
fn progress_is_shown_on_a_terminal() {
    let long = long_recording(&folder("terminal"));
    let samples = common::root().join("samples");
    let mut python = Command::new("python3");
    python.args(["-c", TERMINAL, env!("CARGO_BIN_EXE_gmti")]);
    python.args([samples.join("damaged_height.gmti"), samples.join("printed_trial.gmti"), long.into()]);
    let ended = python.output().expect("python3 starts");
    assert!(ended.status.success(), "{}", String::from_utf8_lossy(&ended.stderr));
}
