//! The words of the command line: which commands there are, what each takes, and what is asked for.
use crate::failure::Failure;
use crate::{check, editions, sheet, show, split, targets};
use gmti::Edition;
use std::ffi::{OsStr, OsString};
use std::os::unix::ffi::OsStrExt;
use std::path::PathBuf;

/// A command of `gmti`.
pub struct Command {
    pub name: &'static str,
    /// What it does, in a line.
    pub summary: &'static str,
    /// What stands behind its name.
    pub takes: &'static str,
    /// Its options, each as it is written.
    pub options: &'static [&'static str],
    /// How many files it takes.
    pub files: Files,
    /// What `--help` says besides.
    pub text: &'static str,
    /// A line to try.
    pub example: &'static str,
    pub run: fn(&Asked) -> Result<Status, Failure>,
}

/// How a command ends, by its exit status.
#[derive(Clone, Copy, Debug, PartialEq, Eq, PartialOrd, Ord)]
pub enum Status {
    /// Every packet was accepted.
    Clean = 0,
    /// A packet was refused, or bytes were skipped.
    Refused = 1,
    /// The usage was wrong, or something could not be read or written.
    Failed = 2,
}

/// How many files a command takes.
#[derive(Clone, Copy, PartialEq, Eq)]
pub enum Files {
    One,
    Any,
}

/// What every command but those of one file has.
const JOBS: &str = "--jobs N, 1 to 1024";

/// So many files at the most are worked on side by side.
const MOST_JOBS: usize = 1024;

pub const COMMANDS: [Command; 7] = [
    Command {
        name: "check",
        summary: "says which packets are refused, and why, and counts",
        takes: "[--edition 1|3] [--jobs N] FILE...",
        options: &["--edition 1|3", JOBS],
        files: Files::Any,
        text: "Each refused packet and each skipped range of bytes is a line: file, offset, numbers, words.\nThen come the counts of all files together. Packets are read as Edition 3, or as --edition says.",
        example: "gmti check samples/recording.gmti",
        run: check::run,
    },
    Command {
        name: "show",
        summary: "sets packets out for a person to read",
        takes: "[--edition 1|3|both] [--jobs N] FILE...",
        options: &["--edition 1|3|both", JOBS],
        files: Files::Any,
        text: "Each segment and target with number, name, value and unit of its fields, as Edition 3 or as --edition\nsays. With --edition both the two readings stand side by side.",
        example: "gmti show --edition both samples/version_3_dwell_and_job.gmti",
        run: show::run,
    },
    Command {
        name: "targets",
        summary: "exports a line for each target",
        takes: "[--edition 1|3] [--format tsv|csv|jsonl] [--jobs N] FILE...",
        options: &["--edition 1|3", "--format tsv|csv|jsonl", JOBS],
        files: Files::Any,
        text: "File, offset of the packet, job (P10), D2, D3, time (D6), latitude and longitude in degrees, D32.1 to\nD32.18; a field that is absent is empty. Refused packets are said on standard error.",
        example: "gmti targets --format csv samples/recording.gmti > targets.csv",
        run: targets::run,
    },
    Command {
        name: "editions",
        summary: "says of each packet whether an Edition 1 reading may be used",
        takes: "[--jobs N] FILE...",
        options: &[JOBS],
        files: Files::Any,
        text: "Of each packet a line: that Edition 1 reads it, or the first thing in it that is new in Edition 3, or why\nEdition 3 refuses it.",
        example: "gmti editions samples/recording.gmti",
        run: editions::run,
    },
    Command {
        name: "sheet",
        summary: "reads one packet and writes its sheet",
        takes: "--edition 1|3 FILE",
        options: &["--edition 1|3"],
        files: Files::One,
        text: "The sheet's bytes go to standard output; nothing goes there where the packet is refused.",
        example: "gmti sheet --edition 3 samples/mission.gmti > mission.sheet",
        run: sheet::read,
    },
    Command {
        name: "write",
        summary: "writes the packet of one sheet",
        takes: "FILE",
        options: &[],
        files: Files::One,
        text: "The packet's bytes go to standard output; nothing goes there where the sheet is refused.",
        example: "gmti sheet --edition 3 samples/mission.gmti | gmti write - > mission.gmti",
        run: sheet::write,
    },
    Command {
        name: "split",
        summary: "writes each packet to a file of its own",
        takes: "--into DIR FILE...",
        options: &["--into DIR"],
        files: Files::Any,
        text: "The files are DIR/NAME-OFFSET.gmti, with refused packets among them; DIR/list.tsv lists them, with what is\nwrong with each, and the skipped ranges of bytes. No file is written over.",
        example: "gmti split --into packets samples/recording.gmti",
        run: split::run,
    },
];

/// What FILE is to a command that takes any number, and to one that takes one.
const RECORDING: &str = "FILE is a recording: packets one after another; - is standard input.";
const SINGLE: &str = "FILE has the one packet or sheet and nothing else; - is standard input.";

/// What ends every help.
const STATUS: &str = "Exit status: 0 where every packet is accepted, 1 where one is refused or bytes are skipped, 2 for wrong usage or a
file that cannot be read or written.";

/// What `gmti --help` prints.
pub fn overview() -> String {
    let commands = COMMANDS.iter().map(|command| format!("  {:<10}{}\n", command.name, command.summary)).collect::<String>();
    format!(
        "Reads and writes moving-target radar packets (GMTI, STANAG 4607, Editions 1 and 3).\n\nUsage: gmti COMMAND [OPTIONS] FILE...\n\n\
         {commands}\ngmti COMMAND --help says what a command takes.\n{RECORDING}\n{STATUS}\n"
    )
}

impl Command {
    /// What `gmti COMMAND --help` prints.
    pub fn help(&self) -> String {
        let Command { name, summary, takes, text, example, .. } = self;
        let file = if self.files == Files::One { SINGLE } else { RECORDING };
        format!("gmti {name} {summary}.\n\nUsage: gmti {name} {takes}\n\n{text}\n\nExample:\n  {example}\n\n{file}\n{STATUS}\n")
    }

    /// The usage failure of these words.
    pub fn wrong(&self, words: impl AsRef<str>) -> Failure {
        Failure::Usage(format!("{}\nUsage: gmti {} {}", words.as_ref(), self.name, self.takes))
    }
}

/// The readings that are asked for.
#[derive(Clone, Copy, Debug, PartialEq, Eq)]
pub enum Readings {
    One(Edition),
    Both,
}

/// The form of exported lines.
#[derive(Clone, Copy, Debug, PartialEq, Eq)]
pub enum Format {
    Tsv,
    Csv,
    Jsonl,
}

/// A file, or standard input.
#[derive(Clone, Debug, PartialEq, Eq)]
pub enum Input {
    Standard,
    File(PathBuf),
}

impl Input {
    /// What it is called.
    pub fn name(&self) -> String {
        match self {
            Input::Standard => "-".to_string(),
            Input::File(path) => path.to_string_lossy().into_owned(),
        }
    }

    /// The same in a line.
    pub fn in_line(&self) -> String {
        escaped(&self.name())
    }
}

/// A name without tabs and line ends, so that it is one cell of one line.
pub fn escaped(name: &str) -> String {
    name.replace('\\', "\\\\").replace('\t', "\\t").replace('\n', "\\n").replace('\r', "\\r")
}

/// What is asked of a command.
pub struct Asked {
    pub command: &'static Command,
    pub readings: Option<Readings>,
    pub format: Format,
    pub into: Option<PathBuf>,
    pub jobs: usize,
    pub inputs: Vec<Input>,
}

impl Asked {
    /// The edition that a command with one reading reads as.
    pub fn edition(&self) -> Edition {
        match self.readings {
            Some(Readings::One(edition)) => edition,
            _ => Edition::Three,
        }
    }
}

/// What the command line asks for.
pub enum Call {
    Help(String),
    Run(Asked),
}

/// The call that these words, without the program's own name, ask for.
pub fn parse(words: impl IntoIterator<Item = OsString>) -> Result<Call, Failure> {
    let mut words = words.into_iter();
    let Some(first) = words.next() else {
        return Err(Failure::Usage(
            "a COMMAND is missing\nUsage: gmti COMMAND [OPTIONS] FILE...; gmti --help lists the commands".to_string(),
        ));
    };
    match first.to_str() {
        Some("--help" | "-h" | "help") => return help_on(words.next()),
        Some("--version") => return Ok(Call::Help(concat!("gmti ", env!("CARGO_PKG_VERSION"), "\n").to_string())),
        _ => {}
    }
    parse_for(command_named(&first)?, words)
}

/// The help on the command that a word names, or on all.
fn help_on(word: Option<OsString>) -> Result<Call, Failure> {
    match word {
        Some(name) => Ok(Call::Help(command_named(&name)?.help())),
        None => Ok(Call::Help(overview())),
    }
}

fn command_named(name: &OsStr) -> Result<&'static Command, Failure> {
    let found = COMMANDS.iter().find(|command| name == command.name);
    found.ok_or_else(|| Failure::Usage(format!("{} is no command; gmti --help lists them", name.to_string_lossy())))
}

fn parse_for(command: &'static Command, mut words: impl Iterator<Item = OsString>) -> Result<Call, Failure> {
    let mut asked = Asked { command, readings: None, format: Format::Tsv, into: None, jobs: 1, inputs: Vec::new() };
    while let Some(word) = words.next() {
        match word.to_str() {
            Some("--help" | "-h") => return Ok(Call::Help(command.help())),
            Some("--") => {
                asked.inputs.extend(words.map(|name| Input::File(name.into())));
                break;
            }
            Some("-") => asked.inputs.push(Input::Standard),
            _ if word.as_encoded_bytes().starts_with(b"-") => option(&mut asked, &word, &mut words)?,
            _ => asked.inputs.push(Input::File(word.into())),
        }
    }
    complete(asked)
}

/// Takes an option and its value, `--name value` or `--name=value`.
fn option(asked: &mut Asked, word: &OsStr, words: &mut impl Iterator<Item = OsString>) -> Result<(), Failure> {
    let command = asked.command;
    // A value need be no text: a folder can have any name.
    let mut parts = word.as_bytes().splitn(2, |byte| *byte == b'=').map(OsStr::from_bytes);
    let name = &*parts.next().unwrap_or_default().to_string_lossy();
    let joined = parts.next().map(OsStr::to_os_string);
    let Some(form) = command.options.iter().find(|form| form.split(' ').next() == Some(name)) else {
        return Err(command.wrong(format!("{name} is no option of {}", command.name)));
    };
    let Some(value) = joined.or_else(|| words.next()).filter(|value| !value.is_empty()) else {
        return Err(command.wrong(format!("{name} has no value; it is {form}")));
    };
    let wrong = || command.wrong(format!("{name} cannot be {}; it is {form}", value.to_string_lossy()));
    match (name, value.to_str()) {
        ("--edition", Some("1")) => asked.readings = Some(Readings::One(Edition::One)),
        ("--edition", Some("3")) => asked.readings = Some(Readings::One(Edition::Three)),
        ("--edition", Some("both")) if form.ends_with("both") => asked.readings = Some(Readings::Both),
        ("--format", Some("tsv")) => asked.format = Format::Tsv,
        ("--format", Some("csv")) => asked.format = Format::Csv,
        ("--format", Some("jsonl")) => asked.format = Format::Jsonl,
        ("--jobs", Some(number)) => asked.jobs = number.parse().ok().filter(|jobs| (1..=MOST_JOBS).contains(jobs)).ok_or_else(wrong)?,
        ("--into", _) => asked.into = Some(value.into()),
        _ => return Err(wrong()),
    }
    Ok(())
}

/// The call, where nothing that it needs is missing.
fn complete(asked: Asked) -> Result<Call, Failure> {
    let command = asked.command;
    let missing = |words: &str| Err(command.wrong(format!("{} needs {words}", command.name)));
    if command.name == "sheet" && asked.readings.is_none() {
        return missing("--edition 1 or --edition 3");
    }
    if command.name == "split" && asked.into.is_none() {
        return missing("--into DIR");
    }
    if asked.inputs.is_empty() {
        return missing("a FILE; - is standard input");
    }
    if command.files == Files::One && asked.inputs.len() > 1 {
        return Err(command.wrong(format!("{} takes one FILE, and {} are given", command.name, asked.inputs.len())));
    }
    if asked.inputs.iter().filter(|input| **input == Input::Standard).count() > 1 {
        return Err(command.wrong("- is given twice, and standard input can be read once"));
    }
    Ok(Call::Run(asked))
}
