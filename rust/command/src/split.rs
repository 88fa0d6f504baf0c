//! `gmti split`: each packet to a file of its own, and a list.
use crate::failure::Failure;
use crate::files::{self, Work};
use crate::usage::{escaped, Asked, Input, Status};
use gmti::{Accepted, Edition, Found, Refusal, LONGEST_SHEET};
use std::collections::BTreeSet;
use std::fs::{self, File};
use std::io::{self, Write};
use std::path::{Path, PathBuf};

pub fn run(asked: &Asked) -> Result<Status, Failure> {
    let folder = asked.into.as_deref().unwrap_or(Path::new("."));
    let mut stems = BTreeSet::new();
    if let Some(input) = asked.inputs.iter().find(|input| !stems.insert(stem(input))) {
        let words = format!("two recordings are called {}, and so would be their packets; split them into two folders", stem(input));
        return Err(asked.command.wrong(words));
    }
    fs::create_dir_all(folder).map_err(|error| failure(folder, "cannot be made", error))?;
    let list = List::create(folder.join("list.tsv"))?;
    let done = files::on_each(asked, |work| split(work, folder, &list))?;
    Ok(done.status(|status| *status))
}

/// Writes the packets of a recording, and a line of the list for each and for each skipped range.
fn split(work: &Work<'_>, folder: &Path, list: &List) -> Result<Status, Failure> {
    let (name, stem) = (work.input.in_line(), stem(work.input));
    let mut status = Status::Clean;
    let mut lent = vec![0; LONGEST_SHEET];
    work.walk(|found, _| match found {
        Found::Packet { offset, bytes } => {
            let file = format!("{stem}-{offset:012}.gmti");
            let path = folder.join(&file);
            create(&path)?.write_all(bytes).map_err(|error| failure(&path, "cannot be written", error))?;
            let (answer, words) = answer(gmti::read(Edition::Three, bytes, &mut lent));
            status = status.max(if words.is_empty() { Status::Clean } else { Status::Refused });
            list.add(&[&name, &offset.to_string(), &bytes.len().to_string(), &escaped(&file), &answer, &words])
        }
        Found::Skipped { offset, length, reason } => {
            status = Status::Refused;
            list.add(&[&name, &offset.to_string(), &length.to_string(), "", "skipped", &reason.to_string()])
        }
    })?;
    Ok(status)
}

/// The answer as numbers, and in words where it is a refusal.
fn answer(answer: Result<Accepted<'_>, Refusal>) -> (String, String) {
    match answer {
        Ok(Accepted { segments, dwells, targets, sheet }) => {
            (format!("ok {segments} {dwells} {targets} {}", sheet.bytes().len()), String::new())
        }
        Err(refusal) => (refusal.numbers().to_string(), refusal.to_string()),
    }
}

/// The first part of the names of a recording's packets.
fn stem(input: &Input) -> String {
    match input {
        Input::Standard => "packet".to_string(),
        Input::File(path) => path.file_stem().unwrap_or_default().to_string_lossy().into_owned(),
    }
}

fn failure(path: &Path, what: &'static str, error: io::Error) -> Failure {
    Failure::Made { name: path.display().to_string(), what, error }
}

/// A new file: one that is there already is not written over.
fn create(path: &Path) -> Result<File, Failure> {
    File::create_new(path).map_err(|error| failure(path, "cannot be made", error))
}

/// The list of what a recording was split into.
struct List {
    file: File,
    path: PathBuf,
}

impl List {
    fn create(path: PathBuf) -> Result<List, Failure> {
        let list = List { file: create(&path)?, path };
        list.add(&["recording", "offset", "length", "file", "answer", "words"])?;
        Ok(list)
    }

    /// Adds a line, behind the file that it speaks of, so that a list that ends early lists what is there.
    fn add(&self, cells: &[&str]) -> Result<(), Failure> {
        let line = cells.join("\t") + "\n";
        (&self.file).write_all(line.as_bytes()).map_err(|error| failure(&self.path, "cannot be written", error))
    }
}
