//! Writes the vectors that the repository's gate runs, and the sample packets of its programs.
//!
//! `vectors ROOT` writes stdin and stdout (and args) of the programs in ROOT/crates. The answers are those of the independent
//! implementation; beside each vector stands the answer that document 01 gives it, and unless all agree nothing is written.
//! `vectors check ROOT` reads the vectors in ROOT/crates and holds every implementation to the answers that stand there.
mod bodies;
mod dwells;
mod editions;
mod files;
mod heads;
mod hrr;
mod hrr_sheets;
mod lines;
mod longest;
mod modes;
mod newer;
mod order;
mod parts;
mod positions;
mod records;
mod texts;
mod trials;
mod unwritten;
mod verdict;
mod written;

use std::fs;
use std::path::Path;
use std::process::ExitCode;
use testing::generator::faults::Fault;
use testing::tally::{Tally, LIKENESSES};
use trials::Trials;
use verdict::{Implementation, BY_HAND, INDEPENDENT, VERIFIED};

/// The readings, then the writings. Lists that came later stand behind these: how much is lent to a refusal goes by its place.
const LISTS: [fn(&mut Trials); 84] = [
    heads::call,
    heads::versions,
    heads::packet_sizes,
    heads::header_texts,
    heads::types,
    heads::claimed_sizes,
    heads::sizes,
    bodies::mission_texts,
    bodies::other_texts,
    dwells::printed_masks,
    dwells::fields_of_masks,
    dwells::groups_of_masks,
    dwells::angles,
    dwells::sizes,
    dwells::counts,
    bodies::dates,
    dwells::values,
    dwells::latitudes_out,
    positions::trials,
    positions::rounding,
    positions::latitude_sums,
    positions::longitude_sums,
    positions::printed,
    positions::lent_lengths,
    positions::all_fields,
    positions::shapes,
    bodies::pieces,
    bodies::opaque_types,
    newer::high_range,
    newer::masks,
    newer::modes,
    newer::withheld,
    order::mixtures,
    order::repetitions,
    order::apart,
    order::together,
    order::before_16,
    written::each_kind,
    written::with_pieces,
    written::dwells,
    written::both_readings,
    written::row_20,
    unwritten::row_17_kinds,
    unwritten::row_17_headers,
    unwritten::row_18_targets,
    unwritten::row_18_places,
    unwritten::row_18_pieces,
    unwritten::row_19_header,
    unwritten::row_19_values,
    unwritten::row_19_marks,
    unwritten::row_19_positions,
    unwritten::row_19_masks,
    unwritten::order_of_17,
    unwritten::order_of_18_and_19,
    dwells::pairs,
    written::pairs,
    dwells::other_types,
    written::other_types,
    longest::lent,
    texts::every_field,
    texts::older_reading,
    texts::lengths,
    texts::order,
    texts::header_order,
    texts::sheets,
    hrr::printed,
    hrr::masks,
    hrr::widths,
    hrr::counts,
    hrr::products,
    hrr::sizes,
    hrr::versions,
    hrr::order,
    hrr::lent,
    hrr_sheets::written,
    hrr_sheets::row_17,
    hrr_sheets::row_18,
    hrr_sheets::row_18_places,
    hrr_sheets::row_18_absent,
    hrr_sheets::row_19,
    hrr_sheets::row_19_scatterers,
    hrr_sheets::row_19_absent,
    hrr_sheets::row_19_versions,
    hrr_sheets::order,
];

fn main() -> ExitCode {
    let arguments: Vec<String> = std::env::args().skip(1).collect();
    let words: Vec<&str> = arguments.iter().map(String::as_str).collect();
    let faults = match words[..] {
        ["check", root] => check(Path::new(root)),
        [root] => write(Path::new(root)),
        _ => vec!["vectors ROOT, or vectors check ROOT".to_string()],
    };
    for fault in &faults {
        eprintln!("{fault}");
    }
    ExitCode::from(u8::from(!faults.is_empty()))
}

/// Makes the vectors and writes them, or tells what is wrong with them.
fn write(root: &Path) -> Vec<String> {
    let mut trials = Trials::default();
    for list in LISTS {
        list(&mut trials);
    }
    let editions = editions::list();
    let mut faults = [&trials.faults[..], &editions.faults, &lines::trials().faults, &lines::editions().faults].concat();
    faults.extend(longest::faults());
    faults.extend(modes::lines().faults);
    faults.extend(untried(&trials));
    faults
        .extend(trials.trials.iter().filter(|trial| trial.lent > files::MOST_LENT).map(|trial| format!("{}: lends too much", trial.name)));
    let files = files::all(&trials, &editions);
    let is_long = |content: &[u8]| content.split(|byte| *byte == b'\n').any(|line| line.len() > files::LONGEST_LINE);
    faults.extend(files.iter().filter(|(_, content)| is_long(content)).map(|(name, _)| format!("{name}: too long a line")));
    if !faults.is_empty() {
        return faults;
    }
    for (name, content) in &files {
        if let Err(error) = fs::write(root.join("crates").join(name), content) {
            faults.push(format!("{name}: {error}"));
        }
    }
    let writings = trials.trials.iter().filter(|trial| trial.edition.is_none()).count();
    println!("{} vectors, {writings} of them sheets, and {} packets", trials.trials.len(), editions.packets.len());
    faults
}

/// What the vectors leave untried of the rows, the fields that they name, the kinds of record, and pairs of D2 and D3.
fn untried(trials: &Trials) -> Vec<String> {
    let mut tally = Tally::default();
    for trial in &trials.trials {
        let (answer, memory) = trial.answer();
        match trial.edition {
            Some(edition) => tally.read(edition, answer),
            None => tally.write(answer),
        }
        if answer.is_accepted() && trial.edition.is_some() {
            tally.records(&memory[..answer.length as usize]);
        }
    }
    let named = |fault: &Fault| !matches!(fault.row(), 5 | 10 | 11 | 13 | 14 | 15) || tally.fields_of(fault.row()).contains(&fault.field());
    let mut untried: Vec<String> =
        Fault::all().iter().filter(|fault| !named(fault)).map(|fault| format!("{fault:?} is not tried")).collect();
    // Row 15 is the Edition 1 reading's alone, rows 21 and 22 are the Edition 3 reading's; there are no rows of the writer before 17.
    let is_tried = |row: &usize| match row {
        1 => tally.others[1] > 0,
        15 => tally.older[15] > 0,
        17..=20 => tally.writer[*row] > 0,
        21 | 22 => tally.newer[*row] > 0,
        _ => tally.older[*row] > 0 && tally.newer[*row] > 0,
    };
    untried.extend((0..=22).filter(|row| !is_tried(row)).map(|row| format!("row {row} is not tried")));
    untried.extend((1..=12).filter(|kind| tally.records[*kind] == 0).map(|kind| format!("kind {kind} is not tried")));
    let pairs = LIKENESSES.iter().zip(tally.pairs).filter(|(_, count)| *count == 0);
    untried.extend(pairs.map(|((name, _), _)| format!("a pair of D2 and D3 that is {name} is not tried")));
    untried
}

/// What one implementation answers to a line.
type Answering = fn(Implementation, &str) -> String;

/// The programs that answer line by line.
const BY_LINES: [(&str, Answering); 3] =
    [("gmti_trials", files::answer_trial), ("gmti_editions", files::answer_editions), ("gmti_modes", modes::answer)];

/// Holds every implementation to the answers that stand in the folder, the reader by hand to those of packets and modes.
fn check(root: &Path) -> Vec<String> {
    let mut faults = Vec::new();
    for (name, answer) in BY_LINES {
        let folder = root.join("crates").join(name);
        let read = |file: &str| fs::read_to_string(folder.join(file)).map_err(|error| format!("{name}/{file}: {error}"));
        match (read("stdin"), read("stdout")) {
            (Ok(given), Ok(answers)) => faults.extend(check_lines(name, answer, &given, &answers)),
            (given, answers) => faults.extend(given.err().into_iter().chain(answers.err())),
        }
    }
    faults
}

fn check_lines(name: &str, answer: Answering, given: &str, answers: &str) -> Vec<String> {
    let mut faults = Vec::new();
    // A carriage return is a character of its line, which `lines` would take off.
    let given: Vec<&str> = given.split_terminator('\n').collect();
    let answers: Vec<&str> = answers.split_terminator('\n').collect();
    if given.len() != answers.len() {
        faults.push(format!("{name}: stdin and stdout have different numbers of lines"));
    }
    for by in [INDEPENDENT, VERIFIED, BY_HAND] {
        let of_it = |line: &str| by.has_writer || !files::is_writing(line);
        let lines: Vec<_> = given.iter().zip(&answers).filter(|(line, _)| of_it(line)).collect();
        for (line, due) in &lines {
            let found = answer(by, line);
            if found != **due {
                faults.push(format!("{name}, {}: {found} where {due} is due", by.name));
            }
        }
        println!("{name}: {} lines, {}", lines.len(), by.name);
    }
    faults
}
