//! Compares the verified library with the independent implementation and with the reader written by hand on cases from a seed.
//!
//! `compare [SEED [COUNT [FIRST]]]` runs so many cases from the first number on, and prints what was tried. It ends in `no difference`,
//! or prints the case in which there is one and exits with 1.
use std::process::ExitCode;
use testing::cases;
use testing::comparison::Comparison;

/// A run of some ten seconds.
const COUNT: u64 = 250_000;

fn main() -> ExitCode {
    let arguments: Vec<String> = std::env::args().skip(1).collect();
    let mut numbers = [1, COUNT, 0];
    if arguments.len() > numbers.len() {
        return usage();
    }
    for (number, argument) in numbers.iter_mut().zip(&arguments) {
        match argument.parse() {
            Ok(given) => *number = given,
            Err(_) => return usage(),
        }
    }
    let [seed, count, first] = numbers;
    println!("seed {seed}, {count} cases from {first} on");
    let mut comparison = Comparison::new(seed);
    for index in first..first.saturating_add(count) {
        if let Err(case) = cases::run(&mut comparison, seed, index) {
            println!("{case}");
            return ExitCode::from(1);
        }
    }
    println!("{}", comparison.tally);
    println!("no difference");
    ExitCode::SUCCESS
}

fn usage() -> ExitCode {
    eprintln!("compare [SEED [COUNT [FIRST]]]");
    ExitCode::from(2)
}
