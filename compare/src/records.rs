//! Writes the records of one pair of a family as files, for programs that are measured by themselves.
use std::fs;
use std::path::Path;
use std::process::ExitCode;

use oracle::families::generate_reading;
use oracle::random::ClockRead;
use oracle::vectors::unhex;

/// The check at a place of a family, counted from 0; none where it has fewer.
fn line(family: &str, place: usize, seed: u64) -> Option<String> {
    const COMMENTS: usize = 60;
    generate_reading(family, place + 1 + COMMENTS, seed, ClockRead::Never).into_iter().filter(|line| line.starts_with("check ")).nth(place)
}

/// Writes DIR/gold.struo and DIR/gate.struo of the check at a place of a family, and prints its depth.
pub fn write(family: &str, place: usize, seed: u64, folder: &Path) -> ExitCode {
    let Some(line) = line(family, place, seed) else {
        eprintln!("{family} has no check {place}");
        return ExitCode::FAILURE;
    };
    let words: Vec<&str> = line.split(' ').collect();
    for (name, hex) in [("gold.struo", words[1]), ("gate.struo", words[2])] {
        fs::write(folder.join(name), unhex(hex)).unwrap_or_else(|error| panic!("{}: {error}", folder.join(name).display()));
    }
    println!("{}", words[3]);
    ExitCode::SUCCESS
}
