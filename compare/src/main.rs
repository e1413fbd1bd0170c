//! Compares the library with the oracle: `compare read COUNT SEED`, `replay COUNT SEED`, `step COUNT SEED`, `check COUNT SEED`, `solve COUNT SEED`, `build COUNT SEED`;
//! measures both: `bench SEED`, `bench-check SEED`, `bench-solve SEED`, `bench-build SEED`; writes the records of a pair: `records FAMILY PLACE SEED DIR`.
use std::path::Path;
use std::process::ExitCode;

mod bench;
mod bench_build;
mod bench_check;
mod bench_solve;
mod checks;
mod clock;
mod lent;
mod met;
mod modes;
mod reads;
mod records;
mod replays;
mod solve;
mod steps;

fn number(word: Option<&String>) -> u64 {
    word.and_then(|word| word.parse().ok()).unwrap_or(1)
}

fn main() -> ExitCode {
    let words: Vec<String> = std::env::args().collect();
    match words.get(1).map(String::as_str) {
        Some("read") => reads::compare(number(words.get(2)), number(words.get(3))),
        Some("replay") => replays::compare(number(words.get(2)), number(words.get(3))),
        Some("step") => steps::compare(number(words.get(2)), number(words.get(3))),
        Some("check") => checks::compare(number(words.get(2)), number(words.get(3))),
        Some("solve") => solve::compare(number(words.get(2)), number(words.get(3))),
        Some("build") => bench_build::compare(number(words.get(2)), number(words.get(3))),
        Some("bench-build") => bench_build::graphs(number(words.get(2))),
        Some("bench-solve") => bench_solve::searches(number(words.get(2))),
        Some("bench") => {
            bench::reads(number(words.get(2)));
            ExitCode::SUCCESS
        }
        Some("bench-check") => bench_check::checks(number(words.get(2))),
        Some("records") if words.len() == 6 => records::write(&words[2], number(words.get(3)) as usize, number(words.get(4)), Path::new(&words[5])),
        _ => {
            println!("compare read COUNT SEED | replay COUNT SEED | step COUNT SEED | check COUNT SEED | solve COUNT SEED | build COUNT SEED | bench SEED | bench-check SEED | bench-solve SEED | bench-build SEED | records FAMILY PLACE SEED DIR");
            ExitCode::from(2)
        }
    }
}
