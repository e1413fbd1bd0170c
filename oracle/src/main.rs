//! The command line of the oracle.
use std::io::Read;
use std::process::ExitCode;

use oracle::families::{generate, generate_reading, FAMILIES};
use oracle::meter::Wish;
use oracle::random::ClockRead;
use oracle::{asserts, solving, vectors};

const USAGE: &str = "oracle answer FILE | verify FILE | generate FAMILY COUNT SEED [freely] | assert COUNT SEED | queries FILE | queries FAMILY COUNT SEED | trace FILE TURNS | totals FILE
FILE may be - for the standard input.";

/// The lines of a file, or of the standard input.
fn lines(file: &str) -> Vec<String> {
    let mut text = String::new();
    if file == "-" {
        std::io::stdin().read_to_string(&mut text).expect("the standard input is text");
    } else {
        text = std::fs::read_to_string(file).unwrap_or_else(|error| panic!("{file}: {error}"));
    }
    text.lines().map(str::to_owned).collect()
}

/// A number of the command line.
fn number(word: &str) -> usize {
    word.parse().unwrap_or_else(|_| panic!("no number: {word}"))
}

/// Prints lines.
fn print(lines: &[String]) -> ExitCode {
    lines.iter().for_each(|line| println!("{line}"));
    ExitCode::SUCCESS
}

/// Prints every line with its answer.
fn answer(file: &str) -> ExitCode {
    for line in lines(file) {
        println!("{}", vectors::answered(&line));
    }
    ExitCode::SUCCESS
}

/// Compares every line's answer.
fn verify(file: &str) -> ExitCode {
    let (mut count, mut differ) = (0, 0);
    for (place, line) in lines(file).iter().enumerate() {
        let Some((left, right)) = vectors::split(line) else { continue };
        count += 1;
        let answer = vectors::answer(left);
        if right != Some(answer.as_str()) {
            differ += 1;
            println!("line {}: {} instead of {answer}: {left}", place + 1, right.unwrap_or("no answer"));
        }
    }
    println!("{count} lines, {differ} differ");
    ExitCode::from(u8::from(differ > 0))
}

/// Asserts the laws over random pairs.
fn assert(count: usize, seed: u64) -> ExitCode {
    let summary = asserts::run(count, seed);
    for failure in &summary.failures {
        println!("FAILED {failure}");
    }
    let [equivalent, different, inconclusive, gave_up] = summary.statuses;
    println!("{} pairs: {equivalent} Equivalent, {different} NotEquivalent, {inconclusive} Inconclusive, {gave_up} GaveUp", summary.pairs);
    println!("{} traces replayed, {} designs against themselves, {} swaps", summary.replays, summary.selves, summary.swaps);
    println!("{} tiny pairs searched exhaustively, each in both modes; questions 0 to 4, no and yes: {:?}", summary.tiny / 2, summary.questions);
    println!("{} checks under limits; give-ups in queries 0 to 4, at depth 1 and deeper: {:?}; {} proved cycles searched exhaustively", summary.limited, summary.given_up, summary.searched);
    println!("earliest cycle: {} pairs differ in cycle 0, {} of them in cycle 1 without the mode; query 0 learned most in {} others", summary.at_once, summary.earlier, summary.first_most);
    println!("least cycles searched exhaustively: {} by states, {} by input sequences", summary.least, summary.sequences);
    println!("clock: {} designs run on two sequences that differ in its bits alone, {} traces with its bytes 0", summary.two_clocks, summary.clock_columns);
    println!("deepest {}, most learned {}, {} failures", summary.deepest, summary.most_learned, summary.failures.len());
    ExitCode::from(u8::from(!summary.failures.is_empty()))
}

/// Prints the SAT problems of check lines as solve lines.
fn queries(lines: &[String]) -> ExitCode {
    for line in lines {
        let Some((left, _)) = vectors::split(line) else { continue };
        if left.starts_with("solve") {
            println!("{}", vectors::answered(left));
            continue;
        }
        let Some(limit) = vectors::check_call(left).map(|call| call.limit) else { continue };
        let wish = Wish { problems: true, ..Wish::default() };
        for problem in vectors::report(left, wish).unwrap_or_default().problems {
            println!("{}", vectors::answered(&format!("solve {limit} {}", solving::problem_words(&problem))));
        }
    }
    ExitCode::SUCCESS
}

/// Prints each query of check lines: what the meter counted.
fn totals(lines: &[String]) -> ExitCode {
    for line in lines {
        let Some((left, _)) = vectors::split(line) else { continue };
        let wish = Wish { clauses: true, ..Wish::default() };
        for query in vectors::report(left, wish).unwrap_or_default().queries {
            let oracle::meter::Query { depth, number, learned, conflicts, propagations, rescales, next, ending, nodes, unwatched, repeated } = query;
            println!("depth {depth} query {number} learned {learned} conflicts {conflicts} propagations {propagations} rescales {rescales} next {next} nodes {nodes} unwatched {unwatched} repeated {repeated} {ending:?}");
        }
    }
    ExitCode::SUCCESS
}

/// Prints the states of the search before each of the first turns of solve lines.
fn trace(lines: &[String], turns: usize) -> ExitCode {
    for line in lines {
        let Some((left, _)) = vectors::split(line) else { continue };
        let words: Vec<&str> = left.split(' ').collect();
        let ["solve", _, nodes, assumptions] = words[..] else { continue };
        println!("{left}");
        for (turn, state) in solving::states(nodes, assumptions, turns).iter().enumerate() {
            println!("turn {turn} {state:?}");
        }
    }
    ExitCode::SUCCESS
}

/// The command that the words name.
fn main() -> ExitCode {
    let words: Vec<String> = std::env::args().skip(1).collect();
    let words: Vec<&str> = words.iter().map(String::as_str).collect();
    match words[..] {
        ["answer", file] => answer(file),
        ["verify", file] => verify(file),
        ["assert", count, seed] => assert(number(count), number(seed) as u64),
        ["generate", family, count, seed] => print(&generate(family, number(count), number(seed) as u64)),
        ["generate", family, count, seed, "freely"] => print(&generate_reading(family, number(count), number(seed) as u64, ClockRead::Freely)),
        ["queries", family, count, seed] => queries(&generate(family, number(count), number(seed) as u64)),
        ["queries", file] => queries(&lines(file)),
        ["totals", file] => totals(&lines(file)),
        ["trace", file, turns] => trace(&lines(file), number(turns)),
        _ => {
            eprintln!("{USAGE}\nfamilies: {}", FAMILIES.join(", "));
            ExitCode::from(2)
        }
    }
}
