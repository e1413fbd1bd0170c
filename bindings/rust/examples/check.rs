//! Checks two records to a depth, under a limit of learned literals, and in the mode of the earliest cycle where that is asked for:
//! `cargo run --release --example check -- GOLD GATE D [LIMIT] [earliest]`. The exit status is 0 for Equivalent, 1 for NotEquivalent, 2 for Inconclusive, 3 for
//! GaveUp, 4 for a refusal, 64 for wrong usage and 66 for a file that cannot be read.
use std::process::ExitCode;

use struo_formal::{Checker, Options, Status};

/// Checks the two records, and says the verdict or the refusal.
fn checked(gold: &[u8], gate: &[u8], options: Options) -> ExitCode {
    match Checker::new().check(gold, gate, options) {
        Err(refused) => {
            println!("{refused}");
            ExitCode::from(4)
        }
        Ok(verdict) => {
            println!("{} (depth {})", verdict.status, verdict.depth);
            println!("learned at most {} of {} literals (query {} of depth {})", verdict.learned, options.limit, verdict.learned_query, verdict.learned_depth);
            if let Some(cycle) = verdict.proved_through {
                println!("the outputs are proved equal in cycles 0 to {cycle}");
            }
            if let Some(difference) = verdict.difference {
                println!("cycle {}, trace {:?}", difference.cycle, difference.trace);
            }
            ExitCode::from(match verdict.status {
                Status::Equivalent => 0,
                Status::NotEquivalent => 1,
                Status::Inconclusive => 2,
                Status::GaveUp => 3,
            })
        }
    }
}

/// A depth, a limit where one is given, and the word for the mode of the earliest cycle.
fn options(words: &[String]) -> Option<Options> {
    match words {
        [depth] => Some(Options::to_depth(depth.parse().ok()?)),
        [rest @ .., word] if word == "earliest" => options(rest).map(Options::earliest),
        [depth, limit] => Some(Options::to_depth(depth.parse().ok()?).limit(limit.parse().ok()?)),
        _ => None,
    }
}

fn main() -> ExitCode {
    let words: Vec<String> = std::env::args().skip(1).collect();
    let [gold, gate, rest @ ..] = &words[..] else {
        eprintln!("usage: check GOLD GATE D [LIMIT] [earliest]");
        return ExitCode::from(64);
    };
    let Some(options) = options(rest) else {
        eprintln!("a depth and perhaps a limit follow the records, both numbers, and perhaps the word earliest");
        return ExitCode::from(64);
    };
    match (std::fs::read(gold), std::fs::read(gate)) {
        (Ok(gold), Ok(gate)) => checked(&gold, &gate, options),
        (Err(error), _) | (_, Err(error)) => {
            eprintln!("a record cannot be read: {error}");
            ExitCode::from(66)
        }
    }
}
