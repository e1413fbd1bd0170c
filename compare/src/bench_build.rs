//! Builds the transition graphs of random designs by the library and by the Rust: compares every node, and measures both.
use std::hint::black_box;
use std::process::ExitCode;

use oracle::bridge::{lower, lowered, netlist};
use oracle::random::{ClockRead, Size};
use oracle::reads::random_design;
use oracle::record::{self, encode};
use oracle::rng::Rng;

use crate::clock::best;
use crate::solve::Lent;

extern "C" {
    fn struo_build(record: *const u8, record_length: usize, again: u32, words: *mut u32, words_length: usize) -> u32;
}

/// Where the two literals of each node of the graph begin in the lent words.
const GOLD_LHS: usize = 196_608;
const GOLD_RHS: usize = 262_144;

/// The nodes of a record's transition graph, built once and so many times more.
fn build(lent: &mut Lent, record: &[u8], again: u32) -> usize {
    // The library reads the record and writes the words, and demands nothing else.
    unsafe { struo_build(record.as_ptr(), record.len(), again, lent.words.as_mut_ptr(), lent.words.len()) as usize }
}

/// Accepted records of about so many gates.
fn records(rng: &mut Rng, size: Size, count: usize) -> Vec<Vec<u8>> {
    let mut found = Vec::new();
    while found.len() < count {
        let bytes = encode(&random_design(rng, size, ClockRead::Never));
        if record::read(&bytes).is_ok() {
            found.push(bytes);
        }
    }
    found
}

/// Sizes from a few gates to the largest.
fn sizes() -> [Size; 4] {
    [10, 100, 400, 950].map(|gates| Size { inputs: 12, outputs: 6, registers: 12, gates })
}

/// Whether a record's graph is the Rust's, node for node.
fn same(lent: &mut Lent, bytes: &[u8]) -> bool {
    let rust = lowered(&netlist(&record::read(bytes).expect("accepted")));
    let count = build(lent, bytes, 0);
    let node = |place: usize| {
        let (lhs, rhs) = (lent.words[GOLD_LHS + place] as usize, lent.words[GOLD_RHS + place] as usize);
        (rhs > 0).then_some((lhs, rhs))
    };
    count == rust.len() && (0..count).all(|place| node(place) == rust[place])
}

/// So many random designs of all sizes, and as many damaged ones, which are refused.
pub fn compare(count: u64, seed: u64) -> ExitCode {
    let mut rng = Rng::new(seed);
    let mut lent = Lent::new(&mut rng);
    let (mut calls, mut differ) = (0, 0);
    while calls < count {
        let size = if rng.one_in(4) { *rng.pick(&sizes()) } else { Size { inputs: 6, outputs: 6, registers: 6, gates: 30 } };
        for bytes in records(&mut rng, size, 1) {
            let refused = build(&mut lent, &bytes[..bytes.len() - 1], 0) == 0;
            differ += u64::from(!same(&mut lent, &bytes)) + u64::from(!refused);
            calls += 2;
        }
    }
    println!("{calls} builds, {differ} differ");
    ExitCode::from(u8::from(differ > 0))
}

/// The time of building one graph: the library's from the difference of many builds and one; the Rust's with its validate, and without.
pub fn graphs(seed: u64) -> ExitCode {
    const AGAIN: u32 = 20;
    println!("| gates | nodes of the graph | library µs | Rust µs without validate | Rust / library | library million nodes/s | Rust | library with read µs | Rust with validate µs |");
    println!("|---|---|---|---|---|---|---|---|---|");
    for size in sizes() {
        let mut rng = Rng::new(seed);
        let mut lent = Lent::new(&mut rng);
        let all = records(&mut rng, size, 100);
        let netlists: Vec<_> = all.iter().map(|bytes| netlist(&record::read(bytes).expect("accepted"))).collect();
        let nodes = netlists.iter().map(|netlist| lowered(netlist).len()).sum::<usize>() as f64;
        let mut other = Lent::new(&mut rng);
        let [one, many, whole, validate, read] = best([
            &mut || all.iter().for_each(|bytes| { black_box(build(&mut lent, bytes, 0)); }),
            &mut || all.iter().for_each(|bytes| { black_box(build(&mut other, bytes, AGAIN)); }),
            &mut || netlists.iter().for_each(|netlist| { black_box(lower(netlist)); }),
            &mut || netlists.iter().for_each(|netlist| { black_box(netlist.validate().is_ok()); }),
            &mut || all.iter().for_each(|bytes| { black_box(struo_formal::read(bytes)); }),
        ]);
        let (own, rust) = ((many - one) / f64::from(AGAIN), whole - validate);
        let count = all.len() as f64;
        println!(
            "| {} | {:.0} | {:.1} | {:.1} | {:.2} | {:.1} | {:.1} | {:.1} | {:.1} |",
            size.gates,
            nodes / count,
            own / count * 1e6,
            rust / count * 1e6,
            rust / own,
            nodes / own / 1e6,
            nodes / rust / 1e6,
            (own + read) / count * 1e6,
            whole / count * 1e6,
        );
    }
    ExitCode::SUCCESS
}
