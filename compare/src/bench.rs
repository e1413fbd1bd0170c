//! Measures the library beside the Rust on the same inputs, in one run.
use std::hint::black_box;

use oracle::bridge::netlist;
use oracle::random::{ClockRead, Size};
use oracle::reads::random_design;
use oracle::record::{self, encode};
use oracle::rng::Rng;

use crate::clock;

/// The mean time of a call in nanoseconds, over enough rounds of all inputs to fill a quarter of a second.
fn mean(count: usize, round: impl FnMut()) -> f64 {
    clock::mean(0.25, round) * 1e9 / count as f64
}

/// Reads of accepted records: the library's whole read, the Rust's validate of the same netlist, and the oracle's own reader.
pub fn reads(seed: u64) {
    println!("gates | record bytes | library read ns | Rust validate ns | ratio | oracle read ns");
    for gates in [10, 100, 400, 950] {
        let mut rng = Rng::new(seed);
        let size = Size { inputs: 12, outputs: 6, registers: 12, gates };
        let records: Vec<Vec<u8>> = (0..400)
            .map(|_| encode(&random_design(&mut rng, size, ClockRead::Never)))
            .filter(|bytes| struo_formal::read(bytes).number == 0)
            .take(100)
            .collect();
        let netlists: Vec<_> = records.iter().map(|bytes| netlist(&record::read(bytes).expect("accepted"))).collect();
        let bytes: usize = records.iter().map(Vec::len).sum::<usize>() / records.len();
        let own = mean(records.len(), || records.iter().for_each(|bytes| { black_box(struo_formal::read(black_box(bytes))); }));
        let rust = mean(records.len(), || netlists.iter().for_each(|n| { black_box(black_box(n).validate().is_ok()); }));
        let oracle = mean(records.len(), || records.iter().for_each(|bytes| { black_box(record::read(black_box(bytes)).is_ok()); }));
        println!("{gates} | {bytes} | {own:.0} | {rust:.0} | {:.2} | {oracle:.0}", own / rust);
    }
}
