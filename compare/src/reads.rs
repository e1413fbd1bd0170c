//! Reads: the oracle's listed records with every refusal, random, damaged and cut ones, each answered by the library and by the oracle.
use std::process::ExitCode;

use oracle::families::generate;
use oracle::random::{ClockRead, Size};
use oracle::reads::random_design;
use oracle::record::{self, encode, sized};
use oracle::rng::Rng;
use oracle::vectors::unhex;

use crate::met::{unmet, Kind, Met};
use struo_formal::ReadAnswer as Read;

/// How many calls were made, what they met, and how many answers differ.
#[derive(Default)]
struct Tally {
    calls: u64,
    differ: u64,
    met: Met,
}

impl Tally {
    /// One record, read by both.
    fn record(&mut self, bytes: &[u8]) {
        let expected = match record::read(bytes) {
            Ok(_) => Read { number: 0, side: 0, place: 0 },
            Err(refusal) => Read { number: u32::from(refusal.number), side: u32::from(refusal.side), place: refusal.place as u32 },
        };
        let answered = struo_formal::read(bytes);
        self.calls += 1;
        self.met.count(expected.number, expected.side);
        if answered != expected {
            self.differ += 1;
            if self.differ <= 10 {
                println!("{}: {answered:?}, expected {expected:?}", oracle::vectors::hex(bytes));
            }
        }
    }
}

/// A byte that is likely to matter.
fn byte(rng: &mut Rng) -> u8 {
    const LIKELY: [u8; 16] = [0, 1, 2, 3, 0x10, 0x11, 0x12, 0x20, 0x21, 0x22, 0x30, 32, 33, 126, 127, 255];
    if rng.one_in(2) { *rng.pick(&LIKELY) } else { (rng.next() % 256) as u8 }
}

/// A record with some bytes changed, cut, added or moved; the length field mostly as it should be.
pub fn damaged(rng: &mut Rng, whole: &[u8]) -> Vec<u8> {
    let mut rest = whole[5..].to_vec();
    for _ in 0..rng.range(1, 3) {
        let place = rng.below(rest.len().max(1));
        match rng.below(5) {
            0 => rest.truncate(place),
            1 => rest.insert(place.min(rest.len()), byte(rng)),
            2 if place < rest.len() => { rest.remove(place); }
            _ if place < rest.len() => rest[place] = byte(rng),
            _ => {}
        }
    }
    let mut bytes = sized(&rest);
    if rng.one_in(20) {
        let place = rng.below(5);
        bytes[place] = byte(rng);
    }
    bytes
}

/// Sizes from a few nodes to the largest.
fn size(rng: &mut Rng) -> Size {
    if rng.one_in(200) {
        Size { inputs: 12, outputs: 8, registers: 16, gates: 900 }
    } else {
        Size { inputs: 5, outputs: 4, registers: 4, gates: 12 }
    }
}

/// Reads at least `count` records, and says what came of it; each refusal of 1 to 15 and 30 has to be met.
pub fn compare(count: u64, seed: u64) -> ExitCode {
    let tally = run(count, seed);
    println!("reads by refusal: {}", tally.met.told(Kind::Read));
    let missing = unmet(&tally.met.missing(Kind::Read));
    println!("{} reads, {} refused, {} differ", tally.calls, tally.met.refused(), tally.differ);
    ExitCode::from(u8::from(tally.differ > 0 || missing))
}

/// The listed records, then at least `count` in all: random ones, their damage, every cut of a hundred, every change of one byte of some.
fn run(count: u64, seed: u64) -> Tally {
    let mut rng = Rng::new(seed);
    let mut tally = Tally::default();
    for line in ["listed", "names", "long", "clocks"].iter().flat_map(|family| generate(family, 400, seed)) {
        if let Some(record) = line.strip_prefix("read ") {
            tally.record(&unhex(record));
        }
    }
    for turn in 0..100 {
        let whole = encode(&random_design(&mut rng, Size { inputs: 3, outputs: 3, registers: 3, gates: 6 }, ClockRead::Seldom));
        for length in 0..=whole.len() {
            tally.record(&whole[..length]);
            if length >= 5 {
                tally.record(&sized(&whole[5..length]));
            }
        }
        if turn < 10 {
            for place in 0..whole.len() {
                let mut other = whole.clone();
                for value in 0..=255 {
                    other[place] = value;
                    tally.record(&other);
                }
            }
        }
    }
    while tally.calls < count {
        let size = size(&mut rng);
        let whole = encode(&random_design(&mut rng, size, ClockRead::Seldom));
        tally.record(&whole);
        for _ in 0..20 {
            let bytes = damaged(&mut rng, &whole);
            tally.record(&bytes);
        }
    }
    tally
}
