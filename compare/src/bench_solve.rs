//! Measures the proved search beside the Rust's on the same problems, in one run.
use std::hint::black_box;
use std::process::ExitCode;

use oracle::meter::{Ending, Problem, LEARNED_LIMIT};
use oracle::rng::Rng;
use oracle::solving::{large_graph, random_search, Graph};

use crate::clock::best;
use crate::solve::{queries, Handed, Lent};

extern "C" {
    fn struo_rebuild(nodes: *const u32, nodes_length: usize, words: *mut u32, words_length: usize) -> u32;
}

/// The nodes of a list's graph, built by the library alone.
fn rebuild(lent: &mut Lent, handed: &Handed) -> u32 {
    // The library reads the list and writes the words, and demands nothing else.
    unsafe { struo_rebuild(handed.nodes.as_ptr(), handed.nodes.len(), lent.words.as_mut_ptr(), lent.words.len()) }
}

/// A problem as both take it, and what its search does.
struct Measured {
    problem: Problem,
    handed: Handed,
    graph: Graph,
    conflicts: usize,
    propagations: usize,
    gives_up: bool,
}

impl Measured {
    fn new(problem: Problem) -> Self {
        let graph = Graph::new(&problem);
        let (_, query) = graph.search(LEARNED_LIMIT);
        let handed = Handed::new(&problem);
        let gives_up = query.ending == Ending::GaveUp;
        Self { problem, handed, graph, conflicts: query.conflicts, propagations: query.propagations, gives_up }
    }

    /// The Rust's search as it lies; with the meter's limit where it would not end.
    fn rust(&self) {
        if self.gives_up {
            black_box(self.graph.search(LEARNED_LIMIT));
        } else {
            black_box(self.graph.plain_search());
        }
    }
}

/// A class of problems: one row of the table.
fn row(rng: &mut Rng, class: &str, problems: Vec<Problem>) {
    let all: Vec<Measured> = problems.into_iter().map(Measured::new).collect();
    let count = all.len() as f64;
    let sum = |of: fn(&Measured) -> usize| all.iter().map(of).sum::<usize>() as f64;
    let (nodes, conflicts, propagations) = (sum(|one| one.graph.nodes()), sum(|one| one.conflicts), sum(|one| one.propagations));
    let (mut lent, mut other) = (Lent::new(rng), Lent::new(rng));
    let [whole, built, rust, rust_built] = best([
        &mut || all.iter().for_each(|one| { black_box(lent.solve(&one.handed, LEARNED_LIMIT)); }),
        &mut || all.iter().for_each(|one| { black_box(rebuild(&mut other, &one.handed)); }),
        &mut || all.iter().for_each(Measured::rust),
        &mut || all.iter().for_each(|one| { black_box(Graph::new(&one.problem)); }),
    ]);
    let own = whole - built;
    println!(
        "| {class} | {count} | {:.0} | {:.0} | {:.1} | {:.1} | {:.2} | {:.0} | {:.0} | {:.2} | {:.2} |",
        nodes / count,
        conflicts,
        own / count * 1e6,
        rust / count * 1e6,
        rust / own,
        conflicts / own,
        conflicts / rust,
        propagations / own / 1e6,
        propagations / rust / 1e6,
    );
    println!("  building: library {:.2} million nodes/s, Rust {:.2}", nodes / built / 1e6, nodes / rust_built / 1e6);
}

/// Searches by class of size: the time of a search without the building of its graph, the library's and the Rust's.
pub fn searches(seed: u64) -> ExitCode {
    let mut rng = Rng::new(seed);
    println!("| class | searches | nodes each | conflicts | library µs | Rust µs | Rust / library | library conflicts/s | Rust conflicts/s | library million propagations/s | Rust |");
    println!("|---|---|---|---|---|---|---|---|---|---|---|");
    let random = (0..1000).map(|_| random_search(&mut rng).0).collect();
    let larger = |family, count, least: usize| queries(family, count, seed).into_iter().filter(|problem| problem.nodes.len() >= least).collect();
    row(&mut rng, "random graphs", random);
    row(&mut rng, "queries of random pairs", larger("pairs", 300, 0));
    row(&mut rng, "proofs that close late", larger("late", 20, 0));
    row(&mut rng, "deep pairs", larger("deep", 8, 1000));
    row(&mut rng, "pairs at the limit of refusal 23", larger("limits", 12, 1000));
    row(&mut rng, "product bits, 3 to 5 bits", larger("hard", 30, 100));
    row(&mut rng, "product bit, 6 bits", larger("rescale", 1, 0));
    row(&mut rng, "give-ups at the limit", larger("giveup", 6, 0));
    row(&mut rng, "dense 400/8 at D = 16, dense 1024/40 at D = 8", larger("dense", 2, 0));
    row(&mut rng, "shift rows of 32 registers under other names", larger("rows", 1, 0));
    row(&mut rng, "lfsr 8 at D = 48", larger("feedback", 1, 0));
    row(&mut rng, "add3 10", larger("sums", 2, 0));
    for nodes in [5_000, 20_000] {
        let problem = large_graph(&mut rng, nodes);
        row(&mut rng, "one large random graph", vec![problem]);
    }
    ExitCode::SUCCESS
}
