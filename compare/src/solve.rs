//! Searches: random problems and the queries of generated pairs, each answered by the proved search and by the Rust's.
use std::process::ExitCode;

use oracle::families::generate_reading;
use oracle::meter::{Ending, Problem, Wish, LEARNED_LIMIT};
use oracle::random::ClockRead;
use oracle::rng::Rng;
use oracle::solving::{large_graph, random_search, Graph};
use oracle::vectors;

/// What a search answers: the status, the nodes of its graph and the total of learned literals.
#[repr(C)]
#[derive(Clone, Copy, Debug, Eq, PartialEq)]
pub struct Solved {
    pub status: u32,
    pub nodes: u32,
    pub total: u64,
}

/// The statuses' numbers.
const MODEL: u32 = 0;
const NO_MODEL: u32 = 1;
const GAVE_UP: u32 = 2;
const REFUSED: u32 = 3;

/// Where the values of a model begin in the lent words, an odd one for true.
const VALUES: usize = 655_360;

/// How many words and scores a search is lent.
pub const WORDS: usize = 8_388_608;
pub const SCORES: usize = 65_536;

extern "C" {
    fn struo_solve(
        nodes: *const u32,
        nodes_length: usize,
        assumptions: *const u32,
        assumptions_length: usize,
        limit: u64,
        words: *mut u32,
        words_length: usize,
        scores: *mut f64,
        scores_length: usize,
    ) -> Solved;
}

/// A problem as the library takes it.
pub struct Handed {
    pub nodes: Vec<u32>,
    pub assumptions: Vec<u32>,
}

/// A number that fits a word, or the largest word.
fn word(number: usize) -> u32 {
    u32::try_from(number).unwrap_or(u32::MAX)
}

impl Handed {
    /// Two literals for each node, both 0 for a variable.
    pub fn new(problem: &Problem) -> Self {
        let pair = |node: &Option<(usize, usize)>| node.map_or([0, 0], |(lhs, rhs)| [word(lhs), word(rhs)]);
        Self {
            nodes: problem.nodes.iter().flat_map(pair).collect(),
            assumptions: problem.assumptions.iter().map(|literal| word(*literal)).collect(),
        }
    }
}

/// The memory that searches are lent.
pub struct Lent {
    pub words: Vec<u32>,
    pub scores: Vec<f64>,
}

impl Lent {
    /// Memory filled with numbers at random.
    pub fn new(rng: &mut Rng) -> Self {
        let mut lent = Self { words: vec![0; WORDS], scores: vec![0.0; SCORES] };
        lent.soil(rng);
        lent
    }

    /// Numbers at random in all of it: what it held before is of no effect.
    fn soil(&mut self, rng: &mut Rng) {
        self.words.iter_mut().for_each(|word| *word = rng.next() as u32);
        self.scores.iter_mut().for_each(|score| *score = f64::from_bits(rng.next()));
    }

    /// The library's answer, with the first words and scores lent.
    fn solve_in(&mut self, handed: &Handed, limit: u64, words: usize, scores: usize) -> Solved {
        // The library reads the two lists and writes the words and scores, and demands nothing else.
        unsafe {
            struo_solve(
                handed.nodes.as_ptr(),
                handed.nodes.len(),
                handed.assumptions.as_ptr(),
                handed.assumptions.len(),
                limit,
                self.words[..words].as_mut_ptr(),
                words,
                self.scores[..scores].as_mut_ptr(),
                scores,
            )
        }
    }

    /// The library's answer.
    pub fn solve(&mut self, handed: &Handed, limit: usize) -> Solved {
        self.solve_in(handed, limit as u64, WORDS, SCORES)
    }

    /// The values of a model of so many nodes.
    fn model(&self, nodes: usize) -> Vec<bool> {
        self.words[VALUES..VALUES + nodes].iter().map(|word| word % 2 == 1).collect()
    }
}

/// What was compared.
#[derive(Default)]
struct Tally {
    calls: u64,
    differ: u64,
    statuses: [u64; 4],
    largest: usize,
    conflicts: usize,
    rescaled: u64,
    nodes: usize,
}

impl Tally {
    /// One problem, searched by both.
    fn problem(&mut self, lent: &mut Lent, problem: &Problem, limit: usize) {
        let handed = Handed::new(problem);
        let answered = lent.solve(&handed, limit);
        let graph = Graph::rebuilt(problem).filter(|graph| problem.assumptions.iter().all(|literal| *literal < 2 * graph.nodes()));
        let Some(graph) = graph.filter(|_| limit <= LEARNED_LIMIT) else {
            self.refused(answered, "a list");
            return;
        };
        let (model, query) = graph.search(limit);
        let status = match query.ending {
            Ending::Model => MODEL,
            Ending::NoModel => NO_MODEL,
            Ending::GaveUp => GAVE_UP,
        };
        let expected = Solved { status, nodes: word(graph.nodes()), total: query.learned as u64 };
        self.calls += 1;
        self.statuses[status as usize] += 1;
        self.largest = self.largest.max(query.learned);
        self.conflicts = self.conflicts.max(query.conflicts);
        self.rescaled += u64::from(query.rescales > 0);
        self.nodes = self.nodes.max(graph.nodes());
        let same_model = model.is_none_or(|bits| lent.model(graph.nodes()) == bits);
        if answered != expected || !same_model {
            self.differs(&format!("{answered:?}, expected {expected:?}, same model {same_model}: limit {limit} {problem:?}"));
        }
    }

    /// A call that has to be refused.
    fn refused(&mut self, answered: Solved, what: &str) {
        self.calls += 1;
        self.statuses[REFUSED as usize] += 1;
        if answered.status != REFUSED {
            self.differs(&format!("{answered:?}, expected a refusal: {what}"));
        }
    }

    /// A difference; the first ten are printed.
    fn differs(&mut self, what: &str) {
        self.differ += 1;
        if self.differ <= 10 {
            println!("{}", &what[..what.len().min(2000)]);
        }
    }

    /// The lengths and the limit one past what is taken.
    fn past_lengths(&mut self, lent: &mut Lent) {
        let problem = |nodes, assumptions| Handed { nodes: vec![0; nodes], assumptions: vec![2; assumptions] };
        let small = problem(4, 1);
        let limit = LEARNED_LIMIT as u64;
        let calls = [
            (lent.solve_in(&small, limit, WORDS - 1, SCORES), "words"),
            (lent.solve_in(&small, limit, WORDS, SCORES - 1), "scores"),
            (lent.solve_in(&small, limit + 1, WORDS, SCORES), "limit"),
            (lent.solve_in(&small, u64::MAX, WORDS, SCORES), "limit"),
            (lent.solve_in(&problem(3, 1), limit, WORDS, SCORES), "odd"),
            (lent.solve_in(&problem(131_072, 1), limit, WORDS, SCORES), "nodes"),
            (lent.solve_in(&problem(4, 65_536), limit, WORDS, SCORES), "assumptions"),
        ];
        for (answered, what) in calls {
            self.refused(answered, what);
        }
    }
}

/// A problem with literals changed: operands of later nodes, assumptions out of range, nodes that are not new.
fn damaged(rng: &mut Rng, mut problem: Problem) -> Problem {
    let bound = 2 * problem.nodes.len() + 4;
    for _ in 0..rng.range(1, 3) {
        let range = if rng.one_in(4) { bound } else { 6 };
        let literal = 1 + rng.below(range);
        if rng.one_in(4) && !problem.assumptions.is_empty() {
            let place = rng.below(problem.assumptions.len());
            problem.assumptions[place] = literal;
        } else if !problem.nodes.is_empty() {
            let place = rng.below(problem.nodes.len());
            if let Some((_, rhs)) = &mut problem.nodes[place] {
                *rhs = literal;
            }
        }
    }
    problem
}

/// The queries of generated pairs, with their problems.
pub fn queries(family: &str, count: usize, seed: u64) -> Vec<Problem> {
    let wish = Wish { problems: true, ..Wish::default() };
    generate_reading(family, count, seed, ClockRead::Never).iter().filter_map(|line| vectors::report(line, wish)).flat_map(|report| report.problems).collect()
}

/// At least `count` searches: all of the hard families, queries of random and rewritten pairs, the largest graph, and random problems with their damage.
pub fn compare(count: u64, seed: u64) -> ExitCode {
    let mut rng = Rng::new(seed);
    let mut lent = Lent::new(&mut rng);
    let mut tally = Tally::default();
    let share = |part: u64| (count / part) as usize;
    let families = [("rescale", 1), ("giveup", 6), ("hard", share(500)), ("deep", share(2000)), ("late", share(500)), ("rewritten", share(40)), ("pairs", share(20))];
    for (family, pairs) in families {
        for problem in queries(family, pairs, seed) {
            tally.problem(&mut lent, &problem, LEARNED_LIMIT);
        }
    }
    tally.past_lengths(&mut lent);
    let largest = Problem { nodes: vec![None; 65_535], assumptions: vec![131_071; 65_535], model: None };
    tally.problem(&mut lent, &largest, LEARNED_LIMIT);
    tally.problem(&mut lent, &large_graph(&mut rng, 8_000), LEARNED_LIMIT);
    while tally.calls < count {
        let (problem, limit) = random_search(&mut rng);
        if rng.one_in(500) {
            lent.soil(&mut rng);
        }
        tally.problem(&mut lent, &problem, limit);
        if rng.one_in(8) {
            let problem = damaged(&mut rng, problem);
            tally.problem(&mut lent, &problem, limit);
        }
    }
    let [model, none, gave_up, refused] = tally.statuses;
    println!("{model} with a model, {none} without, {gave_up} gave up, {refused} refused");
    println!("largest total {}, most conflicts {}, {} with a rescaling, largest graph {} nodes", tally.largest, tally.conflicts, tally.rescaled, tally.nodes);
    println!("{} solves, {} differ", tally.calls, tally.differ);
    ExitCode::from(u8::from(tally.differ > 0))
}
