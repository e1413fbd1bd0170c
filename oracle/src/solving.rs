//! The SAT problems of checks, alone: `solve LIMIT NODES ASSUMPTIONS = ANSWER TOTAL MODELHEX`.
use crate::aig::{Aig, Literal, Variable};
use crate::meter::{self, Ending, Problem, Query, State, Wish};
use crate::plain_sat;
use crate::rng::Rng;
use crate::sat::solve;
use crate::vectors::hex;

/// A problem as the words NODES and ASSUMPTIONS.
pub fn problem_words(problem: &Problem) -> String {
    let nodes: Vec<String> = problem
        .nodes
        .iter()
        .map(|node| node.map_or("v".into(), |(lhs, rhs)| format!("{lhs}.{rhs}")))
        .collect();
    let assumptions: Vec<String> = problem.assumptions.iter().map(usize::to_string).collect();
    format!("{} {}", comma(&nodes), comma(&assumptions))
}

/// A comma list.
fn comma(words: &[String]) -> String {
    if words.is_empty() {
        "-".into()
    } else {
        words.join(",")
    }
}

/// The words of a comma list.
fn parts(words: &str) -> Vec<&str> {
    if words == "-" {
        Vec::new()
    } else {
        words.split(',').collect()
    }
}

/// A number of a comma list.
fn number(word: &str) -> usize {
    word.parse().unwrap_or_else(|_| panic!("no literal: {word}"))
}

/// The problem of the words NODES and ASSUMPTIONS.
pub fn problem(nodes: &str, assumptions: &str) -> Problem {
    let node = |word: &str| match word.split_once('.') {
        None => {
            assert_eq!(word, "v", "a node is v or an and");
            None
        }
        Some((lhs, rhs)) => Some((number(lhs), number(rhs))),
    };
    let nodes = parts(nodes).into_iter().map(node).collect();
    Problem { nodes, assumptions: parts(assumptions).into_iter().map(number).collect(), model: None }
}

/// A problem as the Rust has it.
pub struct Graph {
    aig: Aig,
    assumptions: Vec<Literal>,
}

impl Graph {
    /// The graph built by the Rust's operations; none where a literal is of no earlier node.
    pub fn rebuilt(problem: &Problem) -> Option<Self> {
        let mut aig = Aig::new();
        for (place, node) in problem.nodes.iter().enumerate() {
            let bound = 2 * aig.nodes().len();
            match *node {
                None => aig.variable(Variable::Proof(place.to_string())),
                Some((lhs, rhs)) if lhs < bound && rhs < bound => aig.and(Literal(lhs), Literal(rhs)),
                Some(_) => return None,
            };
        }
        let assumptions = problem.assumptions.iter().map(|literal| Literal(*literal)).collect();
        Some(Self { aig, assumptions })
    }

    /// The same of a problem each of whose nodes is new.
    pub fn new(problem: &Problem) -> Self {
        let graph = Self::rebuilt(problem).expect("operands stand before their nodes");
        assert_eq!(graph.nodes(), problem.nodes.len() + 1, "a node is not new");
        graph
    }

    /// How many nodes it has, node 0 among them.
    pub fn nodes(&self) -> usize {
        self.aig.nodes().len()
    }

    /// The model under a limit of learned literals, if there is one, and what the meter counted.
    pub fn search(&self, limit: usize) -> (Option<Vec<bool>>, Query) {
        meter::reset(Wish { limit, ..Wish::default() });
        let model = meter::unless_gave_up(|| solve(&self.aig, &self.assumptions)).flatten();
        (model, meter::report().queries.pop().expect("one query was asked"))
    }

    /// The model by the Rust's search as it lies, with no meter and no limit.
    pub fn plain_search(&self) -> Option<Vec<bool>> {
        plain_sat::solve(&self.aig, &self.assumptions)
    }
}

/// A model's bits packed, node 0 first.
fn packed(model: &[bool]) -> Vec<u8> {
    model.chunks(8).map(|bits| bits.iter().enumerate().map(|(place, bit)| u8::from(*bit) << place).sum()).collect()
}

/// The states before the first turns of a problem's search.
pub fn states(nodes: &str, assumptions: &str, turns: usize) -> Vec<State> {
    let Graph { aig, assumptions } = Graph::new(&problem(nodes, assumptions));
    meter::reset(Wish { states: turns, ..Wish::default() });
    meter::unless_gave_up(|| solve(&aig, &assumptions));
    meter::report().states
}

/// The right side of a solve line.
pub fn answer(limit: u64, nodes: &str, assumptions: &str) -> String {
    let limit = usize::try_from(limit).expect("a limit fits");
    let (model, query) = Graph::new(&problem(nodes, assumptions)).search(limit);
    let ending = match query.ending {
        Ending::Model => 0,
        Ending::NoModel => 1,
        Ending::GaveUp => 2,
    };
    format!("{ending} {} {}", query.learned, model.map_or("-".into(), |bits| hex(&packed(&bits))))
}

/// A graph of so many variables.
fn variables(count: usize) -> (Aig, Vec<Literal>) {
    let mut aig = Aig::new();
    let literals = (0..count).map(|place| aig.variable(Variable::Proof(place.to_string()))).collect();
    (aig, literals)
}

/// A graph of random ands and xors, with assumptions at random, one perhaps twice.
fn random_graph(rng: &mut Rng) -> (Aig, Vec<Literal>) {
    let (mut aig, _) = variables(rng.range(1, 10));
    let mut last = Literal::FALSE;
    for _ in 0..rng.range(1, 90) {
        let count = aig.nodes().len();
        let window = if rng.one_in(2) { count } else { count.min(12) };
        let mut operand = || Literal(2 * (count - 1 - rng.below(window)) + rng.below(2));
        let (lhs, rhs) = (operand(), operand());
        last = if rng.one_in(3) { aig.xor(lhs, rhs) } else { aig.and(lhs, rhs) };
    }
    let mut assumptions = vec![Literal(last.0 ^ rng.below(2))];
    for _ in 0..rng.below(4) {
        assumptions.push(Literal(rng.below(2 * aig.nodes().len())));
    }
    if rng.one_in(8) {
        assumptions.push(assumptions[0]);
    }
    (aig, assumptions)
}

/// A graph of at least so many nodes, of random ands and xors, with its last literal assumed.
pub fn large_graph(rng: &mut Rng, nodes: usize) -> Problem {
    let (mut aig, _) = variables(200);
    let mut last = Literal::FALSE;
    while aig.nodes().len() < nodes {
        let count = aig.nodes().len();
        let mut operand = || Literal(2 * rng.range(1, count - 1) + rng.below(2));
        let (lhs, rhs) = (operand(), operand());
        last = if rng.one_in(3) { aig.xor(lhs, rhs) } else { aig.or(lhs, rhs) };
    }
    let nodes = aig.nodes().iter().skip(1).map(meter::plain_node).collect();
    Problem { nodes, assumptions: vec![last.0], model: None }
}

/// The parity of variables in two orders, asserted to differ; or with one left out.
fn parities(rng: &mut Rng) -> (Aig, Vec<Literal>) {
    let (mut aig, mut inputs) = variables(rng.range(2, 8));
    let lhs = inputs.iter().fold(Literal::FALSE, |parity, input| aig.xor(parity, *input));
    rng.shuffle(&mut inputs);
    if rng.one_in(4) {
        inputs.pop();
    }
    let rhs = inputs.iter().fold(Literal::FALSE, |parity, input| aig.xor(*input, parity));
    let differ = aig.xor(lhs, rhs);
    (aig, vec![differ])
}

/// Random clauses of three literals, about as many as decide nothing beforehand, each an assumption or all joined.
fn clauses(rng: &mut Rng) -> (Aig, Vec<Literal>) {
    let (mut aig, inputs) = variables(rng.range(5, 28));
    let count = inputs.len() * rng.range(36, 48) / 10;
    let joined = rng.one_in(2);
    let (mut all, mut assumptions) = (Literal::TRUE, Vec::new());
    for _ in 0..count {
        let mut one = || Literal(rng.pick(&inputs).0 ^ rng.below(2));
        let (x, y, z) = (one(), one(), one());
        let pair = aig.or(x, y);
        let clause = aig.or(pair, z);
        all = aig.and(all, clause);
        assumptions.push(clause);
    }
    (aig, if joined { vec![all] } else { assumptions })
}

/// A random problem and a limit for it.
pub fn random_search(rng: &mut Rng) -> (Problem, usize) {
    let (aig, assumptions) = match rng.below(4) {
        0 => parities(rng),
        1 => clauses(rng),
        _ => random_graph(rng),
    };
    let nodes = aig.nodes().iter().skip(1).map(meter::plain_node).collect();
    let limit = random_limit(rng, &Graph { aig, assumptions: assumptions.clone() });
    let assumptions = assumptions.iter().map(|literal| literal.0).collect();
    (Problem { nodes, assumptions, model: None }, limit)
}

/// A random problem, as the left side of a solve line.
pub fn random_problem(rng: &mut Rng) -> String {
    let (problem, limit) = random_search(rng);
    format!("solve {limit} {}", problem_words(&problem))
}

/// A limit for a problem: the usual one, any small one, or the total that it learns, and one less.
fn random_limit(rng: &mut Rng, graph: &Graph) -> usize {
    let total = || graph.search(meter::LEARNED_LIMIT).1.learned;
    match rng.below(6) {
        0 => rng.below(60),
        1 => total(),
        2 => usize::saturating_sub(total(), 1),
        _ => meter::LEARNED_LIMIT,
    }
}
