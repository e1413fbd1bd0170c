//! What the patched search reports: queries, learned literals against a limit, rescales, problems and states.
use std::cell::{Cell, RefCell};
use std::collections::HashSet;

use crate::aig::{Aig, Literal, Node};

/// The largest limit of learned literals in one query.
pub const LEARNED_LIMIT: usize = 262_144;

/// What a query that gives up unwinds with.
pub struct GaveUp;

/// How a query ended.
#[derive(Clone, Copy, Debug, Eq, PartialEq)]
pub enum Ending {
    Model,
    NoModel,
    GaveUp,
}

/// One query: its depth and number, its learned literals, learned clauses, literals propagated and rescales, the length of the clause that it gave up at, its ending and its graph's nodes;
/// where clauses are kept, how many had the asserting literal at neither watched place, and how many repeated an earlier learned one.
#[derive(Clone, Debug)]
pub struct Query {
    pub depth: usize,
    pub number: usize,
    pub learned: usize,
    pub conflicts: usize,
    pub propagations: usize,
    pub rescales: usize,
    pub next: usize,
    pub ending: Ending,
    pub nodes: usize,
    pub unwatched: usize,
    pub repeated: usize,
}

/// A SAT problem and its answer: for each node past 0 none for a variable, or an and's literals; the assumptions; the model.
#[derive(Clone, Debug)]
pub struct Problem {
    pub nodes: Vec<Option<(usize, usize)>>,
    pub assumptions: Vec<usize>,
    pub model: Option<Vec<bool>>,
}

/// What stands before a turn of the search; scores by their bits.
#[derive(Clone, Debug, Eq, PartialEq)]
pub struct State {
    pub clauses: Vec<Vec<usize>>,
    pub watched: Vec<[usize; 2]>,
    pub watches: Vec<Vec<usize>>,
    pub trail: Vec<usize>,
    pub trail_limits: Vec<usize>,
    pub propagation_head: usize,
    pub levels: Vec<usize>,
    pub reasons: Vec<Option<usize>>,
    pub phases: Vec<bool>,
    pub activity: Vec<u64>,
    pub activity_increment: u64,
}

/// All that is reported between `reset` and `report`.
#[derive(Clone, Debug, Default)]
pub struct Report {
    pub queries: Vec<Query>,
    pub problems: Vec<Problem>,
    pub states: Vec<State>,
}

/// What is to be kept: the limit, whether problems and learned clauses are kept, and the turns whose states are kept.
#[derive(Clone, Copy, Debug)]
pub struct Wish {
    pub limit: usize,
    pub problems: bool,
    pub clauses: bool,
    pub states: usize,
}

impl Default for Wish {
    fn default() -> Self {
        Self { limit: LEARNED_LIMIT, problems: false, clauses: false, states: 0 }
    }
}

#[derive(Default)]
struct Meter {
    wish: Wish,
    next: (usize, usize),
    clauses: HashSet<Vec<usize>>,
    report: Report,
}

thread_local! {
    static METER: RefCell<Meter> = RefCell::new(Meter::default());
    static PROPAGATIONS: Cell<usize> = const { Cell::new(0) };
}

/// Uses the meter of this thread.
fn with<T>(use_meter: impl FnOnce(&mut Meter) -> T) -> T {
    METER.with(|meter| use_meter(&mut meter.borrow_mut()))
}

/// Begins a new report.
pub fn reset(wish: Wish) {
    with(|meter| *meter = Meter { wish, ..Meter::default() });
}

/// The report since `reset`.
pub fn report() -> Report {
    with(|meter| std::mem::take(&mut meter.report))
}

/// The next query's depth and number.
pub(crate) fn query(depth: usize, number: usize) {
    with(|meter| meter.next = (depth, number));
}

/// A query begins: its problem.
pub(crate) fn begin(aig: &Aig, assumptions: &[Literal]) {
    PROPAGATIONS.set(0);
    with(|meter| {
        let (depth, number) = meter.next;
        meter.clauses.clear();
        meter.report.queries.push(Query {
            depth,
            number,
            learned: 0,
            conflicts: 0,
            propagations: 0,
            rescales: 0,
            next: 0,
            ending: Ending::GaveUp,
            nodes: aig.nodes().len(),
            unwatched: 0,
            repeated: 0,
        });
        if meter.wish.problems {
            let nodes = aig.nodes().iter().skip(1).map(plain_node).collect();
            let assumptions = assumptions.iter().map(|literal| literal.0).collect();
            meter.report.problems.push(Problem { nodes, assumptions, model: None });
        }
    });
}

/// A node of the graph: none for a variable.
pub(crate) fn plain_node(node: &Node) -> Option<(usize, usize)> {
    match node {
        Node::And(lhs, rhs) => Some((lhs.0, rhs.0)),
        Node::Constant | Node::Variable(_) => None,
    }
}

/// A clause of this length is about to be added: counted, or the query gives up.
pub(crate) fn learn(length: usize, clause: impl FnOnce() -> Vec<usize>) {
    let gives_up = with(|meter| {
        let limit = meter.wish.limit;
        let fits = meter.report.queries.last().is_some_and(|query| query.learned + length <= limit);
        if meter.wish.clauses && fits {
            keep(meter, clause());
        }
        let query = meter.report.queries.last_mut().expect("a query has begun");
        if query.learned + length > limit {
            query.next = length;
            query.propagations = PROPAGATIONS.get();
            return true;
        }
        query.conflicts += 1;
        query.learned += length;
        false
    });
    if gives_up {
        std::panic::resume_unwind(Box::new(GaveUp));
    }
}

/// A learned clause, its asserting literal first: whether a watched place, 0 or 1 once sorted, has that, and whether it is new.
fn keep(meter: &mut Meter, mut clause: Vec<usize>) {
    let asserting = clause[0];
    clause.sort_unstable();
    let query = meter.report.queries.last_mut().expect("a query has begun");
    query.unwatched += usize::from(!clause[..clause.len().min(2)].contains(&asserting));
    query.repeated += usize::from(!meter.clauses.insert(clause));
}

/// A literal of the trail is propagated.
pub(crate) fn propagated() {
    PROPAGATIONS.set(PROPAGATIONS.get() + 1);
}

/// The scores were rescaled.
pub(crate) fn rescaled() {
    with(|meter| meter.report.queries.last_mut().expect("a query has begun").rescales += 1);
}

/// A turn of the loop begins.
pub(crate) fn turn(state: impl FnOnce() -> State) {
    with(|meter| {
        if meter.report.states.len() < meter.wish.states {
            meter.report.states.push(state());
        }
    });
}

/// A query ended with a model or without.
pub(crate) fn end(model: Option<&[bool]>) {
    with(|meter| {
        let query = meter.report.queries.last_mut().expect("a query has begun");
        query.propagations = PROPAGATIONS.get();
        query.ending = if model.is_some() { Ending::Model } else { Ending::NoModel };
        if let Some(problem) = meter.report.problems.last_mut() {
            problem.model = model.map(<[bool]>::to_vec);
        }
    });
}

/// Runs what may give up; none where it did. Any other unwinding goes on.
pub fn unless_gave_up<T>(work: impl FnOnce() -> T) -> Option<T> {
    match std::panic::catch_unwind(std::panic::AssertUnwindSafe(work)) {
        Ok(value) => Some(value),
        Err(payload) if payload.is::<GaveUp>() => None,
        Err(payload) => std::panic::resume_unwind(payload),
    }
}
