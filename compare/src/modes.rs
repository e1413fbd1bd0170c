//! What the mode of the earliest cycle shows: its own answers, what it changes of the answer without it, and the least cycle by exhaustive search.
use oracle::asserts::tells_least;
use oracle::check::{CheckAnswer, GAVE_UP, NOT_EQUIVALENT};
use oracle::exhaustive::first_difference;
use oracle::meter::{Ending, Query};
use oracle::record::{read, Design};

use struo_formal::CheckAnswer as Check;
use crate::met::{Kind, Met};

/// A check that was made: what the library told and wrote, and the queries that the oracle asked.
pub struct Made {
    pub told: Check,
    pub trace: Vec<u8>,
    pub queries: Vec<Query>,
}

impl Made {
    /// How query 0 ended; none without the mode, and for a refused check.
    fn query_0(&self) -> Option<Ending> {
        self.queries.first().filter(|query| query.number == 0).map(|query| query.ending)
    }
}

/// How many pairs must differ in an earlier cycle in the mode.
const SEVERAL: u64 = 10;

/// Checks in the mode, by what is told of them.
#[derive(Default)]
pub struct Modes {
    /// By refusal.
    met: Met,
    /// Under another limit than the largest, refused and accepted.
    limited: [u64; 2],
    /// Yes to query 0, give-ups in it, and statuses after a no.
    at_once: u64,
    gave_up: u64,
    statuses: [u64; 4],
    /// Give-ups in query 1 of depth 1, which prove cycle 0 alone.
    through_0: u64,
    /// Those that learned most in query 0.
    learned_most: u64,
    /// Of pairs checked in both modes: an earlier mismatch in the mode, the same verdict where cycle 0 cannot differ, a give-up in the mode alone, and without it alone.
    earlier: u64,
    kept: u64,
    one_alone: [u64; 2],
    /// Pairs whose least cycle was searched for exhaustively: none, cycle 0, cycle 1, a later one.
    least: [u64; 4],
}

impl Modes {
    /// One more check in the mode.
    pub fn count(&mut self, made: &Made, other_limit: bool) {
        let told = &made.told;
        self.met.count(told.number, told.side);
        self.limited[usize::from(told.number == 0)] += u64::from(other_limit);
        match made.query_0() {
            None => return,
            Some(Ending::Model) => self.at_once += 1,
            Some(Ending::GaveUp) => self.gave_up += 1,
            Some(Ending::NoModel) => self.statuses[told.status as usize] += 1,
        }
        self.through_0 += u64::from(told.status == u32::from(GAVE_UP) && (told.depth, told.query, told.equal, told.through) == (1, 1, true, 0));
        self.learned_most += u64::from(told.learned > 0 && told.learned_query == 0);
    }

    /// A pair in both modes: whether the mode keeps status and depth where neither gives up, and mismatch and trace too where cycle 0 cannot differ.
    pub fn keeps(&mut self, plain: &Made, within: &Made) -> bool {
        if plain.told.number > 0 || within.told.number > 0 {
            return plain.told == within.told;
        }
        let gave_up = |made: &Made| made.told.status == u32::from(GAVE_UP);
        if gave_up(plain) || gave_up(within) {
            self.one_alone[0] += u64::from(!gave_up(plain));
            self.one_alone[1] += u64::from(!gave_up(within));
            return true;
        }
        let verdict = |made: &Made| (made.told.status, made.told.depth);
        if within.query_0() == Some(Ending::Model) {
            self.earlier += u64::from(within.told.mismatch < plain.told.mismatch);
            return verdict(plain) == verdict(within) && within.told.mismatch == 0;
        }
        self.kept += 1;
        verdict(plain) == verdict(within) && plain.told.mismatch == within.told.mismatch && plain.trace == within.trace
    }

    /// An accepted pair of tiny designs in both modes: whether what each tells is so by a search through all states and inputs, the mismatch in the mode being the least.
    pub fn tells_least(&mut self, gold: &[u8], gate: &[u8], depth: u64, plain: &Made, within: &Made) -> bool {
        let Some((gold, gate)) = tiny(gold, gate, depth) else { return true };
        let least = first_difference(&gold, &gate, depth as usize);
        self.least[least.map_or(0, |cycle| 1 + cycle.min(2))] += 1;
        tells_least(&as_oracle(&plain.told), false, least) && tells_least(&as_oracle(&within.told), true, least)
    }

    /// Both.
    pub fn add(&mut self, other: &Self) {
        let add = |ours: &mut [u64], theirs: &[u64]| ours.iter_mut().zip(theirs).for_each(|(our, their)| *our += their);
        self.met.add(&other.met);
        add(&mut self.limited, &other.limited);
        self.at_once += other.at_once;
        self.gave_up += other.gave_up;
        add(&mut self.statuses, &other.statuses);
        self.through_0 += other.through_0;
        self.learned_most += other.learned_most;
        self.earlier += other.earlier;
        self.kept += other.kept;
        add(&mut self.one_alone, &other.one_alone);
        add(&mut self.least, &other.least);
    }

    /// What was not met.
    pub fn missing(&self) -> Vec<String> {
        let told = |what: &str| format!("in the mode {what}");
        let mut missing: Vec<String> = self.met.missing_numbers(Kind::Check).iter().map(|what| told(what)).collect();
        let statuses = self.statuses.iter().enumerate().filter(|(_, times)| **times == 0);
        missing.extend(statuses.map(|(status, _)| told(&format!("a no to query 0 and status {status}"))));
        let [refused, accepted] = self.limited;
        let [none, at_0, at_1, later] = self.least;
        let [within, without] = self.one_alone;
        let others = [
            (self.at_once, "a yes to query 0"),
            (self.gave_up, "a give-up in query 0"),
            (self.through_0, "a give-up in query 1 of depth 1 through cycle 0"),
            (self.learned_most, "a check that learned most in query 0"),
            (refused, "a refusal under another limit"),
            (accepted, "another limit"),
            (self.earlier / SEVERAL, "several mismatches that are earlier than without it"),
            (self.kept, "the verdict without it, where cycle 0 cannot differ"),
            (within, "alone a give-up"),
            (without, "alone no give-up"),
            (none, "no difference by exhaustive search"),
            (at_0, "a difference in cycle 0 by exhaustive search"),
            (at_1, "a difference in cycle 1 by exhaustive search"),
            (later, "a later difference by exhaustive search"),
        ];
        missing.extend(others.iter().filter(|(times, _)| *times == 0).map(|(_, what)| told(what)));
        missing
    }

    /// What came of it, in lines.
    pub fn told(&self) -> String {
        let Self { at_once, gave_up, statuses, through_0, learned_most, earlier, kept, one_alone, least, limited, met } = self;
        let [refused, accepted] = limited;
        let own = format!("earliest cycle: {at_once} yes to query 0, {gave_up} give-ups in it, statuses after a no {statuses:?}, {through_0} give-ups through cycle 0, {learned_most} learned most in query 0");
        let both = format!("in both modes: {earlier} earlier mismatches, {kept} verdicts kept, give-ups in one alone {one_alone:?}; least cycles by exhaustive search, none, 0, 1, later: {least:?}");
        let calls = format!("in the mode by refusal, gold+gate: {}; under other limits {accepted} accepted, {refused} refused", met.told(Kind::Check));
        [own, both, calls].join("\n")
    }
}

/// Both designs, where exhaustive search is quick.
fn tiny(gold: &[u8], gate: &[u8], depth: u64) -> Option<(Design, Design)> {
    let (gold, gate) = (read(gold).ok()?, read(gate).ok()?);
    let bits = gold.registers.len() + gate.registers.len() + gold.input_names().len();
    (bits <= 9 && depth <= 6).then_some((gold, gate))
}

/// The parts of an accepted answer that say something of cycles, as the oracle has them.
fn as_oracle(told: &Check) -> CheckAnswer {
    CheckAnswer {
        status: u8::try_from(told.status).unwrap_or(NOT_EQUIVALENT),
        depth: told.depth as usize,
        mismatch: told.mismatch as usize,
        equal: told.equal,
        through: told.through as usize,
        ..CheckAnswer::default()
    }
}
