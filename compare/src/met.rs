//! What a call can be refused with, on which side, and how often a run met it.

/// The calls of the library.
#[derive(Clone, Copy)]
pub enum Kind {
    Read,
    Check,
    Replay,
    Begin,
    Step,
}

impl Kind {
    /// Whether it can answer this number with this side; number 0 is an accepted call.
    fn can(self, number: usize, side: usize) -> bool {
        let (gate, of_one_side) = (side == 1, matches!(number, 1..=15 | 20 | 22 | 30));
        let own = match self {
            Self::Read => matches!(number, 0..=15 | 30) && !gate,
            Self::Check => matches!(number, 0..=24 | 30 | 36),
            Self::Replay => matches!(number, 0..=15 | 18..=22 | 25 | 30),
            Self::Begin => matches!(number, 0..=15 | 18..=22 | 24 | 30),
            Self::Step => matches!(number, 0..=15 | 18..=22 | 24 | 25 | 30),
        };
        own && (!gate || of_one_side)
    }
}

/// One above the largest number of a refusal.
const NUMBERS: usize = 37;

/// Calls by the number and the side of their answers.
pub struct Met([[u64; 2]; NUMBERS]);

impl Default for Met {
    fn default() -> Self {
        Self([[0; 2]; NUMBERS])
    }
}

impl Met {
    /// One more call.
    pub fn count(&mut self, number: u32, side: u32) {
        self.0[number as usize][side as usize] += 1;
    }

    /// How often a number was met.
    pub fn times(&self, number: usize) -> u64 {
        self.0[number].iter().sum()
    }

    /// All that were refused.
    pub fn refused(&self) -> u64 {
        (1..NUMBERS).map(|number| self.times(number)).sum()
    }

    /// Both.
    pub fn add(&mut self, other: &Self) {
        self.0.iter_mut().flatten().zip(other.0.iter().flatten()).for_each(|(our, their)| *our += their);
    }

    /// Each number that the call can answer, with how often it was met, gold + gate where it can have both sides.
    pub fn told(&self, call: Kind) -> String {
        let one = |number: usize| {
            let [gold, gate] = self.0[number];
            if call.can(number, 1) { format!("{number}:{gold}+{gate}") } else { format!("{number}:{gold}") }
        };
        (0..NUMBERS).filter(|number| call.can(*number, 0)).map(one).collect::<Vec<_>>().join(" ")
    }

    /// What the call can answer and was met on neither side.
    pub fn missing_numbers(&self, call: Kind) -> Vec<String> {
        (0..NUMBERS).filter(|number| call.can(*number, 0) && self.times(*number) == 0).map(|number| format!("refusal {number}")).collect()
    }

    /// What the call can answer and was not met.
    pub fn missing(&self, call: Kind) -> Vec<String> {
        let all = (0..NUMBERS).flat_map(|number| [(number, 0), (number, 1)]);
        all.filter(|(number, side)| call.can(*number, *side) && self.0[*number][*side] == 0).map(|(number, side)| format!("refusal {number} of side {side}")).collect()
    }
}

/// Says what was not met; whether something was not.
pub fn unmet(missing: &[String]) -> bool {
    if !missing.is_empty() {
        println!("not met: {}", missing.join(", "));
    }
    !missing.is_empty()
}

#[cfg(test)]
mod tests {
    use super::*;

    #[test]
    fn one_that_was_not_met_is_missing() {
        let calls = [(Kind::Read, 17), (Kind::Check, 27 + 18), (Kind::Replay, 23 + 18), (Kind::Begin, 23 + 18), (Kind::Step, 24 + 18)];
        for (call, all) in calls {
            let mut met = Met::default();
            assert_eq!(met.missing(call).len(), all);
            for number in 0..NUMBERS as u32 {
                met.count(number, 0);
                met.count(number, 1);
            }
            assert!(met.missing(call).is_empty());
            met.0[30][0] = 0;
            assert_eq!(met.missing(call), ["refusal 30 of side 0"]);
            met.0[30][0] = 1;
            met.0[7][0] = 0;
            assert_eq!(met.missing(call), ["refusal 7 of side 0"]);
            assert_eq!(met.missing_numbers(call).is_empty(), met.times(7) > 0);
            met.0[7][1] = 0;
            assert_eq!(met.missing_numbers(call), ["refusal 7"]);
        }
    }
}
