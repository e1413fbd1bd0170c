//! Safe calls of libstruo_formal.a, the proved sequential equivalence checker. Nothing is demanded of any argument, so that nothing is tested here: every
//! length is answered by the library, with a numbered refusal where it does not fit. The numbers are those of include/struo_formal.h, and
//! docs/SPECIFICATION.md says what they mean.
//!
//! `Checker` owns the memory that a check is lent:
//!
//! ```
//! use struo_formal::{replay, Checker, Options, Refusal, Status};
//!
//! // Input a, output y = a; and the same with a Not before y.
//! let wire = b"\x01\0\0\0\x13\x01g\0\x02\0\x01a\x11\x01y\0\0\0\0";
//! let inverter = b"\x01\0\0\0\x16\x01g\0\x03\0\x01a\x10\0\0\x11\x01y\0\x01\0\0";
//!
//! let mut checker = Checker::new();
//! assert_eq!(checker.check(wire, wire, Options::to_depth(8))?.status, Status::Equivalent);
//!
//! let verdict = checker.check(wire, inverter, Options::to_depth(8))?;
//! assert_eq!(verdict.status, Status::NotEquivalent);
//! let difference = verdict.difference.expect("a difference has a trace");
//! assert!(replay(wire, inverter, difference.cycle.into(), &difference.trace).yes);
//!
//! // In the mode of the earliest cycle no input sequence shows an earlier one.
//! assert_eq!(checker.check(wire, inverter, Options::to_depth(8).earliest())?.difference, Some(difference));
//!
//! let refused = checker.check(wire, b"", Options::to_depth(8).limit(1_000)).unwrap_err();
//! assert_eq!(refused.refusal, Refusal::Length);
//! # Ok::<(), struo_formal::Refused>(())
//! ```
mod boundary;
mod checker;
mod refusal;
mod status;

pub use boundary::{CheckAnswer, Position, ReadAnswer, ReplayAnswer};
pub use checker::{Checker, Difference, Options, Verdict};
pub use refusal::{Refusal, Refused, Side};
pub use status::Status;

/// How many words a check needs.
pub const WORDS: usize = 8_388_608;

/// How many scores a check needs.
pub const SCORES: usize = 65_536;

/// A trace of this length is enough for every pair: 64 inputs in each of 65 cycles, and 64 outputs.
pub const TRACE: usize = 65 * 64 + 64;

/// The largest limit that a check can be given: the most literals that the clauses learned by one query may have together.
pub const LEARNED_LIMIT: u32 = 262_144;

/// How many bytes of stored bits a begin and a step need, and the byte where gate's begin.
pub const BITS: usize = 256;
pub const GATE_BITS: usize = 128;

/// How many bytes of stack a read takes at most.
pub const READ_STACK: usize = 120_000;

/// How many bytes of stack a check takes at most.
pub const CHECK_STACK: usize = 225_000;

/// How many bytes of stack a replay takes at most.
pub const REPLAY_STACK: usize = 225_000;

/// How many bytes of stack a begin takes at most.
pub const BEGIN_STACK: usize = 230_000;

/// How many bytes of stack a step takes at most.
pub const STEP_STACK: usize = 255_000;

/// Reads a design record: accepted, or the first refusal of 1 to 15, then 30, with its place.
pub fn read(record: &[u8]) -> ReadAnswer {
    // The library reads as many bytes as the length says.
    unsafe { boundary::struo_read(record.as_ptr(), record.len()) }
}

/// Checks whether two designs can ever differ, by k-induction for depths 1 to `depth`, in which each query may learn clauses of `limit` literals together: a
/// refusal of 1 to 24, 30 or 36, which leaves all buffers as they were, or a verdict. Where `earliest` is true query 0 puts cycle 0 alone first, so that a mismatch
/// is the earliest cycle that any input sequence can show. The trace is written for NotEquivalent; after an accepted check all of `words` and `scores` is zero.
#[allow(clippy::too_many_arguments)]
pub fn check(gold: &[u8], gate: &[u8], depth: u64, limit: u64, earliest: bool, trace: &mut [u8], words: &mut [u32], scores: &mut [f64]) -> CheckAnswer {
    // The library reads the two records and writes the three buffers, as far as their lengths say; the borrows keep them apart.
    unsafe {
        boundary::struo_check(
            gold.as_ptr(),
            gold.len(),
            gate.as_ptr(),
            gate.len(),
            depth,
            limit,
            earliest,
            trace.as_mut_ptr(),
            trace.len(),
            words.as_mut_ptr(),
            words.len(),
            scores.as_mut_ptr(),
            scores.len(),
        )
    }
}

/// Replays a claimed trace: a refusal of 1 to 15, 18 to 22, 25 or 30, or whether the outputs agree before the claimed cycle and differ in it exactly as
/// marked, in at least one.
pub fn replay(gold: &[u8], gate: &[u8], cycle: u64, claim: &[u8]) -> ReplayAnswer {
    // The library reads as many bytes as the lengths say.
    unsafe { boundary::struo_replay(gold.as_ptr(), gold.len(), gate.as_ptr(), gate.len(), cycle, claim.as_ptr(), claim.len()) }
}

/// Sets a lent position before cycle 0: a refusal of 1 to 15, 18 to 22, 24 or 30, which changes nothing, or accepted. Gold's initial bits are written from byte
/// 0 on and gate's from byte 128 on, by register number; every other byte stays.
pub fn begin(gold: &[u8], gate: &[u8], position: &mut Position, bits: &mut [u8]) -> ReadAnswer {
    // The library reads the records and writes the position and the bits, as far as the lengths say; the borrows keep them apart.
    unsafe { boundary::struo_begin(gold.as_ptr(), gold.len(), gate.as_ptr(), gate.len(), position, bits.as_mut_ptr(), bits.len()) }
}

/// Moves a lent position on by one cycle of a claimed trace: a refusal of 1 to 15, 18 to 22, 24, 25 or 30, which changes nothing, or yes or no. Past the claimed
/// cycle nothing changes and the answer is no; before it the answer is no; at it yes exactly when the position says that the outputs agreed so far and in this
/// cycle they differ in exactly the marked ones, at least one.
pub fn step(gold: &[u8], gate: &[u8], cycle: u64, claim: &[u8], position: &mut Position, bits: &mut [u8]) -> ReplayAnswer {
    // As for a begin.
    unsafe {
        boundary::struo_step(
            gold.as_ptr(),
            gold.len(),
            gate.as_ptr(),
            gate.len(),
            cycle,
            claim.as_ptr(),
            claim.len(),
            position,
            bits.as_mut_ptr(),
            bits.len(),
        )
    }
}

#[cfg(test)]
mod tests {
    use super::*;

    /// The wire, and the wire with a Not before y.
    const WIRE: &[u8] = b"\x01\0\0\0\x13\x01g\0\x02\0\x01a\x11\x01y\0\0\0\0";
    const INVERTER: &[u8] = b"\x01\0\0\0\x16\x01g\0\x03\0\x01a\x10\0\0\x11\x01y\0\x01\0\0";

    /// An accepted check at depth 1 in which no query learned anything.
    fn nothing_learned(status: Status) -> CheckAnswer {
        CheckAnswer { status: status as u32, depth: 1, learned_depth: 1, learned_query: 1, ..CheckAnswer::default() }
    }

    /// The largest limit.
    const LARGEST: u64 = LEARNED_LIMIT as u64;

    /// Memory for a check, none of it zero.
    fn memory() -> (Vec<u8>, Vec<u32>, Vec<f64>) {
        (vec![7; 80], vec![7; WORDS + 1], vec![7.0; SCORES + 1])
    }

    #[test]
    fn records_are_read() {
        let answer = |number, place| ReadAnswer { number, side: 0, place };
        assert_eq!(read(WIRE), answer(0, 0));
        assert_eq!(read(&[]), answer(1, 0));
        let mut own = WIRE.to_vec();
        own[16] = 1;
        assert_eq!(read(&own), answer(7, 1));
    }

    #[test]
    fn claims_are_replayed() {
        let yes = ReplayAnswer { number: 0, side: 0, place: 0, yes: true };
        assert_eq!(replay(WIRE, INVERTER, 0, &[0, 1]), yes);
        assert_eq!(replay(WIRE, INVERTER, 0, &[0, 0]), ReplayAnswer { yes: false, ..yes });
        assert_eq!(replay(WIRE, INVERTER, 65, &[]), ReplayAnswer { number: 25, yes: false, ..yes });
    }

    #[test]
    fn a_difference_is_found_with_its_trace() {
        let (mut trace, mut words, mut scores) = memory();
        let answer = check(WIRE, INVERTER, 1, LARGEST, false, &mut trace, &mut words, &mut scores);
        assert_eq!(answer, nothing_learned(Status::NotEquivalent));
        assert_eq!(trace[..2], [0, 1]);
        assert!(trace[2..].iter().all(|byte| *byte == 7));
        assert!(words.iter().all(|word| *word == 0) && scores.iter().all(|score| score.to_bits() == 0));
        assert!(replay(WIRE, INVERTER, u64::from(answer.mismatch), &trace[..2]).yes);
    }

    #[test]
    fn a_design_is_equivalent_to_itself() {
        let (mut trace, mut words, mut scores) = memory();
        let answer = check(WIRE, WIRE, 64, 0, false, &mut trace, &mut words, &mut scores);
        assert_eq!(answer, nothing_learned(Status::Equivalent));
        assert!(trace.iter().all(|byte| *byte == 7));
        let answer = check(WIRE, WIRE, 64, 0, true, &mut trace, &mut words, &mut scores);
        assert_eq!(answer, CheckAnswer { learned_query: 0, ..nothing_learned(Status::Equivalent) });
        assert!(trace.iter().all(|byte| *byte == 7));
    }

    /// Input a, and an output y that is 0.
    const GROUNDED: &[u8] = b"\x01\0\0\0\x15\x01z\0\x03\0\x01a\x01\0\x11\x01y\0\x01\0\0";

    #[test]
    fn in_the_mode_a_mismatch_is_the_earliest() {
        for (earliest, mismatch, learned_query, told) in [(false, 1, 1, &[0, 1, 1][..]), (true, 0, 0, &[1, 1])] {
            let (mut trace, mut words, mut scores) = memory();
            let answer = check(WIRE, GROUNDED, 1, LARGEST, earliest, &mut trace, &mut words, &mut scores);
            assert_eq!(answer, CheckAnswer { mismatch, learned_query, ..nothing_learned(Status::NotEquivalent) });
            assert_eq!(&trace[..told.len()], told);
            assert!(trace[told.len()..].iter().all(|byte| *byte == 7));
            assert!(words.iter().all(|word| *word == 0) && scores.iter().all(|score| score.to_bits() == 0));
            assert!(replay(WIRE, GROUNDED, mismatch.into(), told).yes);
        }
    }

    #[test]
    fn a_refused_check_changes_nothing() {
        let (mut trace, mut words, mut scores) = memory();
        words.truncate(WORDS - 1);
        for earliest in [false, true] {
            for (depth, limit, number) in [(1, LARGEST, 24), (1, LARGEST + 1, 36), (1, (1 << 32) + 5, 36), (0, u64::MAX, 16), (65, u64::MAX, 17)] {
                let answer = check(WIRE, INVERTER, depth, limit, earliest, &mut trace, &mut words, &mut scores);
                assert_eq!(answer, CheckAnswer { number, ..CheckAnswer::default() });
                assert!(trace.iter().all(|byte| *byte == 7) && words.iter().all(|word| *word == 7) && scores.iter().all(|score| *score == 7.0));
            }
            let answer = check(WIRE, &[], u64::MAX, u64::MAX, earliest, &mut [], &mut [], &mut []);
            assert_eq!(answer, CheckAnswer { number: 1, side: 1, ..CheckAnswer::default() });
        }
    }

    #[test]
    fn a_checker_owns_its_memory() {
        let mut checker = Checker::new();
        for _ in 0..2 {
            let verdict = checker.check(WIRE, INVERTER, Options::to_depth(64)).expect("both are accepted");
            assert_eq!(verdict.difference, Some(Difference { cycle: 0, trace: vec![0, 1] }));
            let verdict = checker.check(WIRE, WIRE, Options::to_depth(64)).expect("both are accepted");
            assert_eq!(verdict, equivalent(1, 0, (1, 1)));
        }
        let refused = checker.check(WIRE, &WIRE[..5], Options::to_depth(1)).unwrap_err();
        assert_eq!(refused, Refused { refusal: Refusal::Length, side: Side::Gate, place: 0 });
    }

    /// A register q that takes Not of its own output, reset 0; y shows it.
    const TOGGLE: &[u8] = b"\x01\0\0\0\x2d\x01t\0\x05\0\x03clk\0\x03rst\x02\x10\0\x02\x11\x01y\0\x02\0\x01\x01q\0\x02\0\x03\0\0\0\0\x01\0\x01\0\0";

    /// y = a Xor b, as one node and by Or, And and Not.
    const XOR: &[u8] = b"\x01\0\0\0\x1b\x01x\0\x04\0\x01a\0\x01b\x22\0\0\0\x01\x11\x01y\0\x02\0\0";
    const BY_GATES: &[u8] = b"\x01\0\0\0\x28\x01y\0\x07\0\x01a\0\x01b\x21\0\0\0\x01\x20\0\0\0\x01\x10\0\x03\x20\0\x02\0\x04\x11\x01y\0\x05\0\0";

    /// y = q Xor f, where q is the second of two registers in a row after e, as one node, and by Or, And and Not over registers of other names.
    const LATE: &[u8] = b"\x01\0\0\0\x45\x01l\0\x08\0\x03clk\0\x03rst\0\x01e\0\x01f\x02\x02\x22\0\x05\0\x03\x11\x01y\0\x06\0\x02\
        \x01p\0\x04\0\x02\0\0\0\0\x01\0\x01\0\0\x01q\0\x05\0\x04\0\0\0\0\x01\0\x01\0\0";
    const LATE_BY_GATES: &[u8] = b"\x01\0\0\0\x52\x01l\0\x0b\0\x03clk\0\x03rst\0\x01e\0\x01f\x02\x02\x21\0\x05\0\x03\x20\0\x05\0\x03\x10\0\x07\x20\0\x06\0\x08\
        \x11\x01y\0\x09\0\x02\x01r\0\x04\0\x02\0\0\0\0\x01\0\x01\0\0\x01s\0\x05\0\x04\0\0\0\0\x01\0\x01\0\0";

    /// The toggle with its register named p.
    fn renamed() -> Vec<u8> {
        let mut toggle = TOGGLE.to_vec();
        toggle[31] = b'p';
        toggle
    }

    /// A verdict Equivalent at a depth, in which the query of a depth and number learned most.
    fn equivalent(depth: u32, learned: u32, (learned_depth, learned_query): (u32, u32)) -> Verdict {
        Verdict { status: Status::Equivalent, depth, difference: None, query: None, learned, learned_depth, learned_query, proved_through: None }
    }

    #[test]
    fn an_answer_is_laid_out_as_c_has_it() {
        assert_eq!(std::mem::size_of::<CheckAnswer>(), 48);
        assert_eq!((std::mem::offset_of!(CheckAnswer, learned_query), std::mem::offset_of!(CheckAnswer, equal), std::mem::offset_of!(CheckAnswer, through)), (36, 40, 44));
    }

    #[test]
    fn the_most_learned_is_told_with_its_query() {
        let renamed = renamed();
        let mut checker = Checker::new();
        for (gold, gate, verdict) in [
            (TOGGLE, &renamed[..], equivalent(1, 1, (1, 3))),
            (XOR, BY_GATES, equivalent(1, 16, (1, 1))),
            (LATE, LATE_BY_GATES, equivalent(2, 5, (2, 1))),
        ] {
            for limit in [u64::from(verdict.learned), LARGEST] {
                assert_eq!(checker.check(gold, gate, Options::to_depth(8).limit(limit)), Ok(verdict.clone()));
            }
        }
    }

    #[test]
    fn a_give_up_tells_how_far_it_got() {
        let renamed = renamed();
        let mut checker = Checker::new();
        for (gold, gate, limit, (depth, query), (learned, learned_depth), proved_through) in [
            (TOGGLE, &renamed[..], 0, (1, 3), (0, 1), Some(1)),
            (XOR, BY_GATES, 12, (1, 1), (11, 1), None),
            (XOR, BY_GATES, 0, (1, 1), (0, 1), None),
            (LATE, LATE_BY_GATES, 3, (2, 1), (3, 2), Some(1)),
        ] {
            let query = Some(query);
            let expected = Verdict { status: Status::GaveUp, depth, difference: None, query, learned, learned_depth, learned_query: 1, proved_through };
            assert_eq!(checker.check(gold, gate, Options::to_depth(8).limit(limit)), Ok(expected));
        }
    }

    #[test]
    fn in_the_mode_a_give_up_has_query_0_before_it() {
        let renamed = renamed();
        let mut checker = Checker::new();
        for (gold, gate, limit, query, (learned, learned_query), proved_through) in [
            (TOGGLE, &renamed[..], 0, 3, (0, 0), Some(1)),
            (XOR, BY_GATES, 12, 1, (11, 1), Some(0)),
            (XOR, BY_GATES, 5, 1, (5, 0), Some(0)),
            (XOR, BY_GATES, 3, 0, (3, 0), None),
            (XOR, BY_GATES, 0, 0, (0, 0), None),
        ] {
            let query = Some(query);
            let expected = Verdict { status: Status::GaveUp, depth: 1, difference: None, query, learned, learned_depth: 1, learned_query, proved_through };
            assert_eq!(checker.check(gold, gate, Options::to_depth(8).limit(limit).earliest()), Ok(expected));
        }
        for (gold, gate, verdict) in [(TOGGLE, &renamed[..], equivalent(1, 1, (1, 3))), (XOR, BY_GATES, equivalent(1, 16, (1, 1)))] {
            assert_eq!(checker.check(gold, gate, Options::to_depth(8).earliest()), Ok(verdict));
        }
    }

    #[test]
    fn a_limit_above_the_largest_is_refused() {
        let mut checker = Checker::new();
        assert_eq!(Options::to_depth(8), Options { depth: 8, limit: 262_144, earliest: false });
        assert_eq!(Options::to_depth(8).limit(7).earliest(), Options { depth: 8, limit: 7, earliest: true });
        assert!(checker.check(WIRE, WIRE, Options::to_depth(8)).is_ok());
        for limit in [LARGEST + 1, (1 << 32) + 5, u64::MAX] {
            let refused = checker.check(WIRE, TOGGLE, Options::to_depth(8).limit(limit)).unwrap_err();
            assert_eq!(refused, Refused { refusal: Refusal::LearnedLimit, side: Side::Gold, place: 0 });
            assert_eq!(refused.to_string(), "refused: 36 LearnedLimit: the limit of learned literals is over 262,144");
        }
        assert_eq!(checker.check(WIRE, TOGGLE, Options::to_depth(8)).unwrap_err().refusal, Refusal::InputInterface);
    }

    #[test]
    fn a_position_is_stepped_to_the_claimed_cycle() {
        let claim = [0, 0, 0, 0, 1];
        let mut position = Position { cycle: 9, agreed: false };
        let mut bits = vec![7; BITS + 1];
        assert_eq!(begin(TOGGLE, TOGGLE, &mut position, &mut bits), ReadAnswer::default());
        assert_eq!(position, Position { cycle: 0, agreed: true });
        assert!((bits[0], bits[1], bits[GATE_BITS], bits[BITS]) == (0, 7, 0, 7));
        for (cycle, bit) in [(1, 1), (2, 0), (2, 0)] {
            assert_eq!(step(TOGGLE, TOGGLE, 1, &claim, &mut position, &mut bits), ReplayAnswer::default());
            assert_eq!(position, Position { cycle, agreed: true });
            assert!((bits[0], bits[1], bits[GATE_BITS], bits[BITS]) == (bit, 7, bit, 7));
        }
        // A position of one's own: q at 0, the other at 1.
        (position, bits[GATE_BITS]) = (Position { cycle: 1, agreed: true }, 1);
        assert!(step(TOGGLE, TOGGLE, 1, &claim, &mut position, &mut bits).yes);
        assert_eq!((position, bits[0], bits[GATE_BITS]), (Position { cycle: 2, agreed: false }, 1, 0));
    }

    #[test]
    fn a_refused_step_changes_nothing() {
        let lent = Position { cycle: 1, agreed: true };
        for (claim, length, first, number) in [([0, 0, 0, 0, 1], 255, 0, 24), ([0, 0, 0, 0, 2], 255, 0, 25), ([0, 0, 0, 0, 1], 256, 2, 25)] {
            let (mut position, mut bits) = (lent, vec![0; length]);
            bits[0] = first;
            let before = bits.clone();
            assert_eq!(step(TOGGLE, TOGGLE, 1, &claim, &mut position, &mut bits), ReplayAnswer { number, ..ReplayAnswer::default() });
            assert!(position == lent && bits == before);
        }
        let (mut position, mut bits) = (lent, vec![7; 255]);
        assert_eq!(begin(TOGGLE, TOGGLE, &mut position, &mut bits), ReadAnswer { number: 24, ..ReadAnswer::default() });
        assert!(position == lent && bits == [7; 255]);
    }

    #[test]
    fn a_clock_that_is_read_is_refused_in_every_call() {
        // The Not, the Output, the data and the reset read node 0, the clock; then the register is clocked by rst, node 1, which its reset reads.
        for (offset, node, place) in [(22, 0, 0), (27, 0, 0), (35, 0, 0), (42, 0, 0), (37, 1, 1)] {
            let mut record = TOGGLE.to_vec();
            record[offset] = node;
            assert_eq!(read(&record), ReadAnswer { number: 30, side: 0, place });
            for (side, gold, gate) in [(0, &record[..], TOGGLE), (1, TOGGLE, &record[..])] {
                let (mut position, mut bits) = (Position { cycle: 9, agreed: false }, [7; BITS]);
                let refused = ReplayAnswer { number: 30, side, place, yes: false };
                assert_eq!(check(gold, gate, 0, u64::MAX, false, &mut [], &mut [], &mut []), CheckAnswer { number: 30, side, place, ..CheckAnswer::default() });
                assert_eq!(replay(gold, gate, 65, &[2]), refused);
                assert_eq!(step(gold, gate, 65, &[2], &mut position, &mut bits), refused);
                assert_eq!(begin(gold, gate, &mut position, &mut bits), ReadAnswer { number: 30, side, place });
                assert!(position == Position { cycle: 9, agreed: false } && bits == [7; BITS]);
            }
        }
    }

    #[test]
    fn the_clocks_bits_change_no_answer() {
        // The toggle with y behind its Not, so that the outputs differ at once; inputs clk and rst.
        let inverted = b"\x01\0\0\0\x2d\x01t\0\x05\0\x03clk\0\x03rst\x02\x10\0\x02\x11\x01y\0\x03\0\x01\x01q\0\x02\0\x03\0\0\0\0\x01\0\x01\0\0";
        for mark in [0, 1] {
            for (clock, number) in [(0, 0), (1, 0), (2, 25)] {
                let answer = ReplayAnswer { number, yes: number == 0 && mark == 1, ..ReplayAnswer::default() };
                assert_eq!(replay(TOGGLE, inverted, 0, &[clock, 1, mark]), answer);
            }
        }
    }

    #[test]
    fn refusals_and_statuses_in_words() {
        let mut own = WIRE.to_vec();
        own[16] = 1;
        let refused = read(&own).result().unwrap_err();
        assert_eq!(refused.to_string(), "refused: 7 UndefinedNet: a node's input number is not below the node's own (gold node 1)");
        assert_eq!(check(WIRE, WIRE, 0, 0, false, &mut [], &mut [], &mut []).result().unwrap_err().to_string(), "refused: 16 ZeroDepth: the depth is 0");
        let mut clocked = TOGGLE.to_vec();
        clocked[27] = 0;
        assert_eq!(
            check(TOGGLE, &clocked, 1, 0, false, &mut [], &mut [], &mut []).result().unwrap_err().to_string(),
            "refused: 30 ClockRead: an Input that clocks a register is read by a node, or by a register's data, enable or reset (gate node 0)"
        );
        assert!((1..=25).chain([30, 36]).all(|number| Refusal::from_number(number).is_some_and(|refusal| refusal as u32 == number)));
        assert!([0, 26, 29, 31, 35, 37].into_iter().all(|number| Refusal::from_number(number).is_none()));
        assert!((0..4).all(|number| Status::from_number(number).is_some_and(|status| status as u32 == number)));
        assert!(Status::from_number(4).is_none());
        assert!(Status::Equivalent.to_string().starts_with("Equivalent: ") && Status::NotEquivalent.to_string().starts_with("NOT EQUIVALENT: "));
    }
}
