//! The clock is no data: refusal 30 at its places, what the generators read, and laws that can fail.
use oracle::asserts::clock_is_no_data;
use oracle::check::{check, prove, NOT_EQUIVALENT};
use oracle::clocks::{node_readings, register_readings};
use oracle::families::{generate, generate_reading, random_pair};
use oracle::meter::Wish;
use oracle::pair::{Lent, SCORES, WORDS};
use oracle::random::{ClockRead, Size};
use oracle::record::{clock_refusal, encode, read, Design, Refusal};
use oracle::rng::Rng;
use oracle::run::{clock_bytes, clock_column, replay, with_clock};
use oracle::shapes;
use oracle::steps::{begin, step, Position, BITS};
use oracle::vectors::{answer, unhex};

const LENT: Lent = Lent { trace: 8_192, words: WORDS, scores: SCORES };

/// The toggle.
fn toggle() -> Design {
    shapes::toggle("q", shapes::sync(1, false))
}

/// Refusal 30 of a side at a place.
fn at(side: u8, place: usize) -> Option<Refusal> {
    Some(Refusal { number: 30, side, place })
}

/// The toggle is accepted; with the clock as its data it is refused at node 0.
#[test]
fn the_toggle() {
    let mut design = toggle();
    assert!(read(&encode(&design)).is_ok());
    design.registers[0].data = 0;
    assert_eq!(read(&encode(&design)).err(), at(0, 0));
}

/// The calls on a pair say 30 with its side, and a refused step leaves what is lent.
#[test]
fn each_call_on_each_side() {
    let (whole, position, bits) = (encode(&toggle()), Position { cycle: 7, agreed: false }, vec![9; BITS]);
    let mut design = toggle();
    design.registers[0].data = 0;
    let reading = encode(&design);
    for (gold, gate, side) in [(&reading, &whole, 0), (&whole, &reading, 1), (&reading, &reading, 0)] {
        assert_eq!(check(gold, gate, 0, u64::MAX, false, LENT).refusal, at(side, 0));
        assert_eq!(replay(gold, gate, 65, &[2]).refusal, at(side, 0));
        let begun = begin(gold, gate, position, &bits);
        assert_eq!((begun.refusal, begun.position, &begun.bits), (at(side, 0), position, &bits));
        let moved = step(gold, gate, 65, &[2], position, &bits);
        assert_eq!((moved.refusal, moved.yes, moved.position, &moved.bits), (at(side, 0), false, position, &bits));
    }
}

/// A design without registers may read an Input of any name.
#[test]
fn without_registers() {
    let mut b = shapes::Builder::new("g");
    let clk = b.input("clk");
    b.output("y", clk);
    assert_eq!(read(&encode(&b.design)), Ok(b.design));
}

/// The pairs of a setting that are refused with 30, of those with registers.
fn share(clock: ClockRead) -> (usize, usize) {
    let (mut rng, mut refused, mut all) = (Rng::new(5), 0, 0);
    for _ in 0..2_000 {
        let pair = random_pair(&mut rng, Size { inputs: 4, outputs: 3, registers: 4, gates: 9 }, 3, clock);
        all += usize::from(!pair.gold.registers.is_empty());
        refused += usize::from(clock_refusal(&pair.gold).and_then(|()| clock_refusal(&pair.gate)).is_err());
    }
    (refused, all)
}

/// Pairs read their clock freely, seldom or never, as they are asked to; never in the families whose pairs are chosen by their answers.
#[test]
fn generators() {
    let ((freely, all), (seldom, others), (never, _)) = (share(ClockRead::Freely), share(ClockRead::Seldom), share(ClockRead::Never));
    assert!(freely * 2 > all && seldom * 30 > others && seldom * 8 < others && never == 0, "{freely} of {all}, {seldom} of {others}, {never}");
    for family in ["under", "limited", "earliest", "late", "deep", "rows", "feedback", "giveup", "limits", "cases"] {
        let thirty = |line: &String| line.split(' ').skip(1).any(|word| word.len() > 30 && read(&unhex(word)).is_err_and(|refusal| refusal.number == 30));
        let lines = generate_reading(family, 300, 3, ClockRead::Never);
        assert!(!lines.iter().filter(|line| line.starts_with("check ") || line.starts_with("under ")).any(thirty), "{family}");
    }
}

/// In every accepted check of the pairs whose designs differ the clock's bytes are 0, and any bits there replay alike.
#[test]
fn traces() {
    let (mut rng, mut met) = (Rng::new(8), 0);
    for _ in 0..1_500 {
        let pair = random_pair(&mut rng, Size { inputs: 4, outputs: 3, registers: 4, gates: 9 }, 4, ClockRead::Never);
        let (answer, _) = prove(&pair.gold, &pair.gate, pair.depth, false, Wish::default());
        if answer.status != NOT_EQUIVALENT || pair.gold.registers.is_empty() {
            continue;
        }
        assert!(clock_bytes(&pair.gold, &answer.trace, answer.mismatch).iter().all(|byte| *byte == 0));
        let bits: Vec<u8> = (0..=answer.mismatch).map(|_| rng.below(2) as u8).collect();
        let claim = with_clock(&pair.gold, &answer.trace, &bits);
        assert!(replay(&encode(&pair.gold), &encode(&pair.gate), answer.mismatch as u64, &claim).yes);
        met += 1;
    }
    assert!(met > 100, "{met}");
}

/// The law says no to designs whose clock is read: as an output, as data, enable and reset.
#[test]
fn the_law_can_fail() {
    let always = |design: &Design| (0..40).all(|seed| clock_is_no_data(&mut Rng::new(seed), design, 12));
    let output = node_readings(0).remove(1);
    for design in register_readings(0).into_iter().chain([output]) {
        assert!(!always(&design), "{design:?}");
    }
    for design in register_readings(1).into_iter().chain(node_readings(1)) {
        assert!(always(&design) && clock_column(&design) == Some(0), "{design:?}");
    }
}

/// The listed cases meet 30 in each form of line and on each side, and what stands before it.
#[test]
fn the_list() {
    let lines = generate("clocks", 300, 1);
    let answers: Vec<(String, Vec<String>)> = lines
        .iter()
        .filter(|line| !line.starts_with('#'))
        .map(|line| (line.split(' ').next().unwrap_or_default().into(), answer(line).split(' ').map(String::from).collect()))
        .collect();
    let met = |call: &str, number: &str, side: &str| answers.iter().filter(|(own, words)| own == call && words[0] == number && words[1] == side).count();
    assert!([met("read", "30", "0"), met("check", "30", "0"), met("check", "30", "1"), met("replay", "30", "0"), met("replay", "30", "1")].iter().all(|times| *times >= 4));
    assert!((7..=15).all(|number| met("read", &number.to_string(), "0") > 0) && met("read", "0", "0") > 20 && met("check", "21", "0") == 4 && met("replay", "25", "0") == 12);
}
