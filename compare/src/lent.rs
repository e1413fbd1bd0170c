//! The memory lent to a check, with guards about it, and what a call left of it.
use oracle::pair::{Lent, SCORES, WORDS};
use oracle::rng::Rng;

/// What memory holds that a call must not change.
const HELD: u32 = 0xa5a5_a5a5;

/// What scores hold, one place after another: NaNs quiet and signalling, of both signs and several payloads, infinities, zeros, numbers. A contract takes
/// all NaNs for one, so that only these bits show that a refused check leaves each as it was.
const HELD_SCORES: [u64; 16] = [
    0x7ff8_0000_0000_0000,
    0xfff8_0000_0000_0000,
    0x7ff8_0000_0000_0001,
    0xffff_ffff_ffff_ffff,
    0x7fff_a5a5_a5a5_a5a5,
    0x7ff0_0000_0000_0001,
    0xfff0_0000_0000_0001,
    0x7ff4_0000_0000_0000,
    0xfff7_ffff_ffff_ffff,
    0x7ff0_0000_0000_0000,
    0xfff0_0000_0000_0000,
    0x8000_0000_0000_0000,
    0x0000_0000_0000_0000,
    0x0000_0000_0000_0001,
    0x3ff0_0000_0000_0000,
    0xa5a5_a5a5_a5a5_a5a5,
];

/// The bits of the score at a place.
fn held_score(place: usize) -> u64 {
    HELD_SCORES[place % HELD_SCORES.len()]
}

/// Scores from a place on hold their pattern.
fn hold_scores(scores: &mut [f64], from: usize) {
    scores.iter_mut().enumerate().skip(from).for_each(|(place, score)| *score = f64::from_bits(held_score(place)));
}

/// Elements before and behind what is lent.
const FRONT: usize = 16;
const SPARE: usize = 8_192;

/// Words and scores, the lent part between guards.
pub struct Memory {
    words: Vec<u32>,
    scores: Vec<f64>,
}

impl Memory {
    /// Memory that holds the pattern everywhere.
    pub fn held() -> Self {
        let mut scores = vec![0.0; FRONT + SCORES as usize + SPARE];
        hold_scores(&mut scores, 0);
        Self { words: vec![HELD; FRONT + WORDS as usize + SPARE], scores }
    }

    /// The lent parts.
    pub fn lend(&mut self, lent: Lent) -> (&mut [u32], &mut [f64]) {
        (&mut self.words[FRONT..FRONT + lent.words as usize], &mut self.scores[FRONT..FRONT + lent.scores as usize])
    }

    /// The guards about a lent part hold the pattern again.
    pub fn guard(&mut self, lent: Lent) {
        self.words[FRONT + lent.words as usize..].fill(HELD);
        hold_scores(&mut self.scores, FRONT + lent.scores as usize);
    }

    /// Other contents: the start of each 65,536 words and some other places, or now and then everything.
    pub fn dirty(&mut self, rng: &mut Rng, lent: Lent) {
        let (words, scores) = self.lend(lent);
        if rng.one_in(16) {
            let seed = rng.next();
            words.iter_mut().zip(seed..).for_each(|(word, number)| *word = number as u32);
            scores.iter_mut().zip(seed..).for_each(|(score, number)| *score = f64::from_bits(number.rotate_left(50)));
            return;
        }
        for region in words.chunks_mut(65_536) {
            let length = region.len().min(16);
            region[..length].iter_mut().for_each(|word| *word = rng.next() as u32);
        }
        for _ in 0..256 {
            words[rng.below(lent.words as usize)] = rng.next() as u32;
            let bits = if rng.one_in(2) { *rng.pick(&HELD_SCORES) } else { rng.next() };
            scores[rng.below(lent.scores as usize)] = f64::from_bits(bits);
        }
    }

    /// The first place of the words, then of the scores, that is not as it has to be: zero in the lent part where the check was accepted, the pattern elsewhere.
    pub fn fault(&self, lent: Lent, accepted: bool) -> Option<String> {
        let word = if accepted { 0 } else { HELD };
        let score = |place| if accepted { 0 } else { held_score(place) };
        let told = |what: &str, place: usize| format!("{what} {}", place as i64 - FRONT as i64);
        first_other(&self.words, lent.words as usize, |_, held| *held != word, |_, held| *held != HELD)
            .map(|place| told("word", place))
            .or_else(|| {
                first_other(&self.scores, lent.scores as usize, |place, held| held.to_bits() != score(place), |place, held| held.to_bits() != held_score(place))
                    .map(|place| told("score", place))
            })
    }

    /// The pattern everywhere.
    pub fn refill(&mut self) {
        self.words.fill(HELD);
        hold_scores(&mut self.scores, 0);
    }
}

/// The first place whose element is bad: by one test in the lent part, by another in the guards before and behind it.
fn first_other<T>(all: &[T], lent: usize, inner: impl Fn(usize, &T) -> bool, outer: impl Fn(usize, &T) -> bool) -> Option<usize> {
    let end = FRONT + lent;
    let last = all.len().min(end + SPARE);
    bad_in(all, 0, FRONT, &outer).or_else(|| bad_in(all, FRONT, end, inner)).or_else(|| bad_in(all, end, last, outer))
}

/// The first bad place of a part; many elements are tested at once.
fn bad_in<T>(all: &[T], from: usize, end: usize, bad: impl Fn(usize, &T) -> bool) -> Option<usize> {
    const MANY: usize = 4_096;
    let begins = (from..end).step_by(MANY);
    let places = |begin: usize| begin..end.min(begin + MANY);
    let begin = begins.into_iter().find(|begin| all[places(*begin)].iter().zip(*begin..).fold(false, |any, (element, place)| any | bad(place, element)))?;
    places(begin).find(|place| bad(*place, &all[*place]))
}

/// A trace buffer of random bytes, none of them 0 or 1, the lent part between guards.
pub struct Trace {
    bytes: Vec<u8>,
    before: Vec<u8>,
    length: usize,
}

impl Trace {
    /// A buffer of a length.
    pub fn new(rng: &mut Rng, length: usize) -> Self {
        let bytes: Vec<u8> = (0..length + 2 * FRONT).map(|_| rng.next() as u8 | 2).collect();
        Self { before: bytes.clone(), bytes, length }
    }

    /// The lent part.
    pub fn lend(&mut self) -> &mut [u8] {
        &mut self.bytes[FRONT..FRONT + self.length]
    }

    /// The first place that is not as it has to be: the written bytes first, all else as before.
    pub fn fault(&mut self, written: &[u8]) -> Option<String> {
        self.before[FRONT..FRONT + written.len()].copy_from_slice(written);
        let place = self.bytes.iter().zip(&self.before).position(|(byte, wanted)| byte != wanted)?;
        Some(format!("trace byte {}", place as i64 - FRONT as i64))
    }
}
