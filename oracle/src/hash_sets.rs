//! The sets of hashes: answers of the original for states and numbers n, of document 02 from where the original skips n, and refusals.

use std::collections::HashSet;

use oracle::{
    digest, falling_digest, hashes_from, into_prev, next, prev, rising_digest, seq_builder, skips,
    Draws,
};

use crate::cases::Case;
use crate::{coded, NONE};

/// The largest n.
const LIMIT: u64 = 1 << 62;

/// The bit that stands for no bucket.
const BIT_63: u64 = 1 << 63;

/// A call with a state and an n: its name, and its answer.
type Call = (&'static str, fn(u64, u64) -> u64);

const CALLS: [Call; 5] = [
    ("prev", |state, n| prev(state, n).unwrap_or(NONE)),
    ("into_prev", |state, n| into_prev(state, n).unwrap_or(NONE)),
    ("next", |state, n| next(state, n).unwrap_or(NONE)),
    ("falling_digest", falling_digest),
    ("rising_digest", rising_digest),
];

/// The calls that rise, as document 02, §4, has them.
const RISING: [Call; 2] = [
    ("next", |state, n| {
        hashes_from(state, n).first().copied().unwrap_or(NONE)
    }),
    ("rising_digest", |state, n| {
        digest(hashes_from(state, n).into_iter())
    }),
];

fn rises(name: &str) -> bool {
    RISING.iter().any(|&(rising, _)| rising == name)
}

/// No bucket, the lowest ones, all, and the same with bit 63.
const STATES: [u64; 8] = [
    0,
    1,
    3,
    BIT_63 - 1,
    BIT_63,
    BIT_63 + 1,
    BIT_63 + 3,
    u64::MAX,
];

/// States to take in turn: those above, every single bit, bit 63 with every other one.
fn states() -> Vec<u64> {
    let mut all = STATES.to_vec();
    all.extend((0..64).map(|bit| 1u64 << bit));
    all.extend((0..63).map(|bit| BIT_63 + (1 << bit)));
    all
}

/// 0 to 3, the powers of two, and one off on both sides, up to the limit.
fn boundaries() -> Vec<u64> {
    let mut all: Vec<u64> = (0..62)
        .flat_map(|bit| [(1 << bit) - 1, 1 << bit, (1 << bit) + 1])
        .collect();
    all.extend([LIMIT - 1, LIMIT]);
    all.sort();
    all.dedup();
    all
}

/// A number of 1 to 62 bits, each length as likely.
fn any_length(draws: &mut Draws) -> u64 {
    let bit = draws.below(62);
    (1 << bit) + draws.below(1 << bit)
}

/// A state that has hash 2^bit − 1, which the original's rising walk from there skips.
fn skipping(bit: u32, draws: &mut Draws) -> u64 {
    let n = 1 << bit;
    std::iter::repeat_with(|| draws.next())
        .find(|&state| prev(state, n) == Some(n - 1))
        .unwrap()
}

/// States with an n each.
fn pairs() -> Vec<(u64, u64)> {
    let mut draws = Draws(3);
    let mut pairs = Vec::new();
    for n in 0..4 {
        pairs.extend(STATES.map(|state| (state, n)));
    }
    for (n, state) in boundaries().into_iter().zip(states().into_iter().cycle()) {
        pairs.push((state, n));
        pairs.push((draws.next(), n));
    }
    // An n inside the only bucket.
    for bit in 0..62 {
        pairs.push((1 << bit, (1 << bit) + draws.below(1 << bit)));
    }
    for bit in 1..17 {
        pairs.push((skipping(bit, &mut draws), (1 << bit) - 1));
    }
    // An n that is a hash, and one above.
    for _ in 0..20 {
        let state = draws.next();
        let hash = prev(state, any_length(&mut draws)).unwrap();
        pairs.extend([(state, hash), (state, hash + 1)]);
    }
    for _ in 0..30 {
        pairs.push((draws.next(), any_length(&mut draws)));
        pairs.push((draws.next() | BIT_63, draws.below(LIMIT)));
    }
    pairs
}

/// A call with a state and an n.
fn case((name, call): Call, state: u64, n: u64) -> Case {
    Case::of(name, &[state, n], call(state, n))
}

/// `seq_builder state i`.
fn seq_builders() -> Vec<Case> {
    let mut draws = Draws(4);
    let mut pairs = Vec::new();
    for i in [0, 1, u64::MAX] {
        pairs.extend(STATES.map(|state| (state, i)));
    }
    pairs.extend(states().iter().map(|&s| (s, any_length(&mut draws))));
    pairs
        .iter()
        .map(|&(state, i)| Case::of("seq_builder", &[state, i], seq_builder(state, i)))
        .collect()
}

/// Those, then each of `CALLS` with states and an n. What rises from where the original skips is left out.
pub fn hashes() -> Vec<Case> {
    let mut cases = seq_builders();
    for (state, n) in pairs() {
        let compared = CALLS.into_iter().filter(|&(c, _)| !(rises(c) && skips(n)));
        cases.extend(compared.map(|call| case(call, state, n)));
    }
    cases
}

/// The starts that are left out there, and more: the laws' examples, and states of which n is a hash.
fn skipped_starts() -> Vec<(u64, u64)> {
    let mut draws = Draws(12);
    let mut starts = vec![(1, 1), (3, 3), (5, 7)];
    starts.extend(pairs().into_iter().filter(|&(_, n)| skips(n)));
    for bit in 1..=62 {
        let n = (1 << bit) - 1;
        starts.extend(STATES.map(|state| (state, n)));
        starts.extend([(1 << (bit - 1), n), (draws.next(), n)]);
    }
    for bit in 1..=20 {
        starts.push((skipping(bit, &mut draws), (1 << bit) - 1));
    }
    let mut seen = HashSet::new();
    starts.retain(|&start| seen.insert(start));
    starts
}

/// Each of `RISING` with a state and an n, n+1 a power of two from 2 up.
pub fn rising_starts() -> Vec<Case> {
    let starts = skipped_starts().into_iter();
    starts
        .flat_map(|(state, n)| RISING.map(|call| case(call, state, n)))
        .collect()
}

/// Each call with an n above the limit: by document 01, since the original answers there too.
pub fn refusals() -> Vec<Case> {
    let refused = coded(Err(1));
    let mut cases = Vec::new();
    for (name, _) in CALLS {
        for state in STATES {
            let above = [LIMIT + 1, LIMIT + 2, BIT_63 - 1, BIT_63, u64::MAX];
            cases.extend(above.map(|n| Case::of(name, &[state, n], refused)));
        }
    }
    cases
}
