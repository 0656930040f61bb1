//! Hashes: the calls `prev` and `next`, each input's state and n any.

use oracle::Draws;

use crate::{measure, report};

/// Calls of their own, as the proved ones are.
#[inline(never)]
fn prev(state: u64, n: u64) -> Option<u64> {
    oracle::prev(state, n)
}

#[inline(never)]
fn next(state: u64, n: u64) -> Option<u64> {
    oracle::next(state, n)
}

/// How large n is, and an n of that size.
type Size = (&'static str, fn(&mut Draws) -> u64);

const SIZES: [Size; 3] = [
    ("n below 256", |draws| 1 + draws.below(255)),
    ("n below 2^20", |draws| 1 + draws.below((1 << 20) - 1)),
    ("n of 1 to 62 bits", |draws| {
        let bit = draws.below(62);
        (1 << bit) + draws.below(1 << bit)
    }),
];

/// The answers of a call for all inputs, as one number.
fn answers(inputs: &[(u64, u64)], call: impl Fn(u64, u64) -> Option<u64>) -> u64 {
    inputs.iter().fold(0u64, |sum, &(state, n)| {
        sum.rotate_left(1) ^ call(state, n).unwrap_or(u64::MAX)
    })
}

pub fn all() {
    let count = 1 << 17;
    for (size, n) in SIZES {
        let mut draws = Draws(1);
        let drawn: Vec<_> = (0..count).map(|_| (draws.next(), n(&mut draws))).collect();
        // Where the original's rising walk skips n the two answer differently.
        let starts: Vec<_> = drawn
            .iter()
            .copied()
            .filter(|&(_, n)| !oracle::skips(n))
            .collect();
        let ours = || answers(&drawn, |state, n| proved::prev(state, n).unwrap());
        let theirs = || answers(&drawn, prev);
        report(&format!("prev, {size}"), measure(count, ours, theirs));
        let ours = || answers(&starts, |state, n| proved::next(state, n).unwrap());
        let theirs = || answers(&starts, next);
        report(
            &format!("next, {size}"),
            measure(starts.len() as u64, ours, theirs),
        );
    }
}
