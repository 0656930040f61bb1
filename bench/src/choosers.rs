//! Choosers: making one with k samples.

use oracle::{ConsistentChooseKHasher, Draws, StandIn};

use crate::{measure, report};

const N: u64 = 10_000_000;

/// A call of its own, as the proved one is.
#[inline(never)]
fn new_with_k(state: u64, n: u64, k: u64) -> ConsistentChooseKHasher<StandIn> {
    ConsistentChooseKHasher::new_with_k(StandIn(state), n as usize, k as usize)
}

/// Samples as one number.
fn mixed(samples: impl Iterator<Item = u64>) -> u64 {
    samples.fold(0, |sum, x| sum.rotate_left(1) ^ x)
}

/// `new_with_k` with k of N.
fn making(k: u64) {
    let mut draws = Draws(1);
    let states: Vec<_> = (0..1 + 5_000_000 / (k * k + 100))
        .map(|_| draws.next())
        .collect();
    let ours = || {
        let (mut list, mut record) = (vec![0; k as usize], [0; 3]);
        states.iter().fold(0, |sum, &state| {
            proved::chooser_new_with_k(state, k, N, &mut record, &mut list).unwrap();
            sum ^ mixed(list.iter().copied())
        })
    };
    let theirs = || {
        states.iter().fold(0, |sum, &state| {
            let made = new_with_k(state, N, k);
            sum ^ mixed(made.samples().iter().map(|&x| x as u64))
        })
    };
    report(
        &format!("chooser of {k} of {N}, new_with_k"),
        measure(states.len() as u64, ours, theirs),
    );
}

pub fn all() {
    [10, 100, 1000].into_iter().for_each(making);
}
