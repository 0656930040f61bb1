//! Trials of hashes.

use oracle::{ConsistentHashIterator, ConsistentHashRevIterator, Draws, StandIn};
use proved::Refused;

use crate::{differ, word};

/// The largest n.
const LIMIT: u64 = 1 << 62;

/// A state: one in four stands at a boundary, and one in eight has bit 63, which stands for no bucket, with few others.
fn state(draws: &mut Draws) -> u64 {
    match draws.below(8) {
        0 => (1 << 63) | (word(draws) & word(draws) & word(draws)),
        _ => word(draws),
    }
}

/// A number of 1 to 62 bits, each length as likely.
fn any_length(draws: &mut Draws) -> u64 {
    let bit = draws.below(62);
    (1 << bit) + draws.below(1 << bit)
}

/// A state and an n up to the limit: small, at a power of two or one off, a hash of the state or one above it, or any.
fn input(draws: &mut Draws) -> (u64, u64) {
    let state = state(draws);
    let n = match draws.below(8) {
        0 => draws.below(4),
        1 => draws.below(256),
        2 => (1 << draws.below(63)) + draws.below(3) - 1,
        3 => oracle::prev(state, any_length(draws)).unwrap() + draws.below(2),
        4 => draws.below(LIMIT),
        _ => any_length(draws),
    };
    (state, n.min(LIMIT))
}

/// The same where the original's rising walk does not skip n.
fn start(draws: &mut Draws) -> (u64, u64) {
    loop {
        let (state, n) = input(draws);
        if !oracle::skips(n) {
            return (state, n);
        }
    }
}

/// A state and a start that it skips, few bits more often, where n is more often a hash.
fn skipped_start(draws: &mut Draws) -> (u64, u64) {
    let bits = match draws.below(4) {
        0 => draws.below(62),
        _ => draws.below(6),
    };
    (state(draws), (2 << bits) - 1)
}

/// Tries a call with a state and an n.
fn tried<T: PartialEq + std::fmt::Debug>(
    (state, n): (u64, u64),
    ours: fn(u64, u64) -> Result<T, Refused>,
    theirs: fn(u64, u64) -> T,
) -> Option<String> {
    differ(
        format!("state {state:#x} n {n:#x}"),
        ours(state, n),
        Ok(theirs(state, n)),
    )
}

pub fn seq_builder(draws: &mut Draws) -> Option<String> {
    let (state, i) = (state(draws), word(draws));
    differ(
        format!("state {state:#x} i {i:#x}"),
        proved::seq_builder(state, i),
        oracle::seq_builder(state, i),
    )
}

pub fn prev(draws: &mut Draws) -> Option<String> {
    tried(input(draws), proved::prev, oracle::prev)
}

pub fn into_prev(draws: &mut Draws) -> Option<String> {
    tried(input(draws), proved::into_prev, oracle::into_prev)
}

pub fn next(draws: &mut Draws) -> Option<String> {
    tried(start(draws), proved::next, oracle::next)
}

/// Follows a walk to its end and one call more. `at` is the walk's number before a step, `after` gives it by the hash.
fn stepped(
    input: String,
    mut at: u64,
    step: impl Fn(u64) -> Result<Option<u64>, Refused>,
    after: fn(u64) -> u64,
    mut theirs: impl Iterator<Item = usize>,
) -> Option<String> {
    let mut ends = 0;
    while ends < 2 {
        let hash = theirs.next().map(|x| x as u64);
        let difference = differ(format!("{input}, at {at:#x}"), step(at), Ok(hash));
        if difference.is_some() {
            return difference;
        }
        match hash {
            Some(x) => at = after(x),
            None => ends += 1,
        }
    }
    None
}

pub fn falling_steps(draws: &mut Draws) -> Option<String> {
    let (state, n) = input(draws);
    stepped(
        format!("state {state:#x} n {n:#x}"),
        n,
        |n| proved::falling_next(state, n),
        |x| x,
        ConsistentHashRevIterator::new(n as usize, StandIn(state)),
    )
}

/// The rising walk from n beside one that is given.
fn rising(state: u64, n: u64, theirs: impl Iterator<Item = usize>) -> Option<String> {
    stepped(
        format!("state {state:#x} n {n:#x}"),
        n,
        |low| proved::rising_next(state, low),
        |x| x + 1,
        theirs,
    )
}

pub fn rising_steps(draws: &mut Draws) -> Option<String> {
    let (state, n) = start(draws);
    let theirs = ConsistentHashIterator::new(n as usize, StandIn(state));
    rising(state, n, theirs)
}

pub fn falling_digest(draws: &mut Draws) -> Option<String> {
    tried(input(draws), proved::falling_digest, oracle::falling_digest)
}

pub fn rising_digest(draws: &mut Draws) -> Option<String> {
    tried(start(draws), proved::rising_digest, oracle::rising_digest)
}

/// All that rises, from where the original skips its start: by document 02, over the original's hashes.
pub fn skipped_starts(draws: &mut Draws) -> Option<String> {
    let (state, n) = skipped_start(draws);
    let hashes = oracle::hashes_from(state, n);
    let ours = (proved::next(state, n), proved::rising_digest(state, n));
    let theirs = (
        Ok(hashes.first().copied()),
        Ok(oracle::digest(hashes.iter().copied())),
    );
    differ(format!("state {state:#x} n {n:#x}"), ours, theirs)
        .or_else(|| rising(state, n, hashes.into_iter().map(|x| x as usize)))
}

/// The rising walk of a record made by hand, whose `low` may be any: by document 02, likewise.
pub fn rising_handmade(draws: &mut Draws) -> Option<String> {
    let (state, low) = (state(draws), word(draws));
    let hashes = oracle::hashes_from(state, low);
    rising(state, low, hashes.into_iter().map(|x| x as usize))
}

/// All calls that refuse, with an n above the limit: by document 01, since the original answers there too.
pub fn refusals(draws: &mut Draws) -> Option<String> {
    let state = state(draws);
    let n = word(draws).max(LIMIT + 1 + draws.below(2));
    let ours = [
        proved::prev(state, n).err(),
        proved::into_prev(state, n).err(),
        proved::next(state, n).err(),
        proved::falling_next(state, n).err(),
        proved::falling_digest(state, n).err(),
        proved::rising_digest(state, n).err(),
    ];
    differ(
        format!("state {state:#x} n {n:#x}"),
        ours,
        [Some(Refused(1)); 6],
    )
}
