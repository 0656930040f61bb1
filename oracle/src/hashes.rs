//! The original's calls on hashes, under the stand-in with a given state.

use crate::stand_in::digest;
use crate::{
    ConsistentHashIterator, ConsistentHashRevIterator, ConsistentHasher, HashSeqBuilder,
    ManySeqBuilder, StandIn,
};

/// The state of the i-th sequence.
#[inline]
pub fn seq_builder(state: u64, i: u64) -> u64 {
    StandIn(state).seq_builder(i as usize).bit_mask()
}

#[inline]
pub fn prev(state: u64, n: u64) -> Option<u64> {
    let hash = ConsistentHasher::new(StandIn(state)).prev(n as usize);
    hash.map(|x| x as u64)
}

#[inline]
pub fn into_prev(state: u64, n: u64) -> Option<u64> {
    let hash = ConsistentHasher::new(StandIn(state)).into_prev(n as usize);
    hash.map(|x| x as u64)
}

#[inline]
pub fn next(state: u64, n: u64) -> Option<u64> {
    let hash = ConsistentHasher::new(StandIn(state)).next(n as usize);
    hash.map(|x| x as u64)
}

/// The walk from n down, digested.
#[inline]
pub fn falling_digest(state: u64, n: u64) -> u64 {
    let walk = ConsistentHashRevIterator::new(n as usize, StandIn(state));
    digest(walk.map(|hash| hash as u64))
}

/// The walk from n up, digested.
#[inline]
pub fn rising_digest(state: u64, n: u64) -> u64 {
    let walk = ConsistentHashIterator::new(n as usize, StandIn(state));
    digest(walk.map(|hash| hash as u64))
}
