//! The original's orders, with the words that the library's record has.

use crate::stand_in::digest;
use crate::ConsistentPermutation;

/// An order of the original and its key.
pub struct Order {
    key: u64,
    original: ConsistentPermutation,
}

impl Order {
    pub fn new(n: u32, key: u64) -> Self {
        let original = ConsistentPermutation::new(n, key);
        Self { key, original }
    }

    /// The key's low half and high half, n, the fifteen counters. The original keeps those up to the layer of n.
    pub fn words(&self) -> [u32; 18] {
        let mut words = [0; 18];
        words[0] = self.key as u32;
        words[1] = (self.key >> 32) as u32;
        words[2] = self.original.n();
        let counters = self.original.counters();
        words[3..][..counters.len()].copy_from_slice(counters);
        words
    }
}

impl Iterator for Order {
    type Item = u32;

    fn next(&mut self) -> Option<u32> {
        self.original.next()
    }
}

/// The numbers of an order's first `count` calls, digested.
#[inline]
pub fn order_digest(n: u32, key: u64, count: u32) -> u64 {
    let numbers = ConsistentPermutation::new(n, key).take(count as usize);
    digest(numbers.map(u64::from))
}
