//! Document 02, §4, from its sentences: the rising walk where the original skips the number that it starts from.

use crate::{ConsistentHashRevIterator, StandIn};

/// "Starts where n+1 is a power of two from 2 up": from there the original gives no n, hash or not.
pub fn skips(n: u64) -> bool {
    0 < n && (n + 1).is_power_of_two()
}

/// "the walk from n gives the smallest hash of n or more, n itself included at every n", and so on up. The original has every hash in
/// its falling walk from 2^63, since each is below that.
pub fn hashes_from(state: u64, n: u64) -> Vec<u64> {
    let falling = ConsistentHashRevIterator::new(1 << 63, StandIn(state));
    let mut hashes: Vec<u64> = falling.map(|x| x as u64).take_while(|&x| n <= x).collect();
    hashes.reverse();
    hashes
}
