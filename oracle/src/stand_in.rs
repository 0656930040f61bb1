//! Document 01, "Hashes": the stand-in hasher, over the original's own `splitmix64`.

use std::hash::Hasher;

use crate::consistent_permutation::splitmix64;

/// "a u64 state: feeding a u64 or usize v makes it mix(state xor v), finish returns it"
#[derive(Clone, Copy)]
pub struct StandIn(pub u64);

impl Hasher for StandIn {
    fn finish(&self) -> u64 {
        self.0
    }

    fn write(&mut self, _: &[u8]) {
        unreachable!("only a u64 or a usize is fed");
    }

    fn write_u64(&mut self, v: u64) {
        self.0 = splitmix64(self.0 ^ v);
    }

    fn write_usize(&mut self, v: usize) {
        self.write_u64(v as u64);
    }
}

/// Numbers as one: fed to a stand-in of state 0, in their order, and what that finishes with, modulo 2^63.
pub fn digest(numbers: impl Iterator<Item = u64>) -> u64 {
    let mut all = StandIn(0);
    numbers.for_each(|number| all.write_u64(number));
    all.finish() % (1 << 63)
}

/// Numbers to try things with: the same ones in every run.
pub struct Draws(pub u64);

impl Draws {
    pub fn next(&mut self) -> u64 {
        self.0 = self.0.wrapping_add(0x9E37_79B9_7F4A_7C15);
        splitmix64(self.0)
    }

    pub fn below(&mut self, n: u64) -> u64 {
        self.next() % n
    }
}
