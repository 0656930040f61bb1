//! Document 01's ledger, from its paragraph alone. P(n) is the original's order and Q(n) its chooser, each worked out whole from
//! its beginning; no reservoir, no node map and no memory of a round.

use std::collections::BTreeSet;

use crate::{splitmix64, ConsistentChooseKHasher, ConsistentPermutation, StandIn, Told};

/// "It holds key, k and n as opened, a set A, empty at first, and c, first 0."
pub struct Ledger {
    key: u64,
    k: u32,
    n: u32,
    active: BTreeSet<u32>,
    c: u32,
}

impl Ledger {
    pub fn new(key: u64, k: u32, n: u32) -> Self {
        Self {
            key,
            k,
            n,
            active: BTreeSet::new(),
            c: 0,
        }
    }

    /// The first k of P(n).
    fn sample(&self, n: u32) -> impl Iterator<Item = u32> {
        ConsistentPermutation::new(n, self.key).take(self.k as usize)
    }

    /// "v is the smallest from n up .. among the first k of P(v+1)", below an end. It tries one after the other.
    pub fn due(&self, end: u32) -> Option<u32> {
        (self.n..end).find(|&v| self.sample(v + 1).any(|x| x == v))
    }

    /// "below 2^30 .. in is v, out the k-th of P(n), n becomes v+1. With no such v: none."
    pub fn admit(&mut self) -> Option<(u32, u32)> {
        let came = self.due(1 << 30)?;
        let went = self.sample(self.n).last().unwrap();
        self.n = came + 1;
        Some((came, went))
    }

    /// "the smallest slot below c outside A, else c, c then rising by 1; that slot is answered and enters A"
    pub fn join(&mut self) -> u32 {
        let free = (0..self.c).find(|slot| !self.active.contains(slot));
        let slot = free.unwrap_or_else(|| {
            self.c += 1;
            self.c - 1
        });
        self.active.insert(slot);
        slot
    }

    /// "the slot leaves A; if it was c−1, c falls by 1"
    pub fn withdraw(&mut self, slot: u32) {
        self.active.remove(&slot);
        if slot + 1 == self.c {
            self.c -= 1;
        }
    }

    /// "a location's slot is the first active one in Q(1 + highest active slot)"
    fn slot_of(&self, location: u32) -> Option<u32> {
        let state = splitmix64(self.key ^ u64::from(location));
        let highest = *self.active.last()?;
        ConsistentChooseKHasher::new(StandIn(state), highest as usize + 1)
            .map(|slot| slot as u32)
            .find(|slot| self.active.contains(slot))
    }

    /// "the first k of P(n) in order, each with its slot as defined above"; 11 where A is empty.
    pub fn plan(&self) -> Told<Vec<(u32, u32)>> {
        self.sample(self.n)
            .map(|location| Ok((location, self.slot_of(location).ok_or(11u32)?)))
            .collect()
    }
}
