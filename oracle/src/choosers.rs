//! The original's choosers, in memory as document 01 has it lent.

use crate::{ConsistentChooseKHasher, StandIn, Told};

/// What stands in memory before a call writes to it: no sample, no n, no k.
pub const UNTOUCHED_WIDE: u64 = u64::MAX;

/// A list, the three words of the library's record (state, n, k), and the original's chooser that they stand for, if one was
/// made. Refusals are by document 01.
pub struct Chooser {
    pub list: Vec<u64>,
    pub words: [u64; 3],
    original: Option<ConsistentChooseKHasher<StandIn>>,
}

impl Chooser {
    /// Nothing made yet.
    pub fn lent(places: usize) -> Self {
        Self {
            list: vec![UNTOUCHED_WIDE; places],
            words: [UNTOUCHED_WIDE; 3],
            original: None,
        }
    }

    /// Whether a chooser stands there.
    pub fn made(&self) -> bool {
        self.original.is_some()
    }

    /// Writes down what the original holds.
    fn kept<T>(&mut self, said: T) -> Told<T> {
        let original = self.original.as_ref().ok_or(12u32)?;
        let k = original.k();
        for (place, &sample) in self.list[..k].iter_mut().zip(original.samples()) {
            *place = sample as u64;
        }
        self.words[1..].copy_from_slice(&[original.n() as u64, k as u64]);
        Ok(said)
    }

    /// `new`.
    pub fn make(&mut self, state: u64, n: u64) -> Told<()> {
        if n > 1 << 62 {
            return Err(1);
        }
        self.words[0] = state;
        self.original = Some(ConsistentChooseKHasher::new(StandIn(state), n as usize));
        self.kept(())
    }

    /// `new_with_k`.
    pub fn make_with_k(&mut self, state: u64, n: u64, k: u64) -> Told<()> {
        if n > 1 << 62 {
            return Err(1);
        }
        if k > n {
            return Err(3);
        }
        if self.list.len() < k as usize {
            return Err(4);
        }
        self.words[0] = state;
        let made = ConsistentChooseKHasher::new_with_k(StandIn(state), n as usize, k as usize);
        self.original = Some(made);
        self.kept(())
    }

    /// The index of the number that comes in.
    pub fn grow_k(&mut self) -> Told<u64> {
        let original = self.original.as_mut().ok_or(12u32)?;
        if original.k() == original.n() {
            return Err(6);
        }
        if original.k() == self.list.len() {
            return Err(4);
        }
        let index = original.grow_k();
        self.kept(index as u64)
    }

    /// `next`: the number that comes in, or none.
    pub fn next_number(&mut self) -> Told<Option<u64>> {
        let original = self.original.as_mut().ok_or(12u32)?;
        if original.k() < original.n() && original.k() == self.list.len() {
            return Err(4);
        }
        let number = original.next();
        self.kept(number.map(|x| x as u64))
    }

    /// The index of the number that comes in. Refusal 5 is for samples 0..k−1, as they are with k = 0 and with k = n too.
    pub fn shrink_n(&mut self) -> Told<u64> {
        let original = self.original.as_mut().ok_or(12u32)?;
        if original.samples().iter().copied().eq(0..original.k()) {
            return Err(5);
        }
        let index = original.shrink_n();
        self.kept(index as u64)
    }
}
