//! A round over the original's own types: its reservoir and its node map under one key, in memory as document 01 has it lent.
//!
//! The original's are: the sample and the numbers listed, the exchange of an admit, which slots there are, and the slot that a
//! location gets. Document 01's are: that the two stand under one key, a location's state, the refusals, and that a join takes
//! the lowest deleted slot.

use crate::{location_state, Reservoir, Slots, Told, UNTOUCHED};

/// A reservoir and slots, each with the memory it is lent.
pub struct Round {
    reservoir: Reservoir,
    slots: Slots,
}

impl Round {
    /// Nothing opened yet: a list of so many places, and a table with any bytes.
    pub fn lent(places: usize, table: Vec<u8>) -> Self {
        Self {
            reservoir: Reservoir::lent(places),
            slots: Slots::with(0, table),
        }
    }

    /// The library's record: the reservoir's six words and the slot count.
    pub fn words(&self) -> [u32; 7] {
        let mut words = [UNTOUCHED; 7];
        if self.opened() {
            words[..6].copy_from_slice(&self.reservoir.words);
            words[6] = self.slots.total();
        }
        words
    }

    pub fn list(&self) -> &[u32] {
        &self.reservoir.list
    }

    pub fn table(&self) -> &[u8] {
        &self.slots.table
    }

    /// Whether a round stands there.
    pub fn opened(&self) -> bool {
        self.reservoir.opened()
    }

    /// Before an accepted open there is no record that fits its memory.
    fn fitting(&self) -> Told<()> {
        self.opened().then_some(()).ok_or(12)
    }

    /// "An accepted open sets the slot count to 0 and writes no table byte."
    pub fn open(&mut self, key: u64, k: u32, n: u32) -> Told<()> {
        self.reservoir.open(k, n, key)?;
        self.slots = Slots::with(0, std::mem::take(&mut self.slots.table));
        Ok(())
    }

    /// The location that comes in and the one that goes out, or none.
    pub fn admit(&mut self) -> Told<Option<(u32, u32)>> {
        self.reservoir.admit()
    }

    /// The terminal's slot.
    pub fn join(&mut self) -> Told<u32> {
        self.fitting()?;
        self.slots.add_lowest()
    }

    pub fn withdraw(&mut self, slot: u32) -> Told<()> {
        self.fitting()?;
        self.slots.remove(slot)
    }

    /// The slot of a location, if one is active: the original's `get` of document 01's state.
    #[inline]
    pub fn slot_of(&self, location: u32) -> Option<u32> {
        let [low, high, ..] = self.reservoir.words;
        let key = u64::from(low) + (u64::from(high) << 32);
        self.slots.slot_of(location_state(key, location))
    }

    /// The sample and the slot of each location, into the first k places of two lists, by a scratch of so many places.
    pub fn plan(&self, locations: &mut [u32], terminals: &mut [u32], scratch: usize) -> Told<()> {
        self.fitting()?;
        let k = self.reservoir.words[2] as usize;
        if locations.len().min(terminals.len()) < k || !self.slots.suffices(scratch) {
            return Err(4);
        }
        if self.slots.is_empty() {
            return Err(11);
        }
        self.reservoir.sample(locations)?;
        for (&location, terminal) in locations[..k].iter().zip(terminals) {
            *terminal = self.slot_of(location).unwrap();
        }
        Ok(())
    }
}
