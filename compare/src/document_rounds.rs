//! Document 01's round to the letter, on any record, list and table: what those made by hand are held to.

use oracle::{location_state, RoundCall, Told};

use crate::document::Memory;
use crate::document_slots::{Slots, LIMIT};

/// "A reservoir and a slot map under one key."
pub struct Round {
    pub reservoir: Memory,
    pub slots: Slots,
}

impl Round {
    /// Refusal 12's test: "each checks the record against both".
    pub fn fits(&self) -> bool {
        self.reservoir.fits() && self.slots.fits()
    }

    fn fitting(&self) -> Told<()> {
        self.fits().then_some(()).ok_or(12)
    }

    /// The values that a call says.
    pub fn call(&mut self, call: RoundCall) -> Told<Vec<u32>> {
        self.fitting()?;
        match call {
            RoundCall::Admit => {
                let exchange = self.reservoir.admit()?;
                Ok(exchange.map_or(vec![], |(came, went)| vec![came, went]))
            }
            RoundCall::Join => Ok(vec![self.slots.add()?]),
            RoundCall::Withdraw(slot) => self.slots.remove(slot).map(|()| vec![]),
        }
    }

    fn slot_of(&self, location: u32) -> Told<u32> {
        let [low, high, ..] = self.reservoir.words;
        let key = u64::from(low) + (u64::from(high) << 32);
        self.slots.get(location_state(key, location), LIMIT)
    }

    /// "for place 0..k−1 the sampled location and the slot that get gives", in two lists and a scratch of so many places.
    pub fn plan(&self, locations: &mut [u32], terminals: &mut [u32], scratch: usize) -> Told<()> {
        self.fitting()?;
        let k = self.reservoir.words[2] as usize;
        let places = locations.len().min(terminals.len());
        if places < k || scratch < self.slots.table.len().min(LIMIT) {
            return Err(4);
        }
        if self.slots.is_empty()? {
            return Err(11);
        }
        self.reservoir.sample(locations)?;
        for (&location, terminal) in locations[..k].iter().zip(terminals) {
            *terminal = self.slot_of(location)?;
        }
        Ok(())
    }
}
